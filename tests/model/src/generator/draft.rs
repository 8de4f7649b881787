//! Drafts: studies that nothing refuses, of every size, with many ties and edges in them.

use super::curves::make_curves;
use super::prices::{price_like, Prices, HIGHEST};
use super::random::Random;
use super::supply::{make_market, Size};
use crate::curves::belongs;
use crate::day::{Day, Running};
use crate::table::{Constraint, Kind, Parent, Point, Schedule, Supply};

/// The most rows of the schedules file.
const SCHEDULE_ROWS: usize = 1024;

/// The rows of the files and the day that they are studied on.
pub struct Draft {
    pub constraint: Constraint,
    pub supply: Vec<Supply>,
    pub schedules: Vec<Schedule>,
    pub curves: Vec<Point>,
    pub parents: Vec<Parent>,
    pub day: Day,
}

impl Draft {
    /// A draft of some size.
    pub fn make(random: &mut Random) -> Draft {
        let size = Size::make(random);
        let hour = make_hour(random);
        let (constraint, supply, parents) = make_market(size, hour, random);
        let (schedules, curves, day) = (Vec::new(), Vec::new(), Day::fresh());
        let mut draft = Draft { constraint, supply, schedules, curves, parents, day };
        let plan = Plan { hour, brief: random.percent(85) };
        draft.schedules = plan.schedules(&draft.units(), random);
        draft.day = make_day(&draft, random);
        draft.mix(random);
        draft.curves = make_curves(&draft.schedules, hour, random);
        draft
    }

    /// A draft at every limit, with long numerals: its schedules can fill 65,536 bytes.
    pub fn make_brimming(random: &mut Random) -> Draft {
        let (constraint, supply, parents) = make_market(Size::LARGEST, 8, random);
        let (schedules, curves, day) = (Vec::new(), Vec::new(), Day::fresh());
        let mut draft = Draft { constraint, supply, schedules, curves, parents, day };
        draft.number_from(9_000);
        for unit in draft.units() {
            let schedule = random.between(10, 99);
            let kind = random.pick(&[Kind::M, Kind::C]);
            let startup = random.between(10_000_000, 99_999_999);
            draft.schedules.extend((8..=23).map(|hour| Schedule {
                unit,
                schedule,
                kind,
                hour,
                ecomin: random.between(10_000, 99_999),
                price: random.between(100_000, HIGHEST),
                noload: random.between(10_000_000, 99_999_999),
                startup,
                minrun: 16,
            }));
        }
        draft.curves = make_curves(&draft.schedules, 8, random);
        draft
    }

    /// Gives the units of the supply rows numbers one after the other, in their order.
    pub fn number_from(&mut self, first: u64) {
        let units = self.units();
        for row in &mut self.supply {
            row.unit = first + units.iter().filter(|&&unit| unit < row.unit).count() as u64;
        }
    }

    /// The units of the supply rows, by rising number.
    pub fn units(&self) -> Vec<u64> {
        different(self.supply.iter().map(|row| row.unit))
    }

    /// The suppliers of the supply rows, by rising number.
    pub fn suppliers(&self) -> Vec<u64> {
        different(self.supply.iter().map(|row| row.supplier))
    }

    /// A unit that no row has.
    pub fn other_unit(&self, random: &mut Random) -> u64 {
        let taken = |unit: u64| self.supply.iter().any(|row| row.unit == unit);
        loop {
            let unit = random.between(1, 9_999);
            if !taken(unit) {
                return unit;
            }
        }
    }

    /// Takes the points away whose schedule rows are gone.
    pub fn drop_stray_points(&mut self) {
        self.curves.retain(|point| self.schedules.iter().any(|row| belongs(point, row)));
    }

    /// Sometimes puts the rows in another order.
    fn mix(&mut self, random: &mut Random) {
        if random.percent(35) {
            random.shuffle(&mut self.supply);
        }
        if random.percent(35) {
            random.shuffle(&mut self.schedules);
        }
        if random.once_in(10) {
            self.schedules.sort_by_key(|row| row.hour);
        }
    }
}

/// Each number once, by rising number.
pub fn different(numbers: impl Iterator<Item = u64>) -> Vec<u64> {
    let mut numbers: Vec<u64> = numbers.collect();
    numbers.sort();
    numbers.dedup();
    numbers
}

/// An hour of the day, the last ones often.
fn make_hour(random: &mut Random) -> u64 {
    match random.between(0, 9) {
        0 => 0,
        1 => 23,
        2 => 22,
        3 => random.between(18, 23),
        _ => random.between(0, 23),
    }
}

/// What the schedules of a draft have in common.
struct Plan {
    hour: u64,
    /// Whether most runs are of a few hours.
    brief: bool,
}

impl Plan {
    /// Schedules for every unit, in the room there is.
    fn schedules(&self, units: &[u64], random: &mut Random) -> Vec<Schedule> {
        let mut rows = Vec::new();
        for (index, &unit) in units.iter().enumerate() {
            let room = (SCHEDULE_ROWS - rows.len()) / (units.len() - index);
            rows.extend(self.unit(unit, room, random));
        }
        rows
    }

    /// The schedules of one unit, of which at most one is market-based.
    fn unit(&self, unit: u64, room: usize, random: &mut Random) -> Vec<Schedule> {
        let mut rows: Vec<Schedule> = Vec::new();
        let numbers = make_numbers(random);
        let market_based = if random.percent(85) { Some(random.pick(&numbers)) } else { None };
        let prices = Prices::make(random);
        for number in numbers {
            let kind = if Some(number) == market_based { Kind::M } else { Kind::C };
            let mut first = self.schedule(unit, number, kind, prices.price(random), random);
            if !rows.is_empty() && random.percent(40) {
                first = make_twin(&first, &random.pick(&rows), random);
            }
            rows.extend(self.hours(&first, room - rows.len(), random));
        }
        rows
    }

    /// The row of a schedule at the study hour.
    fn schedule(&self, unit: u64, schedule: u64, kind: Kind, price: u64, random: &mut Random) -> Schedule {
        let ecomin =
            if random.once_in(20) { random.pick(&[0, 1, 100_000]) } else { random.between(1, 2_000) };
        let minrun = if self.brief { random.pick(&[1, 1, 2, 3]) } else { random.pick(&[1, 2, 4, 8, 23, 24]) };
        let (noload, startup) = (make_charge(random), make_charge(random));
        Schedule { unit, schedule, kind, hour: self.hour, ecomin, price, noload, startup, minrun }
    }

    /// A row for each hour of the schedule's run and for some others, as far as there is room for
    /// them. Where there isn't, the run is shorter; without any room there is no row.
    fn hours(&self, first: &Schedule, room: usize, random: &mut Random) -> Vec<Schedule> {
        let last = (self.hour + first.minrun - 1).min(23);
        let mut hours: Vec<u64> = (self.hour..=last).collect();
        let mut minrun = first.minrun;
        if hours.len() > room {
            hours.truncate(room);
            minrun = room as u64;
        }
        let others = if random.percent(25) { random.between(0, 3) } else { 0 };
        for _ in 0..others {
            let other = random.between(0, 23);
            if hours.len() < room && !hours.contains(&other) {
                hours.push(other);
            }
        }
        let flat = random.percent(50);
        let row = |hour: u64| {
            let mut row = Schedule { hour, minrun, ..*first };
            if hour != self.hour && !flat {
                row.price = (row.price * random.between(50, 150) / 100).min(HIGHEST);
                row.noload = row.noload * random.between(50, 100) / 100;
            }
            row
        };
        hours.into_iter().map(row).collect()
    }
}

/// Numbers for a unit's schedules, in no order.
fn make_numbers(random: &mut Random) -> Vec<u64> {
    let count = random.pick(&[1, 2, 2, 3, 4]);
    if random.percent(50) {
        random.distinct(count, 1, 99)
    } else {
        random.distinct(count, 1, count as u64)
    }
}

/// A charge for no load or for starting.
fn make_charge(random: &mut Random) -> u64 {
    match random.between(0, 9) {
        0..=3 => 0,
        4 => 100_000_000,
        _ => random.scaled(2_000_000),
    }
}

/// A schedule that costs what another does, or all but: the price of an M row is the capped price of
/// a C row.
fn make_twin(first: &Schedule, twin: &Schedule, random: &mut Random) -> Schedule {
    let mut schedule = Schedule { schedule: first.schedule, kind: first.kind, hour: first.hour, ..*twin };
    schedule.price = price_like(schedule.kind, twin, random);
    match random.between(0, 9) {
        0 => schedule.noload = (schedule.noload + 1).min(100_000_000),
        1 => schedule.startup = (schedule.startup + 1).min(100_000_000),
        2 => schedule.price = (schedule.price + 1).min(HIGHEST),
        3 => schedule.minrun = random.between(1, 3),
        _ => {}
    }
    schedule
}

/// A day that the draft can be studied on.
pub fn make_day(draft: &Draft, random: &mut Random) -> Day {
    if random.percent(30) {
        return Day::fresh();
    }
    let study_hour = draft.constraint.hour;
    let hour = match random.between(0, 9) {
        0..=1 => None,
        2..=4 => Some(study_hour),
        _ => Some(random.between(0, study_hour)),
    };
    let mut running = Vec::new();
    let busy = random.pick(&[0, 30, 60, 100]);
    let units = draft.units();
    for &unit in &units {
        if random.percent(busy) {
            let has_c = draft.schedules.iter().any(|row| row.unit == unit && row.kind == Kind::C);
            let kind = if has_c { random.pick(&[Kind::M, Kind::C]) } else { Kind::M };
            running.push(Running { unit, kind, schedule: random.between(1, 99) });
        }
    }
    let room = (Day::UNITS - units.len()) as u64;
    let others = if random.once_in(12) { room } else { random.between(0, 4).min(room) };
    running.extend(others_running(others as usize, &units, random));
    running.sort_by_key(|running| running.unit);
    Day { hour, running }
}

/// So many running units beside those of the files.
pub fn others_running(count: usize, units: &[u64], random: &mut Random) -> Vec<Running> {
    let numbers = random.distinct_beside(count, 1, 9_999, units);
    let running =
        |unit| Running { unit, kind: random.pick(&[Kind::M, Kind::C]), schedule: random.between(1, 99) };
    numbers.into_iter().map(running).collect()
}

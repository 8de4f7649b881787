//! The studies: markets made up from a seed as real ones are, of several sizes and in three layouts, and the largest
//! with parents, with the longest schedules and with curves of several sizes, in two orders and with numbers picked
//! against the engine's links. A unit has a few segments of rising cost, a market-based schedule beside its cost-based
//! ones, and some distance to the constraint. The relief is such that suppliers pass and fail, as far as there are
//! enough of them.

use std::collections::BTreeMap;
use std::fmt::{self, Display, Formatter};

use capping_model::case::ThreeFiles;
use capping_model::generator::random::Random;
use capping_model::generator::sheet::Sheet;
use capping_model::market::{eligible, supply_of, Market};
use capping_model::pivotal::{test_suppliers, Verdict};
use capping_model::rules::{Files, Filing};
use capping_model::table::{Constraint, Kind, Parent, Schedule, Supply};

/// Of all that is made up.
pub const SEED: u64 = 20_260_701;

/// Supply rows of the sizes, the last one the most that there may be.
const SUPPLY_ROWS: [usize; 6] = [4, 16, 32, 64, 128, MOST_SUPPLY_ROWS];
const MOST_SUPPLY_ROWS: usize = 256;

/// Supply rows of a unit. The largest study has 64 units then, of 32 suppliers.
const SEGMENTS: usize = 4;
const UNITS_OF_A_SUPPLIER: usize = 2;

/// Suppliers that have one head, each through a parent of its own: the 32 of the largest study have 64 parents then.
const SUPPLIERS_OF_A_GROUP: usize = 2;

/// Points of each schedule row of the largest study, by the sizes of its curves; with the last there are 4,096, the most
/// that there may be.
const POINTS_OF_A_ROW: [u64; 3] = [1, 2, 4];

/// The key that all schedules have whose numbers are picked against the engine's links, of so many (`crates/links`).
const KEY: u64 = 7;
const KEYS: u64 = 2_039;
const KEYS_OF_A_UNIT: u64 = 128;

/// The largest number of a supplier.
const LAST_SUPPLIER: u64 = 999;

/// How the schedule rows of a unit may fall to its schedules. There are 16 of them, so that the largest study has
/// 1,024, and as many hours from the study hour to the last.
const SPLITS: [&[u64]; 4] = [&[8, 8], &[10, 6], &[6, 5, 5], &[4, 4, 4, 4]];
const HOUR: u64 = 8;

/// An hour from which two schedules with a row for each hour to the last have 16 rows.
const LATE_HOUR: u64 = 16;
const HOURS: u64 = 24;

const CUTOFF: u64 = 300;

const CURVES_HEADER: &str = "unit,schedule,hour,mw,price\r\n";

/// "The need is relief × 10000."
const NEED_OF_A_RELIEF: u64 = 10_000;

/// How the rows of a study are laid down.
#[derive(Clone, Copy, PartialEq, Eq, Debug)]
pub enum Layout {
    /// Unit by unit, no field quoted.
    Plain,
    /// In any order.
    Shuffled,
    /// Unit by unit, every field quoted.
    Quoted,
    /// Unit by unit, no field quoted, and beside them as many parents as there may be.
    Affiliated,
    /// Unit by unit, no field quoted, and every field of the schedules as long as it may be.
    Longest,
    /// Unit by unit, no field quoted, and beside them a curve of so many points for each schedule row.
    Curves(u64),
    /// The same, but the curves take turns: the first point of each, then the second of each.
    Turns(u64),
    /// The same, and a schedule of one key for each unit.
    OneKey(u64),
}

impl Layout {
    /// The layouts of all sizes, with nothing beside the three files.
    pub const ALONE: [Layout; 3] = [Layout::Plain, Layout::Shuffled, Layout::Quoted];

    pub fn name(self) -> &'static str {
        match self {
            Layout::Plain => "plain",
            Layout::Shuffled => "shuffled",
            Layout::Quoted => "quoted",
            Layout::Affiliated => "parents",
            Layout::Longest => "longest",
            Layout::Curves(_) => "curves",
            Layout::Turns(_) => "by turns",
            Layout::OneKey(_) => "one key",
        }
    }

    /// Whether there are curves, point behind point.
    pub fn has_whole_curves(self) -> bool {
        matches!(self, Layout::Curves(_))
    }
}

/// A study to time.
pub struct Study {
    pub layout: Layout,
    pub supply_rows: usize,
    pub schedule_rows: usize,
    pub points: usize,
    /// The largest number of a unit, which has the last row of the answer.
    pub last_unit: u64,
    pub files: ThreeFiles,
    pub curves: Vec<u8>,
    pub parents: Vec<u8>,
    /// The schedules unquoted, which is what they are tidied to.
    pub tidy_schedules: Vec<u8>,
}

/// All studies of several sizes, layout by layout and by rising size, then those of the largest alone.
pub fn make_all() -> Vec<Study> {
    let sizes = |layout| SUPPLY_ROWS.map(|supply_rows| Study::make(supply_rows, layout));
    let largest = [Layout::Affiliated, Layout::Longest].map(|layout| Study::make(MOST_SUPPLY_ROWS, layout));
    let curved = |layout: fn(u64) -> Layout| {
        POINTS_OF_A_ROW.map(|points| Study::make(MOST_SUPPLY_ROWS, layout(points)))
    };
    let curves = [Layout::Curves, Layout::Turns].into_iter().flat_map(curved);
    let keyed = [Study::make(MOST_SUPPLY_ROWS, Layout::OneKey(0))].into_iter().chain(curved(Layout::OneKey));
    Layout::ALONE.into_iter().flat_map(sizes).chain(largest).chain(curves).chain(keyed).collect()
}

impl Study {
    /// The study of a size in a layout.
    pub fn make(supply_rows: usize, layout: Layout) -> Study {
        let random = &mut Random::of(SEED, supply_rows as u64);
        let mut filing = make_filing(supply_rows / SEGMENTS, random);
        let mut points = Vec::new();
        match layout {
            Layout::Plain | Layout::Quoted => {}
            Layout::Shuffled => {
                random.shuffle(&mut filing.supply);
                random.shuffle(&mut filing.schedules);
            }
            Layout::Affiliated => affiliate(&mut filing, random),
            Layout::Longest => lengthen(&mut filing),
            Layout::Curves(of_a_row) => points = make_points(&filing.schedules, of_a_row, random).concat(),
            Layout::Turns(of_a_row) => points = by_turns(make_points(&filing.schedules, of_a_row, random)),
            Layout::OneKey(of_a_row) => {
                share_a_key(&mut filing);
                points = by_turns(make_points(&filing.schedules, of_a_row, random));
            }
        }
        Study::of(&filing, &points, layout)
    }

    /// The study of some rows, with the points of curves as records.
    fn of(filing: &Filing, points: &[String], layout: Layout) -> Study {
        let sheets = [
            Sheet::constraint(&filing.constraint),
            Sheet::supply(&filing.supply),
            Sheet::schedules(&filing.schedules),
        ];
        let written = |sheet: Sheet| sheet.join(|_| layout == Layout::Quoted);
        let parents = match layout {
            Layout::Affiliated => written(Sheet::parents(&filing.parents)),
            _ => Vec::new(),
        };
        let curves = match points {
            [] => Vec::new(),
            _ => [CURVES_HEADER, &points.concat()].concat().into_bytes(),
        };
        let last_unit = filing.units().into_iter().max().unwrap_or_default();
        let tidy_schedules = Sheet::schedules(&filing.schedules).join(|_| false);
        Study {
            layout,
            supply_rows: filing.supply.len(),
            schedule_rows: filing.schedules.len(),
            points: points.len(),
            last_unit,
            files: ThreeFiles(sheets.map(written)),
            curves,
            parents,
            tidy_schedules,
        }
    }

    /// The files as a study takes them.
    pub fn lend(&self) -> Files<'_> {
        let [constraint, supply, schedules] = self.files.lend();
        Files { constraint, supply, schedules, curves: &self.curves, parents: &self.parents }
    }

    pub fn rows(&self) -> usize {
        self.supply_rows + self.schedule_rows + self.points
    }

    pub fn bytes(&self) -> usize {
        self.files.0.iter().map(Vec::len).sum::<usize>() + self.curves.len() + self.parents.len()
    }

    /// Whether nothing is beside the three files.
    pub fn is_alone(&self) -> bool {
        self.curves.is_empty() && self.parents.is_empty()
    }
}

impl Display for Study {
    fn fmt(&self, out: &mut Formatter) -> fmt::Result {
        write!(out, "{} {}/{}/{}", self.layout.name(), self.supply_rows, self.schedule_rows, self.points)
    }
}

/// The rows of so many units' files.
fn make_filing(units: usize, random: &mut Random) -> Filing {
    let suppliers = random.distinct(units.div_ceil(UNITS_OF_A_SUPPLIER), 1, LAST_SUPPLIER);
    let mut numbers = random.distinct(units, 1, 9_999);
    numbers.sort();
    let constraint = Constraint { hour: HOUR, relief: 1, cutoff: CUTOFF };
    let (supply, schedules, curves, parents) = (Vec::new(), Vec::new(), Vec::new(), Vec::new());
    let mut filing = Filing { constraint, supply, schedules, curves, parents };
    for (index, unit) in numbers.into_iter().enumerate() {
        let cost = random.between(1_800, 6_000);
        filing.supply.extend(make_segments(unit, suppliers[index % suppliers.len()], cost, random));
        filing.schedules.extend(make_schedules(unit, cost, random));
    }
    filing.constraint.relief = choose_relief(&mut filing);
    filing
}

/// Gives every supplier a parent, and each such parent a head, in groups; the relief is one for groups then. None of
/// the parents is in supply.
fn affiliate(filing: &mut Filing, random: &mut Random) {
    let suppliers: Vec<u64> = filing.suppliers().into_iter().collect();
    let heads = suppliers.len().div_ceil(SUPPLIERS_OF_A_GROUP);
    let owners = random.distinct_beside(suppliers.len() + heads, 1, LAST_SUPPLIER, &suppliers);
    let (parents, heads) = owners.split_at(suppliers.len());
    for (index, (&supplier, &parent)) in suppliers.iter().zip(parents).enumerate() {
        let head = heads[index / SUPPLIERS_OF_A_GROUP];
        filing.parents.extend([Parent { supplier, parent }, Parent { supplier: parent, parent: head }]);
    }
    filing.constraint.relief = choose_relief(filing);
}

/// The points of a curve for each schedule row, as records. They rise in even steps of mw and price, and the last has
/// ecomin, at another price than the row's own.
fn make_points(rows: &[Schedule], of_a_row: u64, random: &mut Random) -> Vec<Vec<String>> {
    let mut curve = |&Schedule { unit, schedule, hour, ecomin, price, .. }: &Schedule| {
        let highest = price * random.between(90, 115) / 100;
        let point = |nth| {
            let (mw, price) = (ecomin * nth / of_a_row, highest * nth / of_a_row);
            format!("{unit},{schedule},{hour},{mw},{price}\r\n")
        };
        (1..=of_a_row).map(point).collect()
    };
    rows.iter().map(&mut curve).collect()
}

/// The points of curves of one length: the first of each, then the second of each.
fn by_turns(curves: Vec<Vec<String>>) -> Vec<String> {
    let turns = curves.first().map_or(0, Vec::len);
    (0..turns).flat_map(|nth| curves.iter().map(move |curve| curve[nth].clone())).collect()
}

/// Gives each unit another number, and its rows to one schedule, such that all schedules have one key in the engine's
/// links.
fn share_a_key(filing: &mut Filing) {
    let keyed = |unit| {
        (1..100)
            .find(|schedule| (unit * KEYS_OF_A_UNIT + schedule) % KEYS == KEY)
            .map(|schedule| (unit, schedule))
    };
    let numbers: BTreeMap<u64, (u64, u64)> =
        filing.units().into_iter().zip((1..10_000).filter_map(keyed)).collect();
    for row in &mut filing.supply {
        row.unit = numbers[&row.unit].0;
    }
    let mut first = filing.schedules[0];
    for (index, row) in filing.schedules.iter_mut().enumerate() {
        if row.unit != first.unit {
            first = *row;
        }
        let (unit, schedule) = numbers[&row.unit];
        let hour = HOUR + index as u64 % (HOURS - HOUR);
        let Schedule { kind, startup, minrun, .. } = first;
        *row = Schedule { unit, schedule, kind, hour, startup, minrun, ..*row };
    }
}

/// Makes every field of the schedules as long as it may be: the units have numbers of four digits then, and two
/// schedules each, whose run is from a late hour to the last.
fn lengthen(filing: &mut Filing) {
    filing.constraint.hour = LATE_HOUR;
    let numbers: BTreeMap<u64, u64> = filing.units().into_iter().zip(1_000..).collect();
    for row in &mut filing.supply {
        row.unit = numbers[&row.unit];
    }
    let both = |&unit: &u64| [(unit, 10, Kind::M, 150_000), (unit, 11, Kind::C, 140_000)];
    filing.schedules = numbers.values().flat_map(both).flat_map(longest_rows).collect();
}

/// The rows of a schedule by its unit, number, kind and price, which are as long as they may be.
fn longest_rows((unit, schedule, kind, price): (u64, u64, Kind, u64)) -> impl Iterator<Item = Schedule> {
    let (ecomin, noload, startup, minrun) = (100_000, 100_000_000, 100_000_000, 24);
    let row = move |hour| Schedule { unit, schedule, kind, hour, ecomin, price, noload, startup, minrun };
    (LATE_HOUR..HOURS).map(row)
}

/// The supply rows of a unit, from a cost upwards. One unit in ten is too far off to be eligible.
fn make_segments(unit: u64, supplier: u64, mut cost: u64, random: &mut Random) -> Vec<Supply> {
    let size = match random.once_in(10) {
        true => random.between(0, CUTOFF - 1) as i64,
        false => random.between(CUTOFF, 9_500) as i64,
    };
    let dfax = if random.percent(30) { -size } else { size };
    let segment = |_| {
        cost += cost * random.between(2, 12) / 100;
        Supply { unit, supplier, mw: random.between(100, 1_200), cost, dfax }
    };
    (0..SEGMENTS).map(segment).collect()
}

/// The schedules of a unit around a cost: the first market-based and above it, the others cost-based. One unit in
/// eight has cost-based ones alone.
fn make_schedules(unit: u64, cost: u64, random: &mut Random) -> Vec<Schedule> {
    let market_based = !random.once_in(8);
    let mut rows = Vec::new();
    for (number, &hours) in (1..).zip(random.pick(&SPLITS)) {
        let kind = if number == 1 && market_based { Kind::M } else { Kind::C };
        let markup = if kind == Kind::M { random.between(105, 140) } else { random.between(90, 120) };
        let first = Schedule {
            unit,
            schedule: number,
            kind,
            hour: HOUR,
            ecomin: random.between(100, 2_500),
            price: cost * markup / 100,
            noload: random.between(10_000, 800_000),
            startup: random.between(100_000, 9_000_000),
            minrun: random.between(1, hours),
        };
        let price = |random: &mut Random| first.price * random.between(90, 115) / 100;
        rows.extend((HOUR..HOUR + hours).map(|hour| Schedule { hour, price: price(random), ..first }));
    }
    rows
}

/// A relief at which about as many suppliers pass as fail: the best percentage of the eligible supply.
fn choose_relief(filing: &mut Filing) -> u64 {
    let supply = supply_of(filing.supply.iter().filter(|row| eligible(row, CUTOFF)));
    let reliefs = (1..100).rev().map(|percent| (supply * percent / 100 / NEED_OF_A_RELIEF).max(1));
    let unevenness = |&relief: &u64| {
        filing.constraint.relief = relief;
        let tested = test_suppliers(filing, &Market::of(filing));
        let passing = tested.values().filter(|tested| tested.verdict == Verdict::P).count();
        (2 * passing).abs_diff(tested.len())
    };
    reliefs.min_by_key(unevenness).expect("there are percentages")
}

#[cfg(test)]
mod tests {
    use std::collections::BTreeSet;

    use super::*;
    use crate::engine::LONGEST_TIDY;
    use capping_model::generator::sheet::LARGEST_FILE;

    fn read(study: &Study) -> Filing {
        Filing::read(&study.lend()).expect("a study that is accepted")
    }

    #[test]
    fn the_largest_study_is_at_every_limit() {
        let sizes = Study::make(256, Layout::Shuffled);
        assert_eq!((sizes.supply_rows, sizes.schedule_rows), (256, 1_024));
        let filing = read(&sizes);
        assert_eq!((filing.units().len(), filing.suppliers().len()), (64, 32));
        assert_eq!((filing.supply.len(), filing.schedules.len()), (256, 1_024));
    }

    #[test]
    fn the_largest_study_with_parents_has_as_many_as_there_may_be() {
        let filing = read(&Study::make(256, Layout::Affiliated));
        assert_eq!((filing.supply.len(), filing.schedules.len(), filing.parents.len()), (256, 1_024, 64));
        let heads: BTreeSet<u64> = filing.heads().into_values().collect();
        assert_eq!((filing.suppliers().len(), heads.len()), (32, 16));
    }

    #[test]
    fn the_largest_curves_have_as_many_points_as_there_may_be() {
        let studies = POINTS_OF_A_ROW.map(|points| Study::make(256, Layout::Curves(points)));
        assert_eq!(studies.each_ref().map(|study| study.points), [1_024, 2_048, 4_096]);
        assert_eq!(studies.each_ref().map(Study::rows), [2_304, 3_328, 5_376]);
        for study in studies {
            assert_eq!(read(&study).schedules.len(), 1_024);
        }
    }

    #[test]
    fn curves_that_take_turns_have_the_points_of_those_that_do_not() {
        let sorted = |layout| {
            let mut curves = read(&Study::make(256, layout)).curves;
            curves.sort_by_key(|point| (point.unit, point.schedule, point.hour, point.mw));
            curves
        };
        assert_eq!(sorted(Layout::Turns(4)), sorted(Layout::Curves(4)));
        let turns = read(&Study::make(256, Layout::Turns(4))).curves;
        assert!(turns
            .windows(2)
            .all(|pair| (pair[0].schedule, pair[0].hour) != (pair[1].schedule, pair[1].hour)));
    }

    #[test]
    fn all_schedules_of_one_key_have_it() {
        let filing = read(&Study::make(256, Layout::OneKey(4)));
        assert_eq!((filing.units().len(), filing.schedules.len(), filing.curves.len()), (64, 1_024, 4_096));
        assert!(filing.schedules.iter().all(|row| (row.unit * 128 + row.schedule) % 2_039 == 7));
    }

    #[test]
    fn the_longest_schedules_are_as_long_as_a_tidy_file_may_be() {
        let study = Study::make(256, Layout::Longest);
        assert_eq!(study.files.0[2].len(), LONGEST_TIDY);
        assert_eq!(read(&study).schedules.len(), 1_024);
    }

    #[test]
    fn every_market_clears() {
        for study in make_all() {
            assert!(Market::of(&read(&study)).relevant.is_some(), "{study}");
            assert!(study.files.0.iter().all(|file| file.len() <= LARGEST_FILE), "{study}");
        }
    }

    #[test]
    fn suppliers_of_larger_markets_pass_and_fail() {
        for study in make_all().into_iter().filter(|study| study.supply_rows >= 64) {
            let filing = read(&study);
            let tested = test_suppliers(&filing, &Market::of(&filing));
            for verdict in [Verdict::P, Verdict::F] {
                let count = tested.values().filter(|tested| tested.verdict == verdict).count();
                assert!(count >= tested.len() / 4, "{study}: {count} {verdict:?}");
            }
        }
    }

    #[test]
    fn layouts_have_the_same_rows() {
        let [plain, shuffled, quoted] = Layout::ALONE.map(|layout| Study::make(64, layout));
        assert_eq!(plain.bytes(), shuffled.bytes());
        assert_ne!(plain.files, shuffled.files);
        let fields = 3 * 2 + 5 * (64 + 1) + 9 * (256 + 1);
        assert_eq!(quoted.bytes(), plain.bytes() + 2 * fields);
    }
}

//! The day: the hour of the last accepted study and the running units.

use crate::refusal::{refuse_if, Refusal};
use crate::table::Kind;

/// A running unit, "with kind and schedule".
#[derive(Clone, Copy, Debug, PartialEq, Eq)]
pub struct Running {
    pub unit: u64,
    pub kind: Kind,
    pub schedule: u64,
}

/// "A day holds the hour of the last accepted study (none in a fresh one) and the running units, at
/// most 64, each with kind and schedule, by rising unit number."
#[derive(Clone, Debug, PartialEq, Eq)]
pub struct Day {
    pub hour: Option<u64>,
    pub running: Vec<Running>,
}

impl Day {
    /// "These limits belong to the day itself."
    pub const UNITS: usize = 64;

    /// A day before its first study.
    pub fn fresh() -> Day {
        Day { hour: None, running: Vec::new() }
    }

    /// "A day with more than 64 units, units not strictly rising, or a number outside its column's
    /// range is ill-formed."
    pub fn ill_formed(&self) -> bool {
        let rising = self.running.windows(2).all(|pair| pair[0].unit < pair[1].unit);
        let hour_in_range = self.hour.is_none_or(|hour| hour <= 23);
        self.running.len() > Day::UNITS || !rising || !hour_in_range || !self.running.iter().all(in_range)
    }

    /// The kind on which the day has a unit running.
    pub fn kind_of(&self, unit: u64) -> Option<Kind> {
        self.running.iter().find(|running| running.unit == unit).map(|running| running.kind)
    }

    /// "Release takes a unit out and changes nothing else." It "checks 24, then 23", and a refused
    /// call returns the day it was given.
    pub fn release(self, unit: u64) -> (Day, Result<(), Refusal>) {
        match self.releasable(unit) {
            Ok(()) => (self.without(unit), Ok(())),
            Err(refusal) => (self, Err(refusal)),
        }
    }

    fn releasable(&self, unit: u64) -> Result<(), Refusal> {
        refuse_if(self.ill_formed(), Refusal::nowhere(24))?;
        refuse_if(self.kind_of(unit).is_none(), Refusal::nowhere(23))
    }

    fn without(mut self, unit: u64) -> Day {
        self.running.retain(|running| running.unit != unit);
        self
    }

    /// "An accepted study sets the hour and makes each of its units running on the chosen schedule;
    /// every other running unit stays as it was."
    pub fn after_study(mut self, hour: u64, chosen: &[Running]) -> Day {
        self.hour = Some(hour);
        self.running.retain(|running| chosen.iter().all(|unit| unit.unit != running.unit));
        self.running.extend(chosen);
        self.running.sort_by_key(|running| running.unit);
        self
    }
}

/// Unit and schedule are in their columns' ranges.
fn in_range(running: &Running) -> bool {
    (1..=9_999).contains(&running.unit) && (1..=99).contains(&running.schedule)
}

#[cfg(test)]
mod tests {
    use super::*;

    fn day(hour: Option<u64>, units: &[(u64, u64)]) -> Day {
        let running = |&(unit, schedule): &(u64, u64)| Running { unit, kind: Kind::M, schedule };
        Day { hour, running: units.iter().map(running).collect() }
    }

    #[test]
    fn the_list_of_what_makes_a_day_ill_formed() {
        assert!(!Day::fresh().ill_formed());
        assert!(!day(None, &[(1, 1), (9_999, 99)]).ill_formed());
        assert!(!day(Some(23), &[]).ill_formed());
        assert!(day(Some(24), &[]).ill_formed());
        for units in [[(0, 1), (1, 1)], [(1, 1), (10_000, 1)], [(1, 0), (2, 1)], [(1, 1), (2, 100)]] {
            assert!(day(Some(0), &units).ill_formed(), "{units:?}");
        }
        assert!(day(Some(0), &[(2, 1), (1, 1)]).ill_formed());
        assert!(day(Some(0), &[(2, 1), (2, 1)]).ill_formed());
        let many: Vec<(u64, u64)> = (1..=65).map(|unit| (unit, 1)).collect();
        assert!(day(Some(0), &many).ill_formed());
        assert!(!day(Some(0), &many[1..]).ill_formed());
    }

    #[test]
    fn release_takes_one_out_and_keeps_the_hour() {
        let given = day(Some(7), &[(3, 1), (4, 2)]);
        assert_eq!(given.clone().release(3), (day(Some(7), &[(4, 2)]), Ok(())));
        assert_eq!(given.clone().release(0), (given.clone(), Err(Refusal::nowhere(23))));
        let ill = day(Some(24), &[(3, 1)]);
        assert_eq!(ill.clone().release(9), (ill.clone(), Err(Refusal::nowhere(24))));
    }

    #[test]
    fn a_study_keeps_every_other_unit() {
        let given = day(None, &[(3, 1), (5, 2)]);
        let chosen = [
            Running { unit: 4, kind: Kind::C, schedule: 9 },
            Running { unit: 5, kind: Kind::C, schedule: 8 },
        ];
        let next = given.after_study(6, &chosen);
        assert_eq!(next.hour, Some(6));
        let units: Vec<(u64, u64)> =
            next.running.iter().map(|running| (running.unit, running.schedule)).collect();
        assert_eq!(units, [(3, 1), (4, 9), (5, 8)]);
    }
}

//! What rows must be to each other: refusals 5, 6, 7, 32 to 36 of a file, then 8 and 9 of several.

use std::collections::{BTreeMap, BTreeSet};

use crate::curves::{disordered, ends_low, priced, stray_point};
use crate::parents::{given_twice, head, ring};
use crate::refusal::{refuse_where, Refusal};
use crate::table::{read_constraint, read_curves, read_parents, read_schedules, read_supply};
use crate::table::{Constraint, Kind, Parent, Point, Schedule, Supply};

/// "At most 64 units, 32 suppliers".
pub const UNITS: usize = 64;
pub const SUPPLIERS: usize = 32;

/// The last hour of a day.
pub const LAST_HOUR: u64 = 23;

/// The files of a study as bytes.
#[derive(Clone, Copy)]
pub struct Files<'a> {
    pub constraint: &'a [u8],
    pub supply: &'a [u8],
    pub schedules: &'a [u8],
    pub curves: &'a [u8],
    pub parents: &'a [u8],
}

/// The files of a study as read, once nothing in them is refused.
pub struct Filing {
    pub constraint: Constraint,
    pub supply: Vec<Supply>,
    pub schedules: Vec<Schedule>,
    pub curves: Vec<Point>,
    pub parents: Vec<Parent>,
}

impl Filing {
    /// Reads the files: "file by file 1, 2, 4, 3, 5, 6, 7, each over the whole file; then 8, 9". Those of
    /// the curves, 32, "then 33", "then 34", stand "between 7 and 8, with 1 to 4 applying to file 4 before
    /// them". Those of the parents, 35 "and then" 36, stand "after the refusals of file 4; 1 to 4 apply
    /// before them". As far as 6, a file is read alone.
    pub fn read(files: &Files) -> Result<Filing, Refusal> {
        let constraint = read_constraint(files.constraint)?;
        let supply = read_supply_alone(files.supply)?;

        let schedules = read_schedules_alone(files.schedules)?;
        refuse_where(stray(&schedules, &supply), 7, 3)?;

        let curves = read_curves(files.curves)?;
        refuse_where(stray_point(&curves, &schedules), 32, 4)?;
        refuse_where(disordered(&curves), 33, 4)?;
        refuse_where(ends_low(&curves, &schedules), 34, 4)?;

        let parents = read_parents(files.parents)?;
        refuse_where(given_twice(&parents), 35, 5)?;
        refuse_where(ring(&parents), 36, 5)?;

        let filing = Filing { constraint, supply, schedules, curves, parents };
        refuse_where(filing.without_schedule(), 8, 3)?;
        refuse_where(filing.lacking_hour(), 9, 3)?;
        Ok(filing)
    }

    /// The units of the supply file, by rising number.
    pub fn units(&self) -> BTreeSet<u64> {
        self.supply.iter().map(|row| row.unit).collect()
    }

    /// The suppliers of the supply file, by rising number.
    pub fn suppliers(&self) -> BTreeSet<u64> {
        self.supply.iter().map(|row| row.supplier).collect()
    }

    /// The suppliers of the supply file, each with the head that "stands in for the supplier in the test".
    pub fn heads(&self) -> BTreeMap<u64, u64> {
        self.suppliers().into_iter().map(|supplier| (supplier, head(supplier, &self.parents))).collect()
    }

    /// The rows of one unit's schedules.
    pub fn schedules_of(&self, unit: u64) -> Vec<Schedule> {
        self.schedules.iter().filter(|row| row.unit == unit).copied().collect()
    }

    /// The same rows by the prices at which they are judged: those of the curves where there are points.
    pub fn priced_schedules_of(&self, unit: u64) -> Vec<Schedule> {
        priced(&self.schedules_of(unit), &self.curves)
    }

    /// 8: "unit without a schedule (file 3, lowest unit)".
    fn without_schedule(&self) -> Option<u64> {
        self.units().into_iter().find(|&unit| self.schedules_of(unit).is_empty())
    }

    /// 9: "schedule lacking a needed hour (file 3, lowest such unit)".
    fn lacking_hour(&self) -> Option<u64> {
        let lacks = |unit| {
            let rows = self.schedules_of(unit);
            rows.iter()
                .any(|row| run(row, self.constraint.hour).any(|hour| !has_hour(&rows, row.schedule, hour)))
        };
        self.units().into_iter().find(|&unit| lacks(unit))
    }
}

/// The rows of the supply file, which agree with each other.
pub fn read_supply_alone(file: &[u8]) -> Result<Vec<Supply>, Refusal> {
    let supply = read_supply(file)?;
    refuse_where(one_too_many(&supply), 5, 2)?;
    refuse_where(supply_at_odds(&supply), 6, 2)?;
    Ok(supply)
}

/// The rows of the schedules file, which agree with each other, whatever the supply file has.
pub fn read_schedules_alone(file: &[u8]) -> Result<Vec<Schedule>, Refusal> {
    let schedules = read_schedules(file)?;
    refuse_where(schedules_at_odds(&schedules), 6, 3)?;
    Ok(schedules)
}

/// "With study hour h, a schedule's run is the hours from h to the lesser of h + minrun - 1 and 23".
pub fn run(row: &Schedule, h: u64) -> std::ops::RangeInclusive<u64> {
    h..=(h + row.minrun - 1).min(LAST_HOUR)
}

/// A schedule has a row for an hour.
fn has_hour(rows: &[Schedule], schedule: u64, hour: u64) -> bool {
    rows.iter().any(|row| row.schedule == schedule && row.hour == hour)
}

/// 5: "a 65th unit or 33rd supplier in supply (its record)".
fn one_too_many(rows: &[Supply]) -> Option<u64> {
    let mut units = BTreeSet::new();
    let mut suppliers = BTreeSet::new();
    for (place, row) in (1..).zip(rows) {
        units.insert(row.unit);
        suppliers.insert(row.supplier);
        if units.len() > UNITS || suppliers.len() > SUPPLIERS {
            return Some(place);
        }
    }
    None
}

/// 6 in supply: "rows of one unit share supplier and dfax".
fn supply_at_odds(rows: &[Supply]) -> Option<u64> {
    first_at_odds(rows, |row, earlier| {
        row.unit == earlier.unit && (row.supplier != earlier.supplier || row.dfax != earlier.dfax)
    })
}

/// 6 in schedules: "a row that breaks a sharing rule, repeats an hour or adds a second M schedule".
fn schedules_at_odds(rows: &[Schedule]) -> Option<u64> {
    first_at_odds(rows, |row, earlier| {
        let same_schedule = row.unit == earlier.unit && row.schedule == earlier.schedule;
        same_schedule && (!shares(row, earlier) || row.hour == earlier.hour) || second_m(row, earlier)
    })
}

/// "Rows of one schedule share kind, startup and minrun".
fn shares(row: &Schedule, earlier: &Schedule) -> bool {
    row.kind == earlier.kind && row.startup == earlier.startup && row.minrun == earlier.minrun
}

/// "A unit has at most one M schedule."
fn second_m(row: &Schedule, earlier: &Schedule) -> bool {
    let both_m = row.kind == Kind::M && earlier.kind == Kind::M;
    row.unit == earlier.unit && both_m && row.schedule != earlier.schedule
}

/// "First record at odds with an earlier one", whichever earlier one.
pub fn first_at_odds<Row>(rows: &[Row], at_odds: impl Fn(&Row, &Row) -> bool) -> Option<u64> {
    let broken = |&index: &usize| rows[..index].iter().any(|earlier| at_odds(&rows[index], earlier));
    (0..rows.len()).find(broken).map(|index| index as u64 + 1)
}

/// 7: "schedule row of a unit not in supply (its record)".
fn stray(schedules: &[Schedule], supply: &[Supply]) -> Option<u64> {
    let known = |unit| supply.iter().any(|row| row.unit == unit);
    schedules.iter().position(|row| !known(row.unit)).map(|index| index as u64 + 1)
}

#[cfg(test)]
mod tests {
    use super::*;

    /// Reads files given by their rows, for a study at hour 22.
    fn read(supply: &[&str], schedules: &[&str]) -> Result<Filing, (u64, u64, u64)> {
        let file = |header: &str, rows: &[&str]| [&[header], rows].concat().join("\r\n").into_bytes();
        let supply = file("unit,supplier,mw,cost,dfax", supply);
        let schedules = file("unit,schedule,kind,hour,ecomin,price,noload,startup,minrun", schedules);
        let constraint = b"hour,relief,cutoff\r\n22,1,1\r\n";
        let files = Files { constraint, supply: &supply, schedules: &schedules, curves: b"", parents: b"" };
        Filing::read(&files).map_err(|refusal| (refusal.number, refusal.file, refusal.place))
    }

    fn refusal(supply: &[&str], schedules: &[&str]) -> Option<(u64, u64, u64)> {
        read(supply, schedules).err()
    }

    const UNIT_7: &str = "7,1,1,1,5000";

    #[test]
    fn rows_of_a_unit_may_be_scattered_and_are_held_against_any_earlier_one() {
        assert_eq!(refusal(&[UNIT_7, "8,1,1,1,1", "7,2,1,1,5000"], &[]), Some((6, 2, 3)));
        assert_eq!(refusal(&[UNIT_7, "8,1,1,1,1", "7,1,1,1,-5000"], &[]), Some((6, 2, 3)));
        assert_eq!(refusal(&[UNIT_7, "8,1,1,1,1", "7,1,2,2,5000"], &[]), Some((8, 3, 7)));
    }

    #[test]
    fn schedules_share_and_repeat_no_hour() {
        let first = "7,1,M,22,0,0,0,0,1";
        assert_eq!(refusal(&[UNIT_7], &[first]), None);
        assert_eq!(refusal(&[UNIT_7], &[first, "7,1,M,22,1,1,1,0,1"]), Some((6, 3, 2)));
        assert_eq!(refusal(&[UNIT_7], &[first, "7,1,C,23,0,0,0,0,1"]), Some((6, 3, 2)));
        assert_eq!(refusal(&[UNIT_7], &[first, "7,1,M,23,0,0,0,1,1"]), Some((6, 3, 2)));
        assert_eq!(refusal(&[UNIT_7], &[first, "7,1,M,23,0,0,0,0,2"]), Some((6, 3, 2)));
        assert_eq!(refusal(&[UNIT_7], &[first, "7,2,C,22,0,0,0,0,1", "7,3,M,22,0,0,0,0,1"]), Some((6, 3, 3)));
        assert_eq!(refusal(&[UNIT_7], &[first, "7,2,C,22,0,0,0,5,1", "7,1,M,0,9,9,9,0,1"]), None);
    }

    #[test]
    fn six_comes_before_seven_even_among_units_not_in_supply() {
        let stray = "9,1,M,22,0,0,0,0,1";
        assert_eq!(refusal(&[UNIT_7], &[stray]), Some((7, 3, 1)));
        assert_eq!(refusal(&[UNIT_7], &[stray, "7,1,M,22,0,0,0,0,1", stray]), Some((6, 3, 3)));
    }

    #[test]
    fn eight_of_every_unit_comes_before_nine_of_any() {
        let supply = ["7,1,1,1,1", "5,1,1,1,1", "6,1,1,1,1"];
        assert_eq!(refusal(&supply, &["5,1,M,21,0,0,0,0,1", "6,1,M,22,0,0,0,0,1"]), Some((8, 3, 7)));
        assert_eq!(
            refusal(&supply, &["7,1,M,21,0,0,0,0,1", "6,1,M,23,0,0,0,0,1", "5,1,M,22,0,0,0,0,1"]),
            Some((9, 3, 6))
        );
    }

    #[test]
    fn a_run_ends_with_the_day() {
        assert_eq!(refusal(&[UNIT_7], &["7,1,M,22,0,0,0,0,2"]), Some((9, 3, 7)));
        assert_eq!(refusal(&[UNIT_7], &["7,1,M,23,0,0,0,0,24", "7,1,M,22,0,0,0,0,24"]), None);
    }

    #[test]
    fn the_65th_unit_and_the_33rd_supplier() {
        let units: Vec<String> = (1..=65).map(|unit| format!("{unit},1,1,1,1")).collect();
        let units: Vec<&str> = units.iter().map(String::as_str).collect();
        assert_eq!(refusal(&units, &[]), Some((5, 2, 65)));
        let suppliers: Vec<String> = (1..=33).map(|unit| format!("{unit},{unit},1,1,1")).collect();
        let mut suppliers: Vec<&str> = suppliers.iter().map(String::as_str).collect();
        assert_eq!(refusal(&suppliers, &[]), Some((5, 2, 33)));
        suppliers.insert(1, "1,2,1,1,1");
        assert_eq!(refusal(&suppliers, &[]), Some((5, 2, 34)));
    }

    #[test]
    fn no_supply_rows_ask_for_no_schedules() {
        assert_eq!(refusal(&[], &[]), None);
    }
}

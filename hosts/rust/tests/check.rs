//! Cases of the exported check, one for each number at least. What each must answer was worked from document 01.
mod common;

use capping::check;
use common::{Files, CONSTRAINT, SCHEDULES, SUPPLY};

const SUPPLY_ROWS: &str = "11,1,1000,3000,5000\r\n12,2,1000,3000,-5000\r\n";
const ROW_OF_11: &str = "11,1,M,5,100,4000,50000,20000,1\r\n";
const ROW_OF_12: &str = "12,1,C,5,100,3000,0,0,1\r\n";

/// Three files that keep every rule.
fn kept() -> Files {
    Files {
        constraint: format!("{CONSTRAINT}5,1000,300\r\n"),
        supply: format!("{SUPPLY}{SUPPLY_ROWS}"),
        schedules: format!("{SCHEDULES}{ROW_OF_11}{ROW_OF_12}"),
        curves: String::new(),
        parents: String::new(),
    }
}

/// 0, or the number of the first refusal.
fn number(files: Files) -> u64 {
    let [c, s, h] = files.checked();
    check(c, s, h).err().unwrap_or(0)
}

fn constraint(text: &str) -> u64 {
    number(Files {
        constraint: text.to_string(),
        ..kept()
    })
}

fn supply(text: &str) -> u64 {
    number(Files {
        supply: text.to_string(),
        ..kept()
    })
}

fn schedules(text: &str) -> u64 {
    number(Files {
        schedules: text.to_string(),
        ..kept()
    })
}

/// The kept file with more behind it.
fn more_supply(rows: &str) -> u64 {
    supply(&format!("{SUPPLY}{SUPPLY_ROWS}{rows}"))
}

fn more_schedules(rows: &str) -> u64 {
    schedules(&format!("{SCHEDULES}{ROW_OF_11}{ROW_OF_12}{rows}"))
}

/// A supply file of so many rows: units 1 to `units` and suppliers 1 to `suppliers`, over and over.
fn supply_of(rows: usize, units: usize, suppliers: usize) -> String {
    let row = |i: usize| format!("{},{},1000,3000,5000\r\n", i % units + 1, i % suppliers + 1);
    SUPPLY.to_string() + &(0..rows).map(row).collect::<String>()
}

#[test]
fn every_rule_kept() {
    assert_eq!(number(kept()), 0);
    let no_rows = Files {
        supply: SUPPLY.to_string(),
        schedules: SCHEDULES.to_string(),
        ..kept()
    };
    assert_eq!(number(no_rows), 0);
    assert_eq!(constraint(&format!("{CONSTRAINT}\"5\",1000,300")), 0);
}

#[test]
fn not_rfc_4180() {
    assert_eq!(constraint(&format!("{CONSTRAINT}5,1000,300\n")), 1);
    assert_eq!(more_supply("\"13"), 1);
    assert_eq!(more_schedules("\t"), 1);
}

#[test]
fn header_or_field_count() {
    assert_eq!(constraint(""), 2);
    assert_eq!(supply("Unit,supplier,mw,cost,dfax\r\n"), 2);
    assert_eq!(more_schedules("12,2,C,5,100,3000,0,0,1,1\r\n"), 2);
}

#[test]
fn field_ill_formed_or_out_of_range() {
    assert_eq!(constraint(&format!("{CONSTRAINT}24,1000,300\r\n")), 3);
    assert_eq!(more_supply("13,3,1,0,-0\r\n"), 3);
    assert_eq!(more_schedules("12,2,m,5,100,3000,0,0,1\r\n"), 3);
}

#[test]
fn number_of_rows() {
    assert_eq!(constraint(CONSTRAINT), 4);
    assert_eq!(
        constraint(&format!("{CONSTRAINT}5,1000,300\r\n5,1000,300\r\n")),
        4
    );
    assert_eq!(supply(&supply_of(257, 64, 32)), 4);
}

#[test]
fn units_and_suppliers() {
    assert_eq!(supply(&supply_of(65, 65, 1)), 5);
    assert_eq!(supply(&supply_of(33, 33, 33)), 5);
}

#[test]
fn rows_at_odds() {
    assert_eq!(more_supply("11,1,1000,3000,-5000\r\n"), 6);
    assert_eq!(more_schedules(ROW_OF_11), 6);
    assert_eq!(more_schedules("11,2,M,5,100,4000,50000,20000,1\r\n"), 6);
}

#[test]
fn unit_not_in_supply() {
    assert_eq!(more_schedules("13,1,C,5,100,3000,0,0,1\r\n"), 7);
}

#[test]
fn unit_without_a_schedule() {
    assert_eq!(schedules(&format!("{SCHEDULES}{ROW_OF_11}")), 8);
    let crowd = Files {
        supply: supply_of(256, 64, 32),
        schedules: format!("{SCHEDULES}1,1,C,5,100,3000,0,0,1\r\n"),
        ..kept()
    };
    assert_eq!(number(crowd), 8);
}

#[test]
fn schedule_lacking_an_hour() {
    assert_eq!(more_schedules("12,2,C,5,100,3000,0,0,2\r\n"), 9);
    assert_eq!(
        schedules(&format!(
            "{SCHEDULES}{ROW_OF_11}12,1,C,6,100,3000,0,0,1\r\n"
        )),
        9
    );
}

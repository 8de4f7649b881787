//! Cases of a look at one unit's choice, each of them held beside the study that it looks ahead at. What each must answer was worked
//! from documents 01 and 02.
mod common;

use std::hint::black_box;
use std::thread;

use capping::{Day, Kind, Refusal, Row, Verdict};
use common::{crowd, day, refused, with_junk, Files, CONSTRAINT, CURVE_11};
use common::{STARRED_ANSWER, STARRED_DAY};

/// The refusal that no study has.
const NOT_IN_SUPPLY: u64 = 31;

/// Looks at a unit on a day in words, and on the same day in other cells.
fn previewed(words: &str, files: &Files, unit: u64) -> Result<Row, Refusal> {
    let row = preview_on(&day(words), files, unit);
    assert_eq!(preview_on(&with_junk(&day(words)), files, unit), row);
    row
}

/// Looks at a unit; no cell of the day may change. The day is hidden from the compiler, which knows that what is only borrowed stays
/// the same.
fn preview_on(day: &Day, files: &Files, unit: u64) -> Result<Row, Refusal> {
    let before = *day.cells();
    let row = day.preview(files.studied(), unit);
    assert_eq!(black_box(day).cells(), &before);
    expect_study(day.clone(), files, row);
    row
}

/// That a study answers the row that was previewed, or is refused alike.
fn expect_study(mut day: Day, files: &Files, previewed: Result<Row, Refusal>) {
    let answer = day.study(files.studied());
    let text = answer.map(|answer| String::from_utf8(answer).expect("an answer is ASCII"));
    match previewed {
        Ok(row) => assert!(text.is_ok_and(|text| text.lines().any(|line| line == row.to_string()))),
        Err(refusal) if refusal.number == NOT_IN_SUPPLY => assert!(text.is_ok()),
        Err(refusal) => assert_eq!(text, Err(refusal)),
    }
}

/// The text of the row that is previewed.
fn text(words: &str, files: &Files, unit: u64) -> String {
    let row = previewed(words, files, unit).expect("accepted");
    assert_eq!(row.unit, unit);
    row.to_string()
}

/// The starred files with another relief.
fn starred_at(relief: u64) -> Files {
    Files {
        constraint: format!("{CONSTRAINT}5,{relief},300\r\n"),
        ..Files::starred()
    }
}

/// The starred files without unit 14's cost-based schedule.
fn without_cost() -> Files {
    let schedules = Files::starred().schedules;
    Files {
        schedules: schedules.replace("14,2,C,5,100,2000,0,0,1\r\n", ""),
        ..Files::starred()
    }
}

#[test]
fn fields() {
    let row = Row {
        unit: 14,
        supplier: 4,
        verdict: Verdict::F,
        left: 5_000_000,
        schedule: 1,
        kind: Kind::M,
        cost: 500_000,
    };
    assert_eq!(previewed("-", &Files::starred(), 14), Ok(row));
}

#[test]
fn each_starred_unit() {
    let rows = (11..=14).map(|unit| text("-", &Files::starred(), unit));
    assert!(rows.eq(STARRED_ANSWER.lines().skip(1)));
}

#[test]
fn each_verdict() {
    let starred = |relief, unit| text("-", &starred_at(relief), unit);
    assert_eq!(starred(499, 14), "14,4,P,5000000,1,M,500000");
    assert_eq!(starred(1501, 14), "14,4,U,0,1,M,500000");
    assert_eq!(starred(1501, 11), "11,1,U,0,2,C,1030000");
}

#[test]
fn kinds_of_the_day() {
    let starred = Files::starred();
    assert_eq!(text("n;14:C:2", &starred, 14), "14,4,F,5000000,2,C,220000");
    assert_eq!(text("5;14:M:1", &starred, 14), "14,4,F,5000000,1,M,500000");
    assert_eq!(text("5;12:C:2", &starred, 12), "12,2,F,0,2,C,330000");
    assert_eq!(text("5;12:C:2", &starred, 14), "14,4,F,5000000,1,M,500000");
    assert_eq!(text(STARRED_DAY, &starred, 11), "11,1,F,0,2,C,830000");
}

#[test]
fn affiliated_suppliers() {
    let affiliated = Files::starred_with_parents("1,2\r\n");
    assert_eq!(text("-", &affiliated, 14), "14,4,F,0,1,M,500000");
    assert_eq!(text("-", &affiliated, 11), "11,1,F,0,2,C,1030000");
}

#[test]
fn offer_curves() {
    let curved = Files::starred_with_curves(CURVE_11);
    assert_eq!(text("-", &curved, 11), "11,1,F,0,2,C,920000");
    assert_eq!(text(STARRED_DAY, &curved, 11), "11,1,F,0,2,C,720000");
    assert_eq!(text("-", &curved, 14), "14,4,F,5000000,1,M,500000");
}

#[test]
fn a_unit_that_is_not_in_supply() {
    let not_in_supply = refused(NOT_IN_SUPPLY, 0, 0);
    for unit in [0, 10, 15, 101, (1 << 32) + 14, u64::MAX] {
        for words in ["-", "5;101:M:1", STARRED_DAY] {
            let row = previewed(words, &Files::starred(), unit);
            assert_eq!(row, Err(not_in_supply), "{words} {unit}");
        }
    }
    assert_eq!(
        not_in_supply.to_string(),
        "refusal 31: the unit to preview isn't in supply"
    );
}

#[test]
fn what_a_study_is_refused_with_comes_first() {
    let starred = Files::starred();
    let no_hour = Files {
        constraint: String::new(),
        ..Files::starred()
    };
    let ring = Files::starred_with_parents("1,2\r\n2,3\r\n3,2\r\n");
    let low = Files::starred_with_curves("11,2,5,99,1\r\n");
    let full = format!("5;{}", crowd(61));
    let cases = [
        ("6;", &starred, refused(20, 0, 0)),
        ("5;14:C:2", &without_cost(), refused(21, 3, 14)),
        (&full, &starred, refused(22, 0, 0)),
        ("24;", &no_hour, refused(24, 0, 0)),
        ("5;12:M:1,11:M:1", &starred, refused(24, 0, 0)),
        (STARRED_DAY, &no_hour, refused(2, 1, 0)),
        ("6;", &low, refused(34, 4, 1)),
        ("6;", &ring, refused(36, 5, 2)),
    ];
    for (words, files, refusal) in cases {
        for unit in [11, 14, 15] {
            let row = previewed(words, files, unit);
            assert_eq!(row, Err(refusal), "{words} {unit}");
        }
    }
}

#[test]
fn sixty_four_units_would_run() {
    let words = format!("5;{}", crowd(60));
    assert_eq!(text(&words, &Files::starred(), 11), "11,1,F,0,2,C,1030000");
}

#[test]
fn threads_look_at_one_day() {
    const THREADS: usize = 8;
    const ROUNDS: usize = 50;
    let (files, shared) = (Files::starred(), day("n;14:C:2"));
    let expected = previewed("n;14:C:2", &files, 14);
    thread::scope(|scope| {
        for _ in 0..THREADS {
            scope.spawn(|| {
                for _ in 0..ROUNDS {
                    assert_eq!(shared.preview(files.studied(), 14), expected);
                }
            });
        }
    });
}

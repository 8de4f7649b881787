//! Cases of a file that is handed back tidy. What each must answer was worked from documents 01 and 02.
mod common;

use capping::{tidy, tidy_into, File, Refusal};
use common::{refused, Files, CONSTRAINT, PATTERN, SCHEDULES, SUPPLY};

/// Tidies a file in a buffer of a length that is filled with the pattern first: what is answered, and the buffer.
fn tidy_in(length: usize, file: File, text: &str) -> (Result<usize, Refusal>, Vec<u8>) {
    let mut buffer = vec![PATTERN; length];
    let count = tidy_into(file, text.as_bytes(), &mut buffer);
    (count, buffer)
}

/// The tidy file of a text.
fn tidied(file: File, text: &str) -> String {
    let bytes = tidy(file, text.as_bytes()).expect("accepted");
    String::from_utf8(bytes).expect("a tidy file is ASCII")
}

/// The same text with every field quoted, and without the last CR LF.
fn quoted(text: &str) -> String {
    let record = |line: &str| format!("\"{}\"", line.replace(',', "\",\""));
    let records: Vec<String> = text.lines().map(record).collect();
    records.join("\r\n")
}

/// A supply file with a row for each unit from 1 on, in which `#` stands for the unit's number.
fn supply_of(units: u64, row: &str) -> String {
    let rows = (1..=units).map(|unit| row.replace('#', &unit.to_string()));
    SUPPLY.to_string() + &rows.collect::<String>()
}

/// The refusal of a text, which is told whether or not a buffer is long enough.
fn told(file: File, text: &str) -> Refusal {
    let refusal = tidy(file, text.as_bytes()).expect_err("refused");
    assert_eq!(tidy_in(0, file, text), (Err(refusal), Vec::new()), "{text}");
    refusal
}

/// The refusal of a starred file with more behind it.
fn more_supply(rows: &str) -> Refusal {
    told(File::Supply, &(Files::starred().supply + rows))
}

fn more_schedules(rows: &str) -> Refusal {
    told(File::Schedules, &(Files::starred().schedules + rows))
}

/// That the text fills the longest tidy file of its kind, and is its own tidy file.
fn expect_longest(file: File, text: &str) {
    assert_eq!(text.len(), file.longest_tidy(), "{file:?}");
    assert_eq!(tidied(file, &quoted(text)), text);
    let (count, buffer) = tidy_in(file.longest_tidy() - 1, file, text);
    assert_eq!(count, Err(refused(30, 0, 0)), "{file:?}");
    assert!(buffer.iter().all(|&byte| byte == PATTERN), "{file:?}");
}

#[test]
fn tidy_and_quoted_files() {
    let starred = Files::starred();
    for (file, text) in [
        (File::Constraint, &starred.constraint),
        (File::Supply, &starred.supply),
        (File::Schedules, &starred.schedules),
    ] {
        assert_eq!(&tidied(file, text), text);
        assert_eq!(&tidied(file, &quoted(text)), text);
    }
}

#[test]
fn rows_stay_in_their_order() {
    let supply = format!("{SUPPLY}12,2,9,0,-1\r\n11,1,5,7,0\r\n12,2,9,0,-1\r\n11,1,4,7,0\r\n");
    assert_eq!(tidied(File::Supply, &supply), supply);
    let schedules =
        format!("{SCHEDULES}9,2,C,23,0,0,0,0,24\r\n7,1,M,0,1,2,3,4,1\r\n9,2,C,1,5,6,7,0,24\r\n");
    assert_eq!(tidied(File::Schedules, &schedules), schedules);
}

#[test]
fn bytes_past_the_tidy_file_stay() {
    let (count, buffer) = tidy_in(100, File::Supply, SUPPLY.trim_end());
    let (written, past) = buffer.split_at(SUPPLY.len());
    assert_eq!(count, Ok(SUPPLY.len()));
    assert_eq!(written, SUPPLY.as_bytes());
    assert!(past.iter().all(|&byte| byte == PATTERN));
}

#[test]
fn a_header_alone_takes_28_bytes() {
    assert_eq!(tidy_in(28, File::Supply, SUPPLY), (Ok(28), SUPPLY.into()));
    let short = tidy_in(27, File::Supply, SUPPLY);
    assert_eq!(short, (Err(refused(30, 0, 0)), vec![PATTERN; 27]));
    assert_eq!(
        refused(30, 0, 0).to_string(),
        "refusal 30: the buffer is shorter than the tidy file"
    );
}

#[test]
fn the_longest_files() {
    expect_longest(
        File::Constraint,
        &format!("{CONSTRAINT}23,1000000,10000\r\n"),
    );
    let supply_row = |i: usize| {
        let (unit, supplier) = (9999 - i % 64, 999 - i % 32);
        format!("{unit},{supplier},100000,370000,-10000\r\n")
    };
    let supply: String = (0..256).map(supply_row).collect();
    expect_longest(File::Supply, &format!("{SUPPLY}{supply}"));
    let schedule_row = |i: usize| {
        let (unit, hour) = (9999 - i / 14, 10 + i % 14);
        format!("{unit},99,C,{hour},100000,370000,100000000,100000000,24\r\n")
    };
    let schedules: String = (0..1024).map(schedule_row).collect();
    expect_longest(File::Schedules, &format!("{SCHEDULES}{schedules}"));
}

#[test]
fn not_rfc_4180() {
    let line_feed = format!("{CONSTRAINT}5,1000,300\n");
    assert_eq!(told(File::Constraint, &line_feed), refused(1, 1, 0));
    assert_eq!(more_supply("\t"), refused(1, 2, 0));
    assert_eq!(more_schedules("\""), refused(1, 3, 0));
}

#[test]
fn header_or_field_count() {
    assert_eq!(told(File::Constraint, ""), refused(2, 1, 0));
    assert_eq!(told(File::Supply, "\r\n"), refused(2, 2, 0));
    assert_eq!(told(File::Schedules, SUPPLY), refused(2, 3, 0));
    assert_eq!(more_schedules("\r\n"), refused(2, 3, 8));
}

#[test]
fn field_ill_formed_or_out_of_range() {
    let hour_24 = format!("{CONSTRAINT}24,1000,300\r\n");
    assert_eq!(told(File::Constraint, &hour_24), refused(3, 1, 1));
    assert_eq!(more_supply("15,5,1,0,10001\r\n"), refused(3, 2, 5));
    assert_eq!(more_schedules("15,1,c,5,0,0,0,0,1\r\n"), refused(3, 3, 8));
}

#[test]
fn number_of_rows() {
    assert_eq!(told(File::Constraint, CONSTRAINT), refused(4, 1, 0));
    let out_of_range_too = supply_of(257, "#,#,0,0,0\r\n");
    assert_eq!(told(File::Supply, &out_of_range_too), refused(4, 2, 0));
}

#[test]
fn units_and_suppliers() {
    let units = supply_of(66, "#,1,1,0,0\r\n");
    assert_eq!(told(File::Supply, &units), refused(5, 2, 65));
    let suppliers = supply_of(34, "#,#,1,0,0\r\n");
    assert_eq!(told(File::Supply, &suppliers), refused(5, 2, 33));
}

#[test]
fn rows_at_odds() {
    assert_eq!(more_supply("11,1,1,0,-5000\r\n"), refused(6, 2, 5));
    assert_eq!(more_schedules("14,3,M,5,0,0,0,0,1\r\n"), refused(6, 3, 8));
}

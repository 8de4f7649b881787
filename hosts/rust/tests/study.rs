//! Cases of the study and the test. What each must answer was worked from documents 01 and 02.
mod common;

use capping::{study, study_into, test, Refusal, Verdict, LONGEST_ANSWER};
use common::{refused, Files, AFFILIATED_ANSWER, MOST_AMOUNT, PATTERN, SCHEDULES, STARRED_ANSWER};

/// Studies files in a buffer of a length that is filled with the pattern first: what is answered, and the buffer.
fn study_in(length: usize, files: &Files) -> (Result<usize, Refusal>, Vec<u8>) {
    let mut buffer = vec![PATTERN; length];
    let count = study_into(files.studied(), &mut buffer);
    (count, buffer)
}

/// The refusal of files.
fn told(files: Files) -> Refusal {
    study(files.studied()).expect_err("refused")
}

/// The answer to the starred files with these rows of parents.
fn answered_with(parents: &str) -> String {
    let answer = study(Files::starred_with_parents(parents).studied()).expect("accepted");
    String::from_utf8(answer).expect("an answer is ASCII")
}

#[test]
fn the_starred_example() {
    let answer = study(Files::starred().studied());
    assert_eq!(answer.as_deref(), Ok(STARRED_ANSWER.as_bytes()));
}

#[test]
fn bytes_past_the_answer_stay() {
    let (count, buffer) = study_in(LONGEST_ANSWER, &Files::starred());
    let (answer, past) = buffer.split_at(STARRED_ANSWER.len());
    assert_eq!(count, Ok(STARRED_ANSWER.len()));
    assert_eq!(answer, STARRED_ANSWER.as_bytes());
    assert!(past.iter().all(|&byte| byte == PATTERN));
}

#[test]
fn a_buffer_one_short() {
    let (count, buffer) = study_in(STARRED_ANSWER.len() - 1, &Files::starred());
    assert_eq!(count, Err(refused(10, 0, 0)));
    assert!(buffer.iter().all(|&byte| byte == PATTERN));
}

#[test]
fn refused_studies_in_plain_words() {
    let header = told(Files {
        constraint: String::new(),
        ..Files::starred()
    });
    assert_eq!(header, refused(2, 1, 0));
    assert_eq!(
        header.to_string(),
        "refusal 2: the header differs, or a record has another number of fields (constraint, record 0)"
    );
    let tab = told(Files {
        supply: Files::starred().supply + "\t",
        ..Files::starred()
    });
    assert_eq!(tab, refused(1, 2, 0));
    assert_eq!(
        tab.to_string(),
        "refusal 1: the file isn't CSV by RFC 4180 (supply)"
    );
    let unit = told(Files {
        schedules: SCHEDULES.to_string(),
        ..Files::starred()
    });
    assert_eq!(unit, refused(8, 3, 11));
    assert_eq!(
        unit.to_string(),
        "refusal 8: a unit has no schedule (schedules, unit 11)"
    );
}

#[test]
fn no_parents() {
    let files = Files::starred();
    let [c, s, h] = files.checked();
    let unnamed = study(capping::Files::new(c, s, h));
    assert_eq!(unnamed.as_deref(), Ok(STARRED_ANSWER.as_bytes()));
    assert_eq!(study(files.studied()), unnamed);
    assert_eq!(answered_with(""), STARRED_ANSWER);
}

#[test]
fn affiliated_suppliers_are_tested_as_one() {
    assert_eq!(answered_with("1,2\r\n"), AFFILIATED_ANSWER);
    assert_eq!(answered_with("4,900\r\n1,900\r\n"), AFFILIATED_ANSWER);
    assert_eq!(answered_with("1,5\r\n5,6\r\n2,6\r\n"), AFFILIATED_ANSWER);
    assert_eq!(answered_with("5,6\r\n"), STARRED_ANSWER);
}

#[test]
fn refused_parents() {
    let cases = [
        ("1,2\n", refused(1, 5, 0)),
        ("1,2\r\n3\r\n", refused(2, 5, 2)),
        ("1,1000\r\n", refused(3, 5, 1)),
        (&"1,2\r\n".repeat(65), refused(4, 5, 0)),
        ("1,2\r\n1,2\r\n", refused(35, 5, 2)),
        ("1,1\r\n2,3\r\n2,4\r\n", refused(35, 5, 3)),
        ("1,2\r\n2,3\r\n3,2\r\n", refused(36, 5, 2)),
        ("1,1\r\n", refused(36, 5, 1)),
    ];
    for (parents, refusal) in cases {
        let (count, buffer) = study_in(LONGEST_ANSWER, &Files::starred_with_parents(parents));
        assert_eq!(count, Err(refusal), "{parents}");
        assert!(buffer.iter().all(|&byte| byte == PATTERN), "{parents}");
    }
    let blank_line = Files {
        parents: "\r\n".to_string(),
        ..Files::starred()
    };
    assert_eq!(told(blank_line), refused(2, 5, 0));
}

#[test]
fn refused_parents_in_plain_words() {
    assert_eq!(
        told(Files::starred_with_parents("1,2\r\n1,2\r\n")).to_string(),
        "refusal 35: a supplier is given two parents (parents, record 2)"
    );
    assert_eq!(
        told(Files::starred_with_parents("1,2\r\n2,3\r\n3,2")).to_string(),
        "refusal 36: a chain of parents returns to its start (parents, record 2)"
    );
    assert_eq!(
        told(Files::starred_with_parents("1,2\t")).to_string(),
        "refusal 1: the file isn't CSV by RFC 4180 (parents)"
    );
}

#[test]
fn verdicts() {
    assert_eq!(test(&[4, 3, 2, 1], 3, 2), Ok((2, Verdict::P)));
    assert_eq!(test(&[4, 3, 2, 1], 3, 3), Ok((2, Verdict::F)));
    assert_eq!(test(&[5, 5], 0, 1), Ok((0, Verdict::F)));
    assert_eq!(test(&[5], 0, 0), Ok((0, Verdict::P)));
    assert_eq!(
        test(&[MOST_AMOUNT; 32], 31, u64::MAX),
        Ok((29 * MOST_AMOUNT, Verdict::F))
    );
}

#[test]
fn refused_tests() {
    let out_of_limits = Err(refused(11, 0, 0));
    assert_eq!(test(&[], 0, 1), out_of_limits);
    assert_eq!(test(&[1; 33], 0, 1), out_of_limits);
    assert_eq!(test(&[1, MOST_AMOUNT + 1], 0, 1), out_of_limits);
    assert_eq!(test(&[1, 2], 2, 1), out_of_limits);
    assert_eq!(test(&[1, 2], usize::MAX, 1), out_of_limits);
}

#[test]
fn words_for_every_number() {
    let no_such = refused(99, 0, 0).meaning();
    for number in (1..=11).chain(20..=24).chain(30..=36) {
        assert_ne!(refused(number, 0, 0).meaning(), no_such);
    }
}

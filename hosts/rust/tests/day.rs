//! Cases of the day, as a caller keeps one and as cells have it. What each must answer was worked from documents
//! 01 and 02.
mod common;

use std::thread;

use capping::{Day, Kind, ParseDayError, Refusal, Running, DAY_CELLS, LONGEST_ANSWER};
use common::{crowd, day, refused, with_junk, Files, AFFILIATED_ANSWER, CONSTRAINT, CURVE_11};
use common::{COUNT, CURVE_11_ANSWER, JUNK, PATTERN, PLACES, PLACE_CELLS};
use common::{STARRED_ANSWER, STARRED_DAY};

// Where in a unit's cells its kind stands.
const KIND: usize = 1;

const M: u64 = b'M' as u64;
const C: u64 = b'C' as u64;

/// The starred answer where all units run: startup isn't paid, and unit 11, which runs on cost, has its cost-based schedule only.
const ANSWER_WHILE_RUNNING: &str = "unit,supplier,verdict,left,schedule,kind,cost\r\n\
    11,1,F,0,2,C,830000\r\n12,2,F,0,1,M,330000\r\n13,3,F,0,1,C,880000\r\n14,4,F,5000000,1,M,500000\r\n";

/// The same where unit 11 has been released, and starts again.
const ANSWER_AFTER_RELEASE: &str = "unit,supplier,verdict,left,schedule,kind,cost\r\n\
    11,1,F,0,2,C,1030000\r\n12,2,F,0,1,M,330000\r\n13,3,F,0,1,C,880000\r\n14,4,F,5000000,1,M,500000\r\n";

fn study(day: &mut Day, files: &Files) -> Result<String, Refusal> {
    day.study(files.studied())
        .map(|answer| String::from_utf8(answer).expect("an answer is ASCII"))
}

/// That a study is refused, and leaves every cell of the day and every byte of the buffer.
fn expect_refused_study(day: &Day, files: &Files, room: usize, refusal: Refusal) {
    let mut after = day.clone();
    let mut buffer = [PATTERN; LONGEST_ANSWER];
    let count = after.study_into(files.studied(), &mut buffer[..room]);
    assert_eq!(count, Err(refusal), "{day:?}");
    assert_eq!(after.cells(), day.cells());
    assert!(buffer.iter().all(|&byte| byte == PATTERN));
}

/// That a release is refused, and leaves every cell of the day.
fn expect_refused_release(day: &Day, unit: u64, refusal: Refusal) {
    let mut after = day.clone();
    assert_eq!(after.release(unit), Err(refusal), "{day:?}");
    assert_eq!(after.cells(), day.cells());
}

/// That every call on a day is refused with 24, before any other refusal.
fn expect_ill_formed(day: &Day) {
    let ill_formed = refused(24, 0, 0);
    let no_file = Files {
        constraint: String::new(),
        ..Files::starred()
    };
    expect_refused_study(day, &Files::starred(), STARRED_ANSWER.len(), ill_formed);
    expect_refused_study(day, &no_file, 0, ill_formed);
    for unit in [0, 11, 101, JUNK] {
        expect_refused_release(day, unit, ill_formed);
        assert_eq!(day.preview(no_file.studied(), unit), Err(ill_formed));
    }
}

/// Three studies of the starred files with a release between them: what each answers, and the day afterwards.
fn a_day_of_studies() -> ([Result<String, Refusal>; 3], Day) {
    let files = Files::starred();
    let mut day = Day::fresh();
    let first = study(&mut day, &files);
    let second = study(&mut day, &files);
    day.release(11).expect("unit 11 runs");
    let third = study(&mut day, &files);
    ([first, second, third], day)
}

#[test]
fn a_fresh_day() {
    let mut fresh = Day::fresh();
    assert_eq!(fresh.cells(), &[0; DAY_CELLS]);
    assert_eq!(fresh, Day::default());
    assert_eq!((fresh.hour(), fresh.running().count()), (None, 0));
    assert_eq!(
        study(&mut fresh, &Files::starred()).as_deref(),
        Ok(STARRED_ANSWER)
    );
    let running = |unit, kind, schedule| Running {
        unit,
        kind,
        schedule,
    };
    assert_eq!(fresh.hour(), Some(5));
    assert_eq!(
        fresh.running().collect::<Vec<_>>(),
        [
            running(11, Kind::C, 2),
            running(12, Kind::M, 1),
            running(13, Kind::C, 1),
            running(14, Kind::M, 1)
        ]
    );
}

#[test]
fn a_day_goes_from_study_to_study() {
    let (answers, day) = a_day_of_studies();
    let answers = answers.map(|answer| answer.expect("accepted"));
    assert_eq!(
        answers,
        [STARRED_ANSWER, ANSWER_WHILE_RUNNING, ANSWER_AFTER_RELEASE]
    );
    assert_eq!(day.to_string(), STARRED_DAY);
}

#[test]
fn affiliated_suppliers_are_tested_as_one() {
    let files = Files::starred_with_parents("1,2\r\n");
    let mut day = Day::fresh();
    assert_eq!(study(&mut day, &files).as_deref(), Ok(AFFILIATED_ANSWER));
    assert_eq!(day.to_string(), STARRED_DAY);
    let again = ANSWER_WHILE_RUNNING.replace("14,4,F,5000000,", "14,4,F,0,");
    assert_eq!(study(&mut day, &files), Ok(again));
    assert_eq!(
        study(&mut day, &Files::starred_with_parents("")).as_deref(),
        Ok(ANSWER_WHILE_RUNNING)
    );
}

#[test]
fn curves_price_each_study_anew() {
    let files = Files::starred_with_curves(CURVE_11);
    let mut day = Day::fresh();
    assert_eq!(study(&mut day, &files).as_deref(), Ok(CURVE_11_ANSWER));
    assert_eq!(day.to_string(), STARRED_DAY);
    let again = ANSWER_WHILE_RUNNING.replace("2,C,830000", "2,C,720000");
    assert_eq!(study(&mut day, &files), Ok(again));
    assert_eq!(
        study(&mut day, &Files::starred()).as_deref(),
        Ok(ANSWER_WHILE_RUNNING)
    );
}

#[test]
fn other_running_units_stay() {
    let mut day = day("4;1:C:7,12:M:9,9999:M:99");
    let answer = study(&mut day, &Files::starred());
    assert_eq!(answer.as_deref(), Ok(STARRED_ANSWER));
    assert_eq!(
        day.to_string(),
        "5;1:C:7,11:C:2,12:M:1,13:C:1,14:M:1,9999:M:99"
    );
}

#[test]
fn a_buffer_that_just_fits() {
    let files = Files::starred();
    let mut day = day(STARRED_DAY);
    let length = ANSWER_WHILE_RUNNING.len();
    let mut buffer = [PATTERN; LONGEST_ANSWER];
    let count = day.study_into(files.studied(), &mut buffer[..length]);
    let (answer, past) = buffer.split_at(length);
    assert_eq!(count, Ok(length));
    assert_eq!(answer, ANSWER_WHILE_RUNNING.as_bytes());
    assert!(past.iter().all(|&byte| byte == PATTERN));
}

#[test]
fn a_release_leaves_nothing_in_the_last_place() {
    let mut released = day(STARRED_DAY);
    assert_eq!(released.release(12), Ok(()));
    assert_eq!(released.cells(), day("5;11:C:2,13:C:1,14:M:1").cells());
    let mut hourless = day("n;7:C:9");
    assert_eq!(hourless.release(7), Ok(()));
    assert_eq!(hourless.cells(), Day::fresh().cells());
}

#[test]
fn refused_studies_leave_the_day() {
    let starred = Files::starred();
    let without_cost = Files {
        schedules: starred.schedules.replace("12,2,C,5,100,3000,0,0,1\r\n", ""),
        ..Files::starred()
    };
    let wrong_hour = Files {
        constraint: format!("{CONSTRAINT}24,1000,300\r\n"),
        ..Files::starred()
    };
    let two_parents = Files::starred_with_parents("1,2\r\n1,2\r\n");
    let ring = Files::starred_with_parents("1,2\r\n2,3\r\n3,2\r\n");
    let stray_point = Files::starred_with_curves("11,3,5,100,1\r\n");
    let no_rise = Files::starred_with_curves("11,2,5,100,1\r\n11,2,5,100,2\r\n");
    let low = Files::starred_with_curves("11,2,5,99,1\r\n");
    let room = STARRED_ANSWER.len();
    let full = format!("n;{}", crowd(61));
    let cases = [
        ("6;", &starred, room, refused(20, 0, 0)),
        ("5;12:C:2", &without_cost, room, refused(21, 3, 12)),
        (&full, &starred, room, refused(22, 0, 0)),
        ("-", &starred, room - 1, refused(10, 0, 0)),
        (STARRED_DAY, &wrong_hour, room, refused(3, 1, 1)),
        (STARRED_DAY, &stray_point, room, refused(32, 4, 1)),
        (STARRED_DAY, &no_rise, room, refused(33, 4, 2)),
        ("6;", &low, room, refused(34, 4, 1)),
        (STARRED_DAY, &two_parents, room, refused(35, 5, 2)),
        ("6;", &ring, room, refused(36, 5, 2)),
    ];
    for (words, files, room, refusal) in cases {
        expect_refused_study(&day(words), files, room, refusal);
        expect_refused_study(&with_junk(&day(words)), files, room, refusal);
    }
}

#[test]
fn sixty_four_units_run() {
    let mut day = day(&format!("n;{}", crowd(60)));
    let answer = study(&mut day, &Files::starred());
    assert_eq!(answer.as_deref(), Ok(STARRED_ANSWER));
    assert_eq!(day.running().count(), Day::UNITS);
    assert_eq!(day.to_string(), format!("{STARRED_DAY},{}", crowd(60)));
}

#[test]
fn refused_releases_leave_the_day() {
    let not_running = refused(23, 0, 0);
    for unit in [0, 10, 15, 101, JUNK, u64::MAX] {
        for words in ["-", "5;", STARRED_DAY] {
            expect_refused_release(&day(words), unit, not_running);
            expect_refused_release(&with_junk(&day(words)), unit, not_running);
        }
    }
}

#[test]
fn ill_formed_days() {
    for words in [
        "24;",
        "18446744073709551615;",
        "5;0:M:1",
        "5;10000:M:1",
        "5;1:M:0",
        "n;1:C:100",
        "5;2:M:1,1:M:1",
        "5;11:M:1,11:C:2",
    ] {
        expect_ill_formed(&day(words));
        expect_ill_formed(&with_junk(&day(words)));
    }
    expect_ill_formed(&day(&format!("5;{}", crowd(65))));
}

#[test]
fn a_kind_that_is_neither_letter() {
    for letter in [0, 1, u64::from(b'm'), M + 256, C + (1 << 32), u64::MAX] {
        let mut cells = *day("5;11:C:2").cells();
        cells[PLACES + KIND] = letter;
        let day = Day::from_cells(cells);
        let seen = Running {
            unit: 0,
            kind: Kind::M,
            schedule: 0,
        };
        assert_eq!(day.running().collect::<Vec<_>>(), [seen]);
        expect_ill_formed(&day);
    }
}

#[test]
fn a_count_beyond_the_places() {
    for count in [65, 1 << 32, u64::MAX] {
        let mut cells = *day(&format!("5;{}", crowd(64))).cells();
        cells[COUNT] = count;
        let day = Day::from_cells(cells);
        assert_eq!(day.running().count(), Day::UNITS);
        expect_ill_formed(&day);
    }
}

#[test]
fn what_stands_behind_the_count_is_not_seen() {
    let mut cells = *day("5;12:M:1").cells();
    cells[PLACES + PLACE_CELLS..][..PLACE_CELLS].copy_from_slice(&[13, C, 1]);
    let mut one_runs = Day::from_cells(cells);
    assert_eq!(one_runs.running().count(), 1);
    expect_refused_release(&one_runs, 13, refused(23, 0, 0));
    let answer = study(&mut one_runs, &Files::starred());
    assert_eq!(answer.as_deref(), Ok(STARRED_ANSWER));
    assert_eq!(one_runs.cells(), day(STARRED_DAY).cells());
}

#[test]
fn an_accepted_call_leaves_no_junk() {
    for words in ["-", "n;12:M:1", "5;12:M:1"] {
        let mut studied = with_junk(&day(words));
        let answer = study(&mut studied, &Files::starred());
        assert_eq!(answer.as_deref(), Ok(STARRED_ANSWER));
        assert_eq!(studied.cells(), day(STARRED_DAY).cells());
    }
    let mut released = with_junk(&day("n;7:C:9,8:M:1"));
    assert_eq!(released.release(7), Ok(()));
    assert_eq!(released.cells(), day("n;8:M:1").cells());
}

#[test]
fn words_there_and_back() {
    for words in [
        "-",
        "5;",
        "0;1:M:1",
        "n;7:C:9",
        "23;1:M:99,9999:C:1",
        "24;2:M:1,1:C:100",
        "18446744073709551615;18446744073709551615:C:18446744073709551615",
    ] {
        assert_eq!(day(words).to_string(), words);
    }
    assert_eq!(day("n;"), Day::fresh());
    assert_eq!(day("n;").to_string(), "-");
}

#[test]
fn words_of_more_units_than_places() {
    let most = day(&format!("5;{}", crowd(1000)));
    assert_eq!(most.cells()[COUNT], 1000);
    let unplaced = ",0:M:0".repeat(1000 - 64);
    assert_eq!(most.to_string(), format!("5;{}{unplaced}", crowd(64)));
    assert_eq!(day(&most.to_string()), most);
    let too_many = format!("5;{}", crowd(1001)).parse::<Day>();
    assert_eq!(too_many, Err(ParseDayError::TooManyUnits));
}

#[test]
fn words_that_are_no_day() {
    let number = |word: &str| ParseDayError::Number(word.to_string());
    let kind = |word: &str| ParseDayError::Kind(word.to_string());
    let unit = |word: &str| ParseDayError::Unit(word.to_string());
    let cases = [
        ("", ParseDayError::NoHour),
        ("5", ParseDayError::NoHour),
        ("n", ParseDayError::NoHour),
        (";", number("")),
        ("05;", number("05")),
        ("+5;", number("+5")),
        ("-;", number("-")),
        ("5 ;", number("5 ")),
        ("18446744073709551616;", number("18446744073709551616")),
        ("5;1", unit("1")),
        ("5;1:M", unit("1:M")),
        ("5;1:M:1:1", unit("1:M:1:1")),
        ("5;1:M:1,", unit("")),
        ("5;,1:M:1", unit("")),
        ("5;1:X:1", kind("X")),
        ("5;1:m:1", kind("m")),
        ("5;1::1", kind("")),
        ("5;:M:1", number("")),
        ("5;1:M:", number("")),
        ("5;00:M:1", number("00")),
        ("5;1:M:1;", number("1;")),
    ];
    for (words, error) in cases {
        assert_eq!(words.parse::<Day>(), Err(error), "{words}");
    }
    assert_eq!(kind("X").to_string(), "`X` is neither `M` nor `C`");
}

#[test]
fn days_are_compared_by_hour_and_running_units() {
    for words in ["-", "5;", "n;7:C:9", STARRED_DAY] {
        assert_eq!(day(words), with_junk(&day(words)));
        assert_ne!(day(words).cells(), with_junk(&day(words)).cells());
    }
    let days = [
        "-",
        "0;",
        "5;",
        "n;7:C:9",
        "5;7:C:9",
        "5;7:M:9",
        "5;7:C:8",
        "5;8:C:9",
        "5;7:C:9,8:M:1",
    ];
    for (place, words) in days.iter().enumerate() {
        for others in &days[..place] {
            assert_ne!(day(words), day(others));
        }
    }
    // Both show the same 64 units.
    assert_ne!(
        day(&format!("5;{}", crowd(65))),
        day(&format!("5;{}", crowd(66)))
    );
}

#[test]
fn threads_have_days_of_their_own() {
    const THREADS: usize = 8;
    const ROUNDS: usize = 50;
    let expected = a_day_of_studies();
    thread::scope(|scope| {
        for _ in 0..THREADS {
            scope.spawn(|| {
                for _ in 0..ROUNDS {
                    assert_eq!(a_day_of_studies(), expected);
                }
            });
        }
    });
}

//! Cases as lines, put to the engine through `hosts/rust`: what it is asked, one a line, and what it
//! answers, one a line.
//!
//! ```text
//! study DAY C S H K P BUFLEN   ok ANSWERHEX DAY   or   no NUMBER FILE PLACE
//! preview DAY C S H K P UNIT   ok U,S,V,LEFT,SCHEDULE,KIND,COST   or   no NUMBER FILE PLACE
//! release DAY UNIT             ok DAY             or   no NUMBER FILE PLACE
//! tidy N FILE BUFLEN           ok TIDYHEX         or   no NUMBER FILE PLACE
//! test NEED PLACE a,b,c        ok LEFT P   or   ok LEFT F   or   no 11 0 0
//! fed NEED PLACE a,b,c         the same, of the test that is fed one amount a call
//! check C S H                  NUMBER
//! ```
//!
//! DAY is a day in the words of `hosts/rust`. C, S, H, K and P are the files, K the curves and P the
//! parents, in lower-case hex, `.` for an empty file, and so is FILE, which N says is 1 the constraint,
//! 2 supply or 3 schedules; `.` stands for no amounts too. UNIT is any 64-bit number. Whatever isn't in
//! this form is answered by `unreadable case`, and a case in which the engine changed what it had to
//! leave alone by `spoilt`.
//!
//! The model reads the same lines. Nothing of its reader is used here, so that the two are held against
//! each other.

mod asked;
mod hex;

use std::hint::black_box;

use capping::{Day, FedTest, File, Files, Refusal, Row, Verdict};

use asked::{Asked, OneTest, LONGEST_BUFFER, LONGEST_TIDY_BUFFER};
use hex::Hex;

/// What the buffer is filled with before it is lent. No answer file and no tidy file has this byte.
const PATTERN: u8 = 0xA5;

/// The answer to a line that can't be read.
const UNREADABLE: &str = "unreadable case";

/// The answer where a byte behind what is written, or with a refusal any byte or a cell of the day, changed;
/// a preview may change no cell of the day at all.
const SPOILT: &str = "spoilt";

/// The answer to a line, which is given without its end.
pub fn answer(line: &[u8]) -> String {
    match Asked::read(line) {
        Some(Asked::Study { day, files, lent }) => study(day, files.lent(), lent),
        Some(Asked::Preview { day, files, unit }) => preview(day, files.lent(), unit),
        Some(Asked::Release { day, unit }) => release(day, unit),
        Some(Asked::Tidy { file, bytes, lent }) => tidy(file, &bytes, lent),
        Some(Asked::Test(one)) => test(&one),
        Some(Asked::Fed(one)) => fed(&one),
        Some(Asked::Check { files: [c, s, h] }) => check(&c, &s, &h),
        None => UNREADABLE.to_string(),
    }
}

/// Studies in the first bytes of a longer buffer, so that what is written past them shows.
fn study(given: Day, files: Files, lent: usize) -> String {
    let mut buffer = [PATTERN; LONGEST_BUFFER];
    let mut day = given.clone();
    let result = day.study_into(files, &mut buffer[..lent]);
    say_studied(result, &buffer, &given, &day)
}

fn say_studied(result: Result<usize, Refusal>, buffer: &[u8], given: &Day, after: &Day) -> String {
    match written(result, buffer) {
        Some(Ok(answer)) => format!("ok {} {after}", Hex(answer)),
        Some(Err(refusal)) => say_refused(refusal, given, after),
        None => SPOILT.to_string(),
    }
}

/// The compiler takes it that a day which is only borrowed stays the same, and leaves the comparison out unless
/// the day is hidden from it.
fn preview(given: Day, files: Files, unit: u64) -> String {
    let day = given.clone();
    let result = day.preview(files, unit);
    say_previewed(result, &given, black_box(&day))
}

fn say_previewed(result: Result<Row, Refusal>, given: &Day, after: &Day) -> String {
    match result {
        _ if after.cells() != given.cells() => SPOILT.to_string(),
        Ok(row) => format!("ok {row}"),
        Err(refusal) => say_no(refusal),
    }
}

/// Tidies in the first bytes of a longer buffer too.
fn tidy(file: File, bytes: &[u8], lent: usize) -> String {
    let mut buffer = vec![PATTERN; LONGEST_TIDY_BUFFER];
    let result = capping::tidy_into(file, bytes, &mut buffer[..lent]);
    say_tidied(result, &buffer)
}

fn say_tidied(result: Result<usize, Refusal>, buffer: &[u8]) -> String {
    match written(result, buffer) {
        Some(Ok(tidy)) => format!("ok {}", Hex(tidy)),
        Some(Err(refusal)) => say_no(refusal),
        None => SPOILT.to_string(),
    }
}

/// What a call wrote from the start of a buffer, or its refusal, where the pattern stands in all other bytes.
fn written(result: Result<usize, Refusal>, buffer: &[u8]) -> Option<Result<&[u8], Refusal>> {
    is_kept(buffer, result.unwrap_or(0)).then(|| result.map(|count| &buffer[..count]))
}

/// Whether the pattern stands from a place on.
fn is_kept(buffer: &[u8], start: usize) -> bool {
    buffer.get(start..).is_some_and(|rest| rest.iter().all(|&byte| byte == PATTERN))
}

fn say_refused(refusal: Refusal, given: &Day, after: &Day) -> String {
    if after.cells() != given.cells() {
        return SPOILT.to_string();
    }
    say_no(refusal)
}

fn say_no(refusal: Refusal) -> String {
    format!("no {} {} {}", refusal.number, refusal.file, refusal.place)
}

fn release(given: Day, unit: u64) -> String {
    let mut day = given.clone();
    match day.release(unit) {
        Ok(()) => format!("ok {day}"),
        Err(refusal) => say_refused(refusal, &given, &day),
    }
}

fn test(one: &OneTest) -> String {
    say_tested(capping::test(&one.amounts, one.place, one.need))
}

fn fed(one: &OneTest) -> String {
    let mut fed = FedTest::begin(one.place, one.need);
    one.amounts.iter().for_each(|&amount| fed.feed(amount));
    say_tested(fed.ask())
}

fn say_tested(result: Result<(u64, Verdict), Refusal>) -> String {
    match result {
        Ok((left, verdict)) => format!("ok {left} {verdict}"),
        Err(refusal) => say_no(refusal),
    }
}

fn check(constraint: &[u8], supply: &[u8], schedules: &[u8]) -> String {
    capping::check(constraint, supply, schedules).err().unwrap_or(0).to_string()
}

#[cfg(test)]
mod tests {
    use capping::Kind;

    use super::*;

    fn ask(line: &str) -> String {
        answer(line.as_bytes())
    }

    fn day(words: &str) -> Day {
        words.parse().expect("words of a day")
    }

    /// A buffer of which the first bytes are written.
    fn buffer(written: &[u8]) -> Vec<u8> {
        let mut buffer = vec![PATTERN; LONGEST_BUFFER];
        buffer[..written.len()].copy_from_slice(written);
        buffer
    }

    /// The same day with something behind its units.
    fn with_a_cell_changed(given: &Day) -> Day {
        let mut cells = *given.cells();
        *cells.last_mut().expect("a day has cells") = 1;
        let changed = Day::from_cells(cells);
        assert_eq!(&changed, given);
        changed
    }

    /// Document 01's starred example, as the words of a line.
    fn starred() -> String {
        let constraint = "hour,relief,cutoff\r\n5,1000,300\r\n";
        let supply = "unit,supplier,mw,cost,dfax\r\n\
            11,1,1000,3000,5000\r\n12,2,1000,3000,-5000\r\n13,3,1000,4000,5000\r\n14,4,2000,2000,200\r\n";
        let schedules = "unit,schedule,kind,hour,ecomin,price,noload,startup,minrun\r\n\
            11,1,M,5,100,4000,50000,20000,1\r\n11,2,C,5,100,3000,50000,20000,1\r\n\
            12,1,M,5,100,3300,0,0,1\r\n12,2,C,5,100,3000,0,0,1\r\n13,1,C,5,200,4000,0,1000,1\r\n\
            14,1,M,5,100,5000,0,0,1\r\n14,2,C,5,100,2000,0,0,1\r\n";
        [constraint, supply, schedules].map(|file| Hex(file.as_bytes()).to_string()).join(" ")
    }

    const STARRED_ANSWER: &str = "unit,supplier,verdict,left,schedule,kind,cost\r\n\
        11,1,F,0,2,C,1030000\r\n12,2,F,0,1,M,330000\r\n13,3,F,0,1,C,890000\r\n14,4,F,5000000,1,M,500000\r\n";

    /// The same where two suppliers are affiliated: unit 14's group and two others are all that supply.
    const AFFILIATED_ANSWER: &str = "unit,supplier,verdict,left,schedule,kind,cost\r\n\
        11,1,F,0,2,C,1030000\r\n12,2,F,0,1,M,330000\r\n13,3,F,0,1,C,890000\r\n14,4,F,0,1,M,500000\r\n";

    /// An answer with a curve of unit 11's C schedule, by which its price is 2000 and capped 2200.
    fn with_curve(answer: &str) -> String {
        answer.replace("2,C,1030000", "2,C,920000")
    }

    /// What is said of an accepted study of the starred example.
    fn ok_starred(answer: &str) -> String {
        format!("ok {} 5;11:C:2,12:M:1,13:C:1,14:M:1", Hex(answer.as_bytes()))
    }

    #[test]
    fn studies() {
        let ok = ok_starred(STARRED_ANSWER);
        let length = STARRED_ANSWER.len();
        assert_eq!(ask(&format!("study - {} . . 4096", starred())), ok);
        assert_eq!(ask(&format!("study - {} . . {length}", starred())), ok);
        assert_eq!(ask(&format!("study - {} . . {}", starred(), length - 1)), "no 10 0 0");
        assert_eq!(ask(&format!("study 6; {} . . 4096", starred())), "no 20 0 0");
        assert_eq!(ask(&format!("study 24; {} . . 4096", starred())), "no 24 0 0");
        assert_eq!(ask("study - . . . . . 4096"), "no 2 1 0");
    }

    #[test]
    fn studies_with_curves() {
        let study = |points: &str, parents: &str| {
            let curves = format!("unit,schedule,hour,mw,price\r\n{points}");
            let [curves, parents] = [&curves, parents].map(|file| Hex(file.as_bytes()).to_string());
            ask(&format!("study - {} {curves} {parents} 4096", starred()))
        };
        let curve = "11,2,5,50,1000\r\n11,2,5,100,2000\r\n";
        assert_eq!(study("", ""), ok_starred(STARRED_ANSWER));
        assert_eq!(study(curve, ""), ok_starred(&with_curve(STARRED_ANSWER)));
        assert_eq!(study(curve, "supplier,parent\r\n1,2"), ok_starred(&with_curve(AFFILIATED_ANSWER)));
        assert_eq!(study("11,3,5,100,1\r\n", ""), "no 32 4 1");
        assert_eq!(study("11,2,5,100,1\r\n11,2,5,100,2\r\n", ""), "no 33 4 2");
        assert_eq!(study("11,2,5,99,1\r\n", "\t"), "no 34 4 1");
    }

    #[test]
    fn studies_with_parents() {
        let study = |rows: &str| {
            let parents = format!("supplier,parent\r\n{rows}");
            ask(&format!("study - {} . {} 4096", starred(), Hex(parents.as_bytes())))
        };
        assert_eq!(study(""), ok_starred(STARRED_ANSWER));
        assert_eq!(study("1,2\r\n"), ok_starred(AFFILIATED_ANSWER));
        assert_eq!(study("1,2\r\n1,2\r\n"), "no 35 5 2");
        assert_eq!(study("1,2\r\n2,3\r\n3,2\r\n"), "no 36 5 2");
    }

    #[test]
    fn previews() {
        let preview = |day: &str, unit: u64| ask(&format!("preview {day} {} . . {unit}", starred()));
        assert_eq!(preview("-", 11), "ok 11,1,F,0,2,C,1030000");
        assert_eq!(preview("-", 14), "ok 14,4,F,5000000,1,M,500000");
        assert_eq!(preview("n;14:C:2", 14), "ok 14,4,F,5000000,2,C,220000");
        assert_eq!(preview("-", 15), "no 31 0 0");
        assert_eq!(preview("5;15:M:1", 15), "no 31 0 0");
        assert_eq!(preview("-", u64::MAX), "no 31 0 0");
        assert_eq!(preview("6;", 15), "no 20 0 0");
        assert_eq!(preview("24;", 15), "no 24 0 0");
        assert_eq!(preview("5;12:M:1,11:M:1", 14), "no 24 0 0");
        assert_eq!(ask("preview - . . . . . 14"), "no 2 1 0");
    }

    #[test]
    fn previews_with_curves() {
        let preview = |points: &str, unit: u64| {
            let curves = format!("unit,schedule,hour,mw,price\r\n{points}");
            ask(&format!("preview - {} {} . {unit}", starred(), Hex(curves.as_bytes())))
        };
        assert_eq!(preview("11,2,5,50,1000\r\n11,2,5,100,2000\r\n", 11), "ok 11,1,F,0,2,C,920000");
        assert_eq!(preview("11,2,5,99,1\r\n", 15), "no 34 4 1");
    }

    #[test]
    fn previews_with_parents() {
        let preview = |rows: &str, unit: u64| {
            let parents = format!("supplier,parent\r\n{rows}");
            ask(&format!("preview - {} . {} {unit}", starred(), Hex(parents.as_bytes())))
        };
        assert_eq!(preview("1,2\r\n", 14), "ok 14,4,F,0,1,M,500000");
        assert_eq!(preview("1,2\r\n1,2\r\n", 15), "no 35 5 2");
        assert_eq!(preview("1,2\r\n2,3\r\n3,2\r\n", 15), "no 36 5 2");
    }

    #[test]
    fn releases() {
        assert_eq!(ask("release 5;1:M:2,7:C:9 1"), "ok 5;7:C:9");
        assert_eq!(ask("release 5;7:C:9 7"), "ok 5;");
        assert_eq!(ask("release n;7:C:9 7"), "ok -");
        assert_eq!(ask("release - 7"), "no 23 0 0");
        assert_eq!(ask("release n; 7"), "no 23 0 0");
        assert_eq!(ask("release 24; 7"), "no 24 0 0");
    }

    #[test]
    fn tidied_files() {
        let tidy = |number: u64, text: &str, lent: usize| {
            ask(&format!("tidy {number} {} {lent}", Hex(text.as_bytes())))
        };
        let ok = |text: &str| format!("ok {}", Hex(text.as_bytes()));
        let constraint = "hour,relief,cutoff\r\n5,1000,300\r\n";
        assert_eq!(tidy(1, "hour,relief,cutoff\r\n\"5\",1000,300", 32), ok(constraint));
        assert_eq!(tidy(1, constraint, 31), "no 30 0 0");
        let supply = "unit,supplier,mw,cost,dfax\r\n";
        assert_eq!(tidy(2, supply, 65_536), ok(supply));
        assert_eq!(tidy(2, supply, 28), ok(supply));
        assert_eq!(tidy(2, supply, 27), "no 30 0 0");
        assert_eq!(tidy(3, supply, 0), "no 2 3 0");
        assert_eq!(ask("tidy 2 . 0"), "no 2 2 0");
    }

    #[test]
    fn tests_of_a_list_and_fed() {
        for word in ["test", "fed"] {
            let say = |need: u64, place: u64, amounts: &str| ask(&format!("{word} {need} {place} {amounts}"));
            let ones = |count: usize| vec!["1"; count].join(",");
            assert_eq!(say(2, 3, "4,3,2,1"), "ok 2 P");
            assert_eq!(say(3, 3, "4,3,2,1"), "ok 2 F");
            assert_eq!(say(1, 0, "5,5"), "ok 0 F");
            assert_eq!(say(0, 0, "5"), "ok 0 P");
            for others in ["9,5,1", "5,9,1", "9,1,5"] {
                assert_eq!(say(2, 0, &format!("7,{others}")), "ok 1 F", "{others}");
            }
            assert_eq!(say(u64::MAX, 1, "1,1000000000000"), "ok 0 F");
            assert_eq!(say(29, 31, &ones(32)), "ok 29 P");
            assert_eq!(say(3, 0, "."), "no 11 0 0");
            assert_eq!(say(0, 3, "4,3"), "no 11 0 0");
            for place in [2, 256, 1 << 32, u64::MAX] {
                assert_eq!(say(0, place, "4,3"), "no 11 0 0", "{place}");
            }
            assert_eq!(say(0, 0, "1,1000000000001"), "no 11 0 0");
            assert_eq!(say(0, 1, "1,1000000000001"), "no 11 0 0");
            assert_eq!(say(0, 1, "1000000000001,4,3"), "no 11 0 0");
            assert_eq!(say(0, 0, "18446744073709551615,18446744073709551615"), "no 11 0 0");
            for count in [33, 257, 1_000] {
                assert_eq!(say(0, 0, &ones(count)), "no 11 0 0", "{count}");
            }
        }
    }

    #[test]
    fn checks_and_what_is_no_case() {
        assert_eq!(ask("check . . ."), "2");
        assert_eq!(ask(&format!("check {}", starred())), "0");
        assert_eq!(ask("no case"), "unreadable case");
    }

    #[test]
    fn a_byte_behind_the_answer_spoils_a_study() {
        let kept = day("5;");
        let say = |result, buffer: &[u8]| say_studied(result, buffer, &kept, &kept);
        assert_eq!(say(Ok(2), &buffer(b"11")), "ok 3131 5;");
        assert_eq!(say(Ok(2), &buffer(b"111")), "spoilt");
        let mut last = buffer(b"11");
        last[LONGEST_BUFFER - 1] ^= 1;
        assert_eq!(say(Ok(2), &last), "spoilt");
        assert_eq!(say(Ok(LONGEST_BUFFER + 1), &buffer(b"11")), "spoilt");
    }

    #[test]
    fn a_byte_changed_besides_spoils_a_tidy_file() {
        let refusal = Refusal { number: 30, file: 0, place: 0 };
        assert_eq!(say_tidied(Ok(2), &buffer(b"11")), "ok 3131");
        assert_eq!(say_tidied(Ok(2), &buffer(b"111")), "spoilt");
        assert_eq!(say_tidied(Err(refusal), &buffer(b"")), "no 30 0 0");
        assert_eq!(say_tidied(Err(refusal), &buffer(b"1")), "spoilt");
    }

    #[test]
    fn a_refused_call_that_changed_anything_is_spoilt() {
        let refusal = Refusal { number: 20, file: 0, place: 0 };
        let (given, same) = (day("5;7:C:9"), day("5;7:C:9"));
        assert_eq!(say_studied(Err(refusal), &buffer(b""), &given, &same), "no 20 0 0");
        assert_eq!(say_studied(Err(refusal), &buffer(b"1"), &given, &same), "spoilt");
        let changed = with_a_cell_changed(&given);
        assert_eq!(say_studied(Err(refusal), &buffer(b""), &given, &changed), "spoilt");
        assert_eq!(say_refused(refusal, &given, &changed), "spoilt");
    }

    #[test]
    fn a_preview_that_changed_the_day_is_spoilt() {
        let refusal = Refusal { number: 31, file: 0, place: 0 };
        let row = Row {
            unit: 14,
            supplier: 4,
            verdict: Verdict::P,
            left: 5_000_000,
            schedule: 2,
            kind: Kind::C,
            cost: 220_000,
        };
        let (given, same) = (day("5;7:C:9"), day("5;7:C:9"));
        assert_eq!(say_previewed(Ok(row), &given, &same), "ok 14,4,P,5000000,2,C,220000");
        assert_eq!(say_previewed(Err(refusal), &given, &same), "no 31 0 0");
        for changed in [day("6;7:C:9"), day("5;7:C:9,14:C:2"), with_a_cell_changed(&given)] {
            assert_eq!(say_previewed(Ok(row), &given, &changed), "spoilt");
            assert_eq!(say_previewed(Err(refusal), &given, &changed), "spoilt");
        }
    }
}

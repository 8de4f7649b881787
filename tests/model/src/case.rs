//! Cases as lines: what a program is asked, one a line, and what it answers, one a line.
//!
//! ```text
//! study DAY C S H K P BUFLEN   ok ANSWERHEX DAY   or   no NUMBER FILE PLACE
//! release DAY UNIT             ok DAY             or   no NUMBER FILE PLACE
//! test NEED PLACE a,b,c        ok LEFT P   or   ok LEFT F   or   no 11 0 0
//! check C S H                  NUMBER
//! tidy N FILE BUFLEN           ok TIDYHEX         or   no NUMBER FILE PLACE
//! preview DAY C S H K P UNIT   ok ROW             or   no NUMBER FILE PLACE
//! fed NEED PLACE a,b,c         as test
//! ```
//!
//! DAY is `-` for a fresh day or `H;u:k:s,u:k:s`: H the hour or `n` for none, u a unit, k its kind, s
//! its schedule. C, S, H, K and P are the files constraint, supply, schedules, curves and parents in
//! lower-case hex, `.` for an empty file; `.` stands for no amounts too. FILE is constraint, supply or
//! schedules in the same form, and N its number. ROW is a row of the answer file as it stands there,
//! without its end: `U,S,V,LEFT,SCHEDULE,KIND,COST`. Whatever isn't in this form is answered by
//! `unreadable case`.

use std::fmt::{self, Display, Formatter, Write};

use crate::check::check;
use crate::day::{Day, Running};
use crate::fed::test_fed;
use crate::pivotal::{test, Tested};
use crate::refusal::Refusal;
use crate::rules::Files;
use crate::table::Kind;
use crate::tidy::{tidy, FileKind};

/// The longest buffer that a study may be lent.
pub const LONGEST_BUFFER: u64 = 4_096;

/// The longest buffer that a tidy file may be written into; it holds every one.
pub const LONGEST_TIDY_BUFFER: u64 = 65_536;

/// The most units of a day, and amounts of a test, that a case may have.
pub const LONGEST_LIST: usize = 1_000;

/// The answer to a line that can't be read.
pub const UNREADABLE: &str = "unreadable case";

/// The answer of an engine that changed a byte it had to leave alone.
pub const SPOILT: &str = "spoilt";

/// The bytes of constraint, supply and schedules.
#[derive(Clone, Debug, PartialEq, Eq)]
pub struct ThreeFiles(pub [Vec<u8>; 3]);

impl ThreeFiles {
    /// The files as the check takes them.
    pub fn lend(&self) -> [&[u8]; 3] {
        self.0.each_ref().map(Vec::as_slice)
    }
}

/// The bytes of a study's files: constraint, supply, schedules, curves and parents.
#[derive(Clone, Debug, PartialEq, Eq)]
pub struct StudyFiles(pub [Vec<u8>; 5]);

impl StudyFiles {
    /// Where supply, schedules, curves and parents stand among them.
    pub const SUPPLY: usize = 1;
    pub const SCHEDULES: usize = 2;
    pub const CURVES: usize = 3;
    pub const PARENTS: usize = 4;

    /// The same files, but for one that is empty.
    pub fn without(mut self, place: usize) -> StudyFiles {
        self.0[place].clear();
        self
    }

    /// The files as a study takes them.
    pub fn lend(&self) -> Files<'_> {
        let [constraint, supply, schedules, curves, parents] = self.0.each_ref().map(Vec::as_slice);
        Files { constraint, supply, schedules, curves, parents }
    }
}

/// What a lone test is asked, whether it has the list at once or is fed.
#[derive(Clone, Debug, PartialEq, Eq)]
pub struct Lone {
    pub need: u64,
    pub place: u64,
    pub amounts: Vec<u64>,
}

/// What a line asks.
#[derive(Clone, Debug, PartialEq, Eq)]
pub enum Case {
    Study { day: Day, files: StudyFiles, buffer: u64 },
    Release { day: Day, unit: u64 },
    Test(Lone),
    Check { files: ThreeFiles },
    Tidy { kind: FileKind, file: Vec<u8>, buffer: u64 },
    Preview { day: Day, files: StudyFiles, unit: u64 },
    Fed(Lone),
}

/// The answer to a line.
pub fn answer(line: &[u8]) -> String {
    match Case::read(line) {
        Some(case) => case.answer(),
        None => UNREADABLE.to_string(),
    }
}

impl Case {
    /// The case that a line asks, if it is in the form.
    pub fn read(line: &[u8]) -> Option<Case> {
        let line = std::str::from_utf8(line).ok()?;
        let words: Vec<&str> = line.split(' ').collect();
        match words[..] {
            ["study", day, c, s, h, k, p, buffer] => Some(Case::Study {
                day: read_day(day)?,
                files: StudyFiles(read_files([c, s, h, k, p])?),
                buffer: read_length(buffer, LONGEST_BUFFER)?,
            }),
            ["release", day, unit] => Some(Case::Release { day: read_day(day)?, unit: read_number(unit)? }),
            ["test", need, place, amounts] => Some(Case::Test(read_lone(need, place, amounts)?)),
            ["check", c, s, h] => Some(Case::Check { files: ThreeFiles(read_files([c, s, h])?) }),
            ["tidy", number, file, buffer] => Some(Case::Tidy {
                kind: FileKind::numbered(read_number(number)?)?,
                file: read_hex(file)?,
                buffer: read_length(buffer, LONGEST_TIDY_BUFFER)?,
            }),
            ["preview", day, c, s, h, k, p, unit] => Some(Case::Preview {
                day: read_day(day)?,
                files: StudyFiles(read_files([c, s, h, k, p])?),
                unit: read_number(unit)?,
            }),
            ["fed", need, place, amounts] => Some(Case::Fed(read_lone(need, place, amounts)?)),
            _ => None,
        }
    }

    /// What the model answers.
    pub fn answer(self) -> String {
        match self {
            Case::Study { day, files, buffer } => answer_study(day, &files.lend(), buffer),
            Case::Release { day, unit } => match day.release(unit) {
                (day, Ok(())) => format!("ok {day}"),
                (_, Err(refusal)) => refusal.to_string(),
            },
            Case::Test(Lone { need, place, amounts }) => answer_tested(test(&amounts, place, need)),
            Case::Check { files } => check(files.lend()).to_string(),
            Case::Tidy { kind, file, buffer } => answer_tidy(kind, &file, buffer),
            Case::Preview { day, files, unit } => match day.preview(&files.lend(), unit) {
                Ok(row) => format!("ok {row}"),
                Err(refusal) => refusal.to_string(),
            },
            Case::Fed(Lone { need, place, amounts }) => answer_tested(test_fed(&amounts, place, need)),
        }
    }
}

fn answer_study(day: Day, files: &Files, buffer: u64) -> String {
    match lend(buffer, |lent| day.study(files, lent)) {
        (next, Ok(answer)) => format!("ok {} {next}", Hex(&answer)),
        (_, Err(other)) => other,
    }
}

fn answer_tested(result: Result<Tested, Refusal>) -> String {
    match result {
        Ok(tested) => format!("ok {} {}", tested.left, tested.verdict.letter()),
        Err(refusal) => refusal.to_string(),
    }
}

fn answer_tidy(kind: FileKind, file: &[u8], buffer: u64) -> String {
    match lend(buffer, |lent| ((), tidy(kind, file, lent))) {
        (_, Ok(bytes)) => format!("ok {}", Hex(&bytes)),
        (_, Err(other)) => other,
    }
}

/// What a call writes into a buffer of a length that was filled with a pattern first, beside what else
/// it gives back. Where it is refused or changes a byte that had to stay, the answer to its case instead.
fn lend<Beside>(
    length: u64,
    call: impl FnOnce(&mut [u8]) -> (Beside, Result<usize, Refusal>),
) -> (Beside, Result<Vec<u8>, String>) {
    let pattern: Vec<u8> = (0..length).map(|place| (place * 7 + 3) as u8).collect();
    let mut lent = pattern.clone();
    let (beside, result) = call(&mut lent);
    let written = *result.as_ref().unwrap_or(&0);
    if lent[written..] != pattern[written..] {
        return (beside, Err(SPOILT.to_string()));
    }
    lent.truncate(written);
    (beside, result.map(|_| lent).map_err(|refusal| refusal.to_string()))
}

impl Display for Refusal {
    fn fmt(&self, out: &mut Formatter) -> fmt::Result {
        write!(out, "no {} {} {}", self.number, self.file, self.place)
    }
}

impl Display for Day {
    fn fmt(&self, out: &mut Formatter) -> fmt::Result {
        if *self == Day::fresh() {
            return write!(out, "-");
        }
        match self.hour {
            Some(hour) => write!(out, "{hour};")?,
            None => write!(out, "n;")?,
        }
        for (index, Running { unit, kind, schedule }) in self.running.iter().enumerate() {
            let comma = if index == 0 { "" } else { "," };
            write!(out, "{comma}{unit}:{}:{schedule}", kind.letter())?;
        }
        Ok(())
    }
}

impl Display for ThreeFiles {
    fn fmt(&self, out: &mut Formatter) -> fmt::Result {
        write_files(&self.0, out)
    }
}

impl Display for StudyFiles {
    fn fmt(&self, out: &mut Formatter) -> fmt::Result {
        write_files(&self.0, out)
    }
}

fn write_files(files: &[Vec<u8>], out: &mut Formatter) -> fmt::Result {
    let words: Vec<String> = files.iter().map(|file| Hex(file).to_string()).collect();
    out.write_str(&words.join(" "))
}

impl Display for Lone {
    fn fmt(&self, out: &mut Formatter) -> fmt::Result {
        let amounts: Vec<String> = self.amounts.iter().map(u64::to_string).collect();
        let amounts = if amounts.is_empty() { ".".to_string() } else { amounts.join(",") };
        write!(out, "{} {} {amounts}", self.need, self.place)
    }
}

impl Display for Case {
    fn fmt(&self, out: &mut Formatter) -> fmt::Result {
        match self {
            Case::Study { day, files, buffer } => write!(out, "study {day} {files} {buffer}"),
            Case::Release { day, unit } => write!(out, "release {day} {unit}"),
            Case::Test(lone) => write!(out, "test {lone}"),
            Case::Check { files } => write!(out, "check {files}"),
            Case::Tidy { kind, file, buffer } => {
                write!(out, "tidy {} {} {buffer}", kind.number(), Hex(file))
            }
            Case::Preview { day, files, unit } => write!(out, "preview {day} {files} {unit}"),
            Case::Fed(lone) => write!(out, "fed {lone}"),
        }
    }
}

/// Bytes in lower-case hex, `.` for none.
pub struct Hex<'a>(pub &'a [u8]);

impl Display for Hex<'_> {
    fn fmt(&self, out: &mut Formatter) -> fmt::Result {
        if self.0.is_empty() {
            return out.write_str(".");
        }
        let digit = |value: u8| char::from(b"0123456789abcdef"[usize::from(value)]);
        for byte in self.0 {
            out.write_char(digit(byte >> 4))?;
            out.write_char(digit(byte & 15))?;
        }
        Ok(())
    }
}

/// The bytes that lower-case hex stands for.
pub fn read_hex(text: &str) -> Option<Vec<u8>> {
    match text {
        "" => return None,
        "." => return Some(Vec::new()),
        _ => {}
    }
    let digit = |byte: u8| match byte {
        b'0'..=b'9' => Some(byte - b'0'),
        b'a'..=b'f' => Some(byte - b'a' + 10),
        _ => None,
    };
    let pairs = text.as_bytes().chunks(2);
    let bytes = pairs.map(|pair| match pair {
        [high, low] => Some(digit(*high)? << 4 | digit(*low)?),
        _ => None,
    });
    bytes.collect()
}

/// A numeral below 2^64, with no sign and no leading zero.
fn read_number(text: &str) -> Option<u64> {
    let leading_zero = text.len() > 1 && text.starts_with('0');
    if leading_zero || !text.bytes().all(|byte| byte.is_ascii_digit()) {
        return None;
    }
    text.parse().ok()
}

/// The length of a buffer, up to the longest.
fn read_length(text: &str, longest: u64) -> Option<u64> {
    read_number(text).filter(|&length| length <= longest)
}

fn read_files<const COUNT: usize>(words: [&str; COUNT]) -> Option<[Vec<u8>; COUNT]> {
    let files: Vec<Vec<u8>> = words.into_iter().map(read_hex).collect::<Option<_>>()?;
    files.try_into().ok()
}

fn read_lone(need: &str, place: &str, amounts: &str) -> Option<Lone> {
    Some(Lone { need: read_number(need)?, place: read_number(place)?, amounts: read_amounts(amounts)? })
}

fn read_amounts(text: &str) -> Option<Vec<u64>> {
    if text == "." {
        return Some(Vec::new());
    }
    let amounts: Vec<u64> = text.split(',').map(read_number).collect::<Option<_>>()?;
    (amounts.len() <= LONGEST_LIST).then_some(amounts)
}

fn read_day(text: &str) -> Option<Day> {
    if text == "-" {
        return Some(Day::fresh());
    }
    let (hour, units) = text.split_once(';')?;
    let hour = if hour == "n" { None } else { Some(read_number(hour)?) };
    let running: Vec<Running> = match units {
        "" => Vec::new(),
        units => units.split(',').map(read_running).collect::<Option<_>>()?,
    };
    (running.len() <= LONGEST_LIST).then_some(Day { hour, running })
}

fn read_running(text: &str) -> Option<Running> {
    let words: Vec<&str> = text.split(':').collect();
    let [unit, kind, schedule] = words[..] else { return None };
    Some(Running {
        unit: read_number(unit)?,
        kind: Kind::read(kind.as_bytes())?,
        schedule: read_number(schedule)?,
    })
}

#[cfg(test)]
mod tests {
    use super::*;
    use crate::study::tests::Bytes;

    fn ask(line: &str) -> String {
        answer(line.as_bytes())
    }

    #[test]
    fn days_read_and_print() {
        assert_eq!(ask("release 5;1:M:2,7:C:9 1"), "ok 5;7:C:9");
        assert_eq!(ask("release 5;7:C:9 7"), "ok 5;");
        assert_eq!(ask("release n;7:C:9 7"), "ok -");
        assert_eq!(ask("release - 7"), "no 23 0 0");
        assert_eq!(ask("release n; 7"), "no 23 0 0");
        assert_eq!(ask("release 24; 7"), "no 24 0 0");
        assert_eq!(ask("release 5;18446744073709551615:C:1 7"), "no 24 0 0");
    }

    #[test]
    fn tests_and_checks() {
        assert_eq!(ask("test 2 3 4,3,2,1"), "ok 2 P");
        assert_eq!(ask("test 3 3 4,3,2,1"), "ok 2 F");
        assert_eq!(ask("test 3 0 ."), "no 11 0 0");
        assert_eq!(ask("check . . ."), "2");
        assert_eq!(ask("study - . . . . . 4096"), "no 2 1 0");
    }

    /// "hour,relief,cutoff" and a row, in hex.
    const HEADER: &str = "686f75722c72656c6965662c6375746f6666";
    const ROW: &str = "352c312c31";

    #[test]
    fn tidy_files() {
        let bare = format!("{HEADER}0d0a{ROW}");
        for room in [27, 28, 65_536] {
            assert_eq!(ask(&format!("tidy 1 {bare} {room}")), format!("ok {bare}0d0a"), "{room}");
        }
        assert_eq!(ask(&format!("tidy 1 {bare} 26")), "no 30 0 0");
        assert_eq!(ask(&format!("tidy 1 {HEADER} 0")), "no 4 1 0");
        assert_eq!(ask(&format!("tidy 2 {bare} 65536")), "no 2 2 0");
        assert_eq!(ask("tidy 3 . 65536"), "no 2 3 0");
    }

    #[test]
    fn previews() {
        let files = Bytes::starred().words();
        assert_eq!(ask(&format!("preview - {files} 14")), "ok 14,4,F,5000000,1,M,500000");
        assert_eq!(ask(&format!("preview - {files} 15")), "no 31 0 0");
        assert_eq!(ask(&format!("preview 6; {files} 15")), "no 20 0 0");
        assert_eq!(ask("preview - . . . . . 0"), "no 2 1 0");
    }

    #[test]
    fn fed_tests() {
        assert_eq!(ask("fed 2 3 4,3,2,1"), "ok 2 P");
        assert_eq!(ask("fed 3 3 4,3,2,1"), "ok 2 F");
        assert_eq!(ask("fed 0 3 4,3"), "no 11 0 0");
        assert_eq!(ask("fed 3 0 ."), "no 11 0 0");
        let ones = |count: usize| vec!["1"; count].join(",");
        assert_eq!(ask(&format!("fed 0 0 {}", ones(32))), "ok 29 P");
        for count in [33, 257, LONGEST_LIST] {
            assert_eq!(ask(&format!("fed 0 0 {}", ones(count))), "no 11 0 0", "{count}");
        }
        assert_eq!(ask(&format!("fed 0 0 {}", ones(LONGEST_LIST + 1))), UNREADABLE);
    }

    #[test]
    fn curves_stand_before_parents() {
        let files = Bytes::starred().with_curves(&["11,2,6,1,1"]).with_parents(&["1,1"]).words();
        assert_eq!(ask(&format!("study - {files} 0")), "no 32 4 1");
        assert_eq!(ask(&format!("preview - {files} 11")), "no 32 4 1");
    }

    #[test]
    fn a_byte_that_had_to_stay_spoils_the_case() {
        let call = |place: usize, result: Result<usize, Refusal>| {
            let change = |lent: &mut [u8]| {
                lent[place] ^= 1;
                ((), result)
            };
            lend(3, change).1
        };
        assert_eq!(call(1, Ok(2)), Ok(vec![3, 11]));
        assert_eq!(call(2, Ok(2)), Err(SPOILT.to_string()));
        assert_eq!(call(0, Err(Refusal::nowhere(30))), Err(SPOILT.to_string()));
        assert_eq!(lend(3, |_| ((), Err(Refusal::nowhere(30)))).1, Err("no 30 0 0".to_string()));
    }

    #[test]
    fn what_is_not_in_the_form_is_unreadable() {
        let lines = [
            "",
            " ",
            "study",
            "study - . . . . .",
            "study - . . . . 1",
            "study - . . . . . 4097",
            "study - . . . . . 1 1",
            "study - 0 . . . . 1",
            "study - . . . 0 . 1",
            "study - . . . . 0g 1",
            "release 5;18446744073709551616:C:1 7",
            "release 5;1:X:1 7",
            "release 5;1:M 7",
            "release 5 7",
            "release 5;1:M:1, 7",
            "test 1 0 18446744073709551616",
            "test 1 0 1,,2",
            "test 1 0",
            "test -1 0 1",
            "check . .",
            "Check . . .",
            "tidy",
            "tidy 1 .",
            "tidy . 1",
            "tidy 0 . 1",
            "tidy 4 . 1",
            "tidy 01 . 1",
            "tidy 1 0 1",
            "tidy 1 . 65537",
            "tidy 1 . . 1",
            "preview",
            "preview - . . . . 11",
            "preview - . . . . .",
            "preview - . . . . . .",
            "preview - . . . . . 011",
            "preview - . . . . . 18446744073709551616",
            "preview - . . . . . 11 4096",
            "preview - . . . 0 . 11",
            "preview - . . . . 0 11",
            "preview 5 . . . . . 11",
            "fed",
            "fed 1 0",
            "fed 1 0 1 1",
            "fed 1 0 1,,2",
            "fed 1 0 1,",
            "fed -1 0 1",
            "fed 1 01 1",
            "fed 1 . 1",
            "fed 1 0 18446744073709551616",
            "fed 1 18446744073709551616 1",
            "fed 18446744073709551616 0 1",
        ];
        for line in lines {
            assert_eq!(ask(line), UNREADABLE, "{line}");
        }
        assert_eq!(answer(b"check \xff . ."), UNREADABLE);
    }

    #[test]
    fn cases_print_as_they_are_read() {
        for line in [
            "study - 0aff . 00 31 0d0a 12",
            "release 7;1:M:2,3:C:4 5",
            "test 1 2 3,4",
            "test 0 0 .",
            "check . . 61",
            "tidy 1 . 0",
            "tidy 3 0aff 65536",
            "preview 7;1:M:2 0aff . 00 31 0d0a 18446744073709551615",
            "fed 1 2 3,4",
            "fed 18446744073709551615 18446744073709551615 18446744073709551615",
            "fed 0 0 .",
        ] {
            assert_eq!(Case::read(line.as_bytes()).unwrap().to_string(), line);
        }
    }
}

//! What a line asks, read from its words. Assumes nothing of the line, which may be of any length.

use capping::{Day, File, Files};

use crate::hex;

/// The longest buffer that a case may lend to a study, and to the tidying of a file.
pub const LONGEST_BUFFER: usize = 4_096;
pub const LONGEST_TIDY_BUFFER: usize = 65_536;

/// The most amounts that a case may have.
const MOST_AMOUNTS: usize = 1_000;

/// The bytes of constraint, supply and schedules.
pub type ThreeFiles = [Vec<u8>; 3];

/// The bytes of a study's files.
#[derive(Debug, PartialEq, Eq)]
pub struct StudyFiles {
    three: ThreeFiles,
    curves: Vec<u8>,
    parents: Vec<u8>,
}

impl StudyFiles {
    /// The files as a study and a preview take them.
    pub fn lent(&self) -> Files<'_> {
        let [constraint, supply, schedules] = &self.three;
        Files::new(constraint, supply, schedules).with_curves(&self.curves).with_parents(&self.parents)
    }
}

/// A test of one supplier.
#[derive(Debug, PartialEq, Eq)]
pub struct OneTest {
    pub need: u64,
    pub place: usize,
    pub amounts: Vec<u64>,
}

#[derive(Debug, PartialEq, Eq)]
pub enum Asked {
    Study { day: Day, files: StudyFiles, lent: usize },
    Preview { day: Day, files: StudyFiles, unit: u64 },
    Release { day: Day, unit: u64 },
    Tidy { file: File, bytes: Vec<u8>, lent: usize },
    Test(OneTest),
    Fed(OneTest),
    Check { files: ThreeFiles },
}

impl Asked {
    /// What a line asks, if it is in the form.
    pub fn read(line: &[u8]) -> Option<Asked> {
        let words: Vec<&[u8]> = line.split(|&byte| byte == b' ').collect();
        match words[..] {
            [b"study", day, c, s, h, k, p, lent] => Some(Asked::Study {
                day: read_day(day)?,
                files: read_study_files([c, s, h], k, p)?,
                lent: read_lent(lent, LONGEST_BUFFER)?,
            }),
            [b"preview", day, c, s, h, k, p, unit] => Some(Asked::Preview {
                day: read_day(day)?,
                files: read_study_files([c, s, h], k, p)?,
                unit: read_number(unit)?,
            }),
            [b"release", day, unit] => Some(Asked::Release { day: read_day(day)?, unit: read_number(unit)? }),
            [b"tidy", number, file, lent] => Some(Asked::Tidy {
                file: read_file_number(number)?,
                bytes: hex::read(file)?,
                lent: read_lent(lent, LONGEST_TIDY_BUFFER)?,
            }),
            [b"test", need, place, amounts] => read_test(need, place, amounts).map(Asked::Test),
            [b"fed", need, place, amounts] => read_test(need, place, amounts).map(Asked::Fed),
            [b"check", c, s, h] => Some(Asked::Check { files: read_files([c, s, h])? }),
            _ => None,
        }
    }
}

fn read_day(word: &[u8]) -> Option<Day> {
    std::str::from_utf8(word).ok()?.parse().ok()
}

fn read_files([constraint, supply, schedules]: [&[u8]; 3]) -> Option<ThreeFiles> {
    Some([hex::read(constraint)?, hex::read(supply)?, hex::read(schedules)?])
}

fn read_study_files(three: [&[u8]; 3], curves: &[u8], parents: &[u8]) -> Option<StudyFiles> {
    let (curves, parents) = (hex::read(curves)?, hex::read(parents)?);
    Some(StudyFiles { three: read_files(three)?, curves, parents })
}

fn read_file_number(word: &[u8]) -> Option<File> {
    match word {
        b"1" => Some(File::Constraint),
        b"2" => Some(File::Supply),
        b"3" => Some(File::Schedules),
        _ => None,
    }
}

fn read_lent(word: &[u8], longest: usize) -> Option<usize> {
    read_size(word).filter(|&lent| lent <= longest)
}

fn read_test(need: &[u8], place: &[u8], amounts: &[u8]) -> Option<OneTest> {
    Some(OneTest { need: read_number(need)?, place: read_size(place)?, amounts: read_amounts(amounts)? })
}

fn read_amounts(word: &[u8]) -> Option<Vec<u64>> {
    if word == b"." {
        return Some(Vec::new());
    }
    let amounts: Vec<u64> = word.split(|&byte| byte == b',').map(read_number).collect::<Option<_>>()?;
    (amounts.len() <= MOST_AMOUNTS).then_some(amounts)
}

fn read_size(word: &[u8]) -> Option<usize> {
    usize::try_from(read_number(word)?).ok()
}

/// A numeral below 2^64, with no sign and no leading zero.
fn read_number(word: &[u8]) -> Option<u64> {
    match word {
        b"0" => Some(0),
        [b'1'..=b'9', ..] => word.iter().try_fold(0, append),
        _ => None,
    }
}

/// A number with one digit more.
fn append(number: u64, digit: &u8) -> Option<u64> {
    let value = digit.is_ascii_digit().then(|| u64::from(digit - b'0'))?;
    number.checked_mul(10)?.checked_add(value)
}

#[cfg(test)]
mod tests {
    use super::*;

    fn read(line: &str) -> Option<Asked> {
        Asked::read(line.as_bytes())
    }

    fn day(words: &str) -> Day {
        words.parse().expect("words of a day")
    }

    #[test]
    fn each_case() {
        let files = || [vec![0x0a, 0xff], vec![], vec![0]];
        let all = || StudyFiles { three: files(), curves: vec![3], parents: vec![1, 2] };
        assert_eq!(
            read("study 5;1:M:2 0aff . 00 03 0102 12"),
            Some(Asked::Study { day: day("5;1:M:2"), files: all(), lent: 12 })
        );
        assert_eq!(
            read("preview 24;1:M:2 0aff . 00 03 0102 7"),
            Some(Asked::Preview { day: day("24;1:M:2"), files: all(), unit: 7 })
        );
        assert_eq!(read("release - 7"), Some(Asked::Release { day: Day::fresh(), unit: 7 }));
        for (number, file) in [(1, File::Constraint), (2, File::Supply), (3, File::Schedules)] {
            let tidy = Asked::Tidy { file, bytes: vec![0x0a, 0xff], lent: 12 };
            assert_eq!(read(&format!("tidy {number} 0aff 12")), Some(tidy));
        }
        let some = || OneTest { need: 1, place: 2, amounts: vec![3, 4] };
        let none = || OneTest { need: 0, place: 0, amounts: vec![] };
        assert_eq!(read("test 1 2 3,4"), Some(Asked::Test(some())));
        assert_eq!(read("test 0 0 ."), Some(Asked::Test(none())));
        assert_eq!(read("fed 1 2 3,4"), Some(Asked::Fed(some())));
        assert_eq!(read("fed 0 0 ."), Some(Asked::Fed(none())));
        assert_eq!(read("check 0aff . 00"), Some(Asked::Check { files: files() }));
    }

    #[test]
    fn numbers_up_to_64_bits() {
        let release = |word: &str| read(&format!("release - {word}"));
        let preview = |word: &str| read(&format!("preview - . . . . . {word}"));
        let largest = Asked::Release { day: Day::fresh(), unit: u64::MAX };
        assert_eq!(release("18446744073709551615"), Some(largest));
        let is_largest = |asked| matches!(asked, Asked::Preview { unit: u64::MAX, .. });
        assert!(preview("18446744073709551615").is_some_and(is_largest));
        let too_large = ["18446744073709551616", "18446744073709551625", "99999999999999999999"];
        let no_numeral = ["", "00", "07", "+7", "-7", "7\r", "7x", "x", "\u{0667}"];
        for word in too_large.iter().chain(&no_numeral) {
            assert_eq!(release(word), None, "{word}");
            assert_eq!(preview(word), None, "{word}");
        }
    }

    #[test]
    fn what_is_lent() {
        assert!(read("study - . . . . . 0").is_some());
        assert!(read("study - . . . . . 4096").is_some());
        assert_eq!(read("study - . . . . . 4097"), None);
        assert!(read("tidy 1 . 0").is_some());
        assert!(read("tidy 1 . 65536").is_some());
        assert_eq!(read("tidy 1 . 65537"), None);
    }

    #[test]
    fn as_many_amounts_as_a_case_may_have() {
        let line = |word: &str, count: usize| read(&format!("{word} 1 0 {}", vec!["7"; count].join(",")));
        let most = || OneTest { need: 1, place: 0, amounts: vec![7; 1_000] };
        assert_eq!(line("test", 1_000), Some(Asked::Test(most())));
        assert_eq!(line("fed", 1_000), Some(Asked::Fed(most())));
        assert_eq!(line("test", 1_001), None);
        assert_eq!(line("fed", 1_001), None);
    }

    #[test]
    fn files_of_any_length() {
        let file = || vec![0x61; 1 << 20];
        let three = || [file(), file(), file()];
        let words = |count| vec!["61".repeat(1 << 20); count].join(" ");
        assert_eq!(read(&format!("check {}", words(3))), Some(Asked::Check { files: three() }));
        let all = || StudyFiles { three: three(), curves: file(), parents: file() };
        assert_eq!(
            read(&format!("study - {} 7", words(5))),
            Some(Asked::Study { day: Day::fresh(), files: all(), lent: 7 })
        );
        assert_eq!(
            read(&format!("preview - {} 7", words(5))),
            Some(Asked::Preview { day: Day::fresh(), files: all(), unit: 7 })
        );
    }

    #[test]
    fn what_is_not_in_the_form() {
        let lines = [
            "",
            " ",
            "study",
            " study - . . . . . 1",
            "study  - . . . . . 1",
            "study - . . . . 1",
            "study - . . . . .",
            "study - . . . . . ",
            "study - . . . . . 1 ",
            "study - . . . . . 1 1",
            "study - . . . . . . 1",
            "study - 0 . . . . 1",
            "study - 0g . . . . 1",
            "study - . . . 0A . 1",
            "study - . . . . 0A 1",
            "study - .. . . . . 1",
            "study -  . . . . 1",
            "preview",
            "preview 7",
            "preview - . . . . 7",
            "preview - . . . . .",
            "preview - . . . . . ",
            "preview - . . . . . 7 ",
            "preview - . . . . . 7 7",
            "preview - . . . . . . 7",
            "preview  . . . . . 7",
            "preview 5 . . . . . 7",
            "preview - 0 . . . . 7",
            "preview - . . . 0A . 7",
            "preview - . . . . 0A 7",
            "Preview - . . . . . 7",
            "release",
            "release -",
            "release - ",
            "release 5 7",
            "release 5;18446744073709551616:C:1 7",
            "release 5;1:X:1 7",
            "release 5;1:M 7",
            "release 5;1:M:1, 7",
            "release 5;1:M:1 7 7",
            "tidy 1 .",
            "tidy 1 . ",
            "tidy 0 . 1",
            "tidy 4 . 1",
            "tidy 5 . 1",
            "tidy 01 . 1",
            "tidy 1 0 1",
            "tidy 1 . 01",
            "tidy 1 . 1 1",
            "tidy 1 . . 1",
            "test 1 0",
            "test 1 0 ",
            "test -1 0 1",
            "test 1 18446744073709551616 1",
            "test 1 0 1,,2",
            "test 1 0 1,",
            "test 1 0 1 2",
            "test 1 0 .,1",
            "fed",
            "fed 1 0",
            "fed 1 0 ",
            "fed -1 0 1",
            "fed 1 -1 1",
            "fed 1 0 -1",
            "fed 1 18446744073709551616 1",
            "fed 18446744073709551616 0 1",
            "fed 1 0 18446744073709551616",
            "fed 1 0 01",
            "fed 1 0 1,,2",
            "fed 1 0 1,",
            "fed 1 0 1 2",
            "fed 1 0 .,1",
            "fed 1 0 1 ",
            "Fed 1 0 1",
            "feed 1 0 1",
            "check . .",
            "check . . . .",
            "check . . 1",
            "Check . . .",
            "check\t. . .",
        ];
        for line in lines {
            assert_eq!(read(line), None, "{line}");
        }
        assert_eq!(Asked::read(b"check \xff . ."), None);
        assert_eq!(Asked::read(b"release 5;\xff:M:1 1"), None);
    }
}

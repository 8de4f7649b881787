//! Releases, and lines that can't be read.

use super::draft::others_running;
use super::faults::spoil_day;
use super::random::Random;
use super::Line;
use crate::case::Case;
use crate::day::Day;

/// A release, most often of a running unit.
pub fn make_release(random: &mut Random) -> Case {
    let count = random.pick(&[0, 1, 1, 2, 3, 10, 63, 64]);
    let mut running = others_running(count, &[], random);
    running.sort_by_key(|running| running.unit);
    let hour = if random.percent(30) { None } else { Some(random.between(0, 23)) };
    let mut day = Day { hour, running };
    let unit = if count > 0 && random.percent(60) {
        random.pick(&day.running).unit
    } else {
        random.pick(&[0, 1, 9_999, 10_000, 65_537, u64::MAX])
    };
    if random.percent(20) {
        spoil_day(&mut day, random);
    }
    Case::Release { day, unit }
}

/// A line that can't be read.
pub fn make_unreadable(random: &mut Random) -> Line {
    // Each with whether every reader takes it for unreadable.
    let (line, common): (&str, bool) = random.pick(&[
        ("", false),
        ("study - . . . . . 4097", false),
        ("study - . . . . . 65536", false),
        ("study - . . . . . 18446744073709551616", true),
        ("release 18446744073709551616; 1", false),
        ("release 5;18446744073709551616:M:1 1", false),
        ("release 5;18446744073709551617:M:1 1", false),
        ("release 5;1:M:18446744073709551617 1", false),
        ("release 5;1:M:1 18446744073709551617", false),
        ("release 5;1:M:1 99999999999999999999999999999999", false),
        ("study 5;1:M:18446744073709551617 . . . . . 47", false),
        ("test 18446744073709551616 0 1,2", false),
        ("test 0 18446744073709551616 1,2", false),
        ("test 0 0 18446744073709551616,2", false),
        ("test 0 0 1,18446744073709551617", false),
        ("study", true),
        ("study - . . . . .", true),
        ("study - . . .", true),
        ("study - . . . 47", true),
        ("study - . . . . 47", true),
        ("study - . . . . . . 47", true),
        ("study - . . . . . x", true),
        ("study - . . . . . -1", true),
        ("study - 0 . . . . 47", true),
        ("study - . 686 . . . 47", true),
        ("study - . . 6g . . 47", true),
        ("study - . . . 6g . 47", true),
        ("study - . . . . 6 47", true),
        ("study - . . . . 0D0A 47", false),
        ("study - . . . .  47", true),
        ("study - . . .  . 47", true),
        ("study - 68:6 . . . . 47", true),
        ("study x . . . . . 47", true),
        ("study 5 . . . . . 47", false),
        ("study ; . . . . . 47", true),
        ("study 5;1 . . . . . 47", true),
        ("study 5;1:M . . . . . 47", true),
        ("study 5;1:X:1 . . . . . 47", true),
        ("study 5;1:m:1 . . . . . 47", true),
        ("study 5;1:MC:1 . . . . . 47", true),
        ("study 5;x:M:1 . . . . . 47", true),
        ("study 5;1:M:-1 . . . . . 47", true),
        ("release", true),
        ("release -", true),
        ("release - x", true),
        ("release - -1", true),
        ("release 5;1:M:x 1", true),
        ("test", true),
        ("test 1", true),
        ("test 1 0", true),
        ("test 1 0 x", true),
        ("test 1 x 1", true),
        ("test x 0 1", true),
        ("test 1 0 1,x", true),
        ("test 1 0 1,,2", true),
        ("test 1 0 -1", true),
        ("check", true),
        ("check . .", true),
        ("check . . 1", true),
        ("check . . . .", true),
        ("check x . .", true),
        ("tidy", true),
        ("tidy 1", true),
        ("tidy 1 .", true),
        ("tidy 1 47", true),
        ("tidy 0 . 47", true),
        ("tidy 4 . 47", true),
        ("tidy 5 . 47", true),
        ("tidy x . 47", true),
        ("tidy 1 x 47", true),
        ("tidy 2 686 47", true),
        ("tidy 3 . x", true),
        ("tidy 3 . -1", true),
        ("tidy 3 . 65537", false),
        ("tidy 1 . . . 47", true),
        ("preview", true),
        ("preview -", true),
        ("preview - . . . . .", true),
        ("preview - . . . 11", true),
        ("preview - . . . . 11", true),
        ("preview - . . . . . .", true),
        ("preview - . . . . . x", true),
        ("preview - . . . . . -1", true),
        ("preview - . . . . . 18446744073709551616", false),
        ("preview - . . . . . 18446744073709551627", false),
        ("preview - . . . . . 11 4096", true),
        ("preview - . . . . . . 11", true),
        ("preview - . 686 . . . 11", true),
        ("preview - . . . 6g . 11", true),
        ("preview - . . . . 6g 11", true),
        ("preview x . . . . . 11", true),
        ("preview 5;11:X:1 . . . . . 11", true),
        ("fed", true),
        ("fed 1", true),
        ("fed 1 0", true),
        ("fed 1 0 x", true),
        ("fed 1 x 1", true),
        ("fed x 0 1", true),
        ("fed 1 0 1,x", true),
        ("fed 1 0 1,,2", true),
        ("fed 1 0 -1", true),
        ("fed 1 0 1 2", true),
        ("fed 18446744073709551616 0 1,2", false),
        ("fed 0 18446744073709551616 1,2", false),
        ("fed 0 0 1,18446744073709551617", false),
        ("studies - . . . . . 47", true),
        ("5", true),
        ("-", true),
        (".", true),
    ]);
    Line { bytes: line.as_bytes().to_vec(), common }
}

//! How often each refusal and each verdict was reached by the cases of a run, what parents, curves and costs
//! above 2,000 dollars did, what was handed back tidy, what was previewed, and what the test was fed with.

use std::collections::BTreeMap;
use std::fmt::{self, Display, Formatter};
use std::ops::RangeInclusive;

use crate::case::{read_hex, Case, StudyFiles, UNREADABLE};
use crate::day::Day;
use crate::feeding::{self, Feeding};
use crate::grouping::Grouping;
use crate::offering::{self, Offering};
use crate::pricing::{self, Pricing};
use crate::table::read_supply;

/// Something that a case can reach.
#[derive(Clone, Copy, Debug, PartialEq, Eq, PartialOrd, Ord)]
pub enum Reached {
    /// A refusal of a study, a release or a lone test on a list, by number and file.
    Refusal(u64, u64),
    /// A refusal of curves or parents beyond 1 to 4, by number and the band of its place.
    Place(u64, u64),
    /// What a check answered.
    Check(u64),
    /// A row of an accepted study, by its verdict.
    Row(char),
    /// A lone test on a list, by its verdict.
    Test(char),
    Study,
    Release,
    Unreadable,
    /// An accepted study with rows of parents, by the band of the longest chain that was followed.
    Chain(u64),
    /// Such a study in which suppliers are one group under a head that isn't in supply, ..
    AbsentHead,
    /// .. with a group that has no member in supply, ..
    AbsentGroup,
    /// .. whose answer is another than without parents, ..
    AnswerMoved,
    /// .. and one in which a verdict is another.
    VerdictMoved,
    /// What curves did in a study or a preview.
    Curves(Pricing),
    /// What costs and prices around 2,000 dollars and at the highest did.
    Offers(Offering),
    /// A refusal of a file to be handed back tidy, by number and file.
    NotTidied(u64, u64),
    /// A file that was handed back tidy, by its number, ..
    Tidied(u64),
    /// .. one whose bytes had been tidy already, ..
    AlreadyTidy(u64),
    /// .. one in a buffer that just held it, ..
    TidyFitting(u64),
    /// .. and one with as many rows as there may be.
    TidyFull(u64),
    /// A refusal of a preview, by number and file.
    NotPreviewed(u64, u64),
    /// A refusal, by its number, of a preview whose unit the supply file doesn't have: 31 comes after it.
    BeforeThirtyOne(u64),
    /// A preview refused with 31, of a unit that the day has running, ..
    AbsentRunning,
    /// .. and one of a number that no unit has.
    AbsentBeyond,
    /// A previewed row, by its verdict, ..
    Previewed(char),
    /// .. one that is another on a fresh day, ..
    PreviewedByDay,
    /// .. one that is another without parents, ..
    PreviewedByParents,
    /// .. and one that is another without curves.
    PreviewedByCurves,
    /// What a list did that the test was fed with.
    Fed(Feeding),
}

/// The verdicts of a study's rows.
const VERDICTS: [char; 3] = ['U', 'P', 'F'];

/// The numbers that a unit can have.
const UNITS: RangeInclusive<u64> = 1..=9_999;

/// The files, as refusals name them; 0 for none.
const FILES: [u64; 6] = [0, 1, 2, 3, 4, 5];

/// A refusal's number, with the files that it can name.
type Named = (u64, &'static [u64]);

/// The refusals of a study, a release or a lone test on a list.
const REFUSALS: [Named; 21] = [
    (1, &[1, 2, 3, 4, 5]),
    (2, &[1, 2, 3, 4, 5]),
    (3, &[1, 2, 3, 4, 5]),
    (4, &[1, 2, 3, 4, 5]),
    (5, &[2]),
    (6, &[2, 3]),
    (7, &[3]),
    (8, &[3]),
    (9, &[3]),
    (10, &[0]),
    (11, &[0]),
    (20, &[0]),
    (21, &[3]),
    (22, &[0]),
    (23, &[0]),
    (24, &[0]),
    (32, &[4]),
    (33, &[4]),
    (34, &[4]),
    (35, &[5]),
    (36, &[5]),
];

/// The refusals of a file to be handed back tidy.
const TIDY_REFUSALS: [Named; 7] =
    [(1, &[1, 2, 3]), (2, &[1, 2, 3]), (3, &[1, 2, 3]), (4, &[1, 2, 3]), (5, &[2]), (6, &[2, 3]), (30, &[0])];

/// Something that a file can reach, by its number.
type ByFile = fn(u64) -> Reached;

/// What can be said of a file that was handed back tidy, in words.
const TIDIED: [(&str, ByFile); 4] = [
    ("tidied", Reached::Tidied),
    ("tidy already", Reached::AlreadyTidy),
    ("in a fitting buffer", Reached::TidyFitting),
    ("of all rows", Reached::TidyFull),
];

/// The refusals that a preview hasn't: that of a short buffer, of a lone test and of a release.
const NOT_OF_A_PREVIEW: [u64; 3] = [10, 11, 23];

/// The refusal of a preview that comes after all others.
const ABSENT: u64 = 31;

/// What else can be said of a preview, in words.
const LOOKED_AT: [(&str, Reached); 5] = [
    ("31 of a running unit", Reached::AbsentRunning),
    ("31 of a number that no unit has", Reached::AbsentBeyond),
    ("another row than on a fresh day", Reached::PreviewedByDay),
    ("another row than without parents", Reached::PreviewedByParents),
    ("another row than without curves", Reached::PreviewedByCurves),
];

/// What else parents can do in an accepted study, in words.
const MOVED: [(&str, Reached); 4] = [
    ("head not in supply", Reached::AbsentHead),
    ("group not in supply", Reached::AbsentGroup),
    ("another answer than without", Reached::AnswerMoved),
    ("another verdict", Reached::VerdictMoved),
];

/// The least numbers of the bands in which places and steps of chains are counted.
const BANDS: [u64; 7] = [0, 1, 2, 3, 10, 64, 1_000];

/// The bands of a chain, which has 64 steps at most.
const CHAINS: [u64; 6] = [0, 1, 2, 3, 10, 64];

/// Where these can be: a point that doesn't rise, and a second parent, have a record before them.
const PLACES: [(u64, &[u64]); 5] = [
    (32, &[1, 2, 3, 10, 64, 1_000]),
    (33, &[2, 3, 10, 64, 1_000]),
    (34, &[1, 2, 3, 10, 64, 1_000]),
    (35, &[2, 3, 10, 64]),
    (36, &[1, 2, 3, 10, 64]),
];

/// The least number of the band of a number.
fn band(number: u64) -> u64 {
    BANDS.into_iter().rfind(|&least| least <= number).unwrap_or(0)
}

/// The counts of a run.
#[derive(Default)]
pub struct Tally {
    counts: BTreeMap<Reached, u64>,
    /// The smallest and the largest place of the refusals whose places are counted.
    ends: BTreeMap<u64, (u64, u64)>,
}

impl Tally {
    /// Counts what a case and its answer reached.
    pub fn count(&mut self, case: &[u8], answer: &str) {
        for reached in reached(case, answer) {
            *self.counts.entry(reached).or_default() += 1;
        }
        if let Some((number, place)) = placed(answer) {
            let (smallest, largest) = self.ends.entry(number).or_insert((place, place));
            (*smallest, *largest) = (place.min(*smallest), place.max(*largest));
        }
    }

    /// What can occur and never did.
    pub fn missing(&self) -> Vec<Reached> {
        can_occur().into_iter().filter(|&reached| self.of(reached) == 0).collect()
    }

    fn of(&self, reached: Reached) -> u64 {
        self.counts.get(&reached).copied().unwrap_or(0)
    }

    /// Where the refusals of curves and parents were.
    fn show_places(&self, out: &mut Formatter) -> fmt::Result {
        for (number, places) in PLACES {
            write!(out, "{number} at a place from")?;
            for &place in places {
                write!(out, "  {place}: {}", self.of(Reached::Place(number, place)))?;
            }
            match self.ends.get(&number) {
                Some((smallest, largest)) => writeln!(out, ", smallest {smallest}, largest {largest}")?,
                None => writeln!(out)?,
            }
        }
        Ok(())
    }

    /// What curves did.
    fn show_curves(&self, out: &mut Formatter) -> fmt::Result {
        let of = |said| self.of(Reached::Curves(said));
        let said = pricing::SAID.map(|(what, said)| format!("{what}: {}", of(said)));
        writeln!(out, "{}", said.join(", "))?;
        for (first, other) in pricing::PAIRS {
            let (earlier, later) = (Pricing::BesideEarlier(first, other), Pricing::BesideLater(first, other));
            writeln!(
                out,
                "{first} with {other} at an earlier record: {}, at a later: {}",
                of(earlier),
                of(later)
            )?;
        }
        for number in pricing::OF_CURVES {
            write!(out, "{number} alone: {}; behind", of(Pricing::Alone(number)))?;
            for before in pricing::BEFORE {
                write!(out, "  {before}: {}", of(Pricing::Before(before, number)))?;
            }
            write!(out, "; before")?;
            for behind in pricing::BEHIND {
                write!(out, "  {behind}: {}", of(Pricing::Behind(number, behind)))?;
            }
            writeln!(out)?;
        }
        Ok(())
    }

    /// What costs and prices around 2,000 dollars and at the highest did.
    fn show_offers(&self, out: &mut Formatter) -> fmt::Result {
        let of = |said| self.of(Reached::Offers(said));
        for (what, given) in offering::GIVEN {
            write!(out, "{what} above 2,000 dollars: {}", of(Offering::Above(given)))?;
            for number in offering::EDGES {
                write!(out, ", at {number}: {}", of(Offering::At(given, number)))?;
            }
            writeln!(out)?;
        }
        let said = offering::SAID.map(|(what, said)| format!("{what}: {}", of(said)));
        writeln!(out, "{}", said.join(", "))?;
        write!(out, "a cent above the highest")?;
        for table in offering::PRICED {
            write!(out, ", in file {}: {}", table.file, of(Offering::TooHigh(table.file)))?;
        }
        for table in offering::PRICED_ALONE {
            write!(out, ", in file {} alone: {}", table.file, of(Offering::TooHighAlone(table.file)))?;
        }
        for table in offering::PRICED_ALONE {
            write!(
                out,
                ", at the highest in file {}: {}",
                table.file,
                of(Offering::TidyHighest(table.file))
            )?;
        }
        writeln!(out)
    }

    /// What parents did.
    fn show_parents(&self, out: &mut Formatter) -> fmt::Result {
        write!(out, "longest chain, in steps from")?;
        for steps in CHAINS {
            write!(out, "  {steps}: {}", self.of(Reached::Chain(steps)))?;
        }
        let accepted: u64 = CHAINS.iter().map(|&steps| self.of(Reached::Chain(steps))).sum();
        write!(out, "\nstudies accepted with parents: {accepted}")?;
        for (what, reached) in MOVED {
            write!(out, ", {what}: {}", self.of(reached))?;
        }
        writeln!(out)
    }

    /// What was handed back tidy.
    fn show_tidy(&self, out: &mut Formatter) -> fmt::Result {
        writeln!(out, "tidy       file 0    file 1    file 2    file 3")?;
        self.show_refusals(&TIDY_REFUSALS, &FILES[..4], Reached::NotTidied, out)?;
        for (what, reached) in TIDIED {
            let [constraint, supply, schedules] = [1, 2, 3].map(|file| self.of(reached(file)));
            writeln!(out, "{what}: {constraint} of file 1, {supply} of file 2, {schedules} of file 3")?;
        }
        Ok(())
    }

    /// What was previewed.
    fn show_previews(&self, out: &mut Formatter) -> fmt::Result {
        writeln!(out, "preview    file 0    file 1    file 2    file 3    file 4    file 5")?;
        self.show_refusals(&preview_refusals(), &FILES, Reached::NotPreviewed, out)?;
        write!(out, "of a unit not in supply, before 31")?;
        for (number, _) in refused_before() {
            write!(out, "  {number}: {}", self.of(Reached::BeforeThirtyOne(number)))?;
        }
        let [untested, passed, failed] = VERDICTS.map(|verdict| self.of(Reached::Previewed(verdict)));
        let accepted = untested + passed + failed;
        write!(out, "\npreviews accepted: {accepted}, rows U: {untested}, P: {passed}, F: {failed}")?;
        for (what, reached) in LOOKED_AT {
            write!(out, ", {what}: {}", self.of(reached))?;
        }
        writeln!(out)
    }

    /// What the test was fed with.
    fn show_fed(&self, out: &mut Formatter) -> fmt::Result {
        let of = |said| self.of(Reached::Fed(said));
        let said = feeding::SAID.map(|(what, said)| format!("{what}: {}", of(said)));
        write!(out, "fed      {}\nin lists of", said.join(", "))?;
        for length in feeding::LENGTHS {
            write!(out, "  {length}: {}", of(Feeding::Length(length)))?;
        }
        writeln!(out)
    }

    /// A line for each refusal, with a count for each file that it can name.
    fn show_refusals(
        &self,
        refusals: &[Named],
        columns: &[u64],
        reached: fn(u64, u64) -> Reached,
        out: &mut Formatter,
    ) -> fmt::Result {
        for (number, files) in refusals {
            write!(out, "{number:7}")?;
            for file in columns {
                match files.contains(file) {
                    true => write!(out, "{:10}", self.of(reached(*number, *file)))?,
                    false => write!(out, "{:>10}", ".")?,
                }
            }
            writeln!(out)?;
        }
        Ok(())
    }
}

/// Each refusal with each file that it can name.
fn each(refusals: &[Named], reached: fn(u64, u64) -> Reached) -> Vec<Reached> {
    let of_files = |(number, files): &Named| files.iter().map(|&file| reached(*number, file)).collect();
    refusals.iter().flat_map::<Vec<Reached>, _>(of_files).collect()
}

/// The refusals of a preview that come before 31.
fn refused_before() -> impl Iterator<Item = Named> {
    REFUSALS.into_iter().filter(|(number, _)| !NOT_OF_A_PREVIEW.contains(number))
}

/// The refusals of a preview.
fn preview_refusals() -> Vec<Named> {
    refused_before().chain([(ABSENT, &[0][..])]).collect()
}

/// Everything that a right engine can be brought to.
fn can_occur() -> Vec<Reached> {
    let mut all = each(&REFUSALS, Reached::Refusal);
    all.extend(each(&TIDY_REFUSALS, Reached::NotTidied));
    for (_, reached) in TIDIED {
        all.extend([1, 2, 3].map(reached));
    }
    all.extend(each(&preview_refusals(), Reached::NotPreviewed));
    all.extend(refused_before().map(|(number, _)| Reached::BeforeThirtyOne(number)));
    all.extend(VERDICTS.map(Reached::Previewed));
    all.extend(LOOKED_AT.map(|(_, reached)| reached));
    all.extend((0..=9).map(Reached::Check));
    all.extend(VERDICTS.map(Reached::Row));
    all.extend(['P', 'F'].map(Reached::Test));
    all.extend([Reached::Study, Reached::Release, Reached::Unreadable]);
    for (number, places) in PLACES {
        all.extend(places.iter().map(|&place| Reached::Place(number, place)));
    }
    all.extend(Pricing::all().into_iter().map(Reached::Curves));
    all.extend(Offering::all().into_iter().map(Reached::Offers));
    all.extend(Feeding::all().into_iter().map(Reached::Fed));
    all.extend(CHAINS.map(Reached::Chain));
    all.extend(MOVED.map(|(_, reached)| reached));
    all
}

/// Number and place of an answer that is a refusal whose places are counted.
fn placed(answer: &str) -> Option<(u64, u64)> {
    let words: Vec<&str> = answer.split(' ').collect();
    let ["no", number, _, place] = words[..] else { return None };
    let number = count(number);
    PLACES.iter().any(|(counted, _)| *counted == number).then(|| (number, count(place)))
}

/// What one case reached: by itself, by the place of its refusal, by its curves and by its costs and prices.
fn reached(case: &[u8], answer: &str) -> Vec<Reached> {
    let mut all = reached_by_answer(case, answer);
    all.extend(placed(answer).map(|(number, place)| Reached::Place(number, band(place))));
    all.extend(Pricing::of(case, answer).into_iter().map(Reached::Curves));
    all.extend(Offering::of(case, answer).into_iter().map(Reached::Offers));
    all
}

/// What one case reached, by its first word and its answer.
fn reached_by_answer(case: &[u8], answer: &str) -> Vec<Reached> {
    let asked = case.split(|&byte| byte == b' ').next().unwrap_or_default();
    let words: Vec<&str> = answer.split(' ').collect();
    match (asked, &words[..]) {
        _ if answer == UNREADABLE => vec![Reached::Unreadable],
        (b"preview", _) => reached_by_preview(case, answer),
        (b"fed", _) => Feeding::of(case, answer).into_iter().map(Reached::Fed).collect(),
        (b"tidy", ["no", number, file, _]) => vec![Reached::NotTidied(count(number), count(file))],
        (b"tidy", ["ok", hex]) => reached_by_tidy(case, hex),
        (_, ["no", number, file, _]) => vec![Reached::Refusal(count(number), count(file))],
        (b"study", ["ok", hex, _]) => {
            let rows = verdicts(hex).into_iter().map(Reached::Row);
            rows.chain([Reached::Study]).chain(reached_by_parents(case, answer)).collect()
        }
        (b"release", _) => vec![Reached::Release],
        (b"test", ["ok", _, verdict]) => verdict.chars().map(Reached::Test).collect(),
        (b"check", [number]) => vec![Reached::Check(count(number))],
        _ => Vec::new(),
    }
}

/// What the parents of an accepted study reached, if it has any.
fn reached_by_parents(case: &[u8], answer: &str) -> Vec<Reached> {
    let Some(grouping) = Grouping::of(case) else { return Vec::new() };
    let file = |answer: &str| answer.split(' ').nth(1).unwrap_or_default().to_string();
    let (with, without) = (file(answer), file(&grouping.without_parents));
    let found = [
        (grouping.absent_head, Reached::AbsentHead),
        (grouping.absent_group, Reached::AbsentGroup),
        (with != without, Reached::AnswerMoved),
        (verdicts(&with) != verdicts(&without), Reached::VerdictMoved),
    ];
    let found = found.into_iter().filter(|(reached, _)| *reached).map(|(_, what)| what);
    found.chain([Reached::Chain(band(grouping.longest_chain))]).collect()
}

/// What a file reached that was handed back tidy, in hex.
fn reached_by_tidy(case: &[u8], hex: &str) -> Vec<Reached> {
    let Some(Case::Tidy { kind, file, buffer }) = Case::read(case) else { return Vec::new() };
    let tidy = read_hex(hex).unwrap_or_default();
    let records = tidy.iter().filter(|&&byte| byte == b'\n').count();
    let found = [
        (true, Reached::Tidied(kind.number())),
        (file == tidy, Reached::AlreadyTidy(kind.number())),
        (tidy.len() as u64 == buffer, Reached::TidyFitting(kind.number())),
        (records == 1 + kind.table().rows.end(), Reached::TidyFull(kind.number())),
    ];
    found.into_iter().filter(|(reached, _)| *reached).map(|(_, what)| what).collect()
}

/// What a preview reached.
fn reached_by_preview(case: &[u8], answer: &str) -> Vec<Reached> {
    let Some(Case::Preview { day, files, unit }) = Case::read(case) else { return Vec::new() };
    let words: Vec<&str> = answer.split([' ', ',']).collect();
    let (what, found) = match words[..] {
        ["no", number, file, _] => {
            let number = count(number);
            let found = vec![
                (number != ABSENT && !supplies(&files, unit), Reached::BeforeThirtyOne(number)),
                (number == ABSENT && day.kind_of(unit).is_some(), Reached::AbsentRunning),
                (number == ABSENT && !UNITS.contains(&unit), Reached::AbsentBeyond),
            ];
            (Reached::NotPreviewed(number, count(file)), found)
        }
        ["ok", _, _, verdict, ..] => {
            let other = |day, files| Case::Preview { day, files, unit }.answer();
            let without = |place| other(day.clone(), files.clone().without(place));
            let found = vec![
                (other(Day::fresh(), files.clone()) != answer, Reached::PreviewedByDay),
                (without(StudyFiles::PARENTS) != answer, Reached::PreviewedByParents),
                (without(StudyFiles::CURVES) != answer, Reached::PreviewedByCurves),
            ];
            (Reached::Previewed(verdict.chars().next().unwrap_or_default()), found)
        }
        _ => return Vec::new(),
    };
    let found = found.into_iter().filter(|(reached, _)| *reached).map(|(_, what)| what);
    [what].into_iter().chain(found).collect()
}

/// Whether the supply file can be read and has the unit.
fn supplies(files: &StudyFiles, unit: u64) -> bool {
    read_supply(files.lend().supply).is_ok_and(|rows| rows.iter().any(|row| row.unit == unit))
}

fn count(word: &str) -> u64 {
    word.parse().unwrap_or(u64::MAX)
}

/// The verdicts of the rows of an answer file in hex.
pub fn verdicts(hex: &str) -> Vec<char> {
    let answer = read_hex(hex).unwrap_or_default();
    let text = String::from_utf8_lossy(&answer);
    text.lines().skip(1).filter_map(|row| row.split(',').nth(2)?.chars().next()).collect()
}

impl Display for Tally {
    fn fmt(&self, out: &mut Formatter) -> fmt::Result {
        writeln!(out, "refusal    file 0    file 1    file 2    file 3    file 4    file 5")?;
        self.show_refusals(&REFUSALS, &FILES, Reached::Refusal, out)?;
        write!(out, "check  ")?;
        for number in 0..=9 {
            write!(out, "  {number}: {}", self.of(Reached::Check(number)))?;
        }
        writeln!(out)?;
        let rows = VERDICTS.map(|verdict| self.of(Reached::Row(verdict)));
        let studies = self.of(Reached::Study);
        writeln!(out, "studies  accepted: {studies}, rows U: {}, P: {}, F: {}", rows[0], rows[1], rows[2])?;
        let tests = ['P', 'F'].map(|verdict| self.of(Reached::Test(verdict)));
        writeln!(out, "tests    P: {}, F: {}", tests[0], tests[1])?;
        writeln!(out, "releases accepted: {}", self.of(Reached::Release))?;
        self.show_places(out)?;
        self.show_curves(out)?;
        self.show_offers(out)?;
        self.show_parents(out)?;
        self.show_tidy(out)?;
        self.show_previews(out)?;
        self.show_fed(out)?;
        write!(out, "unreadable: {}", self.of(Reached::Unreadable))
    }
}

#[cfg(test)]
mod tests {
    use super::*;
    use crate::case::{self, Hex};
    use crate::generator;
    use crate::study::tests::Bytes;

    #[test]
    fn answers_count_by_what_they_say() {
        assert_eq!(reached(b"test 1 0 1", "ok 0 F"), [Reached::Test('F')]);
        assert_eq!(reached(b"release - 1", "no 23 0 0"), [Reached::Refusal(23, 0)]);
        assert_eq!(reached(b"check . . .", "2"), [Reached::Check(2)]);
        assert_eq!(reached(b"", UNREADABLE), [Reached::Unreadable]);
        let ring = reached(b"study", "no 36 5 12");
        assert_eq!(ring, [Reached::Refusal(36, 5), Reached::Place(36, 10)]);
        assert_eq!(reached(b"study", "no 33 4 2"), [Reached::Refusal(33, 4), Reached::Place(33, 2)]);
        assert_eq!([0, 1, 2, 9, 63, 999, 4_096].map(band), [0, 1, 2, 3, 10, 64, 1_000]);
    }

    #[test]
    fn parents_count_by_what_they_move() {
        let reached = |parents: &[&str]| {
            let bytes = Bytes::starred().with_parents(parents);
            let line = format!("study - {} 4096", bytes.words());
            reached_by_parents(line.as_bytes(), &case::answer(line.as_bytes()))
        };
        assert_eq!(reached(&[]), []);
        assert_eq!(reached(&["4,5"]), [Reached::Chain(1)]);
        assert_eq!(reached(&["5,6"]), [Reached::AbsentGroup, Reached::Chain(0)]);
        assert_eq!(reached(&["4,5", "1,5"]), [Reached::AbsentHead, Reached::AnswerMoved, Reached::Chain(1)]);
    }

    #[test]
    fn tidy_files_count_by_what_they_were() {
        let reached = |file: &str, buffer: u64| {
            let line = format!("tidy 2 {} {buffer}", Hex(file.as_bytes()));
            reached(line.as_bytes(), &case::answer(line.as_bytes()))
        };
        let header = "unit,supplier,mw,cost,dfax";
        let already = [Reached::Tidied(2), Reached::AlreadyTidy(2)];
        assert_eq!(reached(header, 29), [Reached::Tidied(2)]);
        assert_eq!(reached(header, 28), [Reached::Tidied(2), Reached::TidyFitting(2)]);
        assert_eq!(reached(header, 27), [Reached::NotTidied(30, 0)]);
        assert_eq!(reached(&format!("{header}\r\n"), 29), already);
        assert_eq!(reached("", 29), [Reached::NotTidied(2, 2)]);
        let full = format!("{header}{}", "\r\n1,1,1,1,1".repeat(256));
        assert_eq!(reached(&full, 65_536), [Reached::Tidied(2), Reached::TidyFull(2)]);
    }

    #[test]
    fn previews_count_by_what_they_show() {
        let bytes = Bytes::starred().with_parents(&["1,2"]);
        let reached = |day: &str, unit: u64| {
            let line = format!("preview {day} {} {unit}", bytes.words());
            reached(line.as_bytes(), &case::answer(line.as_bytes()))
        };
        assert_eq!(reached("-", 11), [Reached::Previewed('F')]);
        assert_eq!(reached("-", 14), [Reached::Previewed('F'), Reached::PreviewedByParents]);
        assert_eq!(reached("5;11:C:2", 11), [Reached::Previewed('F'), Reached::PreviewedByDay]);
        assert_eq!(reached("-", 15), [Reached::NotPreviewed(31, 0)]);
        assert_eq!(reached("5;15:C:2", 15), [Reached::NotPreviewed(31, 0), Reached::AbsentRunning]);
        assert_eq!(reached("-", 0), [Reached::NotPreviewed(31, 0), Reached::AbsentBeyond]);
        assert_eq!(reached("6;", 11), [Reached::NotPreviewed(20, 0)]);
        assert_eq!(reached("6;", 15), [Reached::NotPreviewed(20, 0), Reached::BeforeThirtyOne(20)]);
        assert_eq!(super::reached(b"preview - . . . .", UNREADABLE), [Reached::Unreadable]);
    }

    #[test]
    fn fed_lists_count_by_what_they_are() {
        let reached = |line: &str| reached(line.as_bytes(), &case::answer(line.as_bytes()));
        assert_eq!(reached("fed 1 2 1,1"), [Reached::Fed(Feeding::PlaceAtLength)]);
        assert_eq!(reached("fed 7 1 5,2,5,1"), [Reached::Fed(Feeding::Answered('F'))]);
        assert_eq!(reached("fed 1 0"), [Reached::Unreadable]);
    }

    #[test]
    fn the_smallest_and_the_largest_place_are_kept() {
        let mut tally = Tally::default();
        for place in [7, 4_096, 2, 30] {
            tally.count(b"study", &format!("no 33 4 {place}"));
        }
        assert!(tally.to_string().contains(", smallest 2, largest 4096\n"));
    }

    #[test]
    fn some_thousand_cases_reach_everything() {
        let mut tally = Tally::default();
        for index in 0..6_000 {
            let line = generator::make(generator::GATE_SEED, index).bytes;
            tally.count(&line, &case::answer(&line));
        }
        assert_eq!(tally.missing(), []);
    }
}

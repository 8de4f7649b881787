//! Cases made up from a seed: studies, previews and checks of every size and with every refusal, files to
//! be handed back tidy, releases, lone tests, fed ones among them, and lines that can't be read. The case of
//! a seed and an index is always the same.

pub mod amounts;
mod curves;
mod draft;
mod faults;
mod full;
mod lines;
mod parents;
mod preview;
mod prices;
pub mod random;
pub mod sheet;
mod spoilt_curves;
mod supply;
mod tidy;

use crate::answer::LONGEST;
use crate::case::{Case, StudyFiles, ThreeFiles, LONGEST_BUFFER};
use crate::day::Day;
use crate::rules::Files;
use amounts::make_lone;
use draft::Draft;
use faults::{make_faults, make_study_faults, spoil_draft, spoil_sheet, NUMBERS};
use random::Random;
use sheet::{damage, disturb, Sheet, LARGEST_FILE};
use spoilt_curves::spoil_curves;

/// The seed and the number of the cases that every change is held against.
pub const GATE_SEED: u64 = 20_260_701;
pub const GATE_CASES: u64 = 20_000;

/// A case as a line, without its end.
pub struct Line {
    pub bytes: Vec<u8>,
    /// Whether it can be put to a program that takes larger buffers, skips empty lines or clamps the
    /// numbers of 2^64 and more in a day.
    pub common: bool,
}

impl Line {
    fn of(case: Case) -> Line {
        Line { bytes: case.to_string().into_bytes(), common: true }
    }
}

/// The case of a seed and an index.
pub fn make(seed: u64, index: u64) -> Line {
    let random = &mut Random::of(seed, index);
    match random.between(0, 999) {
        0..=479 => Line::of(make_study(random)),
        480..=619 => Line::of(preview::make_preview(random)),
        620..=769 => Line::of(tidy::make_tidy(random)),
        770..=819 => Line::of(make_check(random)),
        820..=869 => Line::of(Case::Test(make_lone(random))),
        870..=919 => Line::of(Case::Fed(make_lone(random))),
        920..=969 => Line::of(lines::make_release(random)),
        _ => lines::make_unreadable(random),
    }
}

/// A study: most accepted, some with one fault, some with two.
fn make_study(random: &mut Random) -> Case {
    let faults = make_study_faults(&NUMBERS, random);
    let (Draft { day, .. }, files) = make_files(&faults, random);
    let buffer = make_buffer(faults.contains(&10), &day, &files.lend(), random);
    Case::Study { day, files, buffer }
}

/// A check of files as a study has them.
fn make_check(random: &mut Random) -> Case {
    let faults = make_faults(&NUMBERS, random);
    let (_, StudyFiles([constraint, supply, schedules, ..])) = make_files(&faults, random);
    Case::Check { files: ThreeFiles([constraint, supply, schedules]) }
}

/// The files with the faults in them, and the draft that they were written from.
fn make_files(faults: &[u64], random: &mut Random) -> (Draft, StudyFiles) {
    if random.once_in(400) {
        return make_brimming(random);
    }
    // A fault at a late record is rare, so faults of the curves come in full ones more often.
    let of_curves = faults.iter().any(|number| (32..=34).contains(number));
    let full = random.once_in(if of_curves { 16 } else { 150 });
    let mut draft = if full { Draft::make_full(random) } else { Draft::make(random) };
    spoil(faults, &mut draft, random);
    let mut sheets = sheets(&draft);
    for &number in faults {
        let file = make_place(random);
        spoil_sheet(number, &mut sheets[file], random);
    }
    let StudyFiles(mut files) = write(sheets, random);
    for _ in faults.iter().filter(|&&number| number == 1) {
        let file = make_place(random);
        damage(&mut files[file], random);
    }
    if random.once_in(40) {
        let file = random.index(files.len());
        disturb(&mut files[file], random);
    }
    (draft, StudyFiles(files))
}

/// Where among the files a fault of the text is: most often in the curves, which have refusals before and
/// behind them.
fn make_place(random: &mut Random) -> usize {
    if random.percent(25) {
        return StudyFiles::CURVES;
    }
    random.pick(&[0, 1, StudyFiles::SCHEDULES, StudyFiles::CURVES, StudyFiles::PARENTS])
}

/// Puts faults into a draft, those of the curves last: where rows are gone, their points mostly are too.
fn spoil(faults: &[u64], draft: &mut Draft, random: &mut Random) {
    for &number in faults {
        spoil_draft(number, draft, random);
    }
    if random.percent(85) {
        draft.drop_stray_points();
    }
    for &number in faults {
        spoil_curves(number, draft, random);
    }
}

fn sheets(draft: &Draft) -> [Sheet; 5] {
    [
        Sheet::constraint(&draft.constraint),
        Sheet::supply(&draft.supply),
        Sheet::schedules(&draft.schedules),
        Sheet::curves(&draft.curves),
        Sheet::parents(&draft.parents),
    ]
}

/// The bytes of the sheets. Curves and parents of the header alone may as well be no bytes.
fn write(sheets: [Sheet; 5], random: &mut Random) -> StudyFiles {
    let mut files = sheets.each_ref().map(|sheet| sheet.write(random));
    for place in [StudyFiles::CURVES, StudyFiles::PARENTS] {
        let header_alone = sheets[place].records == [sheets[place].table.header()];
        if header_alone && random.percent(60) {
            files[place].clear();
        }
    }
    StudyFiles(files)
}

/// Files of which one is as large as the program takes: schedules or curves that are accepted, or a field
/// that goes on and on.
fn make_brimming(random: &mut Random) -> (Draft, StudyFiles) {
    match random.between(0, 5) {
        0..=1 => brimming(Draft::make_brimming(random), StudyFiles::SCHEDULES, random),
        2..=3 => brimming(Draft::make_full(random), StudyFiles::CURVES, random),
        _ => {
            let draft = Draft::make_brimming(random);
            let StudyFiles(mut files) = write(sheets(&draft), random);
            let filler = random.pick(b"0159 ");
            let file = &mut files[random.index(files.len())];
            file.extend(std::iter::repeat_n(filler, LARGEST_FILE.saturating_sub(file.len())));
            (draft, StudyFiles(files))
        }
    }
}

/// The files of a draft, of which one has as many quotes as the program takes.
fn brimming(draft: Draft, place: usize, random: &mut Random) -> (Draft, StudyFiles) {
    let mut sheets = sheets(&draft);
    let full = sheets[place].write_brimming(random);
    let StudyFiles(mut files) = write(sheets, random);
    files[place] = full;
    (draft, StudyFiles(files))
}

/// A buffer's length: ample, or right at the answer's own.
fn make_buffer(short: bool, day: &Day, files: &Files, random: &mut Random) -> u64 {
    if short || random.percent(35) {
        let mut buffer = [0; LONGEST];
        let (_, result) = day.clone().study(files, &mut buffer);
        let fitting = result.unwrap_or(LONGEST) as u64;
        return match random.between(0, 9) {
            _ if short => random.pick(&[0, 1, 46, 47, fitting - 1, fitting - 1, fitting - 1, fitting / 2]),
            0 => fitting - 1,
            1 => fitting + 1,
            2 => fitting + random.between(2, 50),
            _ => fitting,
        };
    }
    match random.between(0, 19) {
        0 => 0,
        1 => random.between(0, LONGEST_BUFFER),
        2..=6 => LONGEST as u64,
        _ => LONGEST_BUFFER,
    }
}

#[cfg(test)]
mod tests {
    use super::*;

    /// Whether a draft's files are accepted on its day.
    fn accepted(day: Day, files: &StudyFiles) -> bool {
        day.study(&files.lend(), &mut [0; LONGEST]).1.is_ok()
    }

    #[test]
    fn drafts_are_accepted() {
        for index in 0..1_000 {
            let random = &mut Random::of(1, index);
            let draft = Draft::make(random);
            let files = write(sheets(&draft), random);
            assert!(accepted(draft.day, &files), "{index}");
        }
    }

    #[test]
    fn brimming_schedules_and_curves_are_accepted() {
        let mut largest_curves = 0;
        for index in 0..10 {
            let random = &mut Random::of(2, index);
            let (draft, files) = brimming(Draft::make_brimming(random), StudyFiles::SCHEDULES, random);
            assert_eq!(files.0[StudyFiles::SCHEDULES].len(), LARGEST_FILE);
            assert!(accepted(draft.day, &files), "{index}");
            let (draft, files) = brimming(Draft::make_full(random), StudyFiles::CURVES, random);
            largest_curves = largest_curves.max(files.0[StudyFiles::CURVES].len());
            assert!(accepted(draft.day, &files), "{index}");
        }
        assert_eq!(largest_curves, LARGEST_FILE);
    }

    #[test]
    fn no_file_is_larger_than_the_program_takes() {
        for index in 0..3_000 {
            let case = Case::read(&make(4, index).bytes);
            if let Some(Case::Study { files, .. } | Case::Preview { files, .. }) = case {
                let longest = files.0.iter().map(Vec::len).max().unwrap_or(0);
                assert!(longest <= LARGEST_FILE, "{index}: {longest}");
            }
        }
    }

    #[test]
    fn a_case_depends_on_its_seed_and_index_alone() {
        let line = |seed, index| make(seed, index).bytes;
        assert_eq!(line(3, 4), line(3, 4));
        assert_ne!(line(3, 4), line(3, 5));
        assert_ne!(line(3, 4), line(4, 4));
    }

    #[test]
    fn lines_that_cannot_be_read_are_not() {
        for index in 0..500 {
            let line = lines::make_unreadable(&mut Random::of(5, index));
            assert_eq!(Case::read(&line.bytes), None, "{:?}", String::from_utf8_lossy(&line.bytes));
        }
    }
}

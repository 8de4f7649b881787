//! What the curves of a study or a preview brought about, for the tally.

use crate::case::{Case, StudyFiles, LONGEST_BUFFER};
use crate::curves::{belongs, disordered, ends_low, same_curve, stray_point, POINTS};
use crate::refusal::Refusal;
use crate::rules::{run, Files, Filing};
use crate::table::{read_constraint, read_curves, read_schedules, Point, Schedule, CURVES};

/// Something that can be said of curves.
#[derive(Clone, Copy, Debug, PartialEq, Eq, PartialOrd, Ord)]
pub enum Pricing {
    /// An accepted study with points, ..
    Accepted,
    /// .. in which a point of another curve stands between those of one, ..
    Interleaved,
    /// .. with a curve in an hour outside the run, ..
    OutsideRun,
    /// .. with as many points as there may be, ..
    Full,
    /// .. with a curve of ten points, ..
    TenPoints,
    /// .. with the price at ecomin at a point whose mw is ecomin, ..
    AtEcomin,
    /// .. or one more, behind a point whose mw is one less, ..
    AroundEcomin,
    /// .. with a curve that ends at ecomin, ..
    EndsAtEcomin,
    /// .. whose answer is another than without curves, ..
    AnswerMoved,
    /// .. and one in which a schedule is another.
    ChoiceMoved,
    /// 33 at an eleventh point that rises, ..
    Eleventh,
    /// .. at a point whose mw alone doesn't rise, being equal or less, ..
    EqualMw,
    LessMw,
    /// .. and at one whose price alone doesn't.
    EqualPrice,
    LessPrice,
    /// 34 of a curve that ends one below ecomin, ..
    OneBelow,
    /// .. of a curve in an hour outside the run, ..
    LowOutsideRun,
    /// .. and where another curve ends below ecomin too, at a later record.
    SeveralLow,
    /// A refusal of the curves where nothing else is refused, ..
    Alone(u64),
    /// .. and where another of the curves is at fault too, at an earlier record or at a later one.
    BesideEarlier(u64, u64),
    BesideLater(u64, u64),
    /// A refusal of constraint, supply or schedules where one of the curves is at fault too.
    Before(u64, u64),
    /// A refusal of the curves where there is another without them, which comes behind.
    Behind(u64, u64),
}

/// The refusals of the curves.
pub const OF_CURVES: [u64; 3] = [32, 33, 34];

/// Those that are counted before and behind them.
pub const BEFORE: [u64; 7] = [1, 2, 3, 4, 5, 6, 7];
pub const BEHIND: [u64; 3] = [8, 9, 36];

/// Two of the curves, the first of which comes first.
pub const PAIRS: [(u64, u64); 3] = [(32, 33), (32, 34), (33, 34)];

/// What can be said of curves by themselves, in words.
pub const SAID: [(&str, Pricing); 18] = [
    ("studies accepted with curves", Pricing::Accepted),
    ("interleaved", Pricing::Interleaved),
    ("outside the run", Pricing::OutsideRun),
    ("of 4096 points", Pricing::Full),
    ("ten points", Pricing::TenPoints),
    ("a point at ecomin", Pricing::AtEcomin),
    ("points one below and one above", Pricing::AroundEcomin),
    ("ending at ecomin", Pricing::EndsAtEcomin),
    ("another answer than without", Pricing::AnswerMoved),
    ("another choice", Pricing::ChoiceMoved),
    ("33 at an eleventh point", Pricing::Eleventh),
    ("at an equal mw", Pricing::EqualMw),
    ("at a lesser mw", Pricing::LessMw),
    ("at an equal price", Pricing::EqualPrice),
    ("at a lesser price", Pricing::LessPrice),
    ("34 one below ecomin", Pricing::OneBelow),
    ("outside the run", Pricing::LowOutsideRun),
    ("the first of several", Pricing::SeveralLow),
];

impl Pricing {
    /// All that can be said.
    pub fn all() -> Vec<Pricing> {
        let mut all = SAID.map(|(_, said)| said).to_vec();
        all.extend(PAIRS.map(|(first, other)| Pricing::BesideEarlier(first, other)));
        all.extend(PAIRS.map(|(first, other)| Pricing::BesideLater(first, other)));
        for number in OF_CURVES {
            all.push(Pricing::Alone(number));
            all.extend(BEFORE.map(|before| Pricing::Before(before, number)));
            all.extend(BEHIND.map(|behind| Pricing::Behind(number, behind)));
        }
        all
    }

    /// What can be said of a case with curves that is answered so; nothing of one without.
    pub fn of(line: &[u8], answer: &str) -> Vec<Pricing> {
        let Some((files, without)) = without_curves(line) else { return Vec::new() };
        let words: Vec<&str> = answer.split(' ').collect();
        match words[..] {
            ["no", number, file, place] => match [number, file, place].map(str::parse) {
                [Ok(number), Ok(file), Ok(place)] => {
                    of_refused(&files.lend(), Refusal::at(number, file, place), &without)
                }
                _ => Vec::new(),
            },
            ["ok", file, day] => of_accepted(&files.lend(), [file, day], &without),
            _ => Vec::new(),
        }
    }
}

/// The files of a study or a preview with curves, and what is answered without them where there is room.
fn without_curves(line: &[u8]) -> Option<(StudyFiles, String)> {
    let mut case = Case::read(line)?;
    let (Case::Study { files, .. } | Case::Preview { files, .. }) = &mut case else { return None };
    if files.0[StudyFiles::CURVES].is_empty() {
        return None;
    }
    let given = files.clone();
    files.0[StudyFiles::CURVES].clear();
    if let Case::Study { buffer, .. } = &mut case {
        *buffer = LONGEST_BUFFER;
    }
    Some((given, case.answer()))
}

/// Those that hold.
fn holding<const COUNT: usize>(said: [(bool, Pricing); COUNT]) -> Vec<Pricing> {
    said.into_iter().filter(|(holds, _)| *holds).map(|(_, what)| what).collect()
}

/// The curve of a row: the places of its points among all, and the points.
struct Curve {
    row: Schedule,
    places: Vec<usize>,
    points: Vec<Point>,
}

impl Curve {
    fn of(row: &Schedule, points: &[Point]) -> Curve {
        let places: Vec<usize> = (0..points.len()).filter(|&place| belongs(&points[place], row)).collect();
        Curve { row: *row, points: places.iter().map(|&place| points[place]).collect(), places }
    }

    fn interleaved(&self) -> bool {
        self.places.windows(2).any(|pair| pair[1] > pair[0] + 1)
    }

    fn has(&self, mw: u64) -> bool {
        self.points.iter().any(|point| point.mw == mw)
    }

    fn around_ecomin(&self) -> bool {
        let ecomin = self.row.ecomin;
        ecomin > 0 && self.has(ecomin - 1) && !self.has(ecomin) && self.has(ecomin + 1)
    }
}

/// What an accepted study says, whose answer file and day are given.
fn of_accepted(files: &Files, given: [&str; 2], without: &str) -> Vec<Pricing> {
    let Some(filing) = Filing::read(files).ok().filter(|filing| !filing.curves.is_empty()) else {
        return Vec::new();
    };
    let Filing { constraint, schedules, curves: points, .. } = &filing;
    let curves: Vec<Curve> = schedules.iter().map(|row| Curve::of(row, points)).collect();
    let curves: Vec<Curve> = curves.into_iter().filter(|curve| !curve.places.is_empty()).collect();
    let any = |holds: &dyn Fn(&Curve) -> bool| curves.iter().any(holds);
    let other: Vec<&str> = without.split(' ').skip(1).collect();
    holding([
        (true, Pricing::Accepted),
        (any(&Curve::interleaved), Pricing::Interleaved),
        (any(&|curve| outside(&curve.row, constraint.hour)), Pricing::OutsideRun),
        (points.len() == *CURVES.rows.end(), Pricing::Full),
        (any(&|curve| curve.points.len() == POINTS), Pricing::TenPoints),
        (any(&|curve| curve.has(curve.row.ecomin)), Pricing::AtEcomin),
        (any(&Curve::around_ecomin), Pricing::AroundEcomin),
        (
            any(&|curve| curve.points.last().is_some_and(|last| last.mw == curve.row.ecomin)),
            Pricing::EndsAtEcomin,
        ),
        (other[0] != given[0], Pricing::AnswerMoved),
        (other[1] != given[1], Pricing::ChoiceMoved),
    ])
}

/// The hour of a row is outside its schedule's run.
fn outside(row: &Schedule, hour: u64) -> bool {
    !run(row, hour).contains(&row.hour)
}

/// What a refused study or preview says.
fn of_refused(files: &Files, refusal: Refusal, without: &str) -> Vec<Pricing> {
    let faults = faults(files);
    if !OF_CURVES.contains(&refusal.number) {
        let before = BEFORE.contains(&refusal.number) && (1..=3).contains(&refusal.file);
        let both = faults.iter().map(|(fault, _)| Pricing::Before(refusal.number, *fault));
        return both.filter(|_| before).collect();
    }
    let mut said = match refusal.number {
        33 => of_disorder(files, refusal.place),
        34 => of_low_end(files, refusal.place),
        _ => Vec::new(),
    };
    let mut alone = without.starts_with("ok");
    for (fault, place) in faults.into_iter().filter(|(fault, _)| *fault != refusal.number) {
        let beside = if place < refusal.place { Pricing::BesideEarlier } else { Pricing::BesideLater };
        said.push(beside(refusal.number, fault));
        alone = false;
    }
    let behind = without.split(' ').nth(1).and_then(|number| number.parse().ok());
    let behind = behind.filter(|number| without.starts_with("no") && BEHIND.contains(number));
    said.extend(behind.map(|number| Pricing::Behind(refusal.number, number)));
    said.extend(alone.then_some(Pricing::Alone(refusal.number)));
    said
}

/// Which of 32, 33 and 34 there is, each for itself, and at which record. Where the schedules can't be read,
/// only 33 can be told.
fn faults(files: &Files) -> Vec<(u64, u64)> {
    let Ok(points) = read_curves(files.curves) else { return Vec::new() };
    let rows = read_schedules(files.schedules).ok();
    let by_rows = |refusal: fn(&[Point], &[Schedule]) -> Option<u64>| refusal(&points, rows.as_deref()?);
    let found = [(32, by_rows(stray_point)), (33, disordered(&points)), (34, by_rows(ends_low))];
    found.into_iter().filter_map(|(number, place)| Some((number, place?))).collect()
}

/// In which way a point is at fault by 33.
fn of_disorder(files: &Files, place: u64) -> Vec<Pricing> {
    let Ok(points) = read_curves(files.curves) else { return Vec::new() };
    let point = &points[place as usize - 1];
    let before = points[..place as usize - 1].iter().filter(|earlier| same_curve(earlier, point));
    let before: Vec<&Point> = before.collect();
    let Some(last) = before.last() else { return Vec::new() };
    let (mw_rises, price_rises) = (last.mw < point.mw, last.price < point.price);
    holding([
        (before.len() == POINTS && mw_rises && price_rises, Pricing::Eleventh),
        (last.mw == point.mw && price_rises, Pricing::EqualMw),
        (last.mw > point.mw && price_rises, Pricing::LessMw),
        (last.price == point.price && mw_rises, Pricing::EqualPrice),
        (last.price > point.price && mw_rises, Pricing::LessPrice),
    ])
}

/// In which way a curve is at fault by 34, given by its last record.
fn of_low_end(files: &Files, place: u64) -> Vec<Pricing> {
    let read =
        (read_constraint(files.constraint), read_schedules(files.schedules), read_curves(files.curves));
    let (Ok(constraint), Ok(rows), Ok(points)) = read else { return Vec::new() };
    let point = &points[place as usize - 1];
    let Some(row) = rows.iter().find(|row| belongs(point, row)) else { return Vec::new() };
    let others: Vec<Schedule> = rows.iter().filter(|other| !belongs(point, other)).copied().collect();
    holding([
        (point.mw + 1 == row.ecomin, Pricing::OneBelow),
        (outside(row, constraint.hour), Pricing::LowOutsideRun),
        (ends_low(&points, &others).is_some(), Pricing::SeveralLow),
    ])
}

#[cfg(test)]
mod tests {
    use super::*;
    use crate::case;
    use crate::study::tests::Bytes;

    /// What is said of the starred files with curves.
    fn said(curves: &[&str]) -> Vec<Pricing> {
        said_of(&Bytes::starred().with_curves(curves))
    }

    fn said_of(bytes: &Bytes) -> Vec<Pricing> {
        let line = format!("study - {} 4096", bytes.words());
        Pricing::of(line.as_bytes(), &case::answer(line.as_bytes()))
    }

    #[test]
    fn accepted_curves_are_told_apart() {
        use Pricing::*;
        assert_eq!(said(&[]), []);
        assert_eq!(said(&["14,2,5,102,5"]), [Accepted]);
        assert_eq!(said(&["14,2,5,100,5"]), [Accepted, AtEcomin, EndsAtEcomin]);
        assert_eq!(said(&["14,2,5,99,5", "14,2,5,101,6"]), [Accepted, AroundEcomin]);
        assert_eq!(
            said(&["14,2,5,99,5", "12,2,5,101,3000", "14,2,5,100,6", "14,2,5,101,7"]),
            [Accepted, Interleaved, AtEcomin]
        );
        assert_eq!(said(&["11,2,5,102,5"]), [Accepted, AnswerMoved]);
        assert_eq!(said(&["11,1,5,102,5"]), [Accepted, AnswerMoved, ChoiceMoved]);
        let ten: Vec<String> = (200..210).map(|mw| format!("14,2,5,{mw},{mw}")).collect();
        assert_eq!(said(&ten.iter().map(String::as_str).collect::<Vec<_>>()), [Accepted, TenPoints]);
        let later = ["1,1,M,5,9,0,0,0,1", "1,1,M,6,9,0,0,0,1"];
        let bytes = Bytes::of("5,1,1", &["1,1,1,1,1"], &later).with_curves(&["1,1,6,99,1"]);
        assert_eq!(said_of(&bytes), [Accepted, OutsideRun]);
        assert_eq!(Pricing::of(b"release - 1", "ok -"), []);
    }

    #[test]
    fn refused_curves_are_told_apart() {
        use Pricing::*;
        assert_eq!(said(&["11,2,6,1,1"]), [Alone(32)]);
        assert_eq!(said(&["11,2,5,100,1", "11,2,5,100,2"]), [EqualMw, Alone(33)]);
        assert_eq!(said(&["11,2,5,101,1", "11,2,5,100,2"]), [LessMw, Alone(33)]);
        assert_eq!(said(&["11,2,5,100,1", "11,2,5,101,1"]), [EqualPrice, Alone(33)]);
        assert_eq!(said(&["11,2,5,100,1", "11,2,5,101,0"]), [LessPrice, Alone(33)]);
        assert_eq!(said(&["11,2,5,100,1", "11,2,5,100,1"]), [Alone(33)]);
        assert_eq!(said(&["11,2,5,99,1"]), [OneBelow, Alone(34)]);
        assert_eq!(said(&["11,2,5,98,1", "12,2,5,99,1"]), [SeveralLow, Alone(34)]);
        let eleven: Vec<String> = (200..211).map(|mw| format!("14,2,5,{mw},{mw}")).collect();
        assert_eq!(said(&eleven.iter().map(String::as_str).collect::<Vec<_>>()), [Eleventh, Alone(33)]);
    }

    #[test]
    fn what_comes_together_is_told() {
        use Pricing::*;
        let (stray, point, low) = ("11,2,6,1,1", "11,2,5,100,2000", "12,1,5,98,1");
        assert_eq!(said(&[point, point, stray]), [BesideEarlier(32, 33)]);
        assert_eq!(said(&[stray, point, point]), [BesideLater(32, 33)]);
        assert_eq!(said(&[low, stray]), [BesideEarlier(32, 34)]);
        assert_eq!(said(&[point, point, low]), [BesideLater(33, 34)]);
        let without_schedule = Bytes::of("5,1,1", &["1,1,1,1,1"], &[]).with_curves(&[stray]);
        assert_eq!(said_of(&without_schedule), [Behind(32, 8)]);
        let stray_row = Bytes::of("5,1,1", &[], &["11,2,M,5,1,1,1,1,1"]).with_curves(&[point, point]);
        assert_eq!(said_of(&stray_row), [Before(7, 33)]);
        let unread = Bytes::of("5,1,1", &[], &["x"]).with_curves(&[stray, point, point]);
        assert_eq!(said_of(&unread), [Before(2, 33)]);
    }
}

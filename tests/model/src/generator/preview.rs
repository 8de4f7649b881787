//! Previews: the files and the day of a study, with its faults, and a unit of the supply file or one that
//! is elsewhere or nowhere.

use super::draft::{different, Draft};
use super::faults::make_study_faults;
use super::make_files;
use super::random::Random;
use crate::case::Case;

/// The faults of a preview: the refusals of a study but 10, and those of the day more often than there,
/// since they come right before 31.
const NUMBERS: [u64; 30] = [
    1, 1, 2, 2, 3, 3, 4, 4, 5, 6, 6, 7, 8, 9, 20, 20, 21, 21, 22, 22, 22, 24, 24, 32, 33, 34, 35, 35, 36, 36,
];

/// Unit numbers at the edges of their column, which ranges from 1 to 9999, and of the number's type.
const EDGES: [u64; 7] = [0, 0, 1, 9_999, 10_000, 1 << 63, u64::MAX];

/// What a number loses where it is held in fewer bits.
const WRAPS: [u64; 4] = [1 << 8, 1 << 16, 1 << 32, u64::MAX << 16];

/// A preview: many without a fault, some with one, some with two.
pub fn make_preview(random: &mut Random) -> Case {
    let faults = make_study_faults(&NUMBERS, random);
    let (draft, files) = make_files(&faults, random);
    let unit = make_unit(&draft, random);
    Case::Preview { day: draft.day, files, unit }
}

/// A unit: most often one of the supply file, the first and the last among them; else one that only the
/// day or the schedules have, a number beside or beyond one of the supply file, or any other.
fn make_unit(draft: &Draft, random: &mut Random) -> u64 {
    let supplied = draft.units();
    let (Some(&first), Some(&last)) = (supplied.first(), supplied.last()) else {
        return make_absent(draft, random);
    };
    let some = random.pick(&supplied);
    match random.between(0, 19) {
        0..=1 => first,
        2..=3 => last,
        4..=10 => some,
        11 => some + 1,
        12 => some - 1,
        13..=14 => some + random.pick(&WRAPS),
        _ => make_absent(draft, random),
    }
}

/// A unit that the supply file doesn't have: one that the day has running or the schedules have rows of,
/// a number at the edges, or any other.
fn make_absent(draft: &Draft, random: &mut Random) -> u64 {
    let elsewhere = units_elsewhere(draft);
    match random.between(0, 9) {
        0..=5 if !elsewhere.is_empty() => random.pick(&elsewhere),
        6..=7 => random.pick(&EDGES),
        _ => draft.other_unit(random),
    }
}

/// The units of the day and the schedules that the supply rows don't have.
fn units_elsewhere(draft: &Draft) -> Vec<u64> {
    let supplied = draft.units();
    let running = draft.day.running.iter().map(|running| running.unit);
    let scheduled = draft.schedules.iter().map(|row| row.unit);
    let mut units = different(running.chain(scheduled));
    units.retain(|unit| !supplied.contains(unit));
    units
}

#[cfg(test)]
mod tests {
    use std::collections::BTreeMap;

    use super::*;
    use crate::day::Day;
    use crate::table::read_supply;

    /// What a unit is to the units of the supply file and to the day.
    fn sort(unit: u64, supplied: &[u64], day: &Day) -> &'static str {
        if supplied.first() == Some(&unit) {
            "the first"
        } else if supplied.last() == Some(&unit) {
            "the last"
        } else if supplied.contains(&unit) {
            "one between"
        } else if day.kind_of(unit).is_some() {
            "running"
        } else if (1..=9_999).contains(&unit) {
            "nowhere"
        } else {
            "no unit"
        }
    }

    #[test]
    fn units_are_of_every_sort() {
        let mut counts: BTreeMap<&str, u64> = BTreeMap::new();
        for index in 0..1_000 {
            let case = make_preview(&mut Random::of(1, index));
            let Case::Preview { day, files, unit, .. } = case else { panic!("{case}") };
            if let Ok(rows) = read_supply(files.lend().supply) {
                let supplied = different(rows.iter().map(|row| row.unit));
                *counts.entry(sort(unit, &supplied, &day)).or_default() += 1;
            }
        }
        assert!(counts.len() == 6 && counts.values().all(|&count| count > 40), "{counts:?}");
    }
}

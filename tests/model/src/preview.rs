//! Looking before committing (document 02, F-2): the answer row of one unit, without moving the day.

use crate::answer::Row;
use crate::day::Day;
use crate::refusal::Refusal;
use crate::rules::Files;

impl Day {
    /// "The preview takes what a study takes but no buffer, and a unit number, and gives that unit's answer
    /// row as fields. Its result is that of a study done on a copy of the day with a buffer long enough,
    /// refusals included", so that 10 never comes. "It refuses with 31 when the unit isn't in the supply
    /// file, after all others."
    pub fn preview(&self, files: &Files, unit: u64) -> Result<Row, Refusal> {
        let rows = self.decide(files)?.rows;
        rows.into_iter().find(|row| row.unit == unit).ok_or(Refusal::nowhere(31))
    }
}

#[cfg(test)]
mod tests {
    use std::ops::Range;

    use super::*;
    use crate::answer::LONGEST;
    use crate::case::{Case, StudyFiles};
    use crate::day::Running;
    use crate::generator;
    use crate::judge::Judge;
    use crate::study::tests::Bytes;
    use crate::table::Kind;

    /// A row as it stands in the answer file, or the refusal.
    fn preview(day: &Day, bytes: &Bytes, unit: u64) -> Result<String, Refusal> {
        day.preview(&bytes.files(), unit).map(|row| row.to_string())
    }

    /// The same by a study in a buffer that holds every answer: the unit's record of the answer file.
    fn by_study(day: &Day, files: &Files, unit: u64) -> Result<String, Refusal> {
        let mut buffer = [0; LONGEST];
        let length = day.clone().study(files, &mut buffer).1?;
        let answer = String::from_utf8(buffer[..length].to_vec()).unwrap();
        let of_unit = |record: &&str| record.split(',').next() == Some(&unit.to_string());
        answer.split_terminator("\r\n").find(of_unit).map(str::to_string).ok_or(Refusal::nowhere(31))
    }

    /// A day with some units running on a kind.
    fn day(hour: Option<u64>, units: Range<u64>, kind: Kind) -> Day {
        Day { hour, running: units.map(|unit| Running { unit, kind, schedule: 1 }).collect() }
    }

    #[test]
    fn the_starred_rows_one_by_one() {
        let look = |unit| preview(&Day::fresh(), &Bytes::starred(), unit);
        assert_eq!(look(11).as_deref(), Ok("11,1,F,0,2,C,1030000"));
        assert_eq!(look(14).as_deref(), Ok("14,4,F,5000000,1,M,500000"));
        for unit in [0, 1, 10, 15, 65_536 + 11, (1 << 32) + 11, u64::MAX] {
            assert_eq!(look(unit), Err(Refusal::nowhere(31)), "{unit}");
        }
        let grouped = preview(&Day::fresh(), &Bytes::starred().with_parents(&["1,2"]), 14);
        assert_eq!(grouped.as_deref(), Ok("14,4,F,0,1,M,500000"));
        let by_curve = preview(&Day::fresh(), &Bytes::starred().with_curves(&["11,2,5,100,2000"]), 11);
        assert_eq!(by_curve.as_deref(), Ok("11,1,F,0,2,C,920000"));
    }

    #[test]
    fn the_day_keeps_a_unit_on_cost() {
        let given = day(Some(5), 14..15, Kind::C);
        assert_eq!(preview(&given, &Bytes::starred(), 14).as_deref(), Ok("14,4,F,5000000,2,C,220000"));
    }

    #[test]
    fn what_a_study_refuses_comes_before_31() {
        let bytes = Bytes::starred();
        let refusal = |given: &Day, unit| preview(given, &bytes, unit).unwrap_err();
        for unit in [11, 15] {
            assert_eq!(refusal(&day(Some(6), 0..0, Kind::M), unit), Refusal::nowhere(20));
            assert_eq!(refusal(&day(None, 101..162, Kind::M), unit), Refusal::nowhere(22));
            assert_eq!(refusal(&day(Some(24), 0..0, Kind::M), unit), Refusal::nowhere(24));
        }
        let (supply, schedules) =
            (["11,1,1,1,1", "14,1,1,1,1"], ["11,1,M,5,0,0,0,0,1", "14,1,M,5,0,0,0,0,1"]);
        let without_cost = Bytes::of("5,1,1", &supply, &schedules);
        let without_schedule = Bytes::of("5,1,1", &supply, &schedules[..1]);
        for unit in [11, 14, 15] {
            let on_cost = day(None, 14..15, Kind::C);
            assert_eq!(preview(&on_cost, &without_cost, unit), Err(Refusal::at(21, 3, 14)));
            assert_eq!(preview(&on_cost, &without_schedule, unit), Err(Refusal::at(8, 3, 14)));
        }
        assert!(preview(&day(None, 101..161, Kind::M), &bytes, 11).is_ok());
        let without_supply = Bytes::of("5,1,1", &[], &[]);
        assert_eq!(preview(&Day::fresh(), &without_supply, 11), Err(Refusal::nowhere(31)));
    }

    /// Made previews: day, files and unit.
    fn made() -> Vec<(Day, StudyFiles, u64)> {
        let cases = (0..4_000).filter_map(|index| Case::read(&generator::make(1, index).bytes));
        let previews = cases.filter_map(|case| match case {
            Case::Preview { day, files, unit } => Some((day, files, unit)),
            _ => None,
        });
        previews.collect()
    }

    #[test]
    fn a_study_with_room_enough_agrees() {
        let made = made();
        assert!(made.len() > 400, "{}", made.len());
        for (day, files, unit) in &made {
            let files = files.lend();
            let row = day.preview(&files, *unit).map(|row| row.to_string());
            assert_eq!(row, by_study(day, &files, *unit));
        }
    }

    /// A previewed row is judged by demand 3 as the row of an answer file is.
    #[test]
    fn the_judge_accepts_a_previewed_row_for_its_unit_alone() {
        let mut judged = 0;
        for (day, files, unit) in made() {
            let files = files.lend();
            let (Ok(row), Some(judge)) = (day.preview(&files, unit), Judge::of(&files, &day)) else {
                continue;
            };
            let record = row.to_string();
            assert_eq!(judge.weigh_previewed(unit, record.as_bytes()), Ok(()), "{record}");
            let dearer = format!("{record}0");
            assert!(judge.weigh_previewed(unit, dearer.as_bytes()).is_err(), "{dearer}");
            assert!(judge.weigh_previewed(unit + 1, record.as_bytes()).is_err(), "{record}");
            judged += 1;
        }
        assert!(judged > 50, "{judged}");
    }
}

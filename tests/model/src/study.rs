//! The study: from the files and a day to the answer file and the next day.

use crate::answer::{self, Row};
use crate::choice::{choose, exposed};
use crate::day::{Day, Running};
use crate::market::Market;
use crate::pivotal::{test_suppliers, Tested};
use crate::refusal::{refuse_if, refuse_where, Refusal};
use crate::rules::{Files, Filing};
use crate::table::Kind;

/// What a study comes to: its hour, and the rows of the answer.
pub struct Decision {
    pub hour: u64,
    pub rows: Vec<Row>,
}

impl Day {
    /// Studies the files. A day "goes into a call and comes back with the answer": the next day and
    /// the answer's length where the study is accepted, else the day that was given, the refusal,
    /// and a buffer in which no byte has changed.
    pub fn study(self, files: &Files, buffer: &mut [u8]) -> (Day, Result<usize, Refusal>) {
        match self.decide_within(files, buffer.len()) {
            Ok(Decision { hour, rows }) => {
                let length = answer::write(&rows, buffer);
                let chosen: Vec<Running> = rows.iter().map(running).collect();
                (self.after_study(hour, &chosen), Ok(length))
            }
            Err(refusal) => (self, Err(refusal)),
        }
    }

    /// The decision, whose answer fits into the room that is lent: 10 is the last of all refusals.
    fn decide_within(&self, files: &Files, lent: usize) -> Result<Decision, Refusal> {
        let decision = self.decide(files)?;
        refuse_if(answer::length(&decision.rows) > lent, Refusal::nowhere(10))?;
        Ok(decision)
    }

    /// The decision, or the first refusal that has nothing to do with a buffer: "24; then file by file 1,
    /// 2, 4, 3, 5, 6, 7, each over the whole file; then 8, 9, 20, 21, 22", with 32 to 36 where the files are
    /// read.
    pub fn decide(&self, files: &Files) -> Result<Decision, Refusal> {
        refuse_if(self.ill_formed(), Refusal::nowhere(24))?;
        let filing = Filing::read(files)?;
        let hour = filing.constraint.hour;
        refuse_if(self.hour.is_some_and(|last| hour < last), Refusal::nowhere(20))?;
        refuse_where(self.stuck_on_cost(&filing), 21, 3)?;
        refuse_if(self.running_after(&filing) > Day::UNITS, Refusal::nowhere(22))?;
        Ok(Decision { hour, rows: self.answer_rows(&filing) })
    }

    /// 21: "unit of the supply file, running on cost, has no C schedule (file 3, lowest unit)".
    fn stuck_on_cost(&self, filing: &Filing) -> Option<u64> {
        let has_c = |unit| filing.schedules_of(unit).iter().any(|row| row.kind == Kind::C);
        filing.units().into_iter().find(|&unit| self.kind_of(unit) == Some(Kind::C) && !has_c(unit))
    }

    /// 22: how many units would run, those of the files and the others of the day.
    fn running_after(&self, filing: &Filing) -> usize {
        let mut units = filing.units();
        units.extend(self.running.iter().map(|running| running.unit));
        units.len()
    }

    /// "One row per unit of the supply file", with its supplier's verdict and its own choice.
    fn answer_rows(&self, filing: &Filing) -> Vec<Row> {
        let market = Market::of(filing);
        let tested = test_suppliers(filing, &market);
        let row = |unit| {
            let supplier = supplier_of(unit, filing);
            self.answer_row(unit, supplier, tested[&supplier], filing, &market)
        };
        filing.units().into_iter().map(row).collect()
    }

    /// "A unit's verdict is that of its supplier by 2 and 5, and the day here is the one the study
    /// was given."
    fn answer_row(&self, unit: u64, supplier: u64, tested: Tested, filing: &Filing, market: &Market) -> Row {
        let schedules = filing.priced_schedules_of(unit);
        let exposed = exposed(unit, tested.verdict, market);
        let chosen = choose(&schedules, filing.constraint.hour, self.kind_of(unit), exposed);
        Row { unit, supplier, tested, chosen: chosen.expect("8 and 21 leave an eligible schedule") }
    }
}

/// The supplier that a unit's rows share.
fn supplier_of(unit: u64, filing: &Filing) -> u64 {
    let row = filing.supply.iter().find(|row| row.unit == unit);
    row.expect("a unit of the supply file").supplier
}

/// A unit on the schedule chosen for it.
fn running(row: &Row) -> Running {
    Running { unit: row.unit, kind: row.chosen.kind, schedule: row.chosen.schedule }
}

#[cfg(test)]
pub mod tests {
    use super::*;
    use crate::answer::LONGEST;
    use crate::case::StudyFiles;

    const CONSTRAINT: &str = "hour,relief,cutoff";
    const SUPPLY: &str = "unit,supplier,mw,cost,dfax";
    const SCHEDULES: &str = "unit,schedule,kind,hour,ecomin,price,noload,startup,minrun";
    const CURVES: &str = "unit,schedule,hour,mw,price";
    const PARENTS: &str = "supplier,parent";

    const STARRED_SUPPLY: [&str; 4] =
        ["11,1,1000,3000,5000", "12,2,1000,3000,-5000", "13,3,1000,4000,5000", "14,4,2000,2000,200"];

    const STARRED_SCHEDULES: [&str; 7] = [
        "11,1,M,5,100,4000,50000,20000,1",
        "11,2,C,5,100,3000,50000,20000,1",
        "12,1,M,5,100,3300,0,0,1",
        "12,2,C,5,100,3000,0,0,1",
        "13,1,C,5,200,4000,0,1000,1",
        "14,1,M,5,100,5000,0,0,1",
        "14,2,C,5,100,2000,0,0,1",
    ];

    /// The bytes of a study's files.
    pub struct Bytes(StudyFiles);

    /// The bytes of a file, given by its header and rows.
    fn file(header: &str, rows: &[&str]) -> Vec<u8> {
        [&[header], rows, &[""]].concat().join("\r\n").into_bytes()
    }

    impl Bytes {
        /// Files without curves and parents.
        pub fn of(constraint: &str, supply: &[&str], schedules: &[&str]) -> Bytes {
            let constraint = file(CONSTRAINT, &[constraint]);
            let (supply, schedules) = (file(SUPPLY, supply), file(SCHEDULES, schedules));
            Bytes(StudyFiles([constraint, supply, schedules, Vec::new(), Vec::new()]))
        }

        /// The same files with curves.
        pub fn with_curves(mut self, rows: &[&str]) -> Bytes {
            self.0 .0[StudyFiles::CURVES] = file(CURVES, rows);
            self
        }

        /// The same files with parents.
        pub fn with_parents(mut self, rows: &[&str]) -> Bytes {
            self.0 .0[StudyFiles::PARENTS] = file(PARENTS, rows);
            self
        }

        /// The example ★ of the paper.
        pub fn starred() -> Bytes {
            Bytes::of("5,1000,300", &STARRED_SUPPLY, &STARRED_SCHEDULES)
        }

        pub fn files(&self) -> Files<'_> {
            self.0.lend()
        }

        /// The files as they stand in a case.
        pub fn words(&self) -> String {
            self.0.to_string()
        }

        /// The files of the check.
        pub fn three(&self) -> [&[u8]; 3] {
            let Files { constraint, supply, schedules, .. } = self.files();
            [constraint, supply, schedules]
        }
    }

    /// The next day, and the answer file as lines or the refusal.
    fn study(day: Day, bytes: &Bytes) -> (Day, Result<Vec<String>, Refusal>) {
        let mut buffer = vec![0; LONGEST];
        let (day, result) = day.study(&bytes.files(), &mut buffer);
        let lines = |length: usize| {
            let text = String::from_utf8(buffer[..length].to_vec()).unwrap();
            text.split_terminator("\r\n").map(str::to_string).collect()
        };
        (day, result.map(lines))
    }

    fn runs(unit: u64, kind: Kind, schedule: u64) -> Running {
        Running { unit, kind, schedule }
    }

    /// ★ The example, which "prints" these five records.
    #[test]
    fn starred_example() {
        let (day, answer) = study(Day::fresh(), &Bytes::starred());
        let expected = [
            "unit,supplier,verdict,left,schedule,kind,cost",
            "11,1,F,0,2,C,1030000",
            "12,2,F,0,1,M,330000",
            "13,3,F,0,1,C,890000",
            "14,4,F,5000000,1,M,500000",
        ];
        assert_eq!(answer.unwrap(), expected);
        assert_eq!(day.hour, Some(5));
        let chosen = [runs(11, Kind::C, 2), runs(12, Kind::M, 1), runs(13, Kind::C, 1), runs(14, Kind::M, 1)];
        assert_eq!(day.running, chosen);
    }

    #[test]
    fn a_running_unit_pays_no_startup_and_keeps_to_cost() {
        let given = Day {
            hour: Some(5),
            running: vec![runs(11, Kind::C, 77), runs(14, Kind::C, 1), runs(99, Kind::M, 9)],
        };
        let (day, answer) = study(given, &Bytes::starred());
        let answer = answer.unwrap();
        assert_eq!(answer[1], "11,1,F,0,2,C,830000");
        assert_eq!(answer[4], "14,4,F,5000000,2,C,220000");
        assert_eq!(day.running[4], runs(99, Kind::M, 9));
    }

    #[test]
    fn too_little_supply_exposes_every_eligible_unit() {
        let bytes = Bytes::of("5,1501,300", &STARRED_SUPPLY, &STARRED_SCHEDULES);
        let (_, answer) = study(Day::fresh(), &bytes);
        let answer = answer.unwrap();
        assert_eq!(answer[1], "11,1,U,0,2,C,1030000");
        assert_eq!(answer[4], "14,4,U,0,1,M,500000");
        let enough = Bytes::of("5,1500,300", &STARRED_SUPPLY, &STARRED_SCHEDULES);
        assert_eq!(study(Day::fresh(), &enough).1.unwrap()[1], "11,1,F,0,2,C,1030000");
    }

    /// The last rows of the starred answer where the suppliers have parents.
    fn under(parents: &[&str]) -> Result<Vec<String>, Refusal> {
        study(Day::fresh(), &Bytes::starred().with_parents(parents)).1
    }

    /// "Left is the relevant supply without it and without its two largest other" groups.
    #[test]
    fn groups_are_tested_and_the_filed_supplier_is_shown() {
        let starred = under(&[]).unwrap();
        for parents in [&["1,2"][..], &["2,1"], &["4,900", "1,900"], &["1,5", "5,6", "6,7", "3,7"]] {
            let answer = under(parents).unwrap();
            assert_eq!(answer[..4], starred[..4], "{parents:?}");
            assert_eq!(answer[4], "14,4,F,0,1,M,500000", "{parents:?}");
        }
        assert_eq!(study(Day::fresh(), &Bytes::starred()).1.unwrap(), starred);
        assert_eq!(under(&["900,901", "4,900"]).unwrap(), starred);
    }

    /// Four suppliers of one row each, at a relief that three of them leave to the fourth.
    #[test]
    fn a_group_fails_where_its_suppliers_would_pass() {
        let supply = ["1,1,100,0,100", "2,2,100,0,100", "3,3,100,0,100", "4,4,100,0,100"];
        let schedules = ["1,1,M,5,1,9,0,0,1", "2,1,M,5,1,9,0,0,1", "3,1,M,5,1,9,0,0,1", "4,1,M,5,1,9,0,0,1"];
        let verdicts = |parents: &[&str]| {
            let bytes = Bytes::of("5,1,1", &supply, &schedules).with_parents(parents);
            let answer = study(Day::fresh(), &bytes).1.unwrap();
            answer[1..].iter().map(|row| row.replace(",1,M,9", "")).collect::<Vec<_>>()
        };
        assert_eq!(verdicts(&[]), ["1,1,P,10000", "2,2,P,10000", "3,3,P,10000", "4,4,P,10000"]);
        assert_eq!(verdicts(&["4,1"]), ["1,1,F,0", "2,2,F,0", "3,3,F,0", "4,4,F,0"]);
    }

    #[test]
    fn parents_refuse_in_their_place() {
        let refusal = |parents: &[&str]| under(parents).unwrap_err();
        assert_eq!(refusal(&["1,2", "1,2"]), Refusal::at(35, 5, 2));
        assert_eq!(refusal(&["1,1", "1,2"]), Refusal::at(35, 5, 2));
        assert_eq!(refusal(&["1,2", "2,3", "3,2"]), Refusal::at(36, 5, 2));
        assert_eq!(refusal(&["900,900"]), Refusal::at(36, 5, 1));
        assert_eq!(refusal(&["1,1", "0,2"]), Refusal::at(3, 5, 2));
        let without_schedules =
            |parents: &[&str]| Bytes::of("5,1,1", &["1,1,1,1,1"], &[]).with_parents(parents);
        let refusal = |bytes: &Bytes| study(Day::fresh(), bytes).1.unwrap_err();
        assert_eq!(refusal(&without_schedules(&["7,7"])), Refusal::at(36, 5, 1));
        assert_eq!(refusal(&without_schedules(&["7,8"])), Refusal::at(8, 3, 1));
        let stray = Bytes::of("5,1,1", &[], &["1,1,M,5,0,0,0,0,1"]).with_parents(&["\n"]);
        assert_eq!(refusal(&stray), Refusal::at(7, 3, 1));
        let parents_alone = Bytes::of("5,1,1", &[], &[]).with_parents(&["\n"]);
        assert_eq!(refusal(&parents_alone), Refusal::at(1, 5, 0));
    }

    /// The starred answer where the schedules have curves.
    fn by(curves: &[&str]) -> Result<Vec<String>, Refusal> {
        study(Day::fresh(), &Bytes::starred().with_curves(curves)).1
    }

    /// Each schedule of unit 11 costs 100 times its offer price and 700000 more.
    #[test]
    fn a_curve_stands_in_for_the_price_column() {
        let row_11 = |curves: &[&str]| by(curves).unwrap()[1].clone();
        assert_eq!(row_11(&["11,2,5,50,1000", "11,2,5,100,2000"]), "11,1,F,0,2,C,920000");
        assert_eq!(row_11(&["11,2,5,50,1000", "11,2,5,100,6000"]), "11,1,F,0,1,M,1100000");
        assert_eq!(row_11(&["11,1,5,99,1000", "11,1,5,101,2000"]), "11,1,F,0,1,M,900000");
        assert_eq!(row_11(&["11,1,5,100,2200", "11,2,5,100,2000"]), "11,1,F,0,1,M,920000");
        assert_eq!(row_11(&["11,1,5,100,2201", "11,2,5,100,2000"]), "11,1,F,0,2,C,920000");
        assert_eq!(by(&[]).unwrap(), study(Day::fresh(), &Bytes::starred()).1.unwrap());
    }

    /// Hour 6 is in the run of a unit that isn't running, and hour 4 in nobody's.
    #[test]
    fn a_curve_prices_its_own_hour_alone() {
        let rows = ["1,1,M,4,10,7,0,0,2", "1,1,M,5,10,7,0,0,2", "1,1,M,6,10,7,0,0,2"];
        let row = |day: Day, curve: &str| {
            let bytes = Bytes::of("5,1,1", &["1,1,1,1,1"], &rows).with_curves(&[curve]);
            study(day, &bytes).1.unwrap()[1].clone()
        };
        let running = Day { hour: None, running: vec![runs(1, Kind::M, 1)] };
        assert_eq!(row(Day::fresh(), "1,1,4,10,100"), "1,1,U,0,1,M,140");
        assert_eq!(row(Day::fresh(), "1,1,6,10,100"), "1,1,U,0,1,M,1070");
        assert_eq!(row(running.clone(), "1,1,6,10,100"), "1,1,U,0,1,M,70");
        assert_eq!(row(running, "1,1,5,10,100"), "1,1,U,0,1,M,1000");
    }

    #[test]
    fn curves_refuse_in_their_place() {
        let refusal = |curves: &[&str]| by(curves).unwrap_err();
        let (stray, again, low) = ("11,2,6,100,2000", "11,2,5,100,2000", "12,1,5,99,1");
        assert_eq!(refusal(&[again, again, low, stray]), Refusal::at(32, 4, 4));
        assert_eq!(refusal(&[low, again, again]), Refusal::at(33, 4, 3));
        assert_eq!(refusal(&[again, low]), Refusal::at(34, 4, 2));
        assert_eq!(refusal(&[stray, again, "0,1,5,1,1"]), Refusal::at(3, 4, 3));
        let refused = |bytes: Bytes| study(Day::fresh(), &bytes).1.unwrap_err();
        assert_eq!(
            refused(Bytes::starred().with_curves(&[low]).with_parents(&["\n"])),
            Refusal::at(34, 4, 1)
        );
        let row = "1,1,M,5,1,0,0,0,1";
        let without_schedule =
            |curve| Bytes::of("5,1,1", &["1,1,1,1,1", "2,1,1,1,1"], &[row]).with_curves(&[curve]);
        assert_eq!(refused(without_schedule("1,1,5,0,0")), Refusal::at(34, 4, 1));
        assert_eq!(refused(without_schedule("1,1,5,1,0")), Refusal::at(8, 3, 2));
        assert_eq!(refused(Bytes::of("5,1,1", &[], &[row]).with_curves(&["\n"])), Refusal::at(7, 3, 1));
        assert_eq!(refused(Bytes::of("5,1,1", &[], &[]).with_curves(&["\n"])), Refusal::at(1, 4, 0));
    }

    /// The run is hours 5 and 6, and the schedule has a row for the first alone.
    #[test]
    fn a_curve_fills_in_for_no_row() {
        let rows = ["1,1,M,5,1,0,0,0,2"];
        let refused = |curves: &[&str]| {
            let bytes = Bytes::of("5,1,1", &["1,1,1,1,1"], &rows).with_curves(curves);
            study(Day::fresh(), &bytes).1.unwrap_err()
        };
        assert_eq!(refused(&["1,1,5,1,1"]), Refusal::at(9, 3, 1));
        assert_eq!(refused(&["1,1,5,1,1", "1,1,6,1,1"]), Refusal::at(32, 4, 2));
    }

    #[test]
    fn no_supply_rows_move_the_hour() {
        let (day, answer) = study(Day::fresh(), &Bytes::of("5,1,1", &[], &[]));
        assert_eq!(answer.unwrap(), ["unit,supplier,verdict,left,schedule,kind,cost"]);
        assert_eq!(day, Day { hour: Some(5), running: vec![] });
        let stray = Bytes::of("5,1,1", &[], &["1,1,M,5,0,0,0,0,1"]);
        assert_eq!(study(Day::fresh(), &stray), (Day::fresh(), Err(Refusal::at(7, 3, 1))));
    }

    #[test]
    fn the_state_refuses_in_order() {
        let bytes = Bytes::starred();
        let refusal = |hour, running| study(Day { hour, running }, &bytes).1.unwrap_err();
        let on_cost = Bytes::of("5,1000,300", &STARRED_SUPPLY, &STARRED_SCHEDULES[..6]);
        let stuck = Day { hour: Some(5), running: vec![runs(14, Kind::C, 1)] };
        assert_eq!(study(stuck, &on_cost).1, Err(Refusal::at(21, 3, 14)));
        assert_eq!(refusal(Some(6), vec![]), Refusal::nowhere(20));
        assert_eq!(refusal(Some(24), vec![]), Refusal::nowhere(24));
        let others = |count: u64| (100..100 + count).map(|unit| runs(unit, Kind::M, 1)).collect();
        assert_eq!(refusal(None, others(61)), Refusal::nowhere(22));
        assert!(study(Day { hour: None, running: others(60) }, &bytes).1.is_ok());
    }

    #[test]
    fn a_fitting_buffer_is_enough_and_a_shorter_one_stays_as_it_was() {
        let bytes = Bytes::starred();
        let mut fitting = [0; 138];
        assert_eq!(Day::fresh().study(&bytes.files(), &mut fitting).1, Ok(138));
        let mut short = [7; 137];
        assert_eq!(Day::fresh().study(&bytes.files(), &mut short), (Day::fresh(), Err(Refusal::nowhere(10))));
        assert_eq!(short, [7; 137]);
        let mut longer = [7; 141];
        assert_eq!(Day::fresh().study(&bytes.files(), &mut longer).1, Ok(138));
        assert_eq!((&longer[..138], &longer[138..]), (&fitting[..], &[7; 3][..]));
    }
}

//! The judge: any bytes laid beside an answer file, weighed by the words of demand 3.
//!
//! It takes the demand at its word and shares nothing with the model but the reading of the files:
//! groups are joined row by row of the parents, every removal is tried, costs are brought to one
//! denominator and sorted, the cheapest point of a curve that reaches ecomin is taken, and schedules are
//! compared one with another. So it is slow, and meant for small studies.

use std::collections::{BTreeMap, BTreeSet};

use crate::day::Day;
use crate::rules::{Files, Filing};
use crate::table::{Kind, Point, Schedule, Supply};

/// The largest studies that are judged. Eight units keep the common denominator in its type.
pub const UNITS: usize = 8;
pub const SUPPLIERS: usize = 6;

/// The ceiling on the sum of a cost and its adder: 2,000 dollars.
const CEILING: u64 = 200_000;

/// The header record of the fixed layout, with its end.
const HEADER: &[u8] = b"unit,supplier,verdict,left,schedule,kind,cost\r\n";

/// Suppliers that count as one, with those among them that aren't in the supply file.
type Group = BTreeSet<u64>;

/// What an accepted study asks of the bytes beside its answer file.
pub struct Judge {
    /// "It shows U exactly when eligible supply is short of the relief."
    short: bool,
    need: u64,
    /// By rising number.
    units: Vec<Unit>,
}

/// What is asked of one unit's row.
struct Unit {
    number: u64,
    supplier: u64,
    has_eligible_row: bool,
    has_relevant_row: bool,
    /// Its supplier and all that are affiliated with it.
    group: Group,
    /// What each removal leaves.
    removals: Vec<u64>,
    /// What each removal would leave if it took single suppliers away, and not whole groups.
    removals_of_single_suppliers: Vec<u64>,
    schedules: Vec<Offered>,
    /// The same schedules by their price columns, as if there were no curves.
    schedules_by_column: Vec<Offered>,
    /// The same schedules as if no cost-based offer went above the ceiling.
    schedules_with_ceiling: Vec<Offered>,
    /// The eligible schedules where the unit is exposed, and where it isn't.
    eligible_exposed: Vec<Offered>,
    eligible_otherwise: Vec<Offered>,
}

/// A schedule of a unit, "with its true kind and cost".
#[derive(Clone, Copy, PartialEq, Eq)]
pub struct Offered {
    pub number: u64,
    pub kind: Kind,
    pub cost: u64,
}

/// What a row of the bytes shows.
struct Shown {
    unit: u64,
    supplier: u64,
    verdict: u8,
    left: u64,
    schedule: Offered,
}

/// Why bytes are rejected.
pub type Reason = &'static str;

const OUT_OF_LAYOUT: Reason = "a record out of the layout";

/// Rejects with a reason where something doesn't hold.
fn hold(condition: bool, reason: Reason) -> Result<(), Reason> {
    if condition {
        Ok(())
    } else {
        Err(reason)
    }
}

impl Judge {
    /// The judge of a study's files and "the day it was given", or `None` where the files are
    /// refused or too large to try every removal.
    pub fn of(files: &Files, day: &Day) -> Option<Judge> {
        let filing = Filing::read(files).ok()?;
        if filing.units().len() > UNITS || filing.suppliers().len() > SUPPLIERS {
            return None;
        }
        let need = filing.constraint.relief * 10_000;
        let eligible = eligible_rows(&filing);
        let short = supply(&eligible) < need;
        let relevant = if short { Vec::new() } else { relevant_rows(&eligible, need) };
        let units = filing.units().into_iter();
        let unit = |number| Unit::of(number, &filing, &eligible, &relevant, day);
        Some(Judge { short, need, units: units.map(unit).collect() })
    }

    /// Accepts bytes, or says what of demand 3 they break.
    pub fn weigh(&self, bytes: &[u8]) -> Result<(), Reason> {
        let mut rest = bytes.strip_prefix(HEADER).ok_or("not the header")?;
        for unit in &self.units {
            let (row, after) = read_row(rest)?;
            self.weigh_row(&row, unit)?;
            rest = after;
        }
        hold(rest.is_empty(), "more than one row per unit")
    }

    /// Accepts the record of an answer file that a preview shows for a unit, or says what of demand 3 it
    /// breaks.
    pub fn weigh_previewed(&self, unit: u64, record: &[u8]) -> Result<(), Reason> {
        let supplied = self.units.iter().find(|supplied| supplied.number == unit);
        let row = read_record(record).ok_or(OUT_OF_LAYOUT)?;
        hold(row.unit == unit, "the row of another unit")?;
        self.weigh_row(&row, supplied.ok_or("a row of a unit that isn't in supply")?)
    }

    /// "The following holds of every row."
    fn weigh_row(&self, row: &Shown, unit: &Unit) -> Result<(), Reason> {
        hold(row.unit == unit.number, "not by rising number")?;
        hold(row.supplier == unit.supplier, "not its supplier")?;
        hold((row.verdict == b'U') == self.short, "U, or no U, against the eligible supply")?;
        if row.verdict == b'U' {
            hold(row.left == 0, "U with something left")?;
        } else {
            let fails = unit.removals.iter().any(|&left| left < self.need);
            hold((row.verdict == b'F') == fails, "F, or P, against the removals")?;
            hold(unit.removals.contains(&row.left), "an amount that no removal leaves")?;
            hold(unit.removals.iter().all(|&left| left >= row.left), "a removal leaves less")?;
        }
        let eligible = unit.eligible(row.verdict);
        hold(eligible.contains(&row.schedule), "not an eligible schedule with its kind and cost")?;
        let mut others = eligible.iter().filter(|other| other.number != row.schedule.number);
        hold(others.all(|other| comes_after(other, &row.schedule)), "another schedule comes before")
    }

    /// The schedules of the unit in a row, priced with and without a regard for curves and with the ceiling on
    /// every cost-based offer, for making up answers that show another one.
    pub fn schedules(&self, row: usize) -> Vec<Offered> {
        let Unit { schedules, schedules_by_column, schedules_with_ceiling, .. } = &self.units[row];
        [&schedules[..], schedules_by_column, schedules_with_ceiling].concat()
    }

    /// What removals of a row leave, with and without a regard for groups, for making up answers that
    /// show another amount.
    pub fn removals(&self, row: usize) -> Vec<u64> {
        let Unit { removals, removals_of_single_suppliers, .. } = &self.units[row];
        [&removals[..], removals_of_single_suppliers].concat()
    }

    /// The group of a row's supplier, for making up answers that show another of its members.
    pub fn group(&self, row: usize) -> &BTreeSet<u64> {
        &self.units[row].group
    }
}

/// "Every other eligible schedule of the unit costs at least as much, and one that costs the same
/// has a larger number."
fn comes_after(other: &Offered, shown: &Offered) -> bool {
    other.cost > shown.cost || other.cost == shown.cost && other.number > shown.number
}

impl Unit {
    fn of(number: u64, filing: &Filing, eligible: &[Supply], relevant: &[Supply], day: &Day) -> Unit {
        let of_unit = |row: &Supply| row.unit == number;
        let supplier = filing.supply.iter().find(|row| of_unit(row)).map_or(0, |row| row.supplier);
        let day_has = day.running.iter().find(|running| running.unit == number);
        let h = filing.constraint.hour;
        let own: Vec<Schedule> = filing.schedules.iter().filter(|row| row.unit == number).copied().collect();
        let found = by_curves(&own, &filing.curves);
        let schedules = offered(&found, h, day_has.is_some());
        let on_cost = day_has.is_some_and(|running| running.kind == Kind::C);
        let groups = groups(filing);
        Unit {
            number,
            supplier,
            has_eligible_row: eligible.iter().any(of_unit),
            has_relevant_row: relevant.iter().any(of_unit),
            removals: removals(supplier, &groups, relevant),
            removals_of_single_suppliers: removals(supplier, &single(&filing.suppliers()), relevant),
            group: groups.into_iter().find(|group| group.contains(&supplier)).unwrap_or_default(),
            eligible_exposed: eligible_schedules(&schedules, on_cost, true),
            eligible_otherwise: eligible_schedules(&schedules, on_cost, false),
            schedules,
            schedules_by_column: offered(&own, h, day_has.is_some()),
            schedules_with_ceiling: offered(&with_ceiling(&found), h, day_has.is_some()),
        }
    }

    /// The eligible schedules of a unit whose verdict is the one shown.
    fn eligible(&self, verdict: u8) -> &[Offered] {
        let exposed = verdict == b'F' && self.has_relevant_row || verdict == b'U' && self.has_eligible_row;
        if exposed {
            &self.eligible_exposed
        } else {
            &self.eligible_otherwise
        }
    }
}

/// The eligible ones of a unit's schedules.
fn eligible_schedules(schedules: &[Offered], on_cost: bool, exposed: bool) -> Vec<Offered> {
    let of_kind = |kind| schedules.iter().filter(|schedule| schedule.kind == kind).copied().collect();
    let market_based: Vec<Offered> = of_kind(Kind::M);
    if on_cost {
        of_kind(Kind::C)
    } else if exposed {
        schedules.to_vec()
    } else if !market_based.is_empty() {
        market_based
    } else {
        of_kind(Kind::C)
    }
}

/// Rows whose |dfax| is at least cutoff.
fn eligible_rows(filing: &Filing) -> Vec<Supply> {
    let far = |row: &&Supply| row.dfax.unsigned_abs() >= filing.constraint.cutoff;
    filing.supply.iter().filter(far).copied().collect()
}

/// Effective supply, added up.
fn supply(rows: &[Supply]) -> u64 {
    rows.iter().map(|row| row.mw * row.dfax.unsigned_abs()).sum()
}

/// The relevant rows of an eligible supply that meets the need: costs are multiplied by a common
/// denominator and sorted, and the supply is added up from the cheapest on until it meets the need.
fn relevant_rows(eligible: &[Supply], need: u64) -> Vec<Supply> {
    let denominator = eligible.iter().fold(1, |common, row| least_common_multiple(common, size(row)));
    let cost = |row: &Supply| u128::from(capped(row.cost)) * (denominator / size(row));
    let mut cheapest_first = eligible.to_vec();
    cheapest_first.sort_by_key(cost);
    let mut met = 0;
    let clearing = cheapest_first.iter().find(|row| {
        met += row.mw * row.dfax.unsigned_abs();
        met >= need
    });
    let limit = clearing.map_or(0, |row| 3 * cost(row));
    cheapest_first.retain(|row| 2 * cost(row) <= limit);
    cheapest_first
}

fn size(row: &Supply) -> u128 {
    u128::from(row.dfax.unsigned_abs())
}

fn least_common_multiple(a: u128, b: u128) -> u128 {
    let (mut divisor, mut rest) = (a, b);
    while rest != 0 {
        (divisor, rest) = (rest, divisor % rest);
    }
    a / divisor * b
}

/// Eleven tenths rounded down, at most 10000 more, and at most the ceiling; but never less than the cost,
/// which is the offer where it is above the ceiling itself.
fn capped(cost: u64) -> u64 {
    (cost * 11 / 10).min(cost + 10_000).min(CEILING).max(cost)
}

/// The groups that have a supplier of the supply file: each number is by itself at first, and each row
/// of the parents joins the two groups that it names.
fn groups(filing: &Filing) -> Vec<Group> {
    let suppliers = filing.suppliers();
    let named = filing.parents.iter().flat_map(|row| [row.supplier, row.parent]);
    let mut groups = single(&named.chain(suppliers.iter().copied()).collect());
    for row in &filing.parents {
        let joins = |group: &Group| group.contains(&row.supplier) || group.contains(&row.parent);
        let (joined, mut apart): (Vec<Group>, Vec<Group>) = groups.into_iter().partition(joins);
        apart.push(joined.into_iter().flatten().collect());
        groups = apart;
    }
    groups.retain(|group| !group.is_disjoint(&suppliers));
    groups
}

/// Each supplier by itself.
fn single(suppliers: &BTreeSet<u64>) -> Vec<Group> {
    suppliers.iter().map(|&supplier| Group::from([supplier])).collect()
}

/// What each removal leaves: "a removal takes away the row's supplier together with none, one or two
/// other suppliers", where "\"other supplier\" means another group; a removal takes away whole groups, his
/// own included". It leaves "the effective supply, added up, of the relevant rows of every supplier not
/// removed".
fn removals(supplier: u64, groups: &[Group], relevant: &[Supply]) -> Vec<u64> {
    let (own, others): (Vec<&Group>, Vec<&Group>) =
        groups.iter().partition(|group| group.contains(&supplier));
    let mut removed = vec![own.clone()];
    for (index, one) in others.iter().enumerate() {
        removed.push([&own[..], &[one]].concat());
        removed.extend(others[..index].iter().map(|two| [&own[..], &[one, two]].concat()));
    }
    let leaves = |removed: Vec<&Group>| {
        let stays = |row: &&Supply| !removed.iter().any(|group| group.contains(&row.supplier));
        supply(&relevant.iter().filter(stays).copied().collect::<Vec<_>>())
    };
    removed.into_iter().map(leaves).collect()
}

/// Rows with "the price so found" for those that have points: prices rise with mw, so the first point that
/// reaches ecomin is the cheapest that does.
fn by_curves(rows: &[Schedule], points: &[Point]) -> Vec<Schedule> {
    let mut found = rows.to_vec();
    for row in &mut found {
        let hour = [row.unit, row.schedule, row.hour];
        let own = points.iter().filter(|point| [point.unit, point.schedule, point.hour] == hour);
        let cheapest = own.filter(|point| row.ecomin <= point.mw).map(|point| point.price).min();
        row.price = cheapest.unwrap_or(row.price);
    }
    found
}

/// Rows whose cost-based offers are at most the ceiling.
fn with_ceiling(rows: &[Schedule]) -> Vec<Schedule> {
    let mut lowered = rows.to_vec();
    for row in lowered.iter_mut().filter(|row| row.kind == Kind::C) {
        row.price = row.price.min(CEILING);
    }
    lowered
}

/// The schedules of a unit, given by their rows, with their costs, by number.
fn offered(rows: &[Schedule], h: u64, runs_already: bool) -> Vec<Offered> {
    let mut schedules: BTreeMap<u64, Offered> = BTreeMap::new();
    for row in rows {
        let start = if runs_already { 0 } else { 10 * row.startup };
        let new = Offered { number: row.schedule, kind: row.kind, cost: start };
        let schedule = schedules.entry(row.schedule).or_insert(new);
        let last = if runs_already { h } else { h + row.minrun - 1 };
        if h <= row.hour && row.hour <= last {
            schedule.cost += cost_of_hour(row);
        }
    }
    schedules.into_values().collect()
}

/// The cost of the hour of a row.
fn cost_of_hour(row: &Schedule) -> u64 {
    let price = if row.kind == Kind::C { capped(row.price) } else { row.price };
    row.ecomin * price + 10 * row.noload
}

/// The row that a part of the bytes begins with, and the rest.
fn read_row(bytes: &[u8]) -> Result<(Shown, &[u8]), Reason> {
    let end = bytes.windows(2).position(|pair| pair == b"\r\n").ok_or("a record without its end")?;
    let shown = read_record(&bytes[..end]).ok_or(OUT_OF_LAYOUT)?;
    Ok((shown, &bytes[end + 2..]))
}

fn read_record(record: &[u8]) -> Option<Shown> {
    let mut fields = record.split(|&byte| byte == b',');
    let row = Shown {
        unit: read_numeral(fields.next()?)?,
        supplier: read_numeral(fields.next()?)?,
        verdict: read_verdict(fields.next()?)?,
        left: read_numeral(fields.next()?)?,
        schedule: Offered {
            number: read_numeral(fields.next()?)?,
            kind: Kind::read(fields.next()?)?,
            cost: read_numeral(fields.next()?)?,
        },
    };
    fields.next().is_none().then_some(row)
}

fn read_verdict(text: &[u8]) -> Option<u8> {
    match text {
        [letter @ (b'U' | b'P' | b'F')] => Some(*letter),
        _ => None,
    }
}

/// A numeral; one beyond the type is beyond every number that a row can show.
fn read_numeral(text: &[u8]) -> Option<u64> {
    let leading_zero = text.len() > 1 && text[0] == b'0';
    if text.is_empty() || leading_zero {
        return None;
    }
    let mut number: u64 = 0;
    for digit in text {
        let value = digit.is_ascii_digit().then(|| u64::from(digit - b'0'))?;
        number = number.checked_mul(10)?.checked_add(value)?;
    }
    Some(number)
}

#[cfg(test)]
mod tests {
    use super::*;
    use crate::market;
    use crate::study::tests::Bytes;

    const STARRED: [&str; 6] = [
        "unit,supplier,verdict,left,schedule,kind,cost",
        "11,1,F,0,2,C,1030000",
        "12,2,F,0,1,M,330000",
        "13,3,F,0,1,C,890000",
        "14,4,F,5000000,1,M,500000",
        "",
    ];

    /// What the judge of the starred example says when one record is replaced by another.
    fn weigh(old: &str, new: &str) -> Result<(), Reason> {
        let judge = Judge::of(&Bytes::starred().files(), &Day::fresh()).unwrap();
        judge.weigh(STARRED.map(|record| if record == old { new } else { record }).join("\r\n").as_bytes())
    }

    #[test]
    fn the_starred_answer_is_accepted() {
        assert_eq!(weigh("", ""), Ok(()));
    }

    #[test]
    fn each_sentence_rejects_for_its_own_reason() {
        let first = "11,1,F,0,2,C,1030000";
        let reasons = [
            ("11,1,F,0,2,C,1030000,", "a record out of the layout"),
            ("11,1,F,0,2,C,01030000", "a record out of the layout"),
            ("11,1,f,0,2,C,1030000", "a record out of the layout"),
            ("\"11\",1,F,0,2,C,1030000", "a record out of the layout"),
            ("10,1,F,0,2,C,1030000", "not by rising number"),
            ("11,2,F,0,2,C,1030000", "not its supplier"),
            ("11,1,U,0,2,C,1030000", "U, or no U, against the eligible supply"),
            ("11,1,P,0,2,C,1030000", "F, or P, against the removals"),
            ("11,1,F,1,2,C,1030000", "an amount that no removal leaves"),
            ("11,1,F,5000000,2,C,1030000", "a removal leaves less"),
            ("11,1,F,0,2,M,1030000", "not an eligible schedule with its kind and cost"),
            ("11,1,F,0,2,C,1030001", "not an eligible schedule with its kind and cost"),
            ("11,1,F,0,1,M,1100000", "another schedule comes before"),
            ("11,1,F,0,2,C,1030000\r\n11,1,F,0,2,C,1030000", "not by rising number"),
        ];
        for (row, reason) in reasons {
            assert_eq!(weigh(first, row), Err(reason), "{row}");
        }
        assert_eq!(weigh("", "x"), Err("more than one row per unit"));
        assert_eq!(weigh("14,4,F,5000000,1,M,500000", ""), Err("a record out of the layout"));
        assert_eq!(weigh(STARRED[0], "unit"), Err("not the header"));
    }

    #[test]
    fn at_equal_cost_the_larger_number_is_rejected() {
        assert_eq!(weigh("12,2,F,0,1,M,330000", "12,2,F,0,2,C,330000"), Err("another schedule comes before"));
    }

    #[test]
    fn a_removal_takes_whole_groups_and_the_supplier_is_the_filed_one() {
        let weigh = |row: &str, parents: &[&str]| {
            let bytes = Bytes::starred().with_parents(parents);
            let judge = Judge::of(&bytes.files(), &Day::fresh()).unwrap();
            judge.weigh([&STARRED[..4], &[row, ""]].concat().join("\r\n").as_bytes())
        };
        let (alone, grouped) = ("14,4,F,5000000,1,M,500000", "14,4,F,0,1,M,500000");
        for parents in [&["1,2"][..], &["3,7", "2,7"], &["1,900", "4,900"], &["4,5", "5,6", "6,3"]] {
            assert_eq!(weigh(grouped, parents), Ok(()), "{parents:?}");
            assert_eq!(weigh(alone, parents), Err("a removal leaves less"), "{parents:?}");
            assert_eq!(weigh("14,9,F,0,1,M,500000", parents), Err("not its supplier"), "{parents:?}");
        }
        for parents in [&["1,900"][..], &["900,901"], &[]] {
            assert_eq!(weigh(alone, parents), Ok(()), "{parents:?}");
            assert_eq!(weigh(grouped, parents), Err("an amount that no removal leaves"), "{parents:?}");
        }
    }

    #[test]
    fn groups_are_joined_in_any_order_of_rows() {
        let joined = |parents: &[&str]| {
            let bytes = Bytes::starred().with_parents(parents);
            groups(&Filing::read(&bytes.files()).unwrap())
        };
        assert_eq!(joined(&["1,2", "8,9"]), [Group::from([3]), Group::from([4]), Group::from([1, 2])]);
        let all = Group::from([1, 2, 3, 4, 7, 8]);
        assert_eq!(joined(&["1,7", "2,8", "3,8", "7,2", "8,4"]), [all]);
    }

    #[test]
    fn a_previewed_row_is_weighed_for_its_unit() {
        let judge = Judge::of(&Bytes::starred().files(), &Day::fresh()).unwrap();
        let weigh = |unit: u64, record: &str| judge.weigh_previewed(unit, record.as_bytes());
        for (unit, record) in (11..=14).zip(&STARRED[1..5]) {
            assert_eq!(weigh(unit, record), Ok(()));
            assert_eq!(weigh(unit, &format!("{record}\r\n")), Err("a record out of the layout"));
        }
        assert_eq!(weigh(11, STARRED[2]), Err("the row of another unit"));
        assert_eq!(weigh(15, "15,4,F,5000000,1,M,500000"), Err("a row of a unit that isn't in supply"));
        assert_eq!(weigh(14, "14,14,F,5000000,1,M,500000"), Err("not its supplier"));
        assert_eq!(weigh(14, "14,4,F,0,1,M,500000"), Err("an amount that no removal leaves"));
        assert_eq!(weigh(11, "11,1,F,0,1,M,1100000"), Err("another schedule comes before"));
    }

    /// "Answers are judged on the price so found": 2000 for unit 11 on cost, capped to 2200, and 4000 for unit
    /// 12 on market, as it is.
    #[test]
    fn costs_are_by_curves_where_there_are_points() {
        let weigh = |rows: [&str; 2], curves: &[&str]| {
            let bytes = Bytes::starred().with_curves(curves);
            let judge = Judge::of(&bytes.files(), &Day::fresh()).unwrap();
            judge.weigh([&STARRED[..1], &rows, &STARRED[3..]].concat().join("\r\n").as_bytes())
        };
        let (column_11, curve_11) = (STARRED[1], "11,1,F,0,2,C,920000");
        let (column_12, second_12) = (STARRED[2], "12,2,F,0,2,C,330000");
        let (of_11, of_12) = (["11,2,5,50,1000", "11,2,5,100,2000"], ["12,1,5,99,1", "12,1,5,101,4000"]);
        assert_eq!(weigh([curve_11, column_12], &of_11), Ok(()));
        assert_eq!(weigh([column_11, second_12], &of_12), Ok(()));
        assert_eq!(weigh([column_11, column_12], &[]), Ok(()));
        let not_so = Err("not an eligible schedule with its kind and cost");
        assert_eq!(weigh([column_11, column_12], &of_11), not_so);
        assert_eq!(weigh(["11,1,F,0,2,C,900000", column_12], &of_11), not_so);
        assert_eq!(weigh([column_11, column_12], &of_12), not_so);
        assert_eq!(weigh([curve_11, column_12], &[]), not_so);
        assert_eq!(weigh([column_11, "12,2,F,0,1,M,400000"], &of_12), Err("another schedule comes before"));
    }

    /// The judge's capped offer, which is written otherwise than the model's, is the same.
    #[test]
    fn capped_offers_are_those_of_the_model() {
        for cost in 0..=370_000 {
            assert_eq!(capped(cost), market::capped(cost), "{cost}");
        }
    }

    /// Unit 1 alone fails, and may take either kind: ecomin 10 at the offer price, and nothing else.
    #[test]
    fn costs_above_2000_dollars_are_judged_as_they_are() {
        let weigh = |price_of_c: u64, price_of_m: u64, row: &str| {
            let schedules = [("1", "M", price_of_m), ("2", "C", price_of_c)];
            let schedules =
                schedules.map(|(number, kind, price)| format!("1,{number},{kind},5,10,{price},0,0,1"));
            let bytes =
                Bytes::of("5,1,1", &["1,1,1000,200001,10"], &schedules.each_ref().map(String::as_str));
            let judge = Judge::of(&bytes.files(), &Day::fresh()).unwrap();
            judge.weigh([STARRED[0], row, ""].join("\r\n").as_bytes())
        };
        let of_c = |cost: u64| format!("1,1,F,0,2,C,{cost}");
        assert_eq!(weigh(200_001, 200_002, &of_c(2_000_010)), Ok(()));
        assert_eq!(weigh(370_000, 370_000, "1,1,F,0,1,M,3700000"), Ok(()));
        assert_eq!(weigh(195_000, 200_000, "1,1,F,0,1,M,2000000"), Ok(()));
        assert_eq!(weigh(195_000, 200_001, &of_c(2_000_000)), Ok(()));
        let not_so = Err("not an eligible schedule with its kind and cost");
        for other in [2_000_000, 2_100_010, 2_200_010] {
            assert_eq!(weigh(200_001, 300_000, &of_c(other)), not_so, "{other}");
        }
        assert_eq!(weigh(195_000, 200_001, &of_c(1_950_000)), not_so);
        assert_eq!(weigh(200_002, 200_001, &of_c(2_000_020)), Err("another schedule comes before"));
    }

    #[test]
    fn unit_14_is_not_capped() {
        let capped = weigh("14,4,F,5000000,1,M,500000", "14,4,F,5000000,2,C,220000");
        assert_eq!(capped, Err("not an eligible schedule with its kind and cost"));
    }
}

//! What costs and prices around 2,000 dollars and at the highest brought about, for the tally.

use std::collections::BTreeSet;

use crate::case::{Case, StudyFiles, LONGEST_BUFFER};
use crate::csv::{records, Field};
use crate::curves::{belongs, priced};
use crate::generator::sheet::Sheet;
use crate::market::{capped, clearing_cost, EffectiveCost, Market, TWO_THOUSAND_DOLLARS};
use crate::rules::Filing;
use crate::table::{Kind, Schedule, Supply, Table, CURVES, HIGHEST_PRICE, SCHEDULES, SUPPLY};
use crate::tally::verdicts;

/// Something that can be said of costs and prices.
#[derive(Clone, Copy, Debug, PartialEq, Eq, PartialOrd, Ord)]
pub enum Offering {
    /// An accepted study or preview with a cost or price above 2,000 dollars, by where it is given, ..
    Above(Given),
    /// .. or with one at an edge, ..
    At(Given, u64),
    /// .. with a clearing row that offers more than 2,000 dollars, ..
    Clearing,
    /// .. with a row above 2,000 dollars that a cent more would put beyond 150% of the clearing cost, by the
    /// side of the clearing row, ..
    Within(Side),
    /// .. and with one that a cent less would bring there, ..
    Beyond(Side),
    /// .. with a C row above 2,000 dollars beside an M row that is like it and has the same price, ..
    Tied,
    /// .. with a C row below them that is capped to 2,000 dollars, beside an M row that is like it and has
    /// that price, ..
    TiedByCeiling,
    /// .. or a cent more.
    CentBelow,
    /// An accepted study with another answer than if the ceiling were kept above 2,000 dollars, ..
    AnswerMoved,
    /// .. in which a verdict is another, ..
    VerdictMoved,
    /// .. or a schedule, ..
    ChoiceMoved,
    /// .. for the costs of supply alone, ..
    MovedBySupply,
    /// .. and for the prices of C rows alone.
    MovedByRows,
    /// A previewed row that is another than if the ceiling were kept.
    PreviewMoved,
    /// 3 of a study or a preview for a cent above the highest cost or price, by the file, ..
    TooHigh(u64),
    /// .. and of a file to be handed back tidy.
    TooHighAlone(u64),
    /// A file that was handed back tidy with the highest cost or price.
    TidyHighest(u64),
}

/// Where a cost or price is given.
#[derive(Clone, Copy, Debug, PartialEq, Eq, PartialOrd, Ord)]
pub enum Given {
    Supply,
    /// The column of a row without a curve.
    Row(Kind),
    /// The price at ecomin by a row's curve.
    Curve(Kind),
}

/// The side of 2,000 dollars that an offer is on; they themselves are below.
#[derive(Clone, Copy, Debug, PartialEq, Eq, PartialOrd, Ord)]
pub enum Side {
    Below,
    Above,
}

/// The highest cost and price.
const HIGHEST: u64 = HIGHEST_PRICE as u64;

/// The edges at which costs and prices are counted.
pub const EDGES: [u64; 3] = [TWO_THOUSAND_DOLLARS, TWO_THOUSAND_DOLLARS + 1, HIGHEST];

/// Where costs and prices are given, in words.
pub const GIVEN: [(&str, Given); 5] = [
    ("costs", Given::Supply),
    ("C prices", Given::Row(Kind::C)),
    ("M prices", Given::Row(Kind::M)),
    ("C prices by curves", Given::Curve(Kind::C)),
    ("M prices by curves", Given::Curve(Kind::M)),
];

/// The tables that have costs or prices, and those of them whose files are handed back tidy.
pub const PRICED: [&Table; 3] = [&SUPPLY, &SCHEDULES, &CURVES];
pub const PRICED_ALONE: [&Table; 2] = [&SUPPLY, &SCHEDULES];

/// What else can be said, in words.
pub const SAID: [(&str, Offering); 14] = [
    ("clearing above 2,000 dollars", Offering::Clearing),
    ("just within 150% of it", Offering::Within(Side::Above)),
    ("just beyond", Offering::Beyond(Side::Above)),
    ("just within 150% of a clearing cost below", Offering::Within(Side::Below)),
    ("just beyond", Offering::Beyond(Side::Below)),
    ("C and M of one price above", Offering::Tied),
    ("C capped to the price of M", Offering::TiedByCeiling),
    ("to a cent below it", Offering::CentBelow),
    ("another answer than with the ceiling kept", Offering::AnswerMoved),
    ("another verdict", Offering::VerdictMoved),
    ("another choice", Offering::ChoiceMoved),
    ("by supply alone", Offering::MovedBySupply),
    ("by C rows alone", Offering::MovedByRows),
    ("another previewed row", Offering::PreviewMoved),
];

impl Offering {
    /// All that can be said.
    pub fn all() -> Vec<Offering> {
        let mut all = SAID.map(|(_, said)| said).to_vec();
        for (_, given) in GIVEN {
            all.push(Offering::Above(given));
            all.extend(EDGES.map(|number| Offering::At(given, number)));
        }
        all.extend(PRICED.map(|table| Offering::TooHigh(table.file)));
        all.extend(PRICED_ALONE.map(|table| Offering::TooHighAlone(table.file)));
        all.extend(PRICED_ALONE.map(|table| Offering::TidyHighest(table.file)));
        all
    }

    /// What can be said of a case that is answered so.
    pub fn of(line: &[u8], answer: &str) -> Vec<Offering> {
        let words: Vec<&str> = answer.split(' ').collect();
        match (Case::read(line), &words[..]) {
            (Some(case), ["no", "3", file, place]) => match (file.parse(), place.parse()) {
                (Ok(file), Ok(place)) => of_refused(&case, file, place),
                _ => Vec::new(),
            },
            (Some(Case::Tidy { kind, file, .. }), ["ok", _]) => {
                let highest = priced_fields(kind.table(), &file).contains(&field(HIGHEST));
                holding([(highest, Offering::TidyHighest(kind.number()))])
            }
            (Some(case), ["ok", ..]) => of_accepted(&case, answer),
            _ => Vec::new(),
        }
    }
}

/// Those that hold.
fn holding<const COUNT: usize>(said: [(bool, Offering); COUNT]) -> Vec<Offering> {
    said.into_iter().filter(|(holds, _)| *holds).map(|(_, what)| what).collect()
}

/// What 3 says, by its file and record.
fn of_refused(case: &Case, file: u64, place: usize) -> Vec<Offering> {
    let Some(table) = PRICED.into_iter().find(|table| table.file == file) else { return Vec::new() };
    let (bytes, what) = match case {
        Case::Study { files, .. } | Case::Preview { files, .. } => {
            (&files.0[file as usize - 1], Offering::TooHigh(file))
        }
        Case::Tidy { file: bytes, .. } => (bytes, Offering::TooHighAlone(file)),
        _ => return Vec::new(),
    };
    holding([(priced_fields(table, bytes).get(place) == Some(&field(HIGHEST + 1)), what)])
}

/// The fields of a file in the column of costs or prices, the header's first.
fn priced_fields(table: &Table, file: &[u8]) -> Vec<Field> {
    let Some(column) = table.priced_column() else { return Vec::new() };
    let records = records(file).unwrap_or_default();
    records.iter().filter_map(|record| record.get(column).cloned()).collect()
}

fn field(number: u64) -> Field {
    number.to_string().into_bytes()
}

/// What an accepted study or preview says.
fn of_accepted(case: &Case, answer: &str) -> Vec<Offering> {
    let (Case::Study { files, .. } | Case::Preview { files, .. }) = case else { return Vec::new() };
    let Ok(filing) = Filing::read(&files.lend()) else { return Vec::new() };
    let rows = priced(&filing.schedules, &filing.curves);
    let numbers = numbers(&filing, &rows);
    let mut said = of_numbers(&numbers);
    said.extend(of_market(&filing));
    said.extend(of_pairs(&rows, filing.constraint.hour));
    if numbers.iter().any(|(_, number)| *number > TWO_THOUSAND_DOLLARS) {
        said.extend(of_answer(case, &filing.supply, &rows, answer));
    }
    said
}

/// The costs and prices of a study, whose rows are given by the prices at which they are judged.
fn numbers(filing: &Filing, rows: &[Schedule]) -> Vec<(Given, u64)> {
    let mut numbers: Vec<(Given, u64)> = filing.supply.iter().map(|row| (Given::Supply, row.cost)).collect();
    for row in rows {
        let by_curve = filing.curves.iter().any(|point| belongs(point, row));
        let given = if by_curve { Given::Curve(row.kind) } else { Given::Row(row.kind) };
        numbers.push((given, row.price));
    }
    numbers
}

/// What costs and prices say, each for itself.
fn of_numbers(numbers: &[(Given, u64)]) -> Vec<Offering> {
    let mut said = BTreeSet::new();
    for &(given, number) in numbers {
        said.extend((number > TWO_THOUSAND_DOLLARS).then_some(Offering::Above(given)));
        said.extend(EDGES.contains(&number).then_some(Offering::At(given, number)));
    }
    said.into_iter().collect()
}

/// What the clearing cost says, and the rows around 150% of it.
fn of_market(filing: &Filing) -> Vec<Offering> {
    let market = Market::of(filing);
    if market.relevant.is_none() {
        return Vec::new();
    }
    let clearing = clearing_cost(&market.eligible, market.need);
    let side = if clearing.offer > TWO_THOUSAND_DOLLARS { Side::Above } else { Side::Below };
    let costs: Vec<EffectiveCost> = market.eligible.iter().map(EffectiveCost::of).collect();
    let beyond_by = |cents: u64| {
        let at = |cost: &EffectiveCost| cost.offer == highest_within(clearing, cost.dfax) + cents;
        costs.iter().filter(|cost| cost.offer > TWO_THOUSAND_DOLLARS).any(at)
    };
    holding([
        (side == Side::Above, Offering::Clearing),
        (beyond_by(0), Offering::Within(side)),
        (beyond_by(1), Offering::Beyond(side)),
    ])
}

/// The highest offer of a row whose effective cost, by its dfax, is at most 150% of the clearing cost.
fn highest_within(clearing: EffectiveCost, dfax: u64) -> u64 {
    3 * clearing.offer * dfax / (2 * clearing.dfax)
}

/// What C rows beside M rows of the same unit say, in the study hour.
fn of_pairs(rows: &[Schedule], hour: u64) -> Vec<Offering> {
    let of_kind = |kind: Kind| rows.iter().filter(move |row| row.hour == hour && row.kind == kind);
    let mut prices = Vec::new();
    for c in of_kind(Kind::C) {
        prices.extend(of_kind(Kind::M).filter(|m| alike(c, m)).map(|m| (c.price, m.price)));
    }
    let any = |holds: fn(u64, u64) -> bool| prices.iter().any(|&(c, m)| holds(c, m));
    holding([
        (any(|c, m| c > TWO_THOUSAND_DOLLARS && m == c), Offering::Tied),
        (any(|c, m| at_ceiling(c) && m == TWO_THOUSAND_DOLLARS), Offering::TiedByCeiling),
        (any(|c, m| at_ceiling(c) && m == TWO_THOUSAND_DOLLARS + 1), Offering::CentBelow),
    ])
}

/// Two rows of a unit that differ in nothing that costs but the price.
fn alike(one: &Schedule, other: &Schedule) -> bool {
    let rest = |row: &Schedule| [row.unit, row.ecomin, row.noload, row.startup, row.minrun];
    rest(one) == rest(other)
}

/// A cost below 2,000 dollars whose capped offer they are.
fn at_ceiling(cost: u64) -> bool {
    cost < TWO_THOUSAND_DOLLARS && capped(cost) == TWO_THOUSAND_DOLLARS
}

/// What the answer says beside those with the ceiling kept above 2,000 dollars.
fn of_answer(case: &Case, supply: &[Supply], rows: &[Schedule], answer: &str) -> Vec<Offering> {
    let (supply_kept, rows_kept) = (supply_with_ceiling(supply), rows_with_ceiling(rows));
    let kept = answer_to(case, &supply_kept, &rows_kept);
    if matches!(case, Case::Preview { .. }) {
        return holding([(answer != kept, Offering::PreviewMoved)]);
    }
    let word = |answer: &str, place: usize| answer.split(' ').nth(place).unwrap_or_default().to_string();
    let moved = |other: &str| word(answer, 1) != word(other, 1);
    holding([
        (moved(&kept), Offering::AnswerMoved),
        (verdicts(&word(answer, 1)) != verdicts(&word(&kept, 1)), Offering::VerdictMoved),
        (word(answer, 2) != word(&kept, 2), Offering::ChoiceMoved),
        (moved(&answer_to(case, &supply_kept, rows)), Offering::MovedBySupply),
        (moved(&answer_to(case, supply, &rows_kept)), Offering::MovedByRows),
    ])
}

/// Rows of supply whose capped offers are what they would be with the ceiling kept.
fn supply_with_ceiling(rows: &[Supply]) -> Vec<Supply> {
    rows.iter().map(|row| Supply { cost: row.cost.min(TWO_THOUSAND_DOLLARS), ..*row }).collect()
}

/// The same of schedules' rows. M prices are never capped.
fn rows_with_ceiling(rows: &[Schedule]) -> Vec<Schedule> {
    let price = |row: &Schedule| match row.kind {
        Kind::M => row.price,
        Kind::C => row.price.min(TWO_THOUSAND_DOLLARS),
    };
    rows.iter().map(|row| Schedule { price: price(row), ..*row }).collect()
}

/// What is answered to a study or a preview with other rows, and the prices in their column, where there is
/// room.
fn answer_to(case: &Case, supply: &[Supply], rows: &[Schedule]) -> String {
    let mut case = case.clone();
    if let Case::Study { files, .. } | Case::Preview { files, .. } = &mut case {
        files.0[StudyFiles::SUPPLY] = Sheet::supply(supply).join(|_| false);
        files.0[StudyFiles::SCHEDULES] = Sheet::schedules(rows).join(|_| false);
        files.0[StudyFiles::CURVES].clear();
    }
    if let Case::Study { buffer, .. } = &mut case {
        *buffer = LONGEST_BUFFER;
    }
    case.answer()
}

#[cfg(test)]
mod tests {
    use super::*;
    use crate::case::{self, Hex};
    use crate::study::tests::Bytes;

    /// What is said of a study of some files, one whose relief is met by one row of 1000 at dfax 1000.
    fn said(supply: &[&str], schedules: &[&str], curves: &[&str]) -> Vec<Offering> {
        let bytes = Bytes::of("5,100,1", supply, schedules).with_curves(curves);
        let line = format!("study - {} 4096", bytes.words());
        Offering::of(line.as_bytes(), &case::answer(line.as_bytes()))
    }

    const CHEAP_ROW: &str = "1,1,M,5,10,7,0,0,1";

    #[test]
    fn numbers_are_told_by_where_they_are_given() {
        use Offering::*;
        let row = |kind: &str, price: u64| format!("1,1,{kind},5,10,{price},0,0,1");
        let (of_c, of_m) = (Given::Row(Kind::C), Given::Row(Kind::M));
        let cheap = ["1,1,1,7,1"];
        assert_eq!(said(&cheap, &[&row("M", 199_999)], &[]), []);
        assert_eq!(said(&cheap, &[&row("M", 200_000)], &[]), [At(of_m, 200_000)]);
        assert_eq!(said(&cheap, &[&row("M", 200_001)], &[]), [Above(of_m), At(of_m, 200_001)]);
        assert_eq!(said(&cheap, &[&row("C", 200_000)], &[]), [At(of_c, 200_000)]);
        let moved = [Above(of_c), At(of_c, 370_000), AnswerMoved, MovedByRows];
        assert_eq!(said(&cheap, &[&row("C", 370_000)], &[]), moved);
        let by_curve = [Above(Given::Curve(Kind::C)), AnswerMoved, MovedByRows];
        assert_eq!(said(&cheap, &[&row("C", 370_000)], &["1,1,5,10,300000"]), by_curve);
        assert_eq!(said(&cheap, &[&row("M", 370_000)], &["1,1,5,10,3", "1,1,5,11,370000"]), []);
        let of_supply = [Above(Given::Supply), At(Given::Supply, 200_001)];
        assert_eq!(said(&["1,1,1,200001,1"], &[CHEAP_ROW], &[]), of_supply);
    }

    /// Each row meets the need of 1000000 alone, so that the cheaper one clears. Where the other is relevant,
    /// its unit is exposed, and its C schedule costs less than its M.
    #[test]
    fn rows_around_150_percent_are_told() {
        use Offering::*;
        let schedules = [CHEAP_ROW, "2,1,M,5,10,7,0,0,1", "2,2,C,5,10,3,0,0,1"];
        let moved = [AnswerMoved, ChoiceMoved, MovedBySupply];
        let around = |clearing: u64, other: u64| {
            let supply = [format!("1,1,1000,{clearing},1000"), format!("2,2,1000,{other},-1000")];
            let mut said = said(&supply.each_ref().map(String::as_str), &schedules, &[]);
            said.retain(|said| !matches!(said, Above(_) | At(..)));
            said
        };
        assert_eq!(around(200_001, 300_000), [Clearing]);
        assert_eq!(around(200_001, 300_001), [Clearing, Within(Side::Above)]);
        assert_eq!(around(200_001, 300_002), [&[Clearing, Beyond(Side::Above)], &moved[..]].concat());
        assert_eq!(around(200_000, 300_000), [Within(Side::Below)]);
        assert_eq!(around(150_000, 240_001), [&[Beyond(Side::Below)], &moved[..]].concat());
        assert_eq!(around(100_000, 155_000), []);
    }

    #[test]
    fn prices_of_both_kinds_are_told() {
        use Offering::*;
        let pair = |of_c: u64, of_m: u64| {
            let rows = [format!("1,1,M,5,10,{of_m},0,0,1"), format!("1,2,C,5,10,{of_c},0,0,1")];
            let mut said = said(&["1,1,1000,7,1000"], &rows.each_ref().map(String::as_str), &[]);
            said.retain(|said| !matches!(said, Above(_) | At(..)));
            said
        };
        assert_eq!(pair(200_001, 200_001), [Tied, AnswerMoved, ChoiceMoved, MovedByRows]);
        assert_eq!(pair(195_000, 200_000), [TiedByCeiling]);
        assert_eq!(pair(195_000, 200_001), [CentBelow]);
        assert_eq!(pair(200_000, 200_000), []);
        assert_eq!(pair(189_999, 200_000), []);
    }

    #[test]
    fn what_is_too_high_is_told_by_its_file() {
        use Offering::*;
        let supply = |cost: u64| said(&["1,1,1,7,1", &format!("1,1,1,{cost},1")], &[CHEAP_ROW], &[]);
        let row = |price: u64| said(&["1,1,1,7,1"], &[&format!("1,1,C,5,10,{price},0,0,1")], &[]);
        let point = |price: u64| said(&["1,1,1,7,1"], &[CHEAP_ROW], &[&format!("1,1,5,10,{price}")]);
        assert_eq!(
            [supply(370_001), row(370_001), point(370_001)],
            [2, 3, 4].map(|file| vec![TooHigh(file)])
        );
        assert_eq!([supply(370_002), row(370_002), point(370_002)], [vec![], vec![], vec![]]);
        let tidy = |cost: u64| {
            let file = format!("unit,supplier,mw,cost,dfax\r\n1,1,1,\"{cost}\",1");
            let line = format!("tidy 2 {} 4096", Hex(file.as_bytes()));
            Offering::of(line.as_bytes(), &case::answer(line.as_bytes()))
        };
        assert_eq!(
            [369_999, 370_000, 370_001].map(tidy),
            [vec![], vec![TidyHighest(2)], vec![TooHighAlone(2)]]
        );
    }

    #[test]
    fn a_previewed_row_is_told_beside_that_with_the_ceiling() {
        let bytes = Bytes::of("5,100,1", &["1,1,1,7,1"], &["1,1,C,5,10,200001,0,0,1"]);
        let line = format!("preview - {} 1", bytes.words());
        let said = Offering::of(line.as_bytes(), &case::answer(line.as_bytes()));
        assert!(said.contains(&Offering::PreviewMoved), "{said:?}");
        assert_eq!(Offering::of(b"release - 1", "ok -"), []);
    }
}

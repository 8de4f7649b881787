//! The fixed table of columns and ranges, the reading of one file by it (refusals 1, 2, 4, 3), and rows as
//! they are written.

use std::ops::RangeInclusive;

use crate::csv::{self, Field, Record};
use crate::refusal::{refuse_if, refuse_where, Refusal};

/// The kind of a schedule: "`M` (market-based) or `C` (cost-based)".
#[derive(Clone, Copy, Debug, PartialEq, Eq, PartialOrd, Ord)]
pub enum Kind {
    M,
    C,
}

impl Kind {
    /// The letter that the files and the answer have for it.
    pub fn letter(self) -> char {
        match self {
            Kind::M => 'M',
            Kind::C => 'C',
        }
    }

    /// The kind that a field's bytes name.
    pub fn read(text: &[u8]) -> Option<Kind> {
        match text {
            b"M" => Some(Kind::M),
            b"C" => Some(Kind::C),
            _ => None,
        }
    }
}

/// What a column's fields may be.
#[derive(Clone, Copy)]
pub enum Range {
    /// A numeral from the first to the second number, both allowed.
    Numeral(i64, i64),
    /// The letter of a kind.
    Kind,
}

/// A column: its name in the header and its range.
pub struct Column {
    pub name: &'static str,
    pub range: Range,
}

/// A file's columns and how many rows it may have.
pub struct Table {
    pub file: u64,
    pub rows: RangeInclusive<usize>,
    pub columns: &'static [Column],
}

const fn column(name: &'static str, min: i64, max: i64) -> Column {
    Column { name, range: Range::Numeral(min, max) }
}

/// "Cost and price now go to 370000" (document 02, F-4).
pub const HIGHEST_PRICE: i64 = 370_000;

/// "constraint, exactly one row".
pub const CONSTRAINT: Table = Table {
    file: 1,
    rows: 1..=1,
    columns: &[column("hour", 0, 23), column("relief", 1, 1_000_000), column("cutoff", 1, 10_000)],
};

/// "supply, none to 256 rows".
pub const SUPPLY: Table = Table {
    file: 2,
    rows: 0..=256,
    columns: &[
        column("unit", 1, 9_999),
        column("supplier", 1, 999),
        column("mw", 1, 100_000),
        column("cost", 0, HIGHEST_PRICE),
        column("dfax", -10_000, 10_000),
    ],
};

/// "schedules, at most 1024 rows".
pub const SCHEDULES: Table = Table {
    file: 3,
    rows: 0..=1024,
    columns: &[
        column("unit", 1, 9_999),
        column("schedule", 1, 99),
        Column { name: "kind", range: Range::Kind },
        column("hour", 0, 23),
        column("ecomin", 0, 100_000),
        column("price", 0, HIGHEST_PRICE),
        column("noload", 0, 100_000_000),
        column("startup", 0, 100_000_000),
        column("minrun", 1, 24),
    ],
};

/// "`unit,schedule,hour,mw,price`", at most "4096 rows; its mw ranges as ecomin, its other columns as in the
/// schedules" (document 02, F-3).
pub const CURVES: Table = Table {
    file: 4,
    rows: 0..=4096,
    columns: &[
        column("unit", 1, 9_999),
        column("schedule", 1, 99),
        column("hour", 0, 23),
        column("mw", 0, 100_000),
        column("price", 0, HIGHEST_PRICE),
    ],
};

/// "`supplier,parent`, at most 64 rows", of which "both columns range as supplier does" (document 02,
/// F-6).
pub const PARENTS: Table =
    Table { file: 5, rows: 0..=64, columns: &[column("supplier", 1, 999), column("parent", 1, 999)] };

/// The row of the constraint file.
#[derive(Clone, Copy, Debug)]
pub struct Constraint {
    pub hour: u64,
    pub relief: u64,
    pub cutoff: u64,
}

impl Constraint {
    /// The row as it is written.
    pub fn fields(&self) -> Record {
        [self.hour, self.relief, self.cutoff].map(text).to_vec()
    }
}

/// A row of the supply file.
#[derive(Clone, Copy, Debug)]
pub struct Supply {
    pub unit: u64,
    pub supplier: u64,
    pub mw: u64,
    pub cost: u64,
    pub dfax: i64,
}

impl Supply {
    /// The row as it is written.
    pub fn fields(&self) -> Record {
        let mut fields = [self.unit, self.supplier, self.mw, self.cost].map(text).to_vec();
        fields.push(text(self.dfax));
        fields
    }
}

/// A row of the schedules file.
#[derive(Clone, Copy, Debug)]
pub struct Schedule {
    pub unit: u64,
    pub schedule: u64,
    pub kind: Kind,
    pub hour: u64,
    pub ecomin: u64,
    pub price: u64,
    pub noload: u64,
    pub startup: u64,
    pub minrun: u64,
}

impl Schedule {
    /// The row as it is written.
    pub fn fields(&self) -> Record {
        let mut fields = [self.unit, self.schedule].map(text).to_vec();
        fields.push(text(self.kind.letter()));
        fields.extend([self.hour, self.ecomin, self.price, self.noload, self.startup, self.minrun].map(text));
        fields
    }
}

/// A row of the curves file: a point of the curve of a "schedule hour".
#[derive(Clone, Copy, Debug, PartialEq, Eq)]
pub struct Point {
    pub unit: u64,
    pub schedule: u64,
    pub hour: u64,
    pub mw: u64,
    pub price: u64,
}

impl Point {
    /// The row as it is written.
    pub fn fields(&self) -> Record {
        [self.unit, self.schedule, self.hour, self.mw, self.price].map(text).to_vec()
    }
}

/// A row of the parents file: it "names a parent for a supplier".
#[derive(Clone, Copy, Debug, PartialEq, Eq)]
pub struct Parent {
    pub supplier: u64,
    pub parent: u64,
}

impl Parent {
    /// The row as it is written.
    pub fn fields(&self) -> Record {
        [self.supplier, self.parent].map(text).to_vec()
    }
}

/// A number, letter or name as a field: "digits with no sign and no leading zero", and "`-` before a
/// nonzero numeral" where a number is negative.
fn text(value: impl ToString) -> Field {
    value.to_string().into_bytes()
}

/// The rows of the constraint file, of which there is exactly one.
pub fn read_constraint(file: &[u8]) -> Result<Constraint, Refusal> {
    let rows = CONSTRAINT.read(file)?;
    let row = &rows[0];
    Ok(Constraint { hour: row[0].count(), relief: row[1].count(), cutoff: row[2].count() })
}

/// The rows of the supply file, each for itself.
pub fn read_supply(file: &[u8]) -> Result<Vec<Supply>, Refusal> {
    let supply = |row: &Vec<Value>| Supply {
        unit: row[0].count(),
        supplier: row[1].count(),
        mw: row[2].count(),
        cost: row[3].count(),
        dfax: row[4].number(),
    };
    Ok(SUPPLY.read(file)?.iter().map(supply).collect())
}

/// The rows of the schedules file, each for itself.
pub fn read_schedules(file: &[u8]) -> Result<Vec<Schedule>, Refusal> {
    let schedule = |row: &Vec<Value>| Schedule {
        unit: row[0].count(),
        schedule: row[1].count(),
        kind: row[2].kind(),
        hour: row[3].count(),
        ecomin: row[4].count(),
        price: row[5].count(),
        noload: row[6].count(),
        startup: row[7].count(),
        minrun: row[8].count(),
    };
    Ok(SCHEDULES.read(file)?.iter().map(schedule).collect())
}

/// The rows of the curves file, each for itself.
pub fn read_curves(file: &[u8]) -> Result<Vec<Point>, Refusal> {
    let point = |row: &Vec<Value>| Point {
        unit: row[0].count(),
        schedule: row[1].count(),
        hour: row[2].count(),
        mw: row[3].count(),
        price: row[4].count(),
    };
    Ok(CURVES.read_gained(file)?.iter().map(point).collect())
}

/// The rows of the parents file, each for itself.
pub fn read_parents(file: &[u8]) -> Result<Vec<Parent>, Refusal> {
    let parent = |row: &Vec<Value>| Parent { supplier: row[0].count(), parent: row[1].count() };
    Ok(PARENTS.read_gained(file)?.iter().map(parent).collect())
}

/// What a field says once it is read.
#[derive(Clone, Copy)]
enum Value {
    Number(i64),
    Kind(Kind),
}

impl Value {
    fn number(self) -> i64 {
        match self {
            Value::Number(number) => number,
            Value::Kind(_) => unreachable!("a column of kinds holds no number"),
        }
    }

    fn count(self) -> u64 {
        self.number().unsigned_abs()
    }

    fn kind(self) -> Kind {
        match self {
            Value::Kind(kind) => kind,
            Value::Number(_) => unreachable!("a column of numbers holds no kind"),
        }
    }
}

impl Table {
    /// The header record: the name of every column, in order.
    pub fn header(&self) -> Record {
        self.columns.iter().map(|column| text(column.name)).collect()
    }

    /// The column of costs or prices, where there is one.
    pub fn priced_column(&self) -> Option<usize> {
        self.columns.iter().position(|column| ["cost", "price"].contains(&column.name))
    }

    /// The rows of a file, or its first refusal: "1, 2, 4, 3, ... each over the whole file".
    fn read(&self, file: &[u8]) -> Result<Vec<Vec<Value>>, Refusal> {
        let records = csv::records(file).ok_or(Refusal::at(1, self.file, 0))?;
        refuse_where(self.misshapen(&records), 2, self.file)?;
        let rows = &records[1..];
        refuse_if(!self.rows.contains(&rows.len()), Refusal::at(4, self.file, 0))?;
        let mut values = Vec::new();
        for (place, row) in (1..).zip(rows) {
            values.push(self.values(row).ok_or(Refusal::at(3, self.file, place))?);
        }
        Ok(values)
    }

    /// The rows of "a file that a study gains later", which "may be empty, which counts as its header alone".
    fn read_gained(&self, file: &[u8]) -> Result<Vec<Vec<Value>>, Refusal> {
        if file.is_empty() {
            return Ok(Vec::new());
        }
        self.read(file)
    }

    /// "Header differs, or a record has another field count (first such record, header 0)".
    fn misshapen(&self, records: &[Record]) -> Option<u64> {
        let (header, rows) = records.split_first()?;
        if *header != self.header() {
            return Some(0);
        }
        let place = rows.iter().position(|row| row.len() != self.columns.len())?;
        Some(place as u64 + 1)
    }

    /// The values of a row, where every field is well-formed and in range.
    fn values(&self, row: &Record) -> Option<Vec<Value>> {
        row.iter().zip(self.columns).map(|(field, column)| value(field, column.range)).collect()
    }
}

/// A field by its column's range.
fn value(field: &Field, range: Range) -> Option<Value> {
    match range {
        Range::Kind => Kind::read(field).map(Value::Kind),
        Range::Numeral(min, max) => {
            let number = if min < 0 { signed(field)? } else { numeral(field)? };
            (min..=max).contains(&number).then_some(Value::Number(number))
        }
    }
}

/// "dfax may carry `-` before a nonzero numeral."
fn signed(text: &[u8]) -> Option<i64> {
    match text.strip_prefix(b"-") {
        Some(text) => numeral(text).filter(|&number| number != 0).map(|number| -number),
        None => numeral(text),
    }
}

/// "A numeral is digits with no sign and no leading zero, except `0` itself". One too large for
/// the type counts as the type's largest number, which is out of every range.
fn numeral(text: &[u8]) -> Option<i64> {
    let digits = !text.is_empty() && text.iter().all(u8::is_ascii_digit);
    let leading_zero = text.len() > 1 && text[0] == b'0';
    if !digits || leading_zero {
        return None;
    }
    let mut number: i64 = 0;
    for digit in text {
        number = number.saturating_mul(10).saturating_add(i64::from(digit - b'0'));
    }
    Some(number)
}

#[cfg(test)]
mod tests {
    use super::*;

    fn constraint(file: &str) -> Result<(u64, u64, u64), (u64, u64)> {
        match read_constraint(file.as_bytes()) {
            Ok(row) => Ok((row.hour, row.relief, row.cutoff)),
            Err(refusal) => Err((refusal.number, refusal.place)),
        }
    }

    fn supply_row(row: &str) -> Result<i64, (u64, u64)> {
        let file = format!("unit,supplier,mw,cost,dfax\r\n1,1,1,1,1\r\n{row}");
        match read_supply(file.as_bytes()) {
            Ok(rows) => Ok(rows[1].dfax),
            Err(refusal) => Err((refusal.number, refusal.place)),
        }
    }

    #[test]
    fn one_row_of_the_constraint() {
        assert_eq!(constraint("hour,relief,cutoff\r\n5,1000,300"), Ok((5, 1000, 300)));
        assert_eq!(constraint("\"hour\",relief,\"cutoff\"\r\n\"5\",1000,300\r\n"), Ok((5, 1000, 300)));
        assert_eq!(constraint("hour,relief,cutoff\r\n"), Err((4, 0)));
        assert_eq!(constraint("hour,relief,cutoff\r\n5,1000,300\r\n5,1000,300"), Err((4, 0)));
    }

    #[test]
    fn an_empty_file_lacks_its_header() {
        assert_eq!(constraint(""), Err((2, 0)));
        assert_eq!(constraint("\r\n"), Err((2, 0)));
        assert_eq!(constraint("hour,relief,cutoff\r\n5,1000,300\r\n\r\n"), Err((2, 2)));
        assert_eq!(constraint("Hour,relief,cutoff\r\n5,1000,300"), Err((2, 0)));
        assert_eq!(constraint("hour,relief\r\n5,1000"), Err((2, 0)));
    }

    #[test]
    fn each_number_over_the_whole_file_before_the_next() {
        assert_eq!(constraint("hour,relief\r\n5,1000,300\n"), Err((1, 0)));
        assert_eq!(constraint("hour,relief,cutoff\r\nx,1,1\r\n5,1000"), Err((2, 2)));
        assert_eq!(constraint("hour,relief,cutoff\r\nx,1,1\r\n5,1,1"), Err((4, 0)));
    }

    #[test]
    fn ranges_hold_at_both_ends() {
        assert_eq!(constraint("hour,relief,cutoff\r\n0,1,1"), Ok((0, 1, 1)));
        assert_eq!(constraint("hour,relief,cutoff\r\n23,1000000,10000"), Ok((23, 1_000_000, 10_000)));
        for row in ["24,1,1", "0,0,1", "0,1000001,1", "0,1,0", "0,1,10001"] {
            assert_eq!(constraint(&format!("hour,relief,cutoff\r\n{row}")), Err((3, 1)), "{row}");
        }
    }

    #[test]
    fn numerals_have_one_form_and_never_wrap() {
        for hour in
            ["", "\"\"", "05", "+5", "-5", " 5", "5 ", "5.0", "0x5", "\"5,\"", "\"5\"\"\"", "\"5\r\n\""]
        {
            assert_eq!(constraint(&format!("hour,relief,cutoff\r\n{hour},1,1")), Err((3, 1)), "{hour}");
        }
        for wrapped in ["18446744073709551621", "9223372036854775813", "4294967301", "65541", "261"] {
            assert_eq!(constraint(&format!("hour,relief,cutoff\r\n{wrapped},1,1")), Err((3, 1)), "{wrapped}");
        }
        let long = "9".repeat(60_000);
        assert_eq!(constraint(&format!("hour,relief,cutoff\r\n{long},1,1")), Err((3, 1)));
    }

    fn parents(file: &str) -> Result<usize, (u64, u64, u64)> {
        match read_parents(file.as_bytes()) {
            Ok(rows) => Ok(rows.len()),
            Err(Refusal { number, file, place }) => Err((number, file, place)),
        }
    }

    #[test]
    fn parents_may_be_no_bytes_but_not_a_blank_record() {
        assert_eq!(parents(""), Ok(0));
        assert_eq!(parents("supplier,parent"), Ok(0));
        assert_eq!(parents("supplier,parent\r\n\"1\",999\r\n"), Ok(1));
        assert_eq!(parents("\r\n"), Err((2, 5, 0)));
        assert_eq!(parents("parent,supplier\r\n1,2\r\n"), Err((2, 5, 0)));
        assert_eq!(parents("supplier,parent\r\n1,2\r\n1\r\n"), Err((2, 5, 2)));
    }

    #[test]
    fn parents_are_at_most_64_and_range_as_suppliers() {
        let file = |count: usize| format!("supplier,parent{}", "\r\n1,2".repeat(count));
        assert_eq!(parents(&file(64)), Ok(64));
        assert_eq!(parents(&file(65)), Err((4, 5, 0)));
        for row in ["0,1", "1,0", "1000,1", "1,1000", "1,-2", "1,02", "1,"] {
            assert_eq!(parents(&format!("{}\r\n{row}", file(1))), Err((3, 5, 2)), "{row}");
        }
    }

    fn curves(file: &str) -> Result<usize, (u64, u64, u64)> {
        match read_curves(file.as_bytes()) {
            Ok(rows) => Ok(rows.len()),
            Err(Refusal { number, file, place }) => Err((number, file, place)),
        }
    }

    #[test]
    fn curves_may_be_no_bytes_but_not_a_blank_record() {
        assert_eq!(curves(""), Ok(0));
        assert_eq!(curves("unit,schedule,hour,mw,price"), Ok(0));
        assert_eq!(curves("unit,schedule,hour,mw,price\r\n\"1\",99,23,0,\"0\"\r\n"), Ok(1));
        assert_eq!(curves("\r\n"), Err((2, 4, 0)));
        assert_eq!(curves("unit,schedule,hour,price,mw\r\n"), Err((2, 4, 0)));
        assert_eq!(curves("unit,schedule,hour,mw,price\r\n1,1,1,1"), Err((2, 4, 1)));
    }

    #[test]
    fn curves_are_at_most_4096_points_and_range_as_in_the_schedules() {
        let file = |count: usize| format!("unit,schedule,hour,mw,price{}", "\r\n1,1,1,1,1".repeat(count));
        assert_eq!(curves(&file(4096)), Ok(4096));
        assert_eq!(curves(&file(4097)), Err((4, 4, 0)));
        for row in ["9999,99,23,100000,370000", "1,1,0,0,0"] {
            assert_eq!(curves(&format!("{}\r\n{row}", file(1))), Ok(2), "{row}");
        }
        for row in ["0,1,0,0,0", "10000,1,0,0,0", "1,0,0,0,0", "1,100,0,0,0", "1,1,24,0,0"] {
            assert_eq!(curves(&format!("{}\r\n{row}", file(1))), Err((3, 4, 2)), "{row}");
        }
        for row in ["1,1,0,100001,0", "1,1,0,0,370001", "1,1,0,-1,0", "1,1,0,01,0", "1,1,0,,0"] {
            assert_eq!(curves(&format!("{}\r\n{row}", file(1))), Err((3, 4, 2)), "{row}");
        }
    }

    /// "Cost and price now go to 370000": in supply, in the schedules and in the curves.
    #[test]
    fn costs_and_prices_go_to_370000() {
        let supply = |cost: u64| supply_row(&format!("1,1,1,{cost},7"));
        let schedules = |price: u64| {
            let header = "unit,schedule,kind,hour,ecomin,price,noload,startup,minrun";
            let file = format!("{header}\r\n1,1,C,5,0,{price},0,0,1\r\n1,2,M,5,0,{price},0,0,1");
            read_schedules(file.as_bytes()).map(|rows| [rows[0].price, rows[1].price])
        };
        let points = |price: u64| curves(&format!("unit,schedule,hour,mw,price\r\n1,1,5,0,{price}"));
        for price in [0, 199_999, 200_000, 200_001, 369_999, 370_000] {
            assert_eq!(supply(price), Ok(7), "{price}");
            assert_eq!(schedules(price).ok(), Some([price; 2]));
            assert_eq!(points(price), Ok(1), "{price}");
        }
        for price in [370_001, 400_000, 3_700_000, u64::MAX] {
            assert_eq!(supply(price), Err((3, 2)), "{price}");
            assert_eq!(schedules(price).err(), Some(Refusal::at(3, 3, 1)));
            assert_eq!(points(price), Err((3, 4, 1)), "{price}");
        }
    }

    #[test]
    fn only_dfax_carries_a_sign() {
        assert_eq!(supply_row("1,1,1,1,-10000"), Ok(-10_000));
        assert_eq!(supply_row("1,1,1,1,10000"), Ok(10_000));
        assert_eq!(supply_row("1,1,1,1,0"), Ok(0));
        for row in ["1,1,1,1,-0", "1,1,1,1,-01", "1,1,1,1,+1", "1,1,1,1,--1", "1,1,1,1,-", "1,1,1,1,10001"] {
            assert_eq!(supply_row(row), Err((3, 2)), "{row}");
        }
        for row in ["1,1,1,1,-10001", "1,1,1,-1,1", "-1,1,1,1,1", "1,1,1,1,-18446744073709551617"] {
            assert_eq!(supply_row(row), Err((3, 2)), "{row}");
        }
    }
}

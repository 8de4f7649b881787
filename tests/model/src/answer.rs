//! The answer file: "the header record of the example below, then one row per unit of the supply
//! file. Unquoted, numerals as above, CR LF after every record, rows by rising unit."

use std::fmt::{self, Display, Formatter};

use crate::choice::Chosen;
use crate::pivotal::Tested;

/// The header record, with its end.
pub const HEADER: &[u8] = b"unit,supplier,verdict,left,schedule,kind,cost\r\n";

/// The longest answer: 64 rows, each with 4 digits of unit, 3 of supplier, 12 of left, 2 of schedule
/// and 12 of cost.
pub const LONGEST: usize = HEADER.len() + 64 * 43;

/// A row of the answer file.
#[derive(Clone, Copy, Debug)]
pub struct Row {
    pub unit: u64,
    pub supplier: u64,
    pub tested: Tested,
    pub chosen: Chosen,
}

/// A row's fields: "`left` is in the unit of effective supply, `cost` in tenths of a cent".
impl Display for Row {
    fn fmt(&self, out: &mut Formatter) -> fmt::Result {
        let Row { unit, supplier, tested, chosen } = self;
        let (verdict, kind) = (tested.verdict.letter(), chosen.kind.letter());
        write!(out, "{unit},{supplier},{verdict},{},{},{kind},{}", tested.left, chosen.schedule, chosen.cost)
    }
}

/// A row's bytes, with its end.
fn record(row: &Row) -> Vec<u8> {
    format!("{row}\r\n").into_bytes()
}

/// How many bytes the answer has.
pub fn length(rows: &[Row]) -> usize {
    HEADER.len() + rows.iter().map(|row| record(row).len()).sum::<usize>()
}

/// Writes the answer from the start of the lent buffer, which holds it, and says how long it is.
pub fn write(rows: &[Row], buffer: &mut [u8]) -> usize {
    let lent = buffer.len();
    let mut rest = put(HEADER, buffer);
    for row in rows {
        rest = put(&record(row), rest);
    }
    lent - rest.len()
}

/// "Each next row is written into the rest of the lent buffer. Bytes past the answer stay."
fn put<'a>(bytes: &[u8], buffer: &'a mut [u8]) -> &'a mut [u8] {
    let (written, rest) = buffer.split_at_mut(bytes.len());
    written.copy_from_slice(bytes);
    rest
}

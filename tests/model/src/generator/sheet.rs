//! Files as text: rows written out, quoted one way or another, and damaged.

use super::random::Random;
use crate::csv::{Field, Record};
use crate::table::{Constraint, Parent, Point, Schedule, Supply, Table};
use crate::table::{CONSTRAINT, CURVES, PARENTS, SCHEDULES, SUPPLY};

/// The largest file that the program takes.
pub const LARGEST_FILE: usize = 65_536;

/// A file as records, before it is written out. The header is the first.
pub struct Sheet {
    pub table: &'static Table,
    pub records: Vec<Record>,
}

impl Sheet {
    pub fn constraint(row: &Constraint) -> Sheet {
        Sheet::of(&CONSTRAINT, vec![row.fields()])
    }

    pub fn supply(rows: &[Supply]) -> Sheet {
        Sheet::of(&SUPPLY, rows.iter().map(Supply::fields).collect())
    }

    pub fn schedules(rows: &[Schedule]) -> Sheet {
        Sheet::of(&SCHEDULES, rows.iter().map(Schedule::fields).collect())
    }

    pub fn curves(points: &[Point]) -> Sheet {
        Sheet::of(&CURVES, points.iter().map(Point::fields).collect())
    }

    pub fn parents(rows: &[Parent]) -> Sheet {
        Sheet::of(&PARENTS, rows.iter().map(Parent::fields).collect())
    }

    fn of(table: &'static Table, rows: Vec<Record>) -> Sheet {
        let mut records = vec![table.header()];
        records.extend(rows);
        Sheet { table, records }
    }

    /// Some record's index, or `None` where there is no row.
    pub fn some_row(&self, random: &mut Random) -> Option<usize> {
        (self.records.len() > 1).then(|| 1 + random.index(self.records.len() - 1))
    }

    /// The bytes, in some way of quoting; without quotes where there is no room for them.
    pub fn write(&self, random: &mut Random) -> Vec<u8> {
        let quoted_percent = random.pick(&[0, 0, 0, 0, 20, 50, 100]);
        let mut bytes = self.join(|_| random.percent(quoted_percent));
        if bytes.len() > LARGEST_FILE {
            bytes = self.join(|_| false);
        }
        drop_last_end(&mut bytes, random);
        bytes
    }

    /// The bytes, made up to the largest file by quoting fields, or as near to it as that leads.
    pub fn write_brimming(&mut self, random: &mut Random) -> Vec<u8> {
        if self.join(|_| false).len() % 2 == 1 {
            self.shorten(random);
        }
        let bare = self.join(|_| false).len();
        let count: usize = self.records.iter().map(Vec::len).sum();
        let quoted = LARGEST_FILE.saturating_sub(bare) / 2;
        if quoted > count {
            return self.join(|_| true);
        }
        let mut choice: Vec<bool> = (0..count).map(|index| index < quoted).collect();
        random.shuffle(&mut choice);
        self.join(|index| choice[index])
    }

    /// Takes a digit from a numeral that no rule between rows looks at, where there is a column of such.
    fn shorten(&mut self, random: &mut Random) {
        const NOLOAD: usize = 6;
        let Some(row) = self.some_row(random) else { return };
        if let Some(noload) = self.records[row].get_mut(NOLOAD) {
            noload.pop();
        }
    }

    /// The bytes, with the fields quoted that the choice names by their count.
    pub fn join(&self, mut quoted: impl FnMut(usize) -> bool) -> Vec<u8> {
        let mut bytes = Vec::new();
        let mut count = 0;
        for record in &self.records {
            for (column, field) in record.iter().enumerate() {
                if column > 0 {
                    bytes.push(b',');
                }
                write_field(field, quoted(count), &mut bytes);
                count += 1;
            }
            bytes.extend(b"\r\n");
        }
        bytes
    }
}

/// Takes the last CR LF away, now and then.
pub fn drop_last_end(bytes: &mut Vec<u8>, random: &mut Random) {
    if random.percent(30) {
        bytes.truncate(bytes.len() - 2);
    }
}

/// A field, quoted where it has to be or is to be.
fn write_field(field: &Field, quoted: bool, bytes: &mut Vec<u8>) {
    let special = |byte: &u8| matches!(byte, b'"' | b',' | b'\r' | b'\n');
    if !quoted && !field.iter().any(special) {
        bytes.extend(field);
        return;
    }
    bytes.push(b'"');
    for &byte in field {
        if byte == b'"' {
            bytes.push(b'"');
        }
        bytes.push(byte);
    }
    bytes.push(b'"');
}

/// Breaks the RFC 4180 syntax of a file (most times).
pub fn damage(bytes: &mut Vec<u8>, random: &mut Random) {
    let place = random.index(bytes.len() + 1);
    let damage: &[u8] = random.pick(&[
        b"\t",
        b"\0",
        b"\x7f",
        b"\x80",
        b"\xff",
        b"\xc3\xa9",
        b"\r",
        b"\n",
        b"\"",
        b"\"x\"",
        b"\x1f",
        b"\x0b",
    ]);
    match random.between(0, 9) {
        0 => drop(bytes.splice(0..0, *b"\xef\xbb\xbf")),
        1 => bytes.push(b'\r'),
        2 => bytes.extend(b"\n"),
        3 => bytes.extend(b"\""),
        4 => bytes.retain(|&byte| byte != b'\r'),
        5 => bytes.retain(|&byte| byte != b'\n'),
        _ => drop(bytes.splice(place..place, damage.iter().copied())),
    }
}

/// Changes some bytes of a file, whatever comes of it.
pub fn disturb(bytes: &mut Vec<u8>, random: &mut Random) {
    for _ in 0..random.between(1, 3) {
        if bytes.is_empty() {
            return;
        }
        let place = random.index(bytes.len());
        match random.between(0, 5) {
            0 => bytes[place] = random.any() as u8,
            1 => bytes[place] = random.pick(b"0123456789,\"\r\n-MC "),
            2 => bytes.insert(place, random.pick(b"0123456789,\"\r\n-MC ")),
            3 => drop(bytes.remove(place)),
            4 => bytes.truncate(place),
            _ => bytes.swap(place, 0),
        }
    }
}

//! A row of the answer file, as fields and as its text.
use std::fmt::{self, Display, Formatter};

use crate::Kind;

/// What comes of a supplier's test.
#[derive(Clone, Copy, Debug, PartialEq, Eq)]
pub enum Verdict {
    /// It can't be tested, since all eligible supply is below the relief.
    U,
    /// It passes.
    P,
    /// It fails.
    F,
}

/// The row of a unit: what came of its supplier's test, and the schedule that it runs on. Its text is that of the answer file,
/// without the line end.
#[derive(Clone, Copy, Debug, PartialEq, Eq)]
pub struct Row {
    pub unit: u64,
    pub supplier: u64,
    pub verdict: Verdict,
    pub left: u64,
    pub schedule: u64,
    pub kind: Kind,
    pub cost: u64,
}

/// How many cells the engine stores a row in.
pub(crate) const ROW_CELLS: usize = 7;

const U: u64 = b'U' as u64;
const P: u64 = b'P' as u64;
const F: u64 = b'F' as u64;

impl Verdict {
    fn of_letter(letter: u64) -> Option<Verdict> {
        match letter {
            U => Some(Verdict::U),
            P => Some(Verdict::P),
            F => Some(Verdict::F),
            _ => None,
        }
    }
}

impl Row {
    /// The row that the engine stored.
    pub(crate) fn stored(cells: [u64; ROW_CELLS]) -> Row {
        let [unit, supplier, verdict, left, schedule, kind, cost] = cells;
        Row {
            unit,
            supplier,
            verdict: Verdict::of_letter(verdict).expect("a row has the letter of a verdict"),
            left,
            schedule,
            kind: Kind::of_letter(kind).expect("a row has the letter of a kind"),
            cost,
        }
    }
}

impl Display for Verdict {
    fn fmt(&self, f: &mut Formatter) -> fmt::Result {
        f.write_str(match self {
            Verdict::U => "U",
            Verdict::P => "P",
            Verdict::F => "F",
        })
    }
}

impl Display for Row {
    fn fmt(&self, f: &mut Formatter) -> fmt::Result {
        let Row {
            unit,
            supplier,
            verdict,
            left,
            schedule,
            kind,
            cost,
        } = self;
        write!(
            f,
            "{unit},{supplier},{verdict},{left},{schedule},{kind},{cost}"
        )
    }
}

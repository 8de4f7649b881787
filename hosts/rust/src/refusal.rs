//! A refusal, and what its numbers say in plain words.
use std::error::Error;
use std::fmt::{self, Display, Formatter};

/// Why a call was refused: the number by documents 01 and 02, the file (1 constraint, 2 supply, 3 schedules, 4 curves, 5 parents,
/// 0 none) and the place in it, a record (the header is 0) or, for 8, 9 and 21, a unit's number.
#[derive(Clone, Copy, Debug, PartialEq, Eq)]
pub struct Refusal {
    pub number: u64,
    pub file: u64,
    pub place: u64,
}

impl Refusal {
    /// What the number means.
    pub fn meaning(&self) -> &'static str {
        match self.number {
            1 => "the file isn't CSV by RFC 4180",
            2 => "the header differs, or a record has another number of fields",
            3 => "a field is ill-formed or out of range",
            4 => "the file has too many or too few rows",
            5 => "there are more than 64 units or 32 suppliers",
            6 => "a row contradicts an earlier one",
            7 => "a schedule row is of a unit that isn't in supply",
            8 => "a unit has no schedule",
            9 => "a schedule lacks an hour that it needs",
            10 => "the buffer is shorter than the answer",
            11 => "the test takes 1 to 32 amounts, each at most 10^12, and a place among them",
            20 => "the hour is earlier than the day's",
            21 => "a unit that runs on cost has no cost-based schedule",
            22 => "more than 64 units would run",
            23 => "the unit to release isn't running",
            24 => "the day is ill-formed",
            30 => "the buffer is shorter than the tidy file",
            31 => "the unit to preview isn't in supply",
            32 => "a point of a curve has no row in schedules",
            33 => "a curve doesn't rise from point to point, or has more than ten",
            34 => "a curve ends below ecomin",
            35 => "a supplier is given two parents",
            36 => "a chain of parents returns to its start",
            _ => "there is no such refusal",
        }
    }

    /// The file's name.
    fn file_name(&self) -> Option<&'static str> {
        match self.file {
            1 => Some("constraint"),
            2 => Some("supply"),
            3 => Some("schedules"),
            4 => Some("curves"),
            5 => Some("parents"),
            _ => None,
        }
    }

    /// Whether the place is a unit's number.
    fn names_a_unit(&self) -> bool {
        matches!(self.number, 8 | 9 | 21)
    }
}

impl Display for Refusal {
    fn fmt(&self, f: &mut Formatter) -> fmt::Result {
        write!(f, "refusal {}: {}", self.number, self.meaning())?;
        match (self.file_name(), self.number) {
            (None, _) => Ok(()),
            (Some(file), 1 | 4) => write!(f, " ({file})"),
            (Some(file), _) if self.names_a_unit() => write!(f, " ({file}, unit {})", self.place),
            (Some(file), _) => write!(f, " ({file}, record {})", self.place),
        }
    }
}

impl Error for Refusal {}

//! A day in words: `-` for a fresh one, else the hour or `n` for none, a `;`, and each running unit with kind and schedule, as in
//! `5;11:C:2,12:M:1`. Words in this form are read as they stand, whether the day is ill-formed or not.
use std::error::Error;
use std::fmt::{self, Display, Formatter};
use std::iter::repeat;
use std::str::FromStr;

use crate::{Day, Kind, Running};

/// The most units that words may have. A day has fewer places; what it has no place for is counted.
const MOST_UNITS: usize = 1000;

const FRESH: &str = "-";
const NO_HOUR: &str = "n";

/// Why words are no day.
#[derive(Clone, Debug, PartialEq, Eq)]
pub enum ParseDayError {
    /// No `;` stands behind an hour.
    NoHour,
    /// This isn't a numeral below 2^64, with no sign and no leading zero.
    Number(String),
    /// This is neither `M` nor `C`.
    Kind(String),
    /// This isn't unit, kind and schedule with `:` between them.
    Unit(String),
    /// There are more than 1,000 units.
    TooManyUnits,
}

impl Display for ParseDayError {
    fn fmt(&self, f: &mut Formatter) -> fmt::Result {
        match self {
            ParseDayError::NoHour => {
                write!(f, "a day is `-`, or begins with its hour or `n`, and `;`")
            }
            ParseDayError::Number(word) => write!(f, "`{word}` isn't a numeral below 2^64"),
            ParseDayError::Kind(word) => write!(f, "`{word}` is neither `M` nor `C`"),
            ParseDayError::Unit(word) => write!(f, "`{word}` isn't UNIT:KIND:SCHEDULE"),
            ParseDayError::TooManyUnits => write!(f, "there are more than {MOST_UNITS} units"),
        }
    }
}

impl Error for ParseDayError {}

impl Display for Day {
    fn fmt(&self, f: &mut Formatter) -> fmt::Result {
        if *self == Day::fresh() {
            return f.write_str(FRESH);
        }
        match self.hour() {
            Some(hour) => write!(f, "{hour};")?,
            None => write!(f, "{NO_HOUR};")?,
        }
        // Units without a place are written too, so that a day of too many doesn't become a sound one by being written down.
        let count = usize::try_from(self.count()).unwrap_or(usize::MAX);
        let units = self.running().chain(repeat(Running::MISSING));
        for (place, unit) in units.take(count.min(MOST_UNITS)).enumerate() {
            let comma = if place == 0 { "" } else { "," };
            write!(f, "{comma}{unit}")?;
        }
        Ok(())
    }
}

impl Display for Running {
    fn fmt(&self, f: &mut Formatter) -> fmt::Result {
        write!(f, "{}:{}:{}", self.unit, self.kind, self.schedule)
    }
}

impl Display for Kind {
    fn fmt(&self, f: &mut Formatter) -> fmt::Result {
        f.write_str(match self {
            Kind::M => "M",
            Kind::C => "C",
        })
    }
}

impl FromStr for Day {
    type Err = ParseDayError;

    fn from_str(words: &str) -> Result<Day, ParseDayError> {
        if words == FRESH {
            return Ok(Day::fresh());
        }
        let (hour, units) = words.split_once(';').ok_or(ParseDayError::NoHour)?;
        let hour = match hour {
            NO_HOUR => None,
            hour => Some(numeral(hour)?),
        };
        let running = match units {
            "" => Vec::new(),
            units => units.split(',').map(str::parse).collect::<Result<_, _>>()?,
        };
        if running.len() > MOST_UNITS {
            return Err(ParseDayError::TooManyUnits);
        }
        Ok(Day::of(hour, &running))
    }
}

impl FromStr for Running {
    type Err = ParseDayError;

    fn from_str(words: &str) -> Result<Running, ParseDayError> {
        let parts: Vec<&str> = words.split(':').collect();
        let [unit, kind, schedule] = parts[..] else {
            return Err(ParseDayError::Unit(words.to_string()));
        };
        Ok(Running {
            unit: numeral(unit)?,
            kind: kind.parse()?,
            schedule: numeral(schedule)?,
        })
    }
}

impl FromStr for Kind {
    type Err = ParseDayError;

    fn from_str(word: &str) -> Result<Kind, ParseDayError> {
        match word {
            "M" => Ok(Kind::M),
            "C" => Ok(Kind::C),
            _ => Err(ParseDayError::Kind(word.to_string())),
        }
    }
}

fn numeral(word: &str) -> Result<u64, ParseDayError> {
    let number = match word.as_bytes() {
        [b'0'] | [b'1'..=b'9', ..] => word.parse().ok(),
        _ => None,
    };
    number.ok_or_else(|| ParseDayError::Number(word.to_string()))
}

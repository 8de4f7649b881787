//! Refusals: "every refusal gives number, file (1 constraint, 2 supply, 3 schedules, 0 none) and
//! place". Files that a study gains later are 4 curves and 5 parents.

/// Why a call was refused, and where.
#[derive(Clone, Copy, Debug, PartialEq, Eq, PartialOrd, Ord, Hash)]
pub struct Refusal {
    pub number: u64,
    pub file: u64,
    pub place: u64,
}

impl Refusal {
    /// A refusal at a place of a file.
    pub fn at(number: u64, file: u64, place: u64) -> Refusal {
        Refusal { number, file, place }
    }

    /// "A refusal for which no file is named gives file 0 and place 0."
    pub fn nowhere(number: u64) -> Refusal {
        Refusal::at(number, 0, 0)
    }
}

/// Refuses where a condition holds; for the steps of an order of refusals.
pub fn refuse_if(condition: bool, refusal: Refusal) -> Result<(), Refusal> {
    if condition {
        Err(refusal)
    } else {
        Ok(())
    }
}

/// Refuses where a search has found a place.
pub fn refuse_where(found: Option<u64>, number: u64, file: u64) -> Result<(), Refusal> {
    match found {
        Some(place) => Err(Refusal::at(number, file, place)),
        None => Ok(()),
    }
}

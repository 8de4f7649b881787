//! A running unit, and what stands in the cells of its place in a day.

/// What a schedule is based on: the market, or cost.
#[derive(Clone, Copy, Debug, PartialEq, Eq)]
pub enum Kind {
    M,
    C,
}

/// A unit that runs, with the kind and the number of its schedule.
#[derive(Clone, Copy, Debug, PartialEq, Eq)]
pub struct Running {
    pub unit: u64,
    pub kind: Kind,
    pub schedule: u64,
}

/// How many cells a place has: unit, kind and schedule.
pub(crate) const PLACE_CELLS: usize = 3;

const M: u64 = b'M' as u64;
const C: u64 = b'C' as u64;

impl Kind {
    fn letter(self) -> u64 {
        match self {
            Kind::M => M,
            Kind::C => C,
        }
    }

    pub(crate) fn of_letter(letter: u64) -> Option<Kind> {
        match letter {
            M => Some(Kind::M),
            C => Some(Kind::C),
            _ => None,
        }
    }
}

impl Running {
    /// What is seen in a place that isn't there, or whose kind is neither letter: no unit has the number 0, so the day is
    /// ill-formed.
    pub(crate) const MISSING: Running = Running {
        unit: 0,
        kind: Kind::M,
        schedule: 0,
    };

    /// The unit in a place, as the engine sees it.
    pub(crate) fn in_place(cells: [u64; PLACE_CELLS]) -> Running {
        let [unit, letter, schedule] = cells;
        let of_kind = |kind| Running {
            unit,
            kind,
            schedule,
        };
        Kind::of_letter(letter).map_or(Running::MISSING, of_kind)
    }

    /// What stands in its place.
    pub(crate) fn cells(self) -> [u64; PLACE_CELLS] {
        [self.unit, self.kind.letter(), self.schedule]
    }
}

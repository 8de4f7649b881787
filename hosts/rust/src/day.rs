//! The day, which goes into a call and comes back with the answer. Any cells whatever are a day; on one that is ill-formed every
//! call is refused with 24.
use std::fmt::{self, Debug, Formatter};

use crate::engine::{self, Cells};
use crate::running::{Running, PLACE_CELLS};
use crate::{written_in, Files, Refusal, Row, LONGEST_ANSWER};

/// How many cells a day has.
pub const DAY_CELLS: usize = 195;

// Where in the cells what stands: whether there is an hour, the hour, how many units run, and the first unit's place.
const HAS_HOUR: usize = 0;
const HOUR: usize = 1;
const COUNT: usize = 2;
const PLACES: usize = 3;

/// An Operating Day: the hour of its last accepted study, and the running units. Days are equal when these are.
#[derive(Clone)]
pub struct Day {
    cells: Cells,
}

impl Day {
    /// The most units that run.
    pub const UNITS: usize = 64;

    /// A day before its first study.
    pub fn fresh() -> Day {
        Day {
            cells: engine::day_fresh(),
        }
    }

    /// The day of an hour and of running units: the first 64 are kept, and all are counted.
    pub(crate) fn of(hour: Option<u64>, running: &[Running]) -> Day {
        let mut cells = [0; DAY_CELLS];
        cells[HAS_HOUR] = u64::from(hour.is_some());
        cells[HOUR] = hour.unwrap_or(0);
        cells[COUNT] = running.len() as u64;
        let places = cells[PLACES..].chunks_exact_mut(PLACE_CELLS);
        for (place, unit) in places.take(Day::UNITS).zip(running) {
            place.copy_from_slice(&unit.cells());
        }
        Day { cells }
    }

    /// The day that stored cells are.
    pub fn from_cells(cells: [u64; DAY_CELLS]) -> Day {
        Day { cells }
    }

    /// The cells, to store.
    pub fn cells(&self) -> &[u64; DAY_CELLS] {
        &self.cells
    }

    /// Studies the files, and answers the answer file. The day's hour is then the study's, and each of its units runs on the
    /// schedule chosen.
    pub fn study(&mut self, files: Files) -> Result<Vec<u8>, Refusal> {
        written_in(LONGEST_ANSWER, |answer| self.study_into(files, answer))
    }

    /// The same, with the answer file written from the start of the buffer: answers its length. Bytes past the answer stay, and a
    /// refused study changes none.
    pub fn study_into(&mut self, files: Files, answer: &mut [u8]) -> Result<usize, Refusal> {
        engine::day_study(&mut self.cells, files, answer)
    }

    /// Looks at the choice for one unit: the row that a study of the files would answer for it. The day stays as it is. What that
    /// study is refused with, this is too, and else with 31 where the unit isn't in supply.
    pub fn preview(&self, files: Files, unit: u64) -> Result<Row, Refusal> {
        engine::preview(&self.cells, files, unit)
    }

    /// Takes a running unit out.
    pub fn release(&mut self, unit: u64) -> Result<(), Refusal> {
        engine::day_release(&mut self.cells, unit)
    }

    /// The hour of the last accepted study.
    pub fn hour(&self) -> Option<u64> {
        match self.cells[HAS_HOUR] {
            0 => None,
            _ => Some(self.cells[HOUR]),
        }
    }

    /// The running units, by rising number; of an ill-formed day as many as there are places for.
    pub fn running(&self) -> impl Iterator<Item = Running> + '_ {
        let count = usize::try_from(self.count()).unwrap_or(usize::MAX);
        let places = self.cells[PLACES..].chunks_exact(PLACE_CELLS);
        places
            .take(Day::UNITS.min(count))
            .map(|place| Running::in_place([place[0], place[1], place[2]]))
    }

    /// How many units run; an ill-formed day may count more than it has places for.
    pub(crate) fn count(&self) -> u64 {
        self.cells[COUNT]
    }
}

impl Default for Day {
    fn default() -> Day {
        Day::fresh()
    }
}

impl PartialEq for Day {
    fn eq(&self, other: &Day) -> bool {
        self.hour() == other.hour()
            && self.count() == other.count()
            && self.running().eq(other.running())
    }
}

impl Eq for Day {}

impl Debug for Day {
    fn fmt(&self, f: &mut Formatter) -> fmt::Result {
        f.debug_struct("Day")
            .field("hour", &self.hour())
            .field("count", &self.count())
            .field("running", &self.running().collect::<Vec<_>>())
            .finish()
    }
}

//! The files of a study, together and each by itself. What a study may be given beside its first three is none until it is named,
//! so that a caller who has no such file writes nothing of it.

/// The files of a study, each as its bytes.
///
/// ```
/// # let [c, s, h, k, p] = [b""; 5];
/// use capping::Files;
///
/// let alone = Files::new(c, s, h);
/// let affiliated = alone.with_parents(p);
/// let all = alone.with_curves(k).with_parents(p);
/// ```
#[derive(Clone, Copy, Debug)]
pub struct Files<'a> {
    pub(crate) constraint: &'a [u8],
    pub(crate) supply: &'a [u8],
    pub(crate) schedules: &'a [u8],
    pub(crate) curves: &'a [u8],
    pub(crate) parents: &'a [u8],
}

impl<'a> Files<'a> {
    /// Constraint, supply and schedules, without curves and parents.
    pub fn new(constraint: &'a [u8], supply: &'a [u8], schedules: &'a [u8]) -> Files<'a> {
        Files {
            constraint,
            supply,
            schedules,
            curves: &[],
            parents: &[],
        }
    }

    /// The same with a curves file, whose price at ecomin stands in place of the price in schedules; one of no bytes is none.
    pub fn with_curves(self, curves: &'a [u8]) -> Files<'a> {
        Files { curves, ..self }
    }

    /// The same with a parents file, which names affiliated suppliers; one of no bytes is none.
    pub fn with_parents(self, parents: &'a [u8]) -> Files<'a> {
        Files { parents, ..self }
    }
}

/// A file that can be handed back tidy.
#[derive(Clone, Copy, Debug, PartialEq, Eq)]
pub enum File {
    Constraint,
    Supply,
    Schedules,
}

impl File {
    /// How many bytes the longest tidy file of the kind has.
    pub const fn longest_tidy(self) -> usize {
        match self {
            File::Constraint => 38,
            File::Supply => 7964,
            File::Schedules => 52284,
        }
    }

    /// Its number in calls and refusals.
    pub(crate) fn number(self) -> u64 {
        match self {
            File::Constraint => 1,
            File::Supply => 2,
            File::Schedules => 3,
        }
    }
}

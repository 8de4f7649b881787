//! The three pivotal supplier test: what is left without a supplier and the two largest others, where
//! affiliated suppliers are one.

use std::collections::{BTreeMap, BTreeSet};

use crate::market::{effective_supply, Market};
use crate::refusal::{refuse_if, Refusal};
use crate::rules::{Filing, SUPPLIERS};

/// The largest amount that the test takes on its own.
pub const LARGEST_AMOUNT: u64 = 1_000_000_000_000;

/// U where the test cannot be performed, else P or F.
#[derive(Clone, Copy, Debug, PartialEq, Eq, PartialOrd, Ord)]
pub enum Verdict {
    U,
    P,
    F,
}

impl Verdict {
    /// The letter in the answer file.
    pub fn letter(self) -> char {
        match self {
            Verdict::U => 'U',
            Verdict::P => 'P',
            Verdict::F => 'F',
        }
    }
}

/// What the test says of one supplier.
#[derive(Clone, Copy, Debug, PartialEq, Eq)]
pub struct Tested {
    pub left: u64,
    pub verdict: Verdict,
}

impl Tested {
    /// "F when left is below the need, else P."
    pub fn of(left: u64, need: u64) -> Tested {
        let verdict = if left < need { Verdict::F } else { Verdict::P };
        Tested { left, verdict }
    }
}

/// "Left is the relevant supply without it and without its two largest other suppliers (fewer where
/// fewer exist)."
fn left(amounts: &[u64], place: usize) -> u64 {
    let mut others = amounts.to_vec();
    others.remove(place);
    others.sort();
    others.iter().rev().skip(2).sum()
}

fn tested(amounts: &[u64], place: usize, need: u64) -> Tested {
    Tested::of(left(amounts, place), need)
}

/// "The test can be called on its own: one place in a lent run of 64-bit amounts, one per supplier,
/// against a need; places count from 0, the need is any 64-bit number, and it answers left and P or
/// F." It is refused by 11: "over 32 amounts, an amount above 10^12, or no such place (0, 0)".
pub fn test(amounts: &[u64], place: u64, need: u64) -> Result<Tested, Refusal> {
    refuse_if(amounts.len() > SUPPLIERS, Refusal::nowhere(11))?;
    refuse_if(amounts.iter().any(|&amount| amount > LARGEST_AMOUNT), Refusal::nowhere(11))?;
    refuse_if(place >= amounts.len() as u64, Refusal::nowhere(11))?;
    Ok(tested(amounts, place as usize, need))
}

/// What the test says of every supplier of the files: "the head stands in for the supplier in the test",
/// and "a seller sees the verdict of his group".
///
/// "A supplier with no relevant row is tested with 0 of its own", and where the test cannot be
/// performed "every verdict is U and left is 0".
pub fn test_suppliers(filing: &Filing, market: &Market) -> BTreeMap<u64, Tested> {
    let heads = filing.heads();
    let Some(relevant) = &market.relevant else {
        let untested = Tested { left: 0, verdict: Verdict::U };
        return heads.into_keys().map(|supplier| (supplier, untested)).collect();
    };
    let groups: BTreeSet<u64> = heads.values().copied().collect();
    let amount = |group: &u64| {
        let own = relevant.iter().filter(|row| heads[&row.supplier] == *group);
        own.map(effective_supply).sum()
    };
    let amounts: Vec<u64> = groups.iter().map(amount).collect();
    let verdicts = (0..amounts.len()).map(|place| tested(&amounts, place, market.need));
    let by_group: BTreeMap<u64, Tested> = groups.into_iter().zip(verdicts).collect();
    heads.into_iter().map(|(supplier, head)| (supplier, by_group[&head])).collect()
}

#[cfg(test)]
mod tests {
    use super::*;

    fn answer(amounts: &[u64], place: u64, need: u64) -> Option<(u64, char)> {
        test(amounts, place, need).ok().map(|tested| (tested.left, tested.verdict.letter()))
    }

    /// ★ "Amounts 4, 3, 2, 1: the last has left 2, P at need 2, F at need 3."
    #[test]
    fn starred_four_amounts() {
        assert_eq!(answer(&[4, 3, 2, 1], 3, 2), Some((2, 'P')));
        assert_eq!(answer(&[4, 3, 2, 1], 3, 3), Some((2, 'F')));
    }

    /// ★ "Amounts 5, 5: left 0, F at need 1."
    #[test]
    fn starred_two_amounts() {
        assert_eq!(answer(&[5, 5], 0, 1), Some((0, 'F')));
        assert_eq!(answer(&[5, 5], 1, 1), Some((0, 'F')));
    }

    #[test]
    fn the_first_of_four_loses_the_next_two() {
        assert_eq!(answer(&[4, 3, 2, 1], 0, 1), Some((1, 'P')));
        assert_eq!(answer(&[7, 7, 7, 7], 2, 8), Some((7, 'F')));
        assert_eq!(answer(&[0, 9, 8, 7], 0, 7), Some((7, 'P')));
    }

    #[test]
    fn the_edges_of_the_lone_test() {
        assert_eq!(answer(&[], 0, 0), None);
        assert_eq!(answer(&[1], 1, 0), None);
        assert_eq!(answer(&[1], u64::MAX, 0), None);
        assert_eq!(answer(&[1], 0, 0), Some((0, 'P')));
        assert_eq!(answer(&[LARGEST_AMOUNT; 32], 31, u64::MAX), Some((29_000_000_000_000, 'F')));
        assert_eq!(answer(&[LARGEST_AMOUNT; 33], 0, 1), None);
        assert_eq!(answer(&[LARGEST_AMOUNT + 1], 0, 1), None);
    }
}

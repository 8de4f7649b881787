//! Affiliated owners (document 02, F-6): chains of parents and their heads, and the refusals 35 and 36.

use crate::rules::first_at_odds;
use crate::table::Parent;

/// The parent that the rows name for a supplier. 35 leaves no other.
fn parent_of(supplier: u64, rows: &[Parent]) -> Option<u64> {
    rows.iter().find(|row| row.supplier == supplier).map(|row| row.parent)
}

/// The chain of a supplier, from its parent on. It is followed for as many steps as there are rows: one
/// that returns to its start does so within them, and one that ends has no more.
pub fn chain(supplier: u64, rows: &[Parent]) -> Vec<u64> {
    let steps = std::iter::successors(parent_of(supplier, rows), |&at| parent_of(at, rows));
    steps.take(rows.len()).collect()
}

/// "The chain is followed to its head", which is the supplier itself where no parent is named for it.
pub fn head(supplier: u64, rows: &[Parent]) -> u64 {
    chain(supplier, rows).last().copied().unwrap_or(supplier)
}

/// 35: "a supplier given two parents", at "the first record that gives a different or repeated parent".
pub fn given_twice(rows: &[Parent]) -> Option<u64> {
    first_at_odds(rows, |row, earlier| row.supplier == earlier.supplier)
}

/// 36: "a chain that returns to its start, a supplier naming itself included", at "the first record
/// whose own chain comes back to its supplier".
pub fn ring(rows: &[Parent]) -> Option<u64> {
    let returns = |row: &Parent| chain(row.supplier, rows).contains(&row.supplier);
    rows.iter().position(returns).map(|index| index as u64 + 1)
}

#[cfg(test)]
mod tests {
    use super::*;

    fn rows(pairs: &[(u64, u64)]) -> Vec<Parent> {
        pairs.iter().map(|&(supplier, parent)| Parent { supplier, parent }).collect()
    }

    /// From 1 on, each supplier under the next, in so many rows.
    fn ladder(count: u64) -> Vec<Parent> {
        (1..=count).map(|supplier| Parent { supplier, parent: supplier + 1 }).collect()
    }

    #[test]
    fn a_chain_is_followed_to_its_head_in_any_order_of_rows() {
        let rows = rows(&[(3, 900), (1, 2), (2, 3), (7, 3)]);
        assert_eq!([1, 2, 3, 7].map(|supplier| head(supplier, &rows)), [900; 4]);
        assert_eq!([4, 900].map(|supplier| head(supplier, &rows)), [4, 900]);
        assert_eq!(chain(1, &rows), [2, 3, 900]);
        assert_eq!(head(5, &[]), 5);
    }

    #[test]
    fn a_chain_of_64_steps_has_its_head_at_the_end() {
        let ladder = ladder(64);
        assert_eq!([1, 64, 65].map(|supplier| head(supplier, &ladder)), [65; 3]);
        assert_eq!(chain(1, &ladder).len(), 64);
        assert_eq!(ring(&ladder), None);
    }

    #[test]
    fn a_second_parent_is_found_at_its_record_though_it_is_the_first_again() {
        assert_eq!(given_twice(&rows(&[(1, 2), (2, 3), (1, 4)])), Some(3));
        assert_eq!(given_twice(&rows(&[(1, 2), (1, 2)])), Some(2));
        assert_eq!(given_twice(&rows(&[(1, 2), (3, 2), (2, 4)])), None);
    }

    #[test]
    fn a_ring_is_found_at_its_own_first_record() {
        assert_eq!(ring(&rows(&[(1, 1)])), Some(1));
        assert_eq!(ring(&rows(&[(1, 2), (2, 3), (3, 2)])), Some(2));
        assert_eq!(ring(&rows(&[(9, 8), (5, 9), (4, 5), (8, 7), (7, 9)])), Some(1));
        assert_eq!(ring(&rows(&[(5, 9), (4, 5), (6, 6), (9, 8), (8, 9)])), Some(3));
        assert_eq!(ring(&rows(&[(1, 3), (2, 3), (3, 4)])), None);
    }

    #[test]
    fn a_ring_of_64_rows_takes_64_steps() {
        let mut ring_of_all = ladder(64);
        ring_of_all[63].parent = 1;
        assert_eq!(ring(&ring_of_all), Some(1));
        ring_of_all[63].parent = 2;
        assert_eq!(ring(&ring_of_all), Some(2));
    }
}

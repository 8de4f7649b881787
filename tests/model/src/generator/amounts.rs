//! Lists of amounts for the lone test, whole or fed: with lengths, amounts, places and needs at their edges,
//! and the largest amounts wherever one pass over the list might lose them.

use super::random::Random;
use crate::case::{Lone, LONGEST_LIST};
use crate::pivotal::LARGEST_AMOUNT;
use crate::rules::SUPPLIERS;

/// Lengths at which an other or two don't exist, and about as many amounts as there may be.
const EDGES: [usize; 8] = [0, 1, 2, 3, SUPPLIERS - 1, SUPPLIERS, SUPPLIERS, SUPPLIERS + 1];

/// How many different numbers 8 bits hold.
const WRAP: usize = 1 << 8;

/// Lengths that are within the limit where they are held in 8 bits, or beside those, and the longest.
const LONG: [usize; 6] = [WRAP - 1, WRAP, WRAP + 1, WRAP + 2, WRAP + SUPPLIERS, LONGEST_LIST];

/// What a place loses where it is held in fewer bits.
const WRAPS: [u64; 3] = [WRAP as u64, 1 << 16, 1 << 32];

/// A list, a place, most often in it, and a need, often at what is left.
pub fn make_lone(random: &mut Random) -> Lone {
    let count = make_count(random);
    let place = make_place(count as u64, random);
    let own = usize::try_from(place).ok().filter(|&own| own < count);
    let mut amounts = make_amounts(count, random);
    if let Some(own) = own {
        arrange(&mut amounts, own, random);
    }
    if count > 0 && random.percent(25) {
        enlarge(&mut amounts, own, random);
    }
    let need = make_need(&amounts, place, random);
    Lone { need, place, amounts }
}

fn make_count(random: &mut Random) -> usize {
    match random.between(0, 19) {
        0..=6 => random.pick(&EDGES),
        7..=15 => random.between(2, SUPPLIERS as u64) as usize,
        16..=18 => random.pick(&LONG),
        _ => random.index(LONGEST_LIST + 1),
    }
}

/// A place: the first, the last or any that there is; else one that there isn't, at the length, beyond it, or
/// such that fewer bits of it are there.
fn make_place(count: u64, random: &mut Random) -> u64 {
    let last = count.saturating_sub(1);
    let some = random.between(0, last);
    match random.between(0, 99) {
        0..=19 => 0,
        20..=39 => last,
        40..=81 => some,
        82..=87 => count,
        88..=93 => some + random.pick(&WRAPS),
        94..=96 => u64::MAX,
        _ => count + random.scaled(LARGEST_AMOUNT),
    }
}

/// Amounts in any order, rising, falling, all equal, or all about the largest.
fn make_amounts(count: usize, random: &mut Random) -> Vec<u64> {
    let most = random.pick(&[1, 4, 10, 1_000, LARGEST_AMOUNT, LARGEST_AMOUNT]);
    let mut amounts: Vec<u64> = (0..count).map(|_| random.scaled(most)).collect();
    match random.between(0, 19) {
        0..=2 => amounts.sort(),
        3..=5 => amounts.sort_by(|one, other| other.cmp(one)),
        6..=8 => amounts.fill(random.pick(&[0, 0, most, LARGEST_AMOUNT])),
        9 => amounts.fill_with(|| random.between(LARGEST_AMOUNT - 2, LARGEST_AMOUNT)),
        _ => {}
    }
    amounts
}

/// Brings the largest amount to the own place, or the larger others to one side of it, or neither.
fn arrange(amounts: &mut Vec<u64>, own: usize, random: &mut Random) {
    match random.between(0, 9) {
        0..=1 => {
            let largest = (0..amounts.len()).max_by_key(|&place| amounts[place]).unwrap_or(own);
            amounts.swap(own, largest);
        }
        2..=5 => {
            let own_amount = amounts.remove(own);
            amounts.sort();
            if random.percent(50) {
                amounts.reverse();
            }
            let (before, behind) = amounts.split_at_mut(own);
            random.shuffle(before);
            random.shuffle(behind);
            amounts.insert(own, own_amount);
        }
        _ => {}
    }
}

/// Makes one amount about the largest, far larger, or such that all together wrap to nothing in 64 bits: the
/// first, the last, the own or any.
fn enlarge(amounts: &mut [u64], own: Option<usize>, random: &mut Random) {
    let some = random.index(amounts.len());
    let place = random.pick(&[0, amounts.len() - 1, own.unwrap_or(some), some]);
    let total = amounts.iter().fold(0, |sum: u64, &amount| sum.wrapping_add(amount));
    amounts[place] = random.pick(&[
        LARGEST_AMOUNT - 1,
        LARGEST_AMOUNT,
        LARGEST_AMOUNT,
        LARGEST_AMOUNT + 1,
        LARGEST_AMOUNT + 1,
        LARGEST_AMOUNT + 1,
        u64::MAX,
        amounts[place].wrapping_sub(total),
    ]);
}

/// A need at or beside what the test leaves, or any other.
fn make_need(amounts: &[u64], place: u64, random: &mut Random) -> u64 {
    let others = amounts.iter().enumerate().filter(|(index, _)| *index as u64 != place);
    let mut others: Vec<u64> = others.map(|(_, &amount)| amount).collect();
    others.sort();
    let left: u64 = others.iter().rev().skip(2).fold(0, |sum, &amount| sum.saturating_add(amount));
    match random.between(0, 9) {
        0 => 0,
        1 => u64::MAX,
        2 => random.any(),
        3..=5 => left,
        6..=7 => left.saturating_add(1),
        8 => left.saturating_sub(1),
        _ => random.scaled(LARGEST_AMOUNT),
    }
}

//! The fed test: the test of one supplier that is given its amounts one by one.

use crate::pivotal::{Tested, LARGEST_AMOUNT};
use crate::refusal::{refuse_if, Refusal};
use crate::rules::SUPPLIERS;

/// "The test can also be fed: begun with a place and a need, given one amount a call, then asked. Between
/// calls it is at most ten plain numbers."
#[derive(Clone, Copy)]
pub struct Fed {
    place: u64,
    need: u64,
    /// How many amounts were given.
    count: u64,
    /// The largest of all of them.
    largest: u64,
    /// The two largest of those at other places, 0 where there are fewer.
    first: u64,
    second: u64,
    /// What is left of these places without the two.
    left: u64,
}

impl Fed {
    /// Nothing is refused yet: amounts may follow that make the place one of those that there are.
    pub fn begin(place: u64, need: u64) -> Fed {
        Fed { place, need, count: 0, largest: 0, first: 0, second: 0, left: 0 }
    }

    /// "Given one amount a call".
    pub fn feed(self, amount: u64) -> Fed {
        let own = self.count == self.place;
        let fed = if own { self } else { self.feed_other(amount) };
        let largest = self.largest.max(amount);
        Fed { count: self.count + 1, largest, ..fed }
    }

    /// Of the amount and the two largest so far, the least is left. Where that doesn't fit, an amount is above
    /// 10^12 or there are over 32, and it is never shown.
    fn feed_other(self, amount: u64) -> Fed {
        let mut three = [self.first, self.second, amount];
        three.sort();
        let [least, second, first] = three;
        let left = self.left.saturating_add(least);
        Fed { first, second, left, ..self }
    }

    /// "For any list, what it answers when asked is the test's answer on that list, 11 included."
    pub fn ask(self) -> Result<Tested, Refusal> {
        refuse_if(self.count > SUPPLIERS as u64, Refusal::nowhere(11))?;
        refuse_if(self.largest > LARGEST_AMOUNT, Refusal::nowhere(11))?;
        refuse_if(self.place >= self.count, Refusal::nowhere(11))?;
        Ok(Tested::of(self.left, self.need))
    }
}

/// What the fed test answers when it was given a list.
pub fn test_fed(amounts: &[u64], place: u64, need: u64) -> Result<Tested, Refusal> {
    let begun = Fed::begin(place, need);
    amounts.iter().fold(begun, |fed, &amount| fed.feed(amount)).ask()
}

#[cfg(test)]
mod tests {
    use super::*;
    use crate::generator::amounts::make_lone;
    use crate::generator::random::Random;
    use crate::pivotal::test;

    fn answer(amounts: &[u64], place: u64, need: u64) -> Option<(u64, char)> {
        test_fed(amounts, place, need).ok().map(|tested| (tested.left, tested.verdict.letter()))
    }

    /// Every list of so many amounts from 0 to 3.
    fn lists(length: usize) -> Vec<Vec<u64>> {
        (0..length).fold(vec![Vec::new()], |lists, _| {
            let longer = |list: Vec<u64>| (0..=3).map(move |amount| [&list[..], &[amount]].concat());
            lists.into_iter().flat_map(longer).collect()
        })
    }

    #[test]
    fn short_lists_are_tested_alike_at_every_place() {
        for amounts in (0..=5).flat_map(lists) {
            for place in 0..=amounts.len() as u64 {
                for need in 0..=4 {
                    let listed = test(&amounts, place, need);
                    assert_eq!(test_fed(&amounts, place, need), listed, "{amounts:?} {place} {need}");
                }
            }
        }
    }

    #[test]
    fn made_lists_are_tested_alike() {
        let mut accepted = 0;
        for index in 0..20_000 {
            let made = make_lone(&mut Random::of(1, index));
            let fed = test_fed(&made.amounts, made.place, made.need);
            assert_eq!(fed, test(&made.amounts, made.place, made.need), "{made}");
            accepted += u64::from(fed.is_ok());
        }
        assert!((8_000..14_000).contains(&accepted), "{accepted}");
    }

    /// It can be asked behind every amount, and asking changes nothing.
    #[test]
    fn each_beginning_of_a_list_is_tested_alike() {
        let amounts: Vec<u64> = (0..40).map(|step| step * step % 17).collect();
        for place in [0, 1, 3, 31, 32, 39] {
            let mut fed = Fed::begin(place, 20);
            assert_eq!(fed.ask(), test(&[], place, 20));
            for (index, &amount) in amounts.iter().enumerate() {
                fed = fed.feed(amount);
                assert_eq!(fed.ask(), test(&amounts[..=index], place, 20), "{place} {index}");
            }
        }
    }

    #[test]
    fn starred_amounts() {
        assert_eq!(answer(&[4, 3, 2, 1], 3, 2), Some((2, 'P')));
        assert_eq!(answer(&[4, 3, 2, 1], 3, 3), Some((2, 'F')));
        assert_eq!(answer(&[5, 5], 0, 1), Some((0, 'F')));
        assert_eq!(answer(&[5, 5], 1, 1), Some((0, 'F')));
    }

    #[test]
    fn a_place_becomes_one_of_those_that_there_are() {
        assert_eq!(Fed::begin(0, 0).ask(), Err(Refusal::nowhere(11)));
        assert_eq!(answer(&[7], 0, 0), Some((0, 'P')));
        assert_eq!(answer(&[9, 8], 3, 0), None);
        assert_eq!(answer(&[9, 8, 7], 3, 0), None);
        assert_eq!(answer(&[9, 8, 7, 6], 3, 7), Some((7, 'P')));
        assert_eq!(answer(&[9, 8, 7, 6], u64::MAX, 7), None);
    }

    #[test]
    fn a_count_past_32_stays_refused() {
        assert_eq!(answer(&[1; 32], 31, 29), Some((29, 'P')));
        for count in [33, 255, 256, 257, 258, 288, 1_000, 65_537] {
            assert_eq!(answer(&vec![1; count], 0, 0), None, "{count}");
        }
    }

    #[test]
    fn an_amount_above_the_largest_stays_refused() {
        assert_eq!(answer(&[LARGEST_AMOUNT; 32], 0, u64::MAX), Some((29_000_000_000_000, 'F')));
        for too_large in [LARGEST_AMOUNT + 1, 1 << 63, u64::MAX] {
            for place in 0..4 {
                let mut amounts = [1; 4];
                amounts[place] = too_large;
                assert_eq!(answer(&amounts, 0, 0), None, "{amounts:?}");
            }
        }
        assert_eq!(answer(&[u64::MAX; 4], 0, 0), None);
    }
}

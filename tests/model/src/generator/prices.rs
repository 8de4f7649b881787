//! Costs and prices: at the edges of the capped offer, on both sides of 2,000 dollars, and with which a row
//! offers as much as another.

use super::random::Random;
use crate::market::{capped, TWO_THOUSAND_DOLLARS};
use crate::table::{Kind, Schedule, HIGHEST_PRICE};

/// The highest cost and price.
pub const HIGHEST: u64 = HIGHEST_PRICE as u64;

/// The highest offer of which one and a half times as much is within the range.
pub const HIGHEST_WITH_HALF_MORE: u64 = HIGHEST * 2 / 3;

/// The least cost whose capped offer is 2,000 dollars.
const LEAST_AT_CEILING: u64 = 190_000;

/// The ends of the range, and costs beside which the capped offer begins to go otherwise.
pub const EDGES: [u64; 11] = [
    0,
    9,
    10,
    99_999,
    100_001,
    LEAST_AT_CEILING - 1,
    LEAST_AT_CEILING,
    TWO_THOUSAND_DOLLARS - 1,
    TWO_THOUSAND_DOLLARS,
    TWO_THOUSAND_DOLLARS + 1,
    HIGHEST,
];

/// Where the prices of a unit's schedules lie.
#[derive(Clone, Copy)]
pub enum Prices {
    /// Around a level.
    Around(u64),
    /// Around 2,000 dollars, and above.
    Dear,
}

impl Prices {
    pub fn make(random: &mut Random) -> Prices {
        if random.once_in(8) {
            return Prices::Dear;
        }
        Prices::Around(random.scaled(100_000))
    }

    pub fn price(self, random: &mut Random) -> u64 {
        match (random.between(0, 9), self) {
            (0, _) => random.pick(&EDGES),
            (1, _) => random.scaled(HIGHEST),
            (_, Prices::Around(level)) => level * random.between(60, 160) / 100,
            (_, Prices::Dear) => make_dear(random),
        }
    }
}

/// A cost or price around 2,000 dollars, at the highest, or between.
pub fn make_dear(random: &mut Random) -> u64 {
    let capped = random.between(LEAST_AT_CEILING, TWO_THOUSAND_DOLLARS);
    let above = random.between(TWO_THOUSAND_DOLLARS + 1, HIGHEST);
    random.pick(&[
        capped,
        TWO_THOUSAND_DOLLARS - 1,
        TWO_THOUSAND_DOLLARS,
        TWO_THOUSAND_DOLLARS + 1,
        above,
        above,
        HIGHEST - 1,
        HIGHEST,
    ])
}

/// The price with which a row of a kind offers what another row does, or all but.
pub fn price_like(kind: Kind, other: &Schedule, random: &mut Random) -> u64 {
    match (kind, other.kind) {
        (Kind::M, Kind::C) => capped(other.price),
        (Kind::C, Kind::M) => uncapped(other.price, random),
        _ => other.price,
    }
}

/// A cost whose capped offer comes nearest to an offer from below. Several costs are capped to 2,000 dollars.
pub fn uncapped(offer: u64, random: &mut Random) -> u64 {
    if offer == TWO_THOUSAND_DOLLARS {
        return random.between(LEAST_AT_CEILING, TWO_THOUSAND_DOLLARS);
    }
    (0..=offer).rev().find(|&cost| capped(cost) <= offer).unwrap_or(0)
}

#[cfg(test)]
mod tests {
    use super::*;

    #[test]
    fn uncapped_undoes_capped() {
        let random = &mut Random::of(1, 0);
        let around = TWO_THOUSAND_DOLLARS - 3..=TWO_THOUSAND_DOLLARS + 3;
        for cost in (0..=HIGHEST).step_by(7).chain(around).chain([HIGHEST]) {
            let offer = capped(cost);
            assert_eq!(capped(uncapped(offer, random)), offer, "{cost}");
        }
    }

    #[test]
    fn the_costs_of_the_ceiling_are_all_that_there_are() {
        assert_eq!([LEAST_AT_CEILING - 1, LEAST_AT_CEILING].map(capped), [199_999, 200_000]);
        assert_eq!(capped(TWO_THOUSAND_DOLLARS + 1), 200_001);
    }
}

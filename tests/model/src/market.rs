//! Capped offers, and the market of a constraint: eligible rows, clearing cost, relevant rows.

use std::cmp::Ordering;

use crate::rules::Filing;
use crate::table::{Constraint, Supply};

/// "Section 6.4.2 gives the adder, and the ceiling on the sum, only to 2,000 dollars" (document 02, F-4),
/// which are so many cents, and are that ceiling too.
pub const TWO_THOUSAND_DOLLARS: u64 = 200_000;

/// "For an incremental cost c, the capped offer is c plus the lesser of c / 10 rounded down and
/// 10000, but at most 200000 (6.4.2)", and "above 200000 the capped offer is the incremental cost alone"
/// (document 02, F-4).
pub fn capped(c: u64) -> u64 {
    if c > TWO_THOUSAND_DOLLARS {
        return c;
    }
    (c + (c / 10).min(10_000)).min(TWO_THOUSAND_DOLLARS)
}

/// "A supply row is eligible when |dfax| is at least cutoff."
pub fn eligible(row: &Supply, cutoff: u64) -> bool {
    row.dfax.unsigned_abs() >= cutoff
}

/// "Its effective supply is mw × |dfax|."
pub fn effective_supply(row: &Supply) -> u64 {
    row.mw * row.dfax.unsigned_abs()
}

/// The effective supply of several rows, added up.
pub fn supply_of<'a>(rows: impl IntoIterator<Item = &'a Supply>) -> u64 {
    rows.into_iter().map(effective_supply).sum()
}

/// "The need is relief × 10000."
pub fn need(constraint: &Constraint) -> u64 {
    constraint.relief * 10_000
}

/// "Its effective cost is its capped offer divided by |dfax|, compared exactly as a fraction." Only
/// an eligible row has one, so that |dfax| is never 0.
#[derive(Clone, Copy, Debug)]
pub struct EffectiveCost {
    pub offer: u64,
    pub dfax: u64,
}

impl EffectiveCost {
    /// The effective cost of an eligible row.
    pub fn of(row: &Supply) -> EffectiveCost {
        EffectiveCost { offer: capped(row.cost), dfax: row.dfax.unsigned_abs() }
    }

    /// One fraction against another, by cross-multiplication.
    fn compare(self, other: EffectiveCost) -> Ordering {
        (self.offer * other.dfax).cmp(&(other.offer * self.dfax))
    }

    /// "At or below".
    fn at_most(self, other: EffectiveCost) -> bool {
        self.compare(other).is_le()
    }

    /// "Strictly below".
    fn below(self, other: EffectiveCost) -> bool {
        self.compare(other).is_lt()
    }

    /// "At most 150% of the clearing cost".
    fn at_most_150_percent(self, clearing: EffectiveCost) -> bool {
        100 * self.offer * clearing.dfax <= 150 * clearing.offer * self.dfax
    }
}

/// What the constraint's eligible rows make up.
pub struct Market {
    pub need: u64,
    pub eligible: Vec<Supply>,
    /// The relevant market, or `None` where "the test cannot be performed".
    pub relevant: Option<Vec<Supply>>,
}

impl Market {
    /// The market of the files.
    pub fn of(filing: &Filing) -> Market {
        let need = need(&filing.constraint);
        let mut eligible_rows = filing.supply.clone();
        eligible_rows.retain(|row| eligible(row, filing.constraint.cutoff));
        let relevant = performed(&eligible_rows, need).then(|| relevant(&eligible_rows, need));
        Market { need, eligible: eligible_rows, relevant }
    }
}

/// "If all eligible supply is below it, the test cannot be performed."
fn performed(eligible: &[Supply], need: u64) -> bool {
    supply_of(eligible) >= need
}

/// "The clearing cost is that of an eligible row such that eligible rows at or below it supply at
/// least the need, and rows strictly below it supply less."
pub fn clearing_cost(eligible: &[Supply], need: u64) -> EffectiveCost {
    let clears = |cost: &EffectiveCost| {
        let at_most = eligible.iter().filter(|row| EffectiveCost::of(row).at_most(*cost));
        let below = eligible.iter().filter(|row| EffectiveCost::of(row).below(*cost));
        supply_of(at_most) >= need && supply_of(below) < need
    };
    eligible.iter().map(EffectiveCost::of).find(clears).expect("some row clears, for the test is performed")
}

/// "The relevant market is the eligible rows whose effective cost is at most 150% of the clearing
/// cost."
fn relevant(eligible: &[Supply], need: u64) -> Vec<Supply> {
    let clearing = clearing_cost(eligible, need);
    let mut rows = eligible.to_vec();
    rows.retain(|row| EffectiveCost::of(row).at_most_150_percent(clearing));
    rows
}

#[cfg(test)]
mod tests {
    use super::*;

    fn row(unit: u64, mw: u64, cost: u64, dfax: i64) -> Supply {
        Supply { unit, supplier: unit, mw, cost, dfax }
    }

    fn relevant_units(rows: &[Supply], need: u64) -> Vec<u64> {
        relevant(rows, need).iter().map(|row| row.unit).collect()
    }

    /// ★ "Capped offers: 0 gives 0; 9 gives 9; 10 gives 11; 99999 gives 109998; 100001 gives 110001;
    /// 190000, 195000 and 200000 each give 200000."
    #[test]
    fn starred_capped_offers() {
        let table = [(0, 0), (9, 9), (10, 11), (99_999, 109_998), (100_001, 110_001)];
        for (cost, offer) in table {
            assert_eq!(capped(cost), offer);
        }
        for cost in [190_000, 195_000, 200_000] {
            assert_eq!(capped(cost), 200_000);
        }
    }

    /// "Thus 200000 still gives 200000, and 200001 gives 200001", and so on up to the highest cost.
    #[test]
    fn above_2000_dollars_the_offer_is_the_cost() {
        assert_eq!([189_999, 190_000, 199_999].map(capped), [199_999, 200_000, 200_000]);
        assert_eq!([200_000, 200_001, 370_000].map(capped), [200_000, 200_001, 370_000]);
    }

    /// "A larger cost never has a smaller capped offer."
    #[test]
    fn capped_offers_never_fall() {
        for cost in 0..370_000 {
            assert!(capped(cost) <= capped(cost + 1), "{cost}");
        }
    }

    /// ★ "Same dfax, clearing row at cost 91 (offer 100): cost 137 (150) is relevant, 138 (151) is
    /// not."
    #[test]
    fn starred_150_percent() {
        assert_eq!([91, 137, 138].map(capped), [100, 150, 151]);
        let rows = [row(1, 10, 91, 5000), row(2, 10, 137, 5000), row(3, 10, 138, 5000)];
        assert_eq!(relevant_units(&rows, 50_000), [1, 2]);
    }

    /// The same around 2,000 dollars: one and a half times 200001 is 300001 and a half, and 246666 leads to
    /// 369999; the offer of 150000 is 160000, which leads to 240000 and past the ceiling.
    #[test]
    fn the_150_percent_of_offers_above_2000_dollars() {
        for (clearing, within) in
            [(200_000, 300_000), (200_001, 300_001), (246_666, 369_999), (150_000, 240_000)]
        {
            let costs = [clearing, within, within + 1];
            let rows = [1, 2, 3].map(|unit| row(unit, 10, costs[unit as usize - 1], 5000));
            assert_eq!(relevant_units(&rows, 50_000), [1, 2], "{clearing}");
        }
        let rows = [row(1, 10, 200_001, 5000), row(2, 10, 195_000, 5000), row(3, 10, 200_000, -5000)];
        assert_eq!(clearing_cost(&rows, 100_000).offer, 200_000);
        assert_eq!(clearing_cost(&rows, 100_001).offer, 200_001);
    }

    #[test]
    fn dfax_counts_by_its_size() {
        assert!(eligible(&row(1, 1, 0, -300), 300));
        assert!(!eligible(&row(1, 1, 0, -299), 300));
        assert!(!eligible(&row(1, 1, 0, 0), 1));
        assert_eq!(effective_supply(&row(1, 7, 0, -300)), 2100);
    }

    #[test]
    fn supply_equal_to_the_need_is_enough() {
        let rows = [row(1, 10, 5, 1000)];
        assert!(performed(&rows, 10_000));
        assert!(!performed(&rows, 10_001));
        assert!(!performed(&[], 10_000));
    }

    #[test]
    fn a_clearing_cost_of_0_leaves_only_rows_of_cost_0() {
        let rows = [row(1, 10, 0, 1000), row(2, 10, 1, 1000), row(3, 10, 0, -20)];
        assert_eq!(relevant_units(&rows, 10_000), [1, 3]);
    }

    #[test]
    fn equal_fractions_are_equal_costs() {
        let rows =
            [row(1, 10, 100, 1000), row(2, 10, 200, 2000), row(3, 10, 300, 2000), row(4, 10, 301, 2000)];
        assert_eq!(relevant_units(&rows, 10_000), [1, 2, 3]);
        assert_eq!(relevant_units(&rows, 30_000), [1, 2, 3]);
        assert_eq!(relevant_units(&rows, 30_001), [1, 2, 3, 4]);
    }
}

//! The choice of schedule: which ones a unit may run on, what they cost, and the one taken.

use std::collections::BTreeSet;

use crate::market::{capped, Market};
use crate::pivotal::Verdict;
use crate::rules::run;
use crate::table::{Kind, Schedule};

/// The schedule that a unit gets.
#[derive(Clone, Copy, Debug, PartialEq, Eq, PartialOrd, Ord)]
pub struct Chosen {
    // In this order for "the least cost is taken; at equal cost, the smallest schedule number".
    pub cost: u64,
    pub schedule: u64,
    pub kind: Kind,
}

/// "A unit is exposed when its verdict is F and it has a relevant row, or its verdict is U and it
/// has an eligible row."
pub fn exposed(unit: u64, verdict: Verdict, market: &Market) -> bool {
    match (verdict, &market.relevant) {
        (Verdict::F, Some(relevant)) => relevant.iter().any(|row| row.unit == unit),
        (Verdict::U, _) => market.eligible.iter().any(|row| row.unit == unit),
        _ => false,
    }
}

/// The kinds among which a unit chooses: "if the day has the unit running on a C schedule, its C
/// schedules; otherwise, if exposed, all; otherwise its M schedule, or its C schedules where it has
/// no M".
fn eligible_kinds(rows: &[Schedule], running: Option<Kind>, exposed: bool) -> &'static [Kind] {
    let has_m = rows.iter().any(|row| row.kind == Kind::M);
    match running {
        Some(Kind::C) => &[Kind::C],
        _ if exposed => &[Kind::M, Kind::C],
        _ if has_m => &[Kind::M],
        _ => &[Kind::C],
    }
}

/// "It is the cost-based offer of a supply row and the offer price of a C row. An M row's offer
/// price is its price."
fn offer_price(row: &Schedule) -> u64 {
    match row.kind {
        Kind::M => row.price,
        Kind::C => capped(row.price),
    }
}

/// "The cost of an hour is ecomin × offer price + 10 × noload, in tenths of a cent."
fn hour_cost(row: &Schedule) -> u64 {
    row.ecomin * offer_price(row) + 10 * row.noload
}

/// What one schedule, given by its rows, costs from the study hour on.
///
/// "A running unit's schedule costs the hour h alone. A unit not running costs the sum over the
/// schedule's run, plus 10 × startup."
fn cost(rows: &[Schedule], h: u64, running: bool) -> u64 {
    let first = &rows[0];
    let hours = if running { h..=h } else { run(first, h) };
    let startup = if running { 0 } else { 10 * first.startup };
    let paid = rows.iter().filter(|row| hours.contains(&row.hour));
    paid.map(hour_cost).sum::<u64>() + startup
}

/// The choice of one unit, given by its schedules' rows, or `None` where none is eligible.
pub fn choose(rows: &[Schedule], h: u64, running: Option<Kind>, exposed: bool) -> Option<Chosen> {
    let kinds = eligible_kinds(rows, running, exposed);
    let numbers: BTreeSet<u64> = rows.iter().map(|row| row.schedule).collect();
    let schedules = numbers.iter().map(|&number| rows_of(rows, number));
    let eligible = schedules.filter(|rows| kinds.contains(&rows[0].kind));
    let priced = eligible.map(|rows| Chosen {
        cost: cost(&rows, h, running.is_some()),
        schedule: rows[0].schedule,
        kind: rows[0].kind,
    });
    priced.min()
}

/// The rows of one schedule of a unit.
fn rows_of(rows: &[Schedule], number: u64) -> Vec<Schedule> {
    rows.iter().filter(|row| row.schedule == number).copied().collect()
}

#[cfg(test)]
mod tests {
    use super::*;

    /// A row of unit 1 with ecomin 10, noload 1, startup 7.
    fn row(schedule: u64, kind: Kind, hour: u64, price: u64, minrun: u64) -> Schedule {
        Schedule { unit: 1, schedule, kind, hour, ecomin: 10, price, noload: 1, startup: 7, minrun }
    }

    fn number(rows: &[Schedule], running: Option<Kind>, exposed: bool) -> Option<u64> {
        choose(rows, 5, running, exposed).map(|chosen| chosen.schedule)
    }

    #[test]
    fn an_exposed_unit_chooses_among_all() {
        let rows = [row(1, Kind::M, 5, 500, 1), row(2, Kind::C, 5, 400, 1), row(3, Kind::C, 5, 300, 1)];
        assert_eq!(number(&rows, None, true), Some(3));
        assert_eq!(number(&rows, None, false), Some(1));
        assert_eq!(number(&rows[1..], None, false), Some(3));
    }

    #[test]
    fn a_unit_running_on_cost_stays_on_cost() {
        let rows = [row(1, Kind::M, 5, 1, 1), row(2, Kind::C, 5, 400, 1)];
        assert_eq!(number(&rows, Some(Kind::C), true), Some(2));
        assert_eq!(number(&rows, Some(Kind::C), false), Some(2));
        assert_eq!(number(&rows, Some(Kind::M), true), Some(1));
        assert_eq!(number(&rows[..1], Some(Kind::C), false), None);
    }

    #[test]
    fn at_equal_cost_the_smaller_number_whatever_its_kind() {
        let dear_m = [row(1, Kind::C, 5, 3000, 1), row(2, Kind::M, 5, 3300, 1)];
        assert_eq!(number(&dear_m, None, true), Some(1));
        let early_m = [row(4, Kind::C, 5, 3000, 1), row(3, Kind::M, 5, 3300, 1)];
        assert_eq!(number(&early_m, None, true), Some(3));
    }

    #[test]
    fn a_running_unit_pays_for_the_hour_alone() {
        let rows = [row(1, Kind::M, 6, 200, 2), row(1, Kind::M, 5, 100, 2), row(1, Kind::M, 7, 999, 2)];
        let price = |running| choose(&rows, 5, running, false).unwrap().cost;
        assert_eq!(price(Some(Kind::M)), 1_010);
        assert_eq!(price(None), 1_010 + 2_010 + 70);
    }

    #[test]
    fn a_long_run_ends_at_hour_23() {
        let rows = [row(1, Kind::C, 22, 0, 24), row(1, Kind::C, 23, 10, 24), row(1, Kind::C, 3, 9, 24)];
        assert_eq!(choose(&rows, 22, None, false).unwrap().cost, 10 + 110 + 10 + 70);
    }
}

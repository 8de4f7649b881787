//! Supply rows, cutoff and relief of a draft, with effective costs that tie or nearly do, and a need
//! at the edges of what is supplied, cleared and left by groups.

use super::draft::different;
use super::parents::{grouped, make_parents};
use super::prices::{make_dear, uncapped, EDGES, HIGHEST, HIGHEST_WITH_HALF_MORE};
use super::random::Random;
use crate::market::{capped, effective_supply, supply_of, TWO_THOUSAND_DOLLARS};
use crate::table::{Constraint, Parent, Supply};

/// How large a draft is.
#[derive(Clone, Copy)]
pub struct Size {
    pub units: usize,
    pub suppliers: usize,
    pub rows: usize,
}

impl Size {
    /// "At most 64 units, 32 suppliers", 256 rows.
    pub const LARGEST: Size = Size { units: 64, suppliers: 32, rows: 256 };

    /// Some size, small ones most often.
    pub fn make(random: &mut Random) -> Size {
        let (units, suppliers) = match random.between(0, 99) {
            0..=2 => (0, 0),
            3..=14 => (random.between(1, 3), random.between(1, 3)),
            15..=34 => (random.between(4, 8), random.between(2, 6)),
            35..=86 => (random.between(6, 8), random.between(5, 6)),
            87..=96 => (random.between(5, 20), random.between(4, 12)),
            97..=98 => (random.between(21, 64), random.between(6, 32)),
            _ => return Size::LARGEST,
        };
        let most_rows = random.pick(&[1, 1, 2, 4]) * units;
        let rows = random.between(units, most_rows.min(256).max(units));
        Size { units: units as usize, suppliers: suppliers.min(units) as usize, rows: rows as usize }
    }
}

/// How costs and dfax of a draft go together.
#[derive(Clone, Copy)]
enum Style {
    /// Costs around a level, each dfax for itself.
    Plain,
    /// Effective costs around a level.
    Alike,
    /// Few effective costs, which tie, or are one and a half times another, or a cent off.
    Ties,
    /// One effective cost.
    Flat,
    /// Effective costs that differ by as little as fractions can.
    Near,
    /// The same around 2,000 dollars, with room in the range for half as much again.
    Dear,
    /// Many costs of 0.
    Free,
    /// Columns at the ends of their ranges.
    Extreme,
}

/// A unit of the draft, with what its rows share.
struct Unit {
    number: u64,
    supplier: u64,
    dfax: u64,
    negative: bool,
}

/// The constraint for an hour, the supply rows and the parents of their suppliers.
pub fn make_market(size: Size, hour: u64, random: &mut Random) -> (Constraint, Vec<Supply>, Vec<Parent>) {
    let style = random.pick(&[
        Style::Plain,
        Style::Alike,
        Style::Alike,
        Style::Ties,
        Style::Ties,
        Style::Flat,
        Style::Near,
        Style::Dear,
        Style::Dear,
        Style::Free,
        Style::Extreme,
    ]);
    let mut rows = make_rows(size, style, random);
    let parents = make_parents(&different(rows.iter().map(|row| row.supplier)), random);
    let room = size.units < 64 && !rows.is_empty();
    if room && random.once_in(12) {
        let relief = balance(&mut rows, random);
        return (Constraint { hour, relief, cutoff: 1 }, rows, parents);
    }
    let cutoff = make_cutoff(&rows, random);
    let mut eligible = grouped(&rows, &parents);
    eligible.retain(|row| row.dfax.unsigned_abs() >= cutoff);
    let relief = make_relief(&eligible, style, random);
    if random.once_in(40) {
        rows.iter_mut().for_each(|row| row.mw = 100_000);
    }
    (Constraint { hour, relief, cutoff }, rows, parents)
}

/// Rows for every unit and supplier of the size.
fn make_rows(size: Size, style: Style, random: &mut Random) -> Vec<Supply> {
    if size.units == 0 {
        return Vec::new();
    }
    let scale = Scale::make(style, random);
    let suppliers = make_suppliers(size.suppliers, random);
    let mut units = Vec::new();
    for (index, number) in make_units(size.units, random).into_iter().enumerate() {
        let supplier = match suppliers.get(index) {
            Some(&supplier) => supplier,
            None => random.pick(&suppliers),
        };
        units.push(Unit { number, supplier, dfax: scale.dfax(random), negative: random.percent(30) });
    }
    let mut rows = Vec::new();
    for index in 0..size.rows {
        let unit = if index < units.len() { &units[index] } else { &units[random.index(units.len())] };
        rows.push(scale.row(unit, random));
    }
    rows
}

/// Unit numbers: neighbours, anywhere, or the ends of the range among them.
fn make_units(count: usize, random: &mut Random) -> Vec<u64> {
    let mut units = match random.between(0, 2) {
        0 => {
            let first = random.pick(&[1, 5, 95, 996, 9_900]);
            (first..first + count as u64).collect()
        }
        1 => random.distinct(count, 1, 9_999),
        _ => {
            let mut units = random.distinct(count, 2, 9_998);
            units[0] = random.pick(&[1, 9_999]);
            units
        }
    };
    random.shuffle(&mut units);
    units
}

/// Supplier numbers.
fn make_suppliers(count: usize, random: &mut Random) -> Vec<u64> {
    if random.percent(50) {
        (1..=count as u64).collect()
    } else {
        random.distinct(count, 1, 999)
    }
}

/// The levels that a style's numbers come from.
struct Scale {
    style: Style,
    /// A cost and a dfax that the others are held against.
    cost: u64,
    dfax: u64,
}

impl Scale {
    fn make(style: Style, random: &mut Random) -> Scale {
        let (cost, dfax) = match style {
            Style::Ties | Style::Flat => {
                (20 * random.between(1, 500), random.pick(&[500, 1_000, 2_000, 2_500]))
            }
            Style::Near => (random.between(100, 100_000), random.between(500, 10_000)),
            Style::Dear => (make_dear_level(random), random.pick(&[600, 3_000, 6_000, 9_000])),
            _ => (random.scaled(60_000) + 10, random.between(1_000, 10_000)),
        };
        Scale { style, cost, dfax }
    }

    /// The size of a unit's dfax.
    fn dfax(&self, random: &mut Random) -> u64 {
        match self.style {
            Style::Ties | Style::Flat => self.dfax * random.pick(&[1, 2, 4]),
            Style::Near if random.percent(30) => self.dfax,
            Style::Dear => random.pick(&[self.dfax, self.dfax, self.dfax, self.dfax * 2 / 3, self.dfax / 2]),
            Style::Extreme => random.pick(&[10_000, 10_000, 9_999, 1, 0]),
            _ if random.once_in(25) => 0,
            _ if random.once_in(12) => random.between(1, 400),
            _ => random.between(1_500, 10_000),
        }
    }

    /// A row of a unit.
    fn row(&self, unit: &Unit, random: &mut Random) -> Supply {
        let dfax = if unit.negative { -(unit.dfax as i64) } else { unit.dfax as i64 };
        let cost = self.cost(unit.dfax, random).min(HIGHEST);
        Supply { unit: unit.number, supplier: unit.supplier, mw: self.mw(random), cost, dfax }
    }

    fn mw(&self, random: &mut Random) -> u64 {
        match self.style {
            Style::Ties | Style::Flat => 20 * random.between(1, 60),
            Style::Extreme => random.pick(&[1, 99_999, 100_000]),
            _ if random.once_in(10) => random.scaled(99_999) + 1,
            _ => random.between(100, 1_500),
        }
    }

    fn cost(&self, dfax: u64, random: &mut Random) -> u64 {
        match self.style {
            Style::Plain => self.cost * random.between(40, 260) / 100,
            Style::Alike => self.cost * dfax * random.between(70, 150) / (100 * self.dfax),
            Style::Flat => self.cost * (dfax / self.dfax),
            Style::Ties => {
                let level = self.cost * (dfax / self.dfax);
                let tied = random.pick(&[level, level, level * 3 / 2, level * 3 / 2, level * 2, level / 2]);
                if random.once_in(5) {
                    random.pick(&[tied + 1, tied.saturating_sub(1)])
                } else {
                    tied
                }
            }
            Style::Dear if random.once_in(8) => make_dear(random),
            Style::Near | Style::Dear => self.near_cost(dfax, random),
            Style::Free => random.pick(&[0, 0, 0, 1, 9, 10, self.cost]),
            Style::Extreme if random.percent(60) => random.pick(&EDGES),
            Style::Extreme => random.pick(&[91, 137, 138, 100_000, 133_333, 195_000]),
        }
    }

    /// A cost next to the scale's own effective cost, or to 150% of it.
    fn near_cost(&self, dfax: u64, random: &mut Random) -> u64 {
        let level = capped(self.cost) * dfax * random.pick(&[2, 3]) / (2 * self.dfax);
        let cost = uncapped(level.min(HIGHEST), random);
        random.pick(&[cost, cost, cost + 1, cost.saturating_sub(1)])
    }
}

/// A cost around 2,000 dollars, with room in the range for half as much again.
fn make_dear_level(random: &mut Random) -> u64 {
    let below = random.between(TWO_THOUSAND_DOLLARS / 2, TWO_THOUSAND_DOLLARS);
    let above = random.between(TWO_THOUSAND_DOLLARS + 1, HIGHEST_WITH_HALF_MORE);
    let edge = random.pick(&[TWO_THOUSAND_DOLLARS, TWO_THOUSAND_DOLLARS + 1, HIGHEST_WITH_HALF_MORE]);
    random.pick(&[below, below, above, above, above, edge])
}

/// A cutoff that leaves most rows eligible, often with one right at it.
fn make_cutoff(rows: &[Supply], random: &mut Random) -> u64 {
    let mut sizes: Vec<u64> = rows.iter().map(|row| row.dfax.unsigned_abs()).collect();
    sizes.sort();
    let low = if sizes.is_empty() { 1 } else { sizes[random.index(sizes.len().div_ceil(3))] };
    let cutoff = match random.between(0, 9) {
        0..=2 => 1,
        3..=4 => 300,
        5..=6 => low,
        7 => low + 1,
        8 => random.between(1, 5_000),
        _ => random.between(1, 10_000),
    };
    cutoff.clamp(1, 10_000)
}

/// A relief somewhere in what the eligible rows supply, or just beyond. The rows have the head in the
/// place of the supplier.
fn make_relief(eligible: &[Supply], style: Style, random: &mut Random) -> u64 {
    let supply = supply_of(eligible);
    let need = match (random.between(0, 19), style) {
        (0..=10, Style::Flat) => need_by_left(eligible, random),
        (0..=8, _) => supply * random.pick(&[1, 2, 3, 5, 8, 12, 18, 25]) / 100,
        (9..=12, _) => need_by_cost(eligible, random),
        (13..=14, _) => supply,
        (15..=16, _) => need_by_left(eligible, random),
        (17, _) => random.between(0, supply + supply / 5),
        (18, _) => 10_000,
        _ => supply * 2,
    };
    let rounded = need / 10_000 + random.pick(&[0, 0, 0, 1]);
    rounded.clamp(1, 1_000_000)
}

/// What the rows up to some effective cost supply.
fn need_by_cost(eligible: &[Supply], random: &mut Random) -> u64 {
    let mut rows = eligible.to_vec();
    let cost = |row: &Supply, other: &Supply| capped(row.cost) * other.dfax.unsigned_abs();
    rows.sort_by(|a, b| cost(a, b).cmp(&cost(b, a)));
    supply_of(&rows[..random.index(rows.len() + 1)])
}

/// What is left of all the rows without some group and its two largest others.
fn need_by_left(eligible: &[Supply], random: &mut Random) -> u64 {
    let groups = different(eligible.iter().map(|row| row.supplier));
    let amount = |group: u64| supply_of(eligible.iter().filter(|row| row.supplier == group));
    let mut amounts: Vec<u64> = groups.into_iter().map(amount).collect();
    random.shuffle(&mut amounts);
    amounts.pop();
    amounts.sort();
    amounts.iter().rev().skip(2).sum()
}

/// One more unit, of dfax 1 or -1, that brings the eligible supply to the need or one short of it where
/// the cutoff is 1. The relief.
fn balance(rows: &mut Vec<Supply>, random: &mut Random) -> u64 {
    let supply: u64 = rows.iter().map(effective_supply).sum();
    let relief = (supply / 10_000 + 1).clamp(1, 1_000_000);
    let gap = (relief * 10_000).saturating_sub(supply).clamp(2, 100_000);
    let unit = loop {
        let unit = random.between(1, 9_999);
        if rows.iter().all(|row| row.unit != unit) {
            break unit;
        }
    };
    let beside = random.pick(rows);
    let balance = Supply {
        unit,
        supplier: beside.supplier,
        mw: random.pick(&[gap, gap - 1]),
        cost: random.pick(&[0, beside.cost, HIGHEST]),
        dfax: random.pick(&[1, -1]),
    };
    rows.truncate(255);
    rows.push(balance);
    relief
}

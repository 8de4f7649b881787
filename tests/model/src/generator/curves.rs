//! Curves of a draft: over few or many of its schedule rows, of one to ten points with many at ecomin or
//! beside it, one curve after the other or interleaved.

use super::prices::{price_like, EDGES, HIGHEST};
use super::random::Random;
use crate::curves;
use crate::rules::run;
use crate::table::{Point, Schedule};

/// The most points of a curve.
pub const POINTS: u64 = curves::POINTS as u64;

/// The most points of a draft of any size. They fit into the largest file when they are quoted, and when
/// others make them up to as many rows as there may be.
const MOST_POINTS: usize = 1_300;

/// The largest numbers that points may have.
#[derive(Clone, Copy)]
pub struct Ceiling {
    pub mw: u64,
    pub price: u64,
}

impl Ceiling {
    /// The ends of the columns' ranges.
    pub const OF_COLUMNS: Ceiling = Ceiling { mw: 100_000, price: HIGHEST };
}

/// Curves that nothing refuses, for these rows and the study hour; none half of the time.
pub fn make_curves(rows: &[Schedule], hour: u64, random: &mut Random) -> Vec<Point> {
    if rows.is_empty() || random.percent(50) {
        return Vec::new();
    }
    let share = random.pick(&[0, 10, 40, 70, 100]);
    let outside_alone = random.once_in(8);
    let mut chosen = rows.to_vec();
    chosen.retain(|row| random.percent(share) && !(outside_alone && run(row, hour).contains(&row.hour)));
    if chosen.is_empty() {
        chosen.push(random.pick(rows));
    }
    let mut curves = Vec::new();
    let mut room = MOST_POINTS;
    for row in &chosen {
        let curve = make_curve_of(row, rows, make_count(random), random);
        if curve.len() <= room {
            room -= curve.len();
            curves.push(curve);
        }
    }
    interleave(curves, random)
}

/// How many points a curve has.
fn make_count(random: &mut Random) -> u64 {
    let any = random.between(1, POINTS);
    random.pick(&[1, 1, 2, 2, 3, 5, any, POINTS - 1, POINTS, POINTS])
}

/// A curve of a row among others, of up to so many points.
pub fn make_curve_of(row: &Schedule, rows: &[Schedule], count: u64, random: &mut Random) -> Vec<Point> {
    let price = make_price(row, rows, random);
    make_curve(row, price, count, Ceiling::OF_COLUMNS, random)
}

/// A price for a row: around its column, at what another schedule of its unit offers, or any other.
fn make_price(row: &Schedule, rows: &[Schedule], random: &mut Random) -> u64 {
    let beside = |other: &&Schedule| other.unit == row.unit && other.schedule != row.schedule;
    let rivals: Vec<&Schedule> = rows.iter().filter(beside).collect();
    let price = match random.between(0, 9) {
        0 => row.price,
        1 => random.pick(&EDGES),
        2..=3 if !rivals.is_empty() => {
            let even = price_like(row.kind, random.pick(&rivals), random);
            random.pick(&[even, even, even + 1, even.saturating_sub(1)])
        }
        _ => row.price * random.between(20, 220) / 100,
    };
    price.min(Ceiling::OF_COLUMNS.price)
}

/// A curve of up to so many points, fewer where there is no room for them, of which one has the price at
/// the row's ecomin.
pub fn make_curve(
    row: &Schedule,
    price: u64,
    count: u64,
    ceiling: Ceiling,
    random: &mut Random,
) -> Vec<Point> {
    let mw = make_reaching(row.ecomin, ceiling.mw, random);
    let lower = random.between(0, count - 1).min(row.ecomin).min(price);
    let higher = (count - 1 - lower).min(ceiling.mw - mw).min(ceiling.price - price);
    let rising = |low: u64, middle: u64, high: u64, random: &mut Random| {
        [below(lower, low, random), vec![middle], above(higher, middle, high, random)].concat()
    };
    let amounts = rising(row.ecomin, mw, ceiling.mw, random);
    let prices = rising(price, price, ceiling.price, random);
    let (unit, schedule, hour) = (row.unit, row.schedule, row.hour);
    amounts.into_iter().zip(prices).map(|(mw, price)| Point { unit, schedule, hour, mw, price }).collect()
}

/// An mw that reaches ecomin, often just so, and leaves room for a curve above it where there is some.
fn make_reaching(ecomin: u64, largest: u64, random: &mut Random) -> u64 {
    match random.between(0, 3) {
        0..=1 => ecomin,
        2 => (ecomin + 1).min(largest),
        _ => random.between(ecomin, largest.max(ecomin + POINTS) - POINTS),
    }
}

/// So many rising numbers below a limit, often right below it.
fn below(count: u64, limit: u64, random: &mut Random) -> Vec<u64> {
    let near = limit.min(count + random.between(0, 2));
    let room = random.pick(&[limit, near]);
    let mut numbers = random.distinct(count as usize, limit - room, limit.saturating_sub(1));
    numbers.sort();
    numbers
}

/// So many rising numbers above a limit and up to the largest, often right above it.
fn above(count: u64, limit: u64, largest: u64, random: &mut Random) -> Vec<u64> {
    let near = (largest - limit).min(count + random.between(0, 2));
    let room = random.pick(&[largest - limit, near]);
    let mut numbers = random.distinct(count as usize, limit + 1, limit + room);
    numbers.sort();
    numbers
}

/// The points of curves, each curve in its own order: one curve after the other, one point of each in turn,
/// or mixed.
pub fn interleave(mut curves: Vec<Vec<Point>>, random: &mut Random) -> Vec<Point> {
    if random.percent(50) {
        random.shuffle(&mut curves);
    }
    let turn = |(index, curve): (usize, &Vec<Point>)| (0..curve.len()).map(move |place| (place, index));
    let mut turns: Vec<(usize, usize)> = curves.iter().enumerate().flat_map(turn).collect();
    match random.between(0, 4) {
        0..=1 => {}
        2 => turns.sort(),
        _ => random.shuffle(&mut turns),
    }
    let mut rest: Vec<_> = curves.into_iter().map(Vec::into_iter).collect();
    turns.into_iter().filter_map(|(_, index)| rest[index].next()).collect()
}

#[cfg(test)]
mod tests {
    use super::*;
    use crate::curves::{disordered, ends_low, priced, stray_point};
    use crate::generator::draft::Draft;

    #[test]
    fn curves_are_refused_by_nothing() {
        for index in 0..1_000 {
            let random = &mut Random::of(1, index);
            let Draft { curves, schedules, .. } = Draft::make(random);
            assert!(curves.len() <= MOST_POINTS);
            let refusals = (stray_point(&curves, &schedules), disordered(&curves));
            assert_eq!((refusals, ends_low(&curves, &schedules)), ((None, None), None), "{index}");
        }
    }

    #[test]
    fn a_curve_has_its_price_at_ecomin() {
        for index in 0..1_000 {
            let random = &mut Random::of(2, index);
            let Some(mut row) = Draft::make(random).schedules.first().copied() else { continue };
            row.ecomin = random.pick(&[0, 1, 5, row.ecomin, 99_995, 100_000]);
            let price = random.pick(&[0, 1, 5, row.price, 199_995, 200_000, HIGHEST - 5, HIGHEST]);
            let curve = make_curve(&row, price, POINTS, Ceiling::OF_COLUMNS, random);
            assert_eq!(disordered(&curve), None, "{index}");
            assert_eq!(priced(&[row], &curve)[0].price, price, "{index}");
        }
    }
}

//! The faults of curves: 32 a point of no schedule row, 33 points that don't rise or are too many, 34 a
//! curve that ends below ecomin.

use super::curves::{make_curve_of, Ceiling, POINTS};
use super::draft::Draft;
use super::random::Random;
use crate::curves::{belongs, same_curve};
use crate::rules::run;
use crate::table::{Point, Schedule, CURVES};

const LARGEST: Ceiling = Ceiling::OF_COLUMNS;

/// How many points a fault puts in at the most.
const MOST_MORE: usize = 20;

/// Puts a fault into the curves. Where they are full there is room made for it, or one is too many.
pub fn spoil_curves(number: u64, draft: &mut Draft, random: &mut Random) {
    if random.percent(70) {
        draft.curves.truncate(CURVES.rows.end() - MOST_MORE);
    }
    match number {
        32 => add_stray_points(draft, random),
        33 if random.percent(35) => crowd_curve(draft, random),
        33 => break_order(draft, random),
        34 => end_low(draft, random),
        _ => {}
    }
}

/// 32: a point or two of no schedule row.
fn add_stray_points(draft: &mut Draft, random: &mut Random) {
    for _ in 0..random.between(1, 2) {
        let point = make_stray(draft, random);
        insert(point, 0, draft, random);
    }
}

/// Puts a point into some place from a first one on, often at the end.
fn insert(point: Point, first: usize, draft: &mut Draft, random: &mut Random) -> usize {
    let end = draft.curves.len();
    let place = if random.percent(30) { end } else { first + random.index(end + 1 - first) };
    draft.curves.insert(place, point);
    place
}

/// A point that is a schedule row's but for one number, or for all.
fn make_stray(draft: &Draft, random: &mut Random) -> Point {
    loop {
        let mut point = Point {
            unit: draft.other_unit(random),
            schedule: random.between(1, 99),
            hour: random.between(0, 23),
            mw: random.scaled(LARGEST.mw),
            price: random.scaled(LARGEST.price),
        };
        if !draft.schedules.is_empty() {
            let row = random.pick(&draft.schedules);
            match random.between(0, 4) {
                0 => point = Point { schedule: row.schedule, hour: row.hour, ..point },
                1 => point = Point { unit: row.unit, hour: row.hour, ..point },
                2..=3 => point = Point { unit: row.unit, schedule: row.schedule, ..point },
                _ => {}
            }
        }
        if !draft.schedules.iter().any(|row| belongs(&point, row)) {
            return point;
        }
    }
}

/// 33: a point that doesn't rise above the one before it in its curve.
fn break_order(draft: &mut Draft, random: &mut Random) {
    let Some(before) = some_point(draft, random) else { return };
    let last = draft.curves[before];
    let next = (before + 1..draft.curves.len()).find(|&later| same_curve(&last, &draft.curves[later]));
    let place = match next {
        Some(place) => place,
        None => {
            let above = Point {
                mw: (last.mw + 1).min(LARGEST.mw),
                price: (last.price + 1).min(LARGEST.price),
                ..last
            };
            insert(above, before + 1, draft, random)
        }
    };
    let point = &mut draft.curves[place];
    match random.between(0, 6) {
        0 => point.mw = last.mw,
        1 => point.price = last.price,
        2 => point.mw = last.mw.saturating_sub(random.between(1, 50)),
        3 => point.price = last.price.saturating_sub(random.between(1, 50)),
        4 => *point = last,
        5 => *point = Point { mw: last.mw / 2, price: last.price / 2, ..last },
        _ => draft.curves.swap(before, place),
    }
}

/// Some point's index. Where there is none, a schedule row gets a curve first; without rows there is none.
fn some_point(draft: &mut Draft, random: &mut Random) -> Option<usize> {
    if draft.curves.is_empty() {
        let row = (!draft.schedules.is_empty()).then(|| random.pick(&draft.schedules))?;
        draft.curves = make_curve_of(&row, &draft.schedules, 2, random);
    }
    Some(random.index(draft.curves.len()))
}

/// 33: a curve of eleven points or some more, all of them rising.
fn crowd_curve(draft: &mut Draft, random: &mut Random) {
    for _ in 0..random.pick(&[1, 1, 2]) {
        let Some(index) = some_point(draft, random) else { return };
        let point = draft.curves[index];
        let row = draft.schedules.iter().find(|row| belongs(&point, row)).copied();
        let Some(row) = row else { return };
        let count = POINTS + random.pick(&[1, 1, 2, 5]);
        let curve = make_curve_of(&row, &draft.schedules, count, random);
        replace(&row, curve, draft, random);
    }
}

/// Puts a curve into the place of the row's own, all at once or spread over the file.
fn replace(row: &Schedule, curve: Vec<Point>, draft: &mut Draft, random: &mut Random) {
    draft.curves.retain(|point| !belongs(point, row));
    let end = draft.curves.len();
    let together = random.index(end + 1);
    let mut places: Vec<usize> = curve.iter().map(|_| random.index(end + 1)).collect();
    places.sort();
    if random.percent(40) {
        places.fill(together);
    }
    for (place, point) in places.into_iter().zip(curve).rev() {
        draft.curves.insert(place, point);
    }
}

/// 34: one to three curves that end below ecomin, often by one, sometimes of hours outside the run alone.
fn end_low(draft: &mut Draft, random: &mut Random) {
    let hour = draft.constraint.hour;
    let outside_alone = random.once_in(3);
    let chosen = |row: &Schedule| !outside_alone || !run(row, hour).contains(&row.hour);
    let places: Vec<usize> = (0..draft.schedules.len()).filter(|&at| chosen(&draft.schedules[at])).collect();
    if places.is_empty() {
        return;
    }
    for _ in 0..random.between(1, 3) {
        let place = random.pick(&places);
        lower(place, draft, random);
    }
}

/// Lets the curve of a row, given by its index, end below ecomin: by another ecomin, or without the points
/// that reach it.
fn lower(place: usize, draft: &mut Draft, random: &mut Random) {
    let row = draft.schedules[place];
    if !draft.curves.iter().any(|point| belongs(point, &row)) {
        let count = random.between(1, POINTS);
        let curve = make_curve_of(&row, &draft.schedules, count, random);
        replace(&row, curve, draft, random);
    }
    let last = draft.curves.iter().rfind(|point| belongs(point, &row)).map_or(0, |point| point.mw);
    if last < LARGEST.mw && random.percent(60) {
        let beyond = random.between(1, LARGEST.mw - last);
        draft.schedules[place].ecomin = last + random.pick(&[1, 1, 1, beyond]);
    } else if row.ecomin > 0 {
        draft.curves.retain(|point| !belongs(point, &row) || point.mw < row.ecomin);
        if !draft.curves.iter().any(|point| belongs(point, &row)) {
            let Schedule { unit, schedule, hour, price, .. } = row;
            insert(Point { unit, schedule, hour, mw: row.ecomin - 1, price }, 0, draft, random);
        }
    }
}

#[cfg(test)]
mod tests {
    use super::*;
    use crate::curves::{disordered, ends_low, stray_point};

    /// How many of some drafts have a fault once it is put in.
    fn found(number: u64, refusal: fn(&Draft) -> Option<u64>) -> usize {
        let spoilt = (0..500).filter(|&index| {
            let random = &mut Random::of(number, index);
            let mut draft = Draft::make(random);
            spoil_curves(number, &mut draft, random);
            refusal(&draft).is_some()
        });
        spoilt.count()
    }

    #[test]
    fn each_fault_is_there() {
        assert_eq!(found(32, |draft| stray_point(&draft.curves, &draft.schedules)), 500);
        let disordered = found(33, |draft| disordered(&draft.curves));
        let low = found(34, |draft| ends_low(&draft.curves, &draft.schedules));
        assert!(disordered > 450 && low > 350, "{disordered} {low}");
    }
}

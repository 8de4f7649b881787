//! Offer curves (document 02, F-3): the price at ecomin, and the refusals 32, 33 and 34.
//!
//! A curve is the points of one unit, schedule and hour, in file order; points of others may stand between
//! them.

use crate::table::{Point, Schedule};

/// "At most ten points per schedule and hour".
pub const POINTS: usize = 10;

/// A point is one of the curve of a schedule's row.
pub fn belongs(point: &Point, row: &Schedule) -> bool {
    point.unit == row.unit && point.schedule == row.schedule && point.hour == row.hour
}

/// Two points are of one curve.
pub fn same_curve(one: &Point, other: &Point) -> bool {
    one.unit == other.unit && one.schedule == other.schedule && one.hour == other.hour
}

/// "In file order each curve's mw and price strictly rise."
fn rises(last: &Point, point: &Point) -> bool {
    last.mw < point.mw && last.price < point.price
}

/// "The price at ecomin is that of the first point whose mw is at least ecomin. A schedule hour with points
/// uses it in place of its price column; one without uses the column."
fn price_at_ecomin(row: &Schedule, points: &[Point]) -> u64 {
    let mut curve = points.iter().filter(|point| belongs(point, row));
    curve.find(|point| point.mw >= row.ecomin).map_or(row.price, |point| point.price)
}

/// Rows with the price at ecomin in the place of the price column. 34 leaves no curve without one.
pub fn priced(rows: &[Schedule], points: &[Point]) -> Vec<Schedule> {
    rows.iter().map(|row| Schedule { price: price_at_ecomin(row, points), ..*row }).collect()
}

/// 32: "a point whose schedule hour isn't in the schedules", at the first such record.
pub fn stray_point(points: &[Point], rows: &[Schedule]) -> Option<u64> {
    let stray = |point: &Point| !rows.iter().any(|row| belongs(point, row));
    points.iter().position(stray).map(record)
}

/// 33: "an order or number of points outside these rules", at the first record that doesn't rise above the
/// one before it in its curve, or has ten before it.
pub fn disordered(points: &[Point]) -> Option<u64> {
    let at_fault = |&index: &usize| {
        let before = points[..index].iter().filter(|earlier| same_curve(earlier, &points[index]));
        let before: Vec<&Point> = before.collect();
        before.len() >= POINTS || before.last().is_some_and(|last| !rises(last, &points[index]))
    };
    (0..points.len()).find(at_fault).map(record)
}

/// 34: "a curve ending below ecomin", at "the curve's last" record: the smallest of these, whatever the hour.
pub fn ends_low(points: &[Point], rows: &[Schedule]) -> Option<u64> {
    let low = |row: &Schedule| {
        let last = points.iter().rposition(|point| belongs(point, row))?;
        (points[last].mw < row.ecomin).then_some(record(last))
    };
    rows.iter().filter_map(low).min()
}

/// The record of a point: the header is record 0.
fn record(index: usize) -> u64 {
    index as u64 + 1
}

#[cfg(test)]
mod tests {
    use super::*;
    use crate::table::Kind;

    /// The row of a unit's schedule 2 at hour 5.
    fn row(unit: u64, ecomin: u64) -> Schedule {
        let (kind, price, noload, startup, minrun) = (Kind::C, 7, 0, 0, 1);
        Schedule { unit, schedule: 2, kind, hour: 5, ecomin, price, noload, startup, minrun }
    }

    /// Points of schedule 2 at hour 5: unit, mw and price.
    fn points(points: &[(u64, u64, u64)]) -> Vec<Point> {
        let point = |&(unit, mw, price)| Point { unit, schedule: 2, hour: 5, mw, price };
        points.iter().map(point).collect()
    }

    /// So many points of unit 11, each above the one before.
    fn ladder(count: u64) -> Vec<Point> {
        points(&(1..=count).map(|step| (11, 10 * step, 100 * step)).collect::<Vec<_>>())
    }

    #[test]
    fn the_price_is_a_step_and_counts_at_the_point() {
        let points = points(&[(12, 40, 900), (11, 50, 1000), (12, 60, 950), (11, 100, 2000)]);
        let price = |ecomin| priced(&[row(11, ecomin)], &points)[0].price;
        assert_eq!([0, 49, 50].map(price), [1000; 3]);
        assert_eq!([51, 99, 100].map(price), [2000; 3]);
        assert_eq!(priced(&[row(13, 50)], &points)[0].price, 7);
    }

    #[test]
    fn a_point_belongs_to_one_unit_schedule_and_hour() {
        let (row, of_row) = (row(11, 0), points(&[(11, 0, 3)])[0]);
        let others = [
            Point { unit: 12, ..of_row },
            Point { schedule: 1, ..of_row },
            Point { hour: 6, ..of_row },
            Point { unit: 2, schedule: 11, ..of_row },
        ];
        assert_eq!(stray_point(&[of_row], &[row]), None);
        for other in others {
            assert_eq!(stray_point(&[of_row, of_row, other, other], &[row]), Some(3));
            assert_eq!(priced(&[row], &[other])[0].price, row.price);
        }
        assert_eq!(stray_point(&[of_row], &[]), Some(1));
    }

    #[test]
    fn each_point_is_held_against_the_one_before_it_in_its_curve() {
        assert_eq!(disordered(&points(&[(11, 50, 1000), (11, 50, 2000)])), Some(2));
        assert_eq!(disordered(&points(&[(11, 50, 1000), (11, 100, 1000)])), Some(2));
        assert_eq!(disordered(&points(&[(11, 50, 1000), (11, 49, 1001)])), Some(2));
        assert_eq!(disordered(&points(&[(11, 50, 1000), (12, 40, 900), (11, 51, 1001)])), None);
        assert_eq!(disordered(&points(&[(11, 50, 1000), (12, 60, 1100), (11, 50, 1200)])), Some(3));
        assert_eq!(disordered(&points(&[(11, 50, 1000), (11, 40, 900), (11, 45, 950)])), Some(2));
    }

    #[test]
    fn the_eleventh_point_is_one_too_many() {
        assert_eq!(disordered(&ladder(10)), None);
        assert_eq!(disordered(&ladder(11)), Some(11));
        assert_eq!(disordered(&ladder(13)), Some(11));
        let mut among_others = ladder(11);
        among_others.insert(4, points(&[(12, 0, 0)])[0]);
        assert_eq!(disordered(&among_others), Some(12));
        among_others.push(points(&[(12, 0, 1)])[0]);
        assert_eq!(disordered(&among_others), Some(12));
    }

    #[test]
    fn the_smallest_of_the_last_records_is_named() {
        let rows = [row(11, 101), row(12, 101), row(13, 100)];
        let low = |of: &[(u64, u64, u64)]| ends_low(&points(of), &rows);
        assert_eq!(low(&[(11, 50, 1), (11, 100, 2)]), Some(2));
        assert_eq!(low(&[(11, 50, 1), (11, 101, 2)]), None);
        assert_eq!(low(&[(13, 50, 1), (13, 100, 2)]), None);
        assert_eq!(low(&[(11, 50, 1), (12, 50, 1), (12, 60, 2), (11, 60, 2)]), Some(3));
        assert_eq!(low(&[(11, 50, 1), (12, 50, 1), (11, 60, 2), (12, 101, 2)]), Some(3));
        assert_eq!(low(&[]), None);
    }
}

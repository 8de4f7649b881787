//! Drafts whose curves have as many points as there may be. Their numerals are short, so that 4,096 rows
//! fit into the largest file.

use super::curves::{interleave, make_curve, Ceiling, POINTS};
use super::draft::{make_day, Draft};
use super::random::Random;
use super::supply::{make_market, Size};
use crate::day::Day;
use crate::table::{Kind, Point, Schedule, CURVES};

/// How the schedule rows of such a draft are made up: units by schedules by hours, with about as many
/// points each as 4,096 by their number.
#[derive(Clone, Copy)]
struct Shape {
    units: usize,
    schedules: u64,
    first_hour: u64,
    last_hour: u64,
    ceiling: Ceiling,
}

const SHAPES: [Shape; 3] = [
    // As many schedule rows as there may be, with four points each.
    Shape { units: 64, schedules: 1, first_hour: 8, last_hour: 23, ceiling: Ceiling { mw: 99, price: 99 } },
    // Eight points each, or fewer.
    Shape { units: 8, schedules: 8, first_hour: 0, last_hour: 7, ceiling: Ceiling { mw: 999, price: 999 } },
    // Nine and ten points each, or fewer.
    Shape { units: 7, schedules: 6, first_hour: 0, last_hour: 9, ceiling: Ceiling { mw: 999, price: 999 } },
];

impl Draft {
    /// A draft with as many points as there may be.
    pub fn make_full(random: &mut Random) -> Draft {
        let shape = random.pick(&SHAPES);
        let size = Size { units: shape.units, suppliers: 5, rows: shape.units };
        let hour = random.between(shape.first_hour, shape.last_hour);
        let (constraint, supply, parents) = make_market(size, hour, random);
        let (schedules, curves, day) = (Vec::new(), Vec::new(), Day::fresh());
        let mut draft = Draft { constraint, supply, schedules, curves, parents, day };
        draft.number_from(1);
        draft.schedules = shape.rows(&draft.units(), hour, random);
        draft.curves = shape.points(&draft.schedules, random);
        draft.day = make_day(&draft, random);
        draft
    }
}

impl Shape {
    /// A row for each unit, schedule and hour.
    fn rows(&self, units: &[u64], hour: u64, random: &mut Random) -> Vec<Schedule> {
        let mut rows = Vec::new();
        for &unit in units {
            for schedule in 1..=self.schedules {
                let kind = if schedule == 1 { random.pick(&[Kind::M, Kind::C]) } else { Kind::C };
                let minrun = random.between(1, self.last_hour - hour + 1);
                let (noload, startup) = (random.between(0, 99), random.between(0, 99));
                let row = |hour: u64| {
                    let ecomin = random.between(POINTS, self.ceiling.mw - POINTS);
                    let price = random.between(POINTS, self.ceiling.price - POINTS);
                    Schedule { unit, schedule, kind, hour, ecomin, price, noload, startup, minrun }
                };
                rows.extend((self.first_hour..=self.last_hour).map(row));
            }
        }
        rows
    }

    /// A curve for each row, with as many points together as there may be.
    fn points(&self, rows: &[Schedule], random: &mut Random) -> Vec<Point> {
        let mut left = *CURVES.rows.end();
        let mut curves = Vec::new();
        for (index, row) in rows.iter().enumerate() {
            let count = left.div_ceil(rows.len() - index) as u64;
            let price = random.between(POINTS, self.ceiling.price - POINTS);
            let curve = make_curve(row, price, count, self.ceiling, random);
            left -= curve.len();
            curves.push(curve);
        }
        interleave(curves, random)
    }
}

#[cfg(test)]
mod tests {
    use super::*;
    use crate::generator::sheet::{Sheet, LARGEST_FILE};

    #[test]
    fn there_are_as_many_points_as_there_may_be() {
        for index in 0..60 {
            let draft = Draft::make_full(&mut Random::of(1, index));
            assert_eq!(draft.curves.len(), *CURVES.rows.end(), "{index}");
            assert!(Sheet::curves(&draft.curves).join(|_| false).len() <= LARGEST_FILE, "{index}");
        }
    }
}

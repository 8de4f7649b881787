//! Parents of a draft: chains, groups and heads of many kinds, among the suppliers of its rows and
//! among others; and the faults 35 and 36.

use super::draft::Draft;
use super::random::Random;
use crate::parents::head;
use crate::table::{Parent, Supply};

/// The most rows of the parents file.
const ROWS: usize = 64;

/// The largest number of a supplier.
const LARGEST: u64 = 999;

/// How the numbers of a group hang together. Each stands under one that comes later in their order, so
/// that no chain returns.
#[derive(Clone, Copy)]
enum Shape {
    /// Each under the next.
    Chain,
    /// Each under the last.
    Star,
    /// Each under any later one, or under none.
    Forest,
}

impl Shape {
    fn rows(self, order: &[u64], random: &mut Random) -> Vec<Parent> {
        let mut rows = Vec::new();
        for index in 1..order.len() {
            let later = &order[index..];
            let parent = match self {
                Shape::Chain => later[0],
                Shape::Star => later[later.len() - 1],
                Shape::Forest if random.percent(30) => continue,
                Shape::Forest => random.pick(later),
            };
            rows.push(Parent { supplier: order[index - 1], parent });
        }
        rows
    }
}

/// Parents that nothing refuses, for a draft with these suppliers.
pub fn make_parents(suppliers: &[u64], random: &mut Random) -> Vec<Parent> {
    let mut rows = match random.between(0, 99) {
        0..=29 => Vec::new(),
        30..=69 => make_small_groups(suppliers, random),
        70..=82 => make_wide_groups(suppliers, random),
        83..=94 => make_long_chain(suppliers, random),
        _ => make_absent_groups(suppliers, random),
    };
    if !rows.is_empty() && random.once_in(5) {
        let numbers = [suppliers.to_vec(), named(&rows)].concat();
        rows.extend(make_absent_groups(&numbers, random));
    }
    rows.truncate(ROWS);
    mix(&mut rows, random);
    rows
}

/// Puts the rows in another order, or leaves them in their own.
fn mix(rows: &mut [Parent], random: &mut Random) {
    match random.between(0, 5) {
        0..=3 => random.shuffle(rows),
        4 => rows.reverse(),
        _ => {}
    }
}

/// One or two groups of two or three suppliers, often with a head that no supply row has.
fn make_small_groups(suppliers: &[u64], random: &mut Random) -> Vec<Parent> {
    let mut left = suppliers.to_vec();
    random.shuffle(&mut left);
    let mut strangers = others(6, suppliers, random);
    let mut rows = Vec::new();
    for _ in 0..random.between(1, 2) {
        let count = random.pick(&[2, 2, 3]).min(left.len());
        let mut order = left.split_off(left.len() - count);
        for _ in 0..random.pick(&[0, 0, 1, 1, 2]) {
            order.extend(strangers.pop());
        }
        if random.percent(30) {
            random.shuffle(&mut order);
        }
        let shape = random.pick(&[Shape::Chain, Shape::Star]);
        rows.extend(shape.rows(&order, random));
    }
    rows
}

/// All suppliers and some others, in groups of any size.
fn make_wide_groups(suppliers: &[u64], random: &mut Random) -> Vec<Parent> {
    let count = random.between(0, 8) as usize;
    let mut order = [suppliers.to_vec(), others(count, suppliers, random)].concat();
    random.shuffle(&mut order);
    Shape::Forest.rows(&order, random)
}

/// A chain of many steps, often as many as there can be, that begins with a supplier of the draft and
/// comes by some more.
fn make_long_chain(suppliers: &[u64], random: &mut Random) -> Vec<Parent> {
    let any = random.between(3, ROWS as u64) as usize;
    let steps = random.pick(&[ROWS, ROWS, ROWS - 1, any]);
    let mut members = suppliers.to_vec();
    random.shuffle(&mut members);
    members.truncate(random.between(1, 4) as usize);
    let strangers = others(steps + 1 - members.len(), suppliers, random);
    let mut order = [members, strangers].concat();
    random.shuffle(&mut order[1..]);
    Shape::Chain.rows(&order, random)
}

/// A group of which no supply row has a member.
fn make_absent_groups(suppliers: &[u64], random: &mut Random) -> Vec<Parent> {
    let count = random.pick(&[2, 2, 3, 5, 20]);
    let order = others(count, suppliers, random);
    let shape = random.pick(&[Shape::Chain, Shape::Star, Shape::Forest]);
    shape.rows(&order, random)
}

/// So many numbers of suppliers that aren't taken.
fn others(count: usize, taken: &[u64], random: &mut Random) -> Vec<u64> {
    random.distinct_beside(count, 1, LARGEST, taken)
}

/// Every number that the rows name, some more than once.
fn named(rows: &[Parent]) -> Vec<u64> {
    rows.iter().flat_map(|row| [row.supplier, row.parent]).collect()
}

/// Supply rows with the head in the place of the supplier.
pub fn grouped(rows: &[Supply], parents: &[Parent]) -> Vec<Supply> {
    rows.iter().map(|row| Supply { supplier: head(row.supplier, parents), ..*row }).collect()
}

/// 35: a supplier with a second parent, or with its first again.
pub fn give_twice(draft: &mut Draft, random: &mut Random) {
    if draft.parents.is_empty() {
        let numbers = others(2, &[], random);
        draft.parents.push(Parent { supplier: numbers[0], parent: numbers[1] });
    }
    if random.once_in(6) {
        fill(draft, random);
    }
    draft.parents.truncate(ROWS - 1);
    let mut row = random.pick(&draft.parents);
    match random.between(0, 5) {
        0..=2 => {}
        3 => row.parent = row.supplier,
        _ => row.parent = random.between(1, LARGEST),
    }
    let end = draft.parents.len();
    let place = if random.percent(40) { end } else { random.index(end + 1) };
    draft.parents.insert(place, row);
}

/// 36: a ring, of one supplier up to as many as there are rows, among suppliers of the draft or others,
/// and often with tails that lead into it.
pub fn close_ring(draft: &mut Draft, random: &mut Random) {
    let ring = make_ring(draft, random);
    let rows = &mut draft.parents;
    rows.retain(|row| !ring.contains(&row.supplier));
    if random.percent(50) {
        let taken = [named(rows), ring.clone()].concat();
        let tails = others(random.between(1, 4) as usize, &taken, random).into_iter();
        let into_ring = tails.map(|supplier| Parent { supplier, parent: random.pick(&ring) });
        rows.splice(0..0, into_ring.collect::<Vec<_>>());
    }
    rows.truncate(ROWS - ring.len());
    let next = ring.iter().cycle().skip(1);
    rows.extend(ring.iter().zip(next).map(|(&supplier, &parent)| Parent { supplier, parent }));
    if random.once_in(4) {
        fill(draft, random);
    }
    if random.percent(50) {
        mix(&mut draft.parents, random);
    }
}

/// The numbers of a ring, in its order.
fn make_ring(draft: &Draft, random: &mut Random) -> Vec<u64> {
    let size = match random.between(0, 9) {
        0..=2 => 1,
        3..=4 => 2,
        5..=6 => random.between(3, 8) as usize,
        7 => random.between(9, ROWS as u64) as usize,
        _ => ROWS,
    };
    let suppliers = draft.suppliers();
    let mut ring = others(size, &suppliers, random);
    if random.percent(60) {
        ring.splice(0..0, suppliers);
        ring.truncate(size);
    }
    random.shuffle(&mut ring);
    ring
}

/// As many rows in front as there is room for, of other suppliers, which lead anywhere but into each
/// other.
fn fill(draft: &mut Draft, random: &mut Random) {
    let missing = ROWS.saturating_sub(draft.parents.len());
    let taken = [draft.suppliers(), named(&draft.parents)].concat();
    let mut suppliers = others(missing + 1, &taken, random);
    let parents = [taken, suppliers.split_off(missing)].concat();
    let rows = suppliers.into_iter().map(|supplier| Parent { supplier, parent: random.pick(&parents) });
    draft.parents.splice(0..0, rows.collect::<Vec<_>>());
}

#[cfg(test)]
mod tests {
    use super::*;
    use crate::parents::{chain, given_twice, ring};

    #[test]
    fn parents_are_refused_by_nothing() {
        for index in 0..2_000 {
            let random = &mut Random::of(1, index);
            let count = random.index(33);
            let suppliers = random.distinct(count, 1, LARGEST);
            let rows = make_parents(&suppliers, random);
            assert!(rows.len() <= ROWS);
            assert_eq!((given_twice(&rows), ring(&rows)), (None, None), "{index}");
        }
    }

    #[test]
    fn long_chains_begin_with_a_supplier_and_come_by_others() {
        let suppliers = [5, 6, 7, 8];
        let chains = (0..100).map(|index| {
            let rows = make_long_chain(&suppliers, &mut Random::of(2, index));
            suppliers.map(|supplier| chain(supplier, &rows).len())
        });
        let longest: Vec<[usize; 4]> = chains.filter(|steps| steps.contains(&ROWS)).collect();
        assert!(longest.len() > 20, "{longest:?}");
        assert!(longest.iter().any(|steps| steps.iter().filter(|&&count| count > 0).count() > 1));
    }

    #[test]
    fn each_fault_is_there() {
        for index in 0..500 {
            let random = &mut Random::of(3, index);
            let mut draft = Draft::make(random);
            close_ring(&mut draft, random);
            assert!(draft.parents.len() <= ROWS);
            assert!(ring(&draft.parents).is_some(), "{index}");
            assert_eq!(given_twice(&draft.parents), None, "{index}");
            give_twice(&mut draft, random);
            assert!(draft.parents.len() <= ROWS);
            assert!(given_twice(&draft.parents).is_some(), "{index}");
        }
    }
}

//! What the lists that the test was fed with brought about, for the tally.

use crate::case::{Case, Lone};
use crate::pivotal::LARGEST_AMOUNT;
use crate::rules::SUPPLIERS;

/// Something that can be said of a list, a place and a need.
#[derive(Clone, Copy, Debug, PartialEq, Eq, PartialOrd, Ord)]
pub enum Feeding {
    /// What is answered, by the verdict, ..
    Answered(char),
    /// .. against a need that is one less than what is left, as much, or one more, ..
    NeedBelow,
    NeedAt,
    NeedAbove,
    /// .. or at the ends of its type, ..
    NeedNothing,
    NeedHighest,
    /// .. of the first of several amounts, ..
    PlaceFirst,
    /// .. and of the last, which wasn't there when some had been given, ..
    PlaceLast,
    /// .. with amounts that are all 0, or all as much, ..
    AllNothing,
    AllEqual,
    /// .. that rise, or fall, with equal ones in a row at times, ..
    Rising,
    Falling,
    /// .. with the own amount, another or all at the largest, ..
    OwnHighest,
    OtherHighest,
    AllHighest,
    /// .. with an own amount above all others, ..
    OwnLargest,
    /// .. with the two largest others before the own place, or behind it, ..
    LargestBefore,
    LargestBehind,
    /// .. and with the largest of them before the second, or behind it.
    SecondLater,
    FirstLater,
    /// A list of so many amounts that is answered, or refused for their number alone, ..
    Length(usize),
    /// .. for it alone where it would be answered if it were held in 8 bits, ..
    CountWraps,
    /// .. and for it alone where the place is past 32 amounts and there.
    PlacePast,
    /// A list of no amounts.
    AtOnce,
    /// One that is refused for the place alone, which is at the length, ..
    PlaceAtLength,
    /// .. would be there if it were held in 8, 16 or 32 bits, ..
    PlaceWraps,
    /// .. or is the highest of its type.
    PlaceHighest,
    /// One that is refused for an amount alone, which is the own one, ..
    TooLargeOwn,
    /// .. is the first, with good ones behind it, ..
    TooLargeFirst,
    /// .. is the last, with good ones before it, ..
    TooLargeLast,
    /// .. is one above the largest there may be, ..
    TooLargeByOne,
    /// .. is the highest of its type, ..
    TooLargeHighest,
    /// .. and one for amounts alone that don't fit together into 64 bits.
    SumWraps,
}

/// The lengths that are counted.
pub const LENGTHS: [usize; 12] = [1, 2, 3, 31, 32, 33, 255, 256, 257, 258, 288, 1_000];

/// From so many amounts on there are several behind the first, and before the last.
const SEVERAL: usize = 3;

/// In how many bits a place might be held that are too few for it.
const TOO_FEW: [u32; 3] = [8, 16, 32];

/// What else can be said, in words.
pub const SAID: [(&str, Feeding); 33] = [
    ("P", Feeding::Answered('P')),
    ("F", Feeding::Answered('F')),
    ("need one below left", Feeding::NeedBelow),
    ("at left", Feeding::NeedAt),
    ("one above", Feeding::NeedAbove),
    ("0", Feeding::NeedNothing),
    ("highest", Feeding::NeedHighest),
    ("the first tested", Feeding::PlaceFirst),
    ("the last", Feeding::PlaceLast),
    ("amounts all 0", Feeding::AllNothing),
    ("all equal", Feeding::AllEqual),
    ("rising", Feeding::Rising),
    ("falling", Feeding::Falling),
    ("own at 10^12", Feeding::OwnHighest),
    ("another", Feeding::OtherHighest),
    ("all", Feeding::AllHighest),
    ("own the largest", Feeding::OwnLargest),
    ("two largest others before it", Feeding::LargestBefore),
    ("behind it", Feeding::LargestBehind),
    ("the second behind the first", Feeding::SecondLater),
    ("before", Feeding::FirstLater),
    ("11 at once", Feeding::AtOnce),
    ("for a count that 8 bits lose", Feeding::CountWraps),
    ("with a place past 32 that is there", Feeding::PlacePast),
    ("for a place at the length", Feeding::PlaceAtLength),
    ("that fewer bits lose", Feeding::PlaceWraps),
    ("that is the highest", Feeding::PlaceHighest),
    ("for the own amount", Feeding::TooLargeOwn),
    ("the first", Feeding::TooLargeFirst),
    ("the last", Feeding::TooLargeLast),
    ("one of 10^12 + 1", Feeding::TooLargeByOne),
    ("the highest", Feeding::TooLargeHighest),
    ("for amounts past 64 bits together", Feeding::SumWraps),
];

impl Feeding {
    /// All that can be said.
    pub fn all() -> Vec<Feeding> {
        let said = SAID.map(|(_, said)| said);
        said.into_iter().chain(LENGTHS.map(Feeding::Length)).collect()
    }

    /// What can be said of a case that is answered so; nothing where no test is fed.
    pub fn of(line: &[u8], answer: &str) -> Vec<Feeding> {
        let Some(Case::Fed(lone)) = Case::read(line) else { return Vec::new() };
        let words: Vec<&str> = answer.split(' ').collect();
        match words[..] {
            ["ok", left, verdict] => of_answered(&lone, left.parse().ok(), verdict),
            _ => of_refused(&lone),
        }
    }
}

/// Those that hold.
fn holding<const COUNT: usize>(said: [(bool, Feeding); COUNT]) -> Vec<Feeding> {
    said.into_iter().filter(|(holds, _)| *holds).map(|(_, what)| what).collect()
}

/// What a list says that is answered with what is left and the verdict.
fn of_answered(lone: &Lone, left: Option<u64>, verdict: &str) -> Vec<Feeding> {
    let (count, own) = (lone.amounts.len(), lone.place as usize);
    let mut said: Vec<Feeding> = verdict.chars().map(Feeding::Answered).collect();
    said.extend(of_need(lone.need, left));
    said.extend(holding([
        (count >= SEVERAL && own == 0, Feeding::PlaceFirst),
        (count >= SEVERAL && own == count - 1, Feeding::PlaceLast),
    ]));
    said.extend(of_amounts(&lone.amounts, own));
    said.extend(of_largest(&lone.amounts, own));
    said.extend(of_length(count));
    said
}

/// What the need says beside what is left.
fn of_need(need: u64, left: Option<u64>) -> Vec<Feeding> {
    let Some(left) = left else { return Vec::new() };
    holding([
        (need.checked_add(1) == Some(left), Feeding::NeedBelow),
        (need == left, Feeding::NeedAt),
        (left.checked_add(1) == Some(need), Feeding::NeedAbove),
        (need == 0, Feeding::NeedNothing),
        (need == u64::MAX, Feeding::NeedHighest),
    ])
}

/// What all amounts together say, and those at the largest.
fn of_amounts(amounts: &[u64], own: usize) -> Vec<Feeding> {
    let all = |amount: u64| amounts.len() >= SEVERAL && amounts.iter().all(|&one| one == amount);
    let equal = all(amounts[0]);
    let each = |holds: fn(u64, u64) -> bool| amounts.windows(2).all(|pair| holds(pair[0], pair[1]));
    let several = amounts.len() >= SEVERAL && !equal;
    let highest = |place: usize| amounts[place] == LARGEST_AMOUNT;
    let other_highest = (0..amounts.len()).any(|place| place != own && highest(place));
    holding([
        (all(0), Feeding::AllNothing),
        (equal, Feeding::AllEqual),
        (several && each(|one, next| one <= next), Feeding::Rising),
        (several && each(|one, next| one >= next), Feeding::Falling),
        (highest(own), Feeding::OwnHighest),
        (other_highest, Feeding::OtherHighest),
        (all(LARGEST_AMOUNT), Feeding::AllHighest),
    ])
}

/// What the largest amounts say by where they are. Of equal ones nobody can tell which are taken, so the two
/// largest others are above the next.
fn of_largest(amounts: &[u64], own: usize) -> Vec<Feeding> {
    let mut others: Vec<usize> = (0..amounts.len()).filter(|&place| place != own).collect();
    others.sort_by_key(|&place| std::cmp::Reverse(amounts[place]));
    let [first, second, third, ..] = others[..] else { return Vec::new() };
    let apart = amounts[first] > amounts[second] && amounts[second] > amounts[third];
    holding([
        (amounts[own] > amounts[first], Feeding::OwnLargest),
        (apart && first.max(second) < own, Feeding::LargestBefore),
        (apart && first.min(second) > own, Feeding::LargestBehind),
        (apart && first < second, Feeding::SecondLater),
        (apart && first > second, Feeding::FirstLater),
    ])
}

fn of_length(count: usize) -> Vec<Feeding> {
    holding([(LENGTHS.contains(&count), Feeding::Length(count))])
}

/// What a list says that is refused.
fn of_refused(lone: &Lone) -> Vec<Feeding> {
    let Lone { place, amounts, .. } = lone;
    let too_many = amounts.len() > SUPPLIERS;
    let too_large = amounts.iter().any(|&amount| amount > LARGEST_AMOUNT);
    let absent = *place >= amounts.len() as u64;
    match (too_many, too_large, absent) {
        (false, _, true) if amounts.is_empty() => vec![Feeding::AtOnce],
        (true, false, false) => of_long(amounts.len(), *place),
        (false, false, true) => of_absent(amounts.len() as u64, *place),
        (false, true, false) => of_large(amounts, *place as usize),
        _ => Vec::new(),
    }
}

/// What a list says that is too long, and has the place.
fn of_long(count: usize, place: u64) -> Vec<Feeding> {
    let in_8_bits = usize::from(count as u8);
    let taken = in_8_bits <= SUPPLIERS && place < in_8_bits as u64;
    let past = place >= SUPPLIERS as u64;
    let said = holding([(taken, Feeding::CountWraps), (past, Feeding::PlacePast)]);
    [said, of_length(count)].concat()
}

/// What a place says that isn't there.
fn of_absent(count: u64, place: u64) -> Vec<Feeding> {
    let wraps = TOO_FEW.into_iter().any(|bits| place % (1 << bits) < count);
    holding([
        (place == count, Feeding::PlaceAtLength),
        (wraps, Feeding::PlaceWraps),
        (place == u64::MAX, Feeding::PlaceHighest),
    ])
}

/// What amounts say of which some are too large.
fn of_large(amounts: &[u64], own: usize) -> Vec<Feeding> {
    let too_large: Vec<usize> = (0..amounts.len()).filter(|&place| amounts[place] > LARGEST_AMOUNT).collect();
    let alone = |place: usize| too_large == [place];
    let with = |amount: u64| too_large.iter().any(|&place| amounts[place] == amount);
    let sum: u128 = amounts.iter().map(|&amount| u128::from(amount)).sum();
    let several = amounts.len() >= SEVERAL;
    holding([
        (alone(own), Feeding::TooLargeOwn),
        (several && alone(0), Feeding::TooLargeFirst),
        (several && alone(amounts.len() - 1), Feeding::TooLargeLast),
        (with(LARGEST_AMOUNT + 1), Feeding::TooLargeByOne),
        (with(u64::MAX), Feeding::TooLargeHighest),
        (sum > u128::from(u64::MAX), Feeding::SumWraps),
    ])
}

#[cfg(test)]
mod tests {
    use super::Feeding::*;
    use super::*;
    use crate::case;

    fn said(line: &str) -> Vec<Feeding> {
        Feeding::of(line.as_bytes(), &case::answer(line.as_bytes()))
    }

    #[test]
    fn lists_that_are_answered() {
        assert_eq!(said("fed 1 1 8,6"), [Answered('F'), NeedAbove, Length(2)]);
        let rising = [Answered('P'), NeedAt, Rising, LargestBehind, FirstLater];
        assert_eq!(said("fed 4 1 1,2,3,4,5"), rising);
        let falling = [Answered('P'), NeedBelow, PlaceLast, Falling, LargestBefore, SecondLater];
        assert_eq!(said("fed 4 4 5,4,3,2,1"), falling);
        let two_others = [Answered('P'), NeedAt, NeedNothing, PlaceFirst, Falling, Length(3)];
        assert_eq!(said("fed 0 0 9,1,1"), two_others);
        let highest = [Answered('F'), NeedHighest, PlaceFirst, OwnLargest, LargestBehind, FirstLater];
        assert_eq!(said("fed 18446744073709551615 0 9,1,2,3"), highest);
        assert_eq!(said("test 1 1 8,6"), []);
    }

    #[test]
    fn amounts_that_are_equal_or_at_the_largest() {
        assert_eq!(said("fed 5 1 0,0,0"), [Answered('F'), AllNothing, AllEqual, Length(3)]);
        let all = [Answered('F'), AllEqual, OwnHighest, OtherHighest, AllHighest, Length(3)];
        assert_eq!(said("fed 5 1 1000000000000,1000000000000,1000000000000"), all);
        assert_eq!(said("fed 5 0 1000000000000"), [Answered('F'), OwnHighest, Length(1)]);
        assert_eq!(said("fed 5 0 7,7,5,7"), [Answered('P'), NeedAt, PlaceFirst]);
    }

    #[test]
    fn lists_that_are_refused() {
        let ones = |place: u64, count: usize| said(&format!("fed 0 {place} {}", vec!["1"; count].join(",")));
        assert_eq!(said("fed 0 0 ."), [AtOnce]);
        assert_eq!(ones(0, 257), [CountWraps, Length(257)]);
        assert_eq!(ones(32, 33), [PlacePast, Length(33)]);
        assert_eq!(ones(33, 33), []);
        assert_eq!(ones(2, 2), [PlaceAtLength]);
        assert_eq!(ones(257, 2), [PlaceWraps]);
        assert_eq!(ones(u64::MAX, 2), [PlaceHighest]);
        assert_eq!(said("fed 0 0 1000000000001"), [TooLargeOwn, TooLargeByOne]);
        let first = [TooLargeFirst, TooLargeHighest, SumWraps];
        assert_eq!(said("fed 0 1 18446744073709551615,1,1"), first);
        assert_eq!(said("fed 0 1 1,1,1000000000002"), [TooLargeLast]);
        assert_eq!(said("fed 0 0 1,1000000000001,1000000000001"), [TooLargeByOne]);
    }
}

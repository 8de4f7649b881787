//! A small source of random numbers (SplitMix64): the same seed and index give the same case.

/// The state of the source.
pub struct Random(u64);

const STEP: u64 = 0x9e37_79b9_7f4a_7c15;

impl Random {
    /// The source of one case of a seed.
    pub fn of(seed: u64, index: u64) -> Random {
        let mut source = Random(seed);
        let mixed = source.any() ^ index.wrapping_mul(STEP);
        Random(mixed)
    }

    /// Any number.
    pub fn any(&mut self) -> u64 {
        self.0 = self.0.wrapping_add(STEP);
        let mut mixed = self.0;
        mixed = (mixed ^ (mixed >> 30)).wrapping_mul(0xbf58_476d_1ce4_e5b9);
        mixed = (mixed ^ (mixed >> 27)).wrapping_mul(0x94d0_49bb_1331_11eb);
        mixed ^ (mixed >> 31)
    }

    /// A number from `min` to `max`, both of them possible.
    pub fn between(&mut self, min: u64, max: u64) -> u64 {
        min + self.any() % (max - min + 1)
    }

    /// A number below a length.
    pub fn index(&mut self, length: usize) -> usize {
        (self.any() % length as u64) as usize
    }

    /// True once in so many times.
    pub fn once_in(&mut self, times: u64) -> bool {
        self.any().is_multiple_of(times)
    }

    /// True so many times of a hundred.
    pub fn percent(&mut self, chance: u64) -> bool {
        self.any() % 100 < chance
    }

    /// One of several.
    pub fn pick<T: Copy>(&mut self, several: &[T]) -> T {
        several[self.index(several.len())]
    }

    /// A number up to `max`, with few digits as often as with many.
    pub fn scaled(&mut self, max: u64) -> u64 {
        let digits = max.to_string().len() as u32;
        let limit = 10u64.pow(self.between(1, u64::from(digits)) as u32);
        self.between(0, limit.min(max))
    }

    /// Puts several in another order.
    pub fn shuffle<T>(&mut self, several: &mut [T]) {
        for last in (1..several.len()).rev() {
            several.swap(last, self.index(last + 1));
        }
    }

    /// So many different numbers from `min` to `max`, in no order.
    pub fn distinct(&mut self, count: usize, min: u64, max: u64) -> Vec<u64> {
        self.distinct_beside(count, min, max, &[])
    }

    /// So many different numbers from `min` to `max` that aren't taken, in no order.
    pub fn distinct_beside(&mut self, count: usize, min: u64, max: u64, taken: &[u64]) -> Vec<u64> {
        let mut numbers = Vec::new();
        while numbers.len() < count {
            let number = self.between(min, max);
            if !numbers.contains(&number) && !taken.contains(&number) {
                numbers.push(number);
            }
        }
        numbers
    }
}

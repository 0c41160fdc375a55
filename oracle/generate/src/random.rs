use std::ops::RangeInclusive;

const STEP: u64 = 0x9e37_79b9_7f4a_7c15;

/// The generator SplitMix64.
#[derive(Clone, Debug)]
pub struct Random {
    state: u64,
}

impl Random {
    /// A stream of its own for each seed and index.
    pub fn new(seed: u64, index: u64) -> Self {
        let mut random = Self {
            state: seed.wrapping_mul(STEP),
        };

        random.state = random.number() ^ index.wrapping_mul(STEP);
        random.state = random.number();
        random
    }

    pub fn number(&mut self) -> u64 {
        self.state = self.state.wrapping_add(STEP);

        let mut number = self.state;

        number = (number ^ (number >> 30)).wrapping_mul(0xbf58_476d_1ce4_e5b9);
        number = (number ^ (number >> 27)).wrapping_mul(0x94d0_49bb_1331_11eb);
        number ^ (number >> 31)
    }

    pub fn within(&mut self, range: RangeInclusive<u64>) -> u64 {
        let (start, end) = range.into_inner();

        match (end - start).checked_add(1) {
            Some(count) => start + self.number() % count,
            None => self.number(),
        }
    }

    pub fn small(&mut self, range: RangeInclusive<u32>) -> u32 {
        self.within(*range.start() as u64..=*range.end() as u64) as u32
    }

    pub fn below(&mut self, count: usize) -> usize {
        (self.number() % count as u64) as usize
    }

    /// True once in so many times.
    pub fn once_in(&mut self, count: usize) -> bool {
        self.below(count) == 0
    }

    pub fn choose<T: Clone>(&mut self, items: &[T]) -> T {
        items[self.below(items.len())].clone()
    }

    pub fn shuffle<T>(&mut self, items: &mut [T]) {
        for index in (1..items.len()).rev() {
            items.swap(index, self.below(index + 1));
        }
    }
}

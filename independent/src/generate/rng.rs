//! A small seeded generator of numbers (splitmix64).

const STEP: u64 = 0x9e37_79b9_7f4a_7c15;

pub struct Rng {
    state: u64,
}

impl Rng {
    /// The numbers for one case of one seed.
    pub fn new(seed: u64, index: u64) -> Rng {
        let mut of_seed = Rng { state: seed };
        let mut of_case = Rng {
            state: of_seed.next() ^ index,
        };
        Rng {
            state: of_case.next(),
        }
    }

    fn next(&mut self) -> u64 {
        self.state = self.state.wrapping_add(STEP);
        let mut mixed = self.state;
        mixed = (mixed ^ (mixed >> 30)).wrapping_mul(0xbf58_476d_1ce4_e5b9);
        mixed = (mixed ^ (mixed >> 27)).wrapping_mul(0x94d0_49bb_1331_11eb);
        mixed ^ (mixed >> 31)
    }

    /// A number from 0 up to, not with, `end`, which is above 0.
    pub fn below(&mut self, end: u64) -> u64 {
        ((u128::from(self.next()) * u128::from(end)) >> 64) as u64
    }

    /// A number from `least` to `greatest`.
    pub fn between(&mut self, least: u64, greatest: u64) -> u64 {
        least + self.below(greatest - least + 1)
    }

    pub fn word_between(&mut self, least: u32, greatest: u32) -> u32 {
        self.between(u64::from(least), u64::from(greatest)) as u32
    }

    pub fn index(&mut self, length: usize) -> usize {
        self.below(length as u64) as usize
    }

    /// An index that is more often low than high.
    pub fn low_index(&mut self, length: usize) -> usize {
        self.index(length).min(self.index(length))
    }

    pub fn one_in(&mut self, times: u64) -> bool {
        self.below(times) == 0
    }

    pub fn pick<T: Copy>(&mut self, choices: &[T]) -> T {
        choices[self.index(choices.len())]
    }

    /// The numbers from 0 up to, not with, `length`, in any order.
    pub fn shuffled(&mut self, length: usize) -> Vec<usize> {
        let mut order: Vec<usize> = (0..length).collect();
        for end in (1..length).rev() {
            order.swap(end, self.index(end + 1));
        }
        order
    }
}

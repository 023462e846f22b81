//! Random numbers by xorshift; the same seed gives the same ones.

pub(crate) struct Rng(u64);

impl Rng {
    /// The numbers of one list.
    pub(crate) fn of(seed: u64, list: u64) -> Self {
        let mut rng = Self(1);
        for part in [seed, list] {
            rng.0 = (rng.0 ^ part).wrapping_mul(0x9E37_79B9_7F4A_7C15) | 1;
            rng.next();
            rng.next();
        }
        rng
    }

    pub(crate) fn next(&mut self) -> u64 {
        self.0 ^= self.0 << 13;
        self.0 ^= self.0 >> 7;
        self.0 ^= self.0 << 17;
        self.0.wrapping_mul(0x2545_F491_4F6C_DD1D)
    }

    /// A number from 0, below `end`.
    pub(crate) fn below(&mut self, end: u64) -> u64 {
        ((u128::from(self.next()) * u128::from(end)) >> 64) as u64
    }

    /// A number from `least` to `most`.
    pub(crate) fn between(&mut self, least: i64, most: i64) -> i64 {
        let span = most.abs_diff(least);
        let step = match span.checked_add(1) {
            Some(end) => self.below(end),
            None => self.next(),
        };
        least.wrapping_add_unsigned(step)
    }

    /// True once in `times`.
    pub(crate) fn once_in(&mut self, times: u64) -> bool {
        self.below(times) == 0
    }

    pub(crate) fn shuffle<T>(&mut self, items: &mut [T]) {
        for place in 1..items.len() {
            items.swap(place, self.below(place as u64 + 1) as usize);
        }
    }

    pub(crate) fn pick<'a, T>(&mut self, from: &'a [T]) -> &'a T {
        &from[self.below(from.len() as u64) as usize]
    }
}

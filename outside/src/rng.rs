//! A small generator of random numbers, the same on every machine.

/// A xorshift generator whose state is never 0.
#[derive(Clone, Debug)]
pub struct Rng {
    state: u64,
}

/// One step of splitmix, which turns any number into a well mixed one.
fn mix(number: u64) -> u64 {
    let mut z = number.wrapping_add(0x9e37_79b9_7f4a_7c15);
    z = (z ^ (z >> 30)).wrapping_mul(0xbf58_476d_1ce4_e5b9);
    z = (z ^ (z >> 27)).wrapping_mul(0x94d0_49bb_1331_11eb);
    z ^ (z >> 31)
}

impl Rng {
    /// A generator for a seed.
    pub fn new(seed: u64) -> Rng {
        Rng {
            state: mix(seed) | 1,
        }
    }

    /// The generator of one round of a named test, so that each round can be
    /// repeated by itself.
    pub fn for_round(seed: u64, test: &str, round: u64) -> Rng {
        let named = test
            .bytes()
            .fold(mix(seed), |sum, byte| mix(sum ^ byte as u64));
        Rng::new(mix(named ^ mix(round)))
    }

    /// The next 64 bits.
    pub fn bits(&mut self) -> u64 {
        self.state ^= self.state >> 12;
        self.state ^= self.state << 25;
        self.state ^= self.state >> 27;
        self.state.wrapping_mul(0x2545_f491_4f6c_dd1d)
    }

    /// A number from 0 to `limit` - 1.
    pub fn below(&mut self, limit: usize) -> usize {
        ((self.bits() >> 32).wrapping_mul(limit as u64) >> 32) as usize
    }

    /// A number from `low` to `high`, both allowed.
    pub fn range(&mut self, low: usize, high: usize) -> usize {
        low + self.below(high - low + 1)
    }

    /// True once in `times` on average.
    pub fn once_in(&mut self, times: usize) -> bool {
        self.below(times) == 0
    }

    /// Any byte.
    pub fn byte(&mut self) -> u8 {
        (self.bits() >> 40) as u8
    }

    /// One of several values.
    pub fn pick<'a, T>(&mut self, values: &'a [T]) -> &'a T {
        &values[self.below(values.len())]
    }

    /// Puts values into a random order.
    pub fn shuffle<T>(&mut self, values: &mut [T]) {
        for last in (1..values.len()).rev() {
            values.swap(last, self.below(last + 1));
        }
    }
}

//! Random numbers that a seed determines (splitmix64).

use crate::rate::RATES;
use std::f64::consts::TAU;

/// The generator's state.
pub struct Random {
    state: u64,
}

impl Random {
    /// The generator of a seed.
    pub fn new(seed: u64) -> Random {
        Random { state: seed }
    }

    /// Any number of 64 bits.
    pub fn next(&mut self) -> u64 {
        self.state = self.state.wrapping_add(0x9e3779b97f4a7c15);
        let mut z = self.state;
        z = (z ^ (z >> 30)).wrapping_mul(0xbf58476d1ce4e5b9);
        z = (z ^ (z >> 27)).wrapping_mul(0x94d049bb133111eb);
        z ^ (z >> 31)
    }

    /// Any number of 128 bits.
    pub fn wide(&mut self) -> u128 {
        (u128::from(self.next()) << 64) + u128::from(self.next())
    }

    /// A number of just this many bits, 1 to 128.
    pub fn of_length(&mut self, bits: u64) -> u128 {
        self.wide() >> (128 - bits) | 1 << (bits - 1)
    }

    /// A number below the limit, which is above 0.
    pub fn below(&mut self, limit: u64) -> u64 {
        self.next() % limit
    }

    /// A number from the first to the last, both among them.
    pub fn between(&mut self, first: u64, last: u64) -> u64 {
        first + self.below(last - first + 1)
    }

    /// True once in so many times.
    pub fn once_in(&mut self, times: u64) -> bool {
        self.below(times) == 0
    }

    /// One of the things given.
    pub fn pick<T: Copy>(&mut self, things: &[T]) -> T {
        things[self.below(things.len() as u64) as usize]
    }

    /// A named code.
    pub fn named(&mut self) -> u8 {
        self.pick(&RATES).code
    }

    /// A fraction from 0 up to but not including 1, in 53 bits.
    fn fraction(&mut self) -> f64 {
        (self.next() >> 11) as f64 / (1u64 << 53) as f64
    }

    /// A number from the first up to the last, whole or not.
    pub fn fraction_between(&mut self, first: f64, last: f64) -> f64 {
        first + (last - first) * self.fraction()
    }

    /// A number of Gaussian distribution, mean 0 and deviation 1, by Box and Muller.
    ///
    /// It is within 8.6 of 0, since the fraction under the logarithm is at least 2^-53.
    pub fn gaussian(&mut self) -> f64 {
        let radius = (-2.0 * (1.0 - self.fraction()).ln()).sqrt();
        radius * (TAU * self.fraction()).cos()
    }

    /// A sample no larger than this either way.
    pub fn sample(&mut self, most: u64) -> i16 {
        let magnitude = self.between(0, most) as i64;
        let signed = if self.once_in(2) {
            -magnitude
        } else {
            magnitude
        };
        signed.min(32767) as i16
    }

    /// An offset: none, next to none, a few codes, either end of the range, or any.
    pub fn offset(&mut self) -> i16 {
        let few = self.sample(64);
        let any = self.next() as i16;
        self.pick(&[0, 1, -1, few, few, i16::MIN, i16::MAX, any])
    }
}

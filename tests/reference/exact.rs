//! E, the exact meter of demand 3, and demand 3's clauses.

use crate::big::Natural;
use crate::block;
use crate::meter::{MOST_IN_CHUNK, MOST_SAMPLES};
use crate::rate::Rate;

/// E (the customer's scope, "One sample"; the customer's request L2), with sq ("The report") and s
/// over the samples it took.
pub struct Exact {
    pub rate: Rate,
    pub offset: i16,
    pub y: u64,
    /// The numerator of p over 2^(20 y).
    p: Natural,
    /// The numerator of q over 2^(20 (y + 1)).
    q: Natural,
    pub s: i64,
    pub sq: u128,
    /// The whole part of q after each sample, in units: a threshold is whole, so that q is at or
    /// above it just where its whole part is.
    wholes: Vec<u64>,
}

impl Exact {
    /// E before any call (the customer's scope, "One sample"; the customer's request L2).
    pub fn open(rate: &Rate, offset: i16) -> Exact {
        let zero = Natural::from(0);
        Exact {
            rate: *rate,
            offset,
            y: 0,
            p: zero.clone(),
            q: zero,
            s: 0,
            sq: 0,
            wholes: Vec::new(),
        }
    }

    /// A chunk: whether E accepts it (the customer's scope, "One sample").
    pub fn chunk(&mut self, samples: &[i16]) -> bool {
        let refused = samples.len() > MOST_IN_CHUNK || self.above_most(samples.len());
        if !refused {
            self.take(samples);
        }
        !refused
    }

    /// A block: whether E accepts it (the customer's scope, "One sample").
    pub fn block(&mut self, bytes: &[u8]) -> bool {
        let refused = !block::sound(bytes)
            || block::code(bytes) != u32::from(self.rate.code)
            || block::before(bytes) != self.y
            || self.above_most(block::count(bytes));
        if !refused {
            self.take(&block::samples(bytes));
        }
        !refused
    }

    /// Whether y and more samples together are above 2^48 (the customer's scope, "One sample").
    fn above_most(&self, more: usize) -> bool {
        self.y + more as u64 > MOST_SAMPLES
    }

    /// Samples in order (the customer's scope, "One sample").
    fn take(&mut self, samples: &[i16]) {
        for &x in samples {
            self.sample(x);
        }
    }

    /// x - o, which E works on wherever it read x (the customer's request L2).
    fn without_offset(&self, x: i16) -> i64 {
        i64::from(x) - i64::from(self.offset)
    }

    /// One sample (the customer's scope, "One sample").
    ///
    /// The fractions keep their denominators: p goes from 2^(20 (y - 1)) to 2^(20 y), and q
    /// from 2^(20 y), which is the new p's, to 2^(20 (y + 1)).
    fn sample(&mut self, x: i16) {
        let K = self.rate.K;
        let kept = (1 << 20) - K;
        let magnitude = u128::from(self.without_offset(x).unsigned_abs());
        self.s += i64::from(x);
        self.sq += magnitude * magnitude;
        self.y += 1;
        let input = Natural::from(magnitude << 24).times(K);
        self.p = self.p.times(kept).add(&input.shift_left(20 * (self.y - 1)));
        self.q = self.q.times(kept).add(&self.p.times(K));
        let whole = self.q.whole_part(20 * (self.y + 1));
        self.wholes.push(whole.expect("q is less than 2^40"));
    }

    /// E's count u at a threshold c in units, by its hangover v (the customer's scope, "One
    /// sample").
    pub fn count(&self, c: u64) -> u64 {
        let (mut u, mut v) = (0, self.rate.I);
        for &whole in &self.wholes {
            if whole >= c {
                u += 1;
                v = 0;
            } else if v < self.rate.I {
                u += 1;
                v += 1;
            }
        }
        u
    }
    /// Demand 3: no a_j is above E's count at c_j of a list (the customer's request L8).
    pub fn counts_from_above(&self, list: &[u64], a: &[u64]) -> bool {
        let mut pairs = list.iter().zip(a);
        pairs.all(|(&c_j, &a_j)| a_j <= self.count(c_j))
    }

    /// Demand 3: no a_j is below E's count at c_j + D of a list (the customer's request L8).
    pub fn counts_from_below(&self, list: &[u64], a: &[u64]) -> bool {
        let mut pairs = list.iter().zip(a);
        pairs.all(|(&c_j, &a_j)| a_j >= self.count(c_j + self.rate.D()))
    }

    /// The envelope's error: Q is at most q, and less than D below it (the customer's request L9).
    pub fn envelope(&self, Q: u64) -> bool {
        let denominator = 20 * (self.y + 1);
        let units = |number: u128| Natural::from(number).shift_left(denominator);
        let Q = u128::from(Q);
        units(Q) <= self.q && self.q < units(Q + u128::from(self.rate.D()))
    }

    /// Demand 3: sq^4096 < 2^(A+2) e^4096, e counted at the lower threshold (the customer's scope,
    /// "The report").
    pub fn level_from_below(&self, A: i64, c_lower: u64) -> bool {
        let e = Natural::from(u128::from(self.count(c_lower)));
        let sq = Natural::from(self.sq);
        shifted_less(&sq.pow(4096), &e.pow(4096), A + 2)
    }

    /// Demand 3: 2^A e'^4096 < 4 sq^4096, e' counted at the upper threshold raised by D (the
    /// customer's scope, "The report").
    pub fn level_from_above(&self, A: i64, c_upper: u64) -> bool {
        let e = Natural::from(u128::from(self.count(c_upper + self.rate.D())));
        let sq = Natural::from(self.sq);
        shifted_less(&e.pow(4096), &sq.pow(4096).shift_left(2), -A)
    }
}

/// Whether left < 2^exponent right; where the exponent is negative, the power of two stands on the
/// other side (the customer's request L8).
fn shifted_less(left: &Natural, right: &Natural, exponent: i64) -> bool {
    let power = exponent.unsigned_abs();
    if exponent < 0 {
        left.shift_left(power) < *right
    } else {
        *left < right.shift_left(power)
    }
}

/// Demand 3: counts never rise with j.
pub fn counts_never_rise(a: &[u64]) -> bool {
    a.windows(2).all(|pair| pair[1] <= pair[0])
}

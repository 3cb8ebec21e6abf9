//! The meter and its report.

use crate::block;
use crate::level::steps;
use crate::percent;
use crate::rate::{rate, Rate};
use crate::setting::{marked, Setting};
use crate::thresholds::{zero_past, PLACES};
use std::ops::Range;

/// The most samples that a meter counts (the customer's scope, "Why a call is refused").
pub const MOST_SAMPLES: u64 = 1 << 48;

/// The most samples in a chunk (the customer's scope, "One sample").
pub const MOST_IN_CHUNK: usize = 4096;

fields! {
    /// What a meter holds (the customer's scope, "One sample"; the customer's requests L2, L5 and
    /// L8).
    #[derive(Clone, Debug, Default, PartialEq)]
    pub struct Meter {
        setting: Setting,
        n: u64,
        s: i64,
        sq: u128,
        P: u64,
        Q: u64,
        a: [u64; PLACES],
        h: [u64; PLACES],
    }
}

fields! {
    /// What a report holds (the customer's scope, "The report"; the customer's requests L1, L5 and
    /// L8).
    #[derive(Clone, Debug, Default, PartialEq)]
    pub struct Report {
        n: u64,
        s: i64,
        sq: u128,
        a: [u64; PLACES],
        L: i64,
        A: i64,
        C: i64,
        F: i64,
        lower: usize,
        upper: usize,
        T: u64,
        margin: i64,
        mark: bool,
    }
}

impl Meter {
    /// The meter of all zeros (the customer's scope, "Why a call is refused").
    pub fn zero() -> Meter {
        Meter::default()
    }

    /// Opening: the fresh meter, which keeps what was chosen, or a refusal (the customer's scope,
    /// "One sample", "Why a call is refused"; the customer's requests L2, L5 and L8).
    pub fn open(setting: Setting) -> (Meter, u32) {
        let r = setting.refusal();
        let Some(rate) = rate(u32::from(setting.code)).filter(|_| r == 0) else {
            return (Meter::zero(), r);
        };
        let unheard = Meter {
            setting,
            ..Meter::zero()
        };
        let h = unheard.all(rate.I);
        (Meter { h, ..unheard }, 0)
    }

    /// The places of the meter's thresholds (the customer's request L8).
    pub fn places(&self) -> Range<usize> {
        0..self.setting.thresholds.count()
    }

    /// One number for each threshold of the meter, and 0 past the end (the customer's request L8).
    pub fn all(&self, number: u64) -> [u64; PLACES] {
        let mut numbers = [0; PLACES];
        numbers[self.places()].fill(number);
        numbers
    }

    /// A chunk: the meter handed back and 0 or the refusal (the customer's scope, "One sample").
    pub fn chunk(&self, samples: &[i16]) -> (Meter, u32) {
        let r = self.chunk_refusal(samples);
        if r == 0 {
            (self.after(samples), 0)
        } else {
            (self.clone(), r)
        }
    }

    /// A block: the meter handed back and 0 or the refusal (the customer's scope, "Sample blocks").
    pub fn block(&self, bytes: &[u8]) -> (Meter, u32) {
        let r = self.block_refusal(bytes);
        if r == 0 {
            (self.after(&block::samples(bytes)), 0)
        } else {
            (self.clone(), r)
        }
    }

    /// The lowest refusal of a chunk, else 0 (the customer's scope, "Why a call is refused").
    fn chunk_refusal(&self, samples: &[i16]) -> u32 {
        if self.refusal_2() {
            2
        } else if samples.len() > MOST_IN_CHUNK {
            3
        } else if self.refusal_11(samples.len()) {
            11
        } else {
            0
        }
    }

    /// The lowest refusal of a block, else 0 (the customer's scope, "Why a call is refused").
    fn block_refusal(&self, bytes: &[u8]) -> u32 {
        if self.refusal_2() {
            return 2;
        }
        let r = block::refusal(bytes, u32::from(self.setting.code));
        if r != 0 {
            r
        } else if block::before(bytes) != self.n {
            10
        } else if self.refusal_11(block::count(bytes)) {
            11
        } else {
            0
        }
    }

    /// Refusal 2: no measurement could hold this; any offset could be held (the customer's scope,
    /// "Why a call is refused"; the customer's requests L2, L5 and L8).
    pub fn refusal_2(&self) -> bool {
        self.setting.refusal() != 0 || self.past_end() || self.impossible_state()
    }

    /// Of refusal 2, that something other than zero stands past the list's end, among thresholds,
    /// counts or hangovers (the customer's request L8).
    pub fn past_end(&self) -> bool {
        let thresholds = &self.setting.thresholds;
        let ends = |places| zero_past(places, thresholds.count());
        !(thresholds.ends() && ends(&self.a) && ends(&self.h))
    }

    /// Of refusal 2, what is about sums, envelopes, counts and hangovers, neighbours compared only
    /// within the list (the customer's scope, "Why a call is refused"; the customer's requests L2
    /// and L8).
    pub fn impossible_state(&self) -> bool {
        let I = rate(u32::from(self.setting.code)).map_or(0, |rate| rate.I);
        let n = u128::from(self.n);
        let (a, h) = (&self.a[self.places()], &self.h[self.places()]);
        self.n > MOST_SAMPLES
            || u128::from(self.s.unsigned_abs()) > n << 15
            || self.sq > n << 32
            || self.P > 1 << 40
            || self.Q > 1 << 40
            || h.iter().any(|&h| h > I)
            || a.iter().any(|&a| a > self.n)
            || a.windows(2).any(|pair| pair[1] > pair[0])
            || h.windows(2).any(|pair| pair[1] < pair[0])
    }

    /// Refusal 11: too many samples together (the customer's scope, "Why a call is refused").
    fn refusal_11(&self, more: usize) -> bool {
        u128::from(self.n) + more as u128 > u128::from(MOST_SAMPLES)
    }

    /// The meter after samples in order (the customer's scope, "One sample").
    fn after(&self, samples: &[i16]) -> Meter {
        let rate = rate(u32::from(self.setting.code)).expect("refusal 2 is past");
        let mut meter = self.clone();
        for &x in samples {
            meter.sample(rate, x);
        }
        meter
    }

    /// |x - o|, which is up to 65535 (the customer's request L2).
    pub fn size(&self, x: i16) -> u16 {
        x.abs_diff(self.setting.offset)
    }

    /// One sample: s takes it as it is, all else its size, and each threshold of the list counts it
    /// or not (the customer's scope, "One sample"; the customer's requests L2 and L8).
    pub fn sample(&mut self, rate: &Rate, x: i16) {
        let K = u128::from(rate.K);
        let size = u128::from(self.size(x));
        self.n += 1;
        self.s += i64::from(x);
        self.sq += size * size;
        let P = (u128::from(self.P) * ((1 << 20) - K) + (size << 24) * K) >> 20;
        let Q = (u128::from(self.Q) * ((1 << 20) - K) + P * K) >> 20;
        self.P = P as u64;
        self.Q = Q as u64;
        for j in self.places() {
            if self.Q >= self.setting.thresholds.places[j] {
                self.a[j] += 1;
                self.h[j] = 0;
            } else if self.h[j] < rate.I {
                self.a[j] += 1;
                self.h[j] += 1;
            }
        }
    }

    /// L where n and sq are above 0 (the customer's scope, "The report").
    fn L(&self) -> Option<i64> {
        Some(steps(self.sq)? - steps(u128::from(self.n))?)
    }

    /// A_j where j is a place of the list and sq and a_j are above 0 (the customer's scope, "The
    /// report"; the customer's request L8).
    fn A_(&self, j: usize) -> Option<i64> {
        let a_j = *self.a[self.places()].get(j)?;
        Some(steps(self.sq)? - steps(u128::from(a_j))?)
    }

    /// d_j where there is an A_j (the customer's scope, "The report"; the customer's requests L5
    /// and L8).
    pub fn d(&self, j: usize) -> Option<i64> {
        Some(self.A_(j)? - self.setting.thresholds.C_(j)? - self.setting.margin)
    }

    /// Whether a crossing is at j (the customer's scope, "The report").
    pub fn crossing_at(&self, j: usize) -> bool {
        let Some(d_j) = self.d(j) else {
            return false;
        };
        let falls = j >= 1 && d_j < 0 && self.d(j - 1).is_some_and(|before| before > 0);
        d_j == 0 || falls
    }

    /// The places of the crossings, from the lowest on (the customer's scope, "The report").
    pub fn crossings(&self) -> impl Iterator<Item = usize> + '_ {
        self.places().filter(|&j| self.crossing_at(j))
    }

    /// Whether the crossing that is used is at j: one is there, and none is at a higher place (the
    /// customer's request L4).
    pub fn uses_crossing(&self, j: usize) -> bool {
        let mut higher = self.places().skip(j + 1);
        self.crossing_at(j) && !higher.any(|higher| self.crossing_at(higher))
    }

    /// A and the lower and upper j at a crossing (the customer's scope, "The report").
    fn active(&self, j: usize) -> Option<(i64, usize, usize)> {
        let (A_j, d_j) = (self.A_(j)?, self.d(j)?);
        if d_j == 0 {
            return Some((A_j, j, j));
        }
        let (A_before, d_before) = (self.A_(j - 1)?, self.d(j - 1)?);
        let rise = ((A_j - A_before) * d_before).div_euclid(d_before - d_j);
        Some((A_before + rise, j - 1, j))
    }

    /// The report at j, where a crossing is there (the customer's scope, "The report"; the
    /// customer's requests L1, L5 and L8).
    pub fn report_at(&self, j: usize) -> Option<Report> {
        if !self.crossing_at(j) {
            return None;
        }
        let L = self.L()?;
        let (A, lower, upper) = self.active(j)?;
        Some(Report {
            L,
            A,
            C: A - self.setting.margin,
            F: L - A,
            lower,
            upper,
            T: percent::T(L - A),
            mark: marked(self.setting.margin),
            ..self.totals()
        })
    }

    /// What a report has from the meter as it is, and 0 for all else (the customer's scope, "The
    /// report"; the customer's request L5).
    pub fn totals(&self) -> Report {
        Report {
            n: self.n,
            s: self.s,
            sq: self.sq,
            a: self.a,
            margin: self.setting.margin,
            ..Report::default()
        }
    }

    /// The report, or its lowest refusal (the customer's scope, "The report", "Why a call is
    /// refused"; the customer's request L4).
    pub fn report(&self) -> Result<Report, u32> {
        if self.refusal_2() {
            return Err(2);
        }
        if self.n == 0 {
            return Err(12);
        }
        if self.sq == 0 {
            return Err(13);
        }
        let Some(d_0) = self.d(0) else {
            return Err(14);
        };
        let crossing = self.places().find(|&j| self.uses_crossing(j));
        match crossing.and_then(|j| self.report_at(j)) {
            Some(report) => Ok(report),
            None if d_0 < 0 => Err(15),
            None => Err(16),
        }
    }
}

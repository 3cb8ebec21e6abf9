//! Method B of P.56 (clauses 8.2 and 8.3) in floating point, without the scope's rounding.
//!
//! Of the scope it takes only the places of the built-in thresholds, at powers of two of the
//! quantizing interval, where no others are given, and of the customer's request L4 that of several
//! crossings the highest is used; the Recommendation leaves both open.

use crate::measurement::Levels;
use crate::rate::Rate;
use crate::thresholds::BUILT_IN_LENGTH;

/// The time constant of smoothing, in seconds (P.56, Table 2).
const T: f64 = 0.03;

/// The margin in decibels (P.56, Table 2), where no smaller one is chosen.
pub const M: f64 = 15.9;

/// The counts at one threshold (P.56, clause 8.2, process 2).
struct Counts {
    threshold: f64,
    activity: u64,
    hangover: u64,
}

impl Counts {
    /// Takes one value of the envelope (P.56, clause 8.2, process 2).
    fn take(&mut self, q: f64, I: u64) {
        if q >= self.threshold {
            self.activity += 1;
            self.hangover = 0;
        } else if self.hangover < I {
            self.activity += 1;
            self.hangover += 1;
        }
    }

    /// The active-level estimate, and how far more than the margin it is above the threshold.
    ///
    /// Both are infinite where the threshold was never reached.
    fn estimate(&self, sq: f64, margin: f64) -> (f64, f64) {
        let A_j = 10.0 * (sq / self.activity as f64).log10();
        let C_j = 20.0 * self.threshold.log10();
        (A_j, A_j - C_j - margin)
    }
}

/// The counts at thresholds, in quantizing intervals, after all samples (P.56, clause 8.2, process
/// 2).
fn counts(rate: &Rate, samples: &[i16], thresholds: &[f64]) -> Vec<Counts> {
    let g = (-1.0 / (rate.samples_per_second as f64 * T)).exp();
    let I = rate.I_by_rule();
    let none = |&threshold: &f64| Counts {
        threshold,
        activity: 0,
        hangover: I,
    };
    let mut counts: Vec<Counts> = thresholds.iter().map(none).collect();
    let (mut p, mut q) = (0.0, 0.0);
    for &x in samples {
        p = g * p + (1.0 - g) * f64::from(x).abs();
        q = g * q + (1.0 - g) * p;
        for count in &mut counts {
            count.take(q, I);
        }
    }
    counts
}

/// The active levels, from the lowest on: each point that is the margin above its threshold, on a
/// straight line in decibels between two neighbouring thresholds and their estimates (P.56, clause
/// 8.2).
fn active_levels(sq: f64, counts: &[Counts], margin: f64) -> Vec<f64> {
    let estimate = |count: &Counts| count.estimate(sq, margin);
    let estimates: Vec<(f64, f64)> = counts.iter().map(estimate).collect();
    let pairs = estimates.windows(2);
    let crossings = pairs.filter(|pair| pair[0].1 >= 0.0 && pair[1].1 < 0.0);
    let between = |pair: &[(f64, f64)]| {
        let ((lower, d_lower), (upper, d_upper)) = (pair[0], pair[1]);
        lower + (upper - lower) * d_lower / (d_lower - d_upper)
    };
    crossings.map(between).collect()
}

/// The sum of squares (P.56, clause 8.2, process 1).
pub fn squares(samples: &[i16]) -> f64 {
    samples.iter().map(|&x| f64::from(x) * f64::from(x)).sum()
}

/// The long-term level (P.56, clause 8.2).
pub fn long_term_level(samples: &[i16]) -> f64 {
    10.0 * (squares(samples) / samples.len() as f64).log10()
}

/// The levels of all samples at each crossing between thresholds, from the lowest on, with a margin
/// in decibels; none where no threshold has it (P.56, clause 8.2).
fn crossings_at(rate: &Rate, samples: &[i16], thresholds: &[f64], margin: f64) -> Vec<Levels> {
    let long_term = long_term_level(samples);
    let levels = |active: f64| Levels {
        long_term,
        active,
        factor: long_term - active,
        percent: 100.0 * 10f64.powf((long_term - active) / 10.0),
    };
    let counts = counts(rate, samples, thresholds);
    let active = active_levels(squares(samples), &counts, margin);
    active.into_iter().map(levels).collect()
}

/// The same at the powers of two, as many as the built-in list has.
pub fn crossings(rate: &Rate, samples: &[i16], margin: f64) -> Vec<Levels> {
    let powers = (0..BUILT_IN_LENGTH).map(|j| f64::from(1 << j));
    let thresholds: Vec<f64> = powers.collect();
    crossings_at(rate, samples, &thresholds, margin)
}

/// The levels of all samples at the crossing that is used, the highest (the customer's request L4);
/// None where there is none.
pub fn measure(rate: &Rate, samples: &[i16], margin: f64) -> Option<Levels> {
    crossings(rate, samples, margin).pop()
}

/// The same between thresholds of one's own (the customer's request L8).
pub fn measure_at(rate: &Rate, samples: &[i16], thresholds: &[f64], margin: f64) -> Option<Levels> {
    crossings_at(rate, samples, thresholds, margin).pop()
}

//! Speech measured by a replay program and by floating-point method B, side by side.

pub mod finer;
pub mod hum;
mod line;
pub mod vehicle;
mod voice;

use crate::float;
use crate::measurement::{self, Levels, STEP};
use crate::rate::Rate;
use crate::setting::Setting;
use crate::tally::Tally;
pub use voice::voice;

/// How far apart the long-term levels may be, in decibels.
///
/// Both meters have the same n and sq, and each lev is less than two steps below the logarithm.
const LONG_TERM_BOUND: f64 = 2.0 * STEP;

/// How far apart the active levels, and so the activity factors, may be, in decibels.
///
/// Both interpolate on a straight line in decibels between the same thresholds, so that the
/// interpolation itself adds nothing. What does: an estimate A_j is off by less than two steps, as
/// above; M by less than half a step, 21635 steps for 15.9 dB; the floor by less than one. Where
/// the count falls by no more than a third from one threshold to the next, as that of speech does
/// near the margin, the line is no steeper than a third and the crossing moves by at most half as
/// much again as the line: together less than 4.3 steps, 0.0032 dB. The factor is no further off,
/// since an error of lev(sq) is in both its levels. The rest of the bound is for counts that
/// differ by a sample here and there, as K is within 0.03 % of the exponential. Over speech of
/// several voices at all rates, and over rare speech with hum under it, the difference stayed below
/// 0.002 dB; over 24 voices and 16 lines with hum at each of codes 4 and 5, below 0.0011 dB.
///
/// One thing could go beyond: an envelope whose peak reaches a threshold in one meter and just
/// misses it in the other, which is a whole hangover of difference. The more is spoken, the less
/// that weighs.
const ACTIVE_BOUND: f64 = 0.005;

/// How far apart the percentages may be, in percent.
///
/// By the facts about lev, T hundredths are less than the factor two steps above F, and T + 1 are
/// more than the one a step below it: 0.034 too much at most, or 0.017 and a hundredth too little.
/// The factors themselves may be ACTIVE_BOUND apart, which is at most 0.116.
const PERCENT_BOUND: f64 = 0.15;

/// The script of one measurement of the samples.
pub fn script(rate: &Rate, samples: &[i16]) -> Vec<u8> {
    let mut out = Vec::new();
    measurement::write(Setting::usual(rate.code), samples, &mut out);
    out
}

/// Checks what a replay program printed for the script of the samples.
pub fn check(rate: &Rate, samples: &[i16], printed: &str) -> Tally {
    let mut tally = Tally::new();
    let mut lines = printed.lines();
    let setting = Setting::usual(rate.code);
    let measurement = measurement::read(&mut lines, setting, samples.len());
    tally.equal("lines left over", lines.count(), 0);
    let measured = measurement.and_then(|measurement| measurement.levels().ok());
    tally.holds("levels printed", measured.is_some());
    let expected = float::measure(rate, samples, float::M);
    tally.holds("levels in floating point", expected.is_some());
    if let (Some(measured), Some(expected)) = (measured, expected) {
        compare(&mut tally, &measured, &expected);
    }
    tally
}

/// Levels in words.
fn told(rate: &Rate, name: &str, levels: &Levels) -> String {
    format!(
        "code {}, {name}: {:.2} dB, active {:.2} % of the time",
        rate.code, levels.active, levels.percent
    )
}

/// Compares the levels printed with those in floating point, with a line for each.
fn compare(tally: &mut Tally, measured: &Levels, expected: &Levels) {
    let rows = [
        (
            "active level",
            "dB",
            measured.active,
            expected.active,
            ACTIVE_BOUND,
        ),
        (
            "long-term level",
            "dB",
            measured.long_term,
            expected.long_term,
            LONG_TERM_BOUND,
        ),
        (
            "activity factor",
            "dB",
            measured.factor,
            expected.factor,
            ACTIVE_BOUND,
        ),
        (
            "activity factor",
            "%",
            measured.percent,
            expected.percent,
            PERCENT_BOUND,
        ),
    ];
    for (name, unit, measured, expected, bound) in rows {
        let difference = measured - expected;
        let line = format!(
            "{name} {measured:.4} {unit} for {expected:.4} {unit} \
             (off by {difference:.4}, bound {bound:.4})"
        );
        tally.shown(&line, difference.abs() <= bound);
    }
}

//! Quiet speech over the noise of an idle line, measured with the built-in thresholds and with ones
//! that are closer where its own threshold lies (the customer's request L8): what a replay program
//! measured with either.

use super::line::Line;
use super::told;
use super::voice::Voice;
use crate::float;
use crate::measurement::{self, Levels};
use crate::rate::Rate;
use crate::setting::Setting;
use crate::tally::Tally;
use crate::thresholds::{Thresholds, PLACES};

/// How long the line is measured, in seconds.
const SECONDS: f64 = 30.0;

/// The least and the most seconds from one phrase to the next.
const PAUSE: (f64, f64) = (0.2, 1.5);

/// The root mean square of the noise, in quantizing intervals.
///
/// It holds the envelope at 0.8 of that, 4 intervals, where a built-in threshold is: at that one
/// most of the time is active, and at the next, 8 intervals, little but the speech.
const NOISE: f64 = 5.0;

/// The energy of the speech, relative to that of the noise.
///
/// While it lasts the speech is then some 17 dB above the noise, at 31 dB above one interval, and
/// its threshold, which is to be 15.9 dB below it, some 6 intervals: above the noise, and between
/// those two. The line between them that method B draws runs from all of the time to the speech
/// alone, and the level in between is too low. With a threshold on either side of the noise it is
/// not.
const ENERGY: f64 = 35.0;

/// How many thresholds to a doubling stand for a crossing that is searched for without any: 0.012
/// dB from one to the next.
const CLOSE: u32 = 512;

/// How far from the level at the crossing so searched for that with the finer list may be, in
/// decibels. Over a hundred seeds at code 1, 24 at code 2 and 16 at code 3 it was at most 0.031,
/// 0.008 and 0.004, and 0.005, 0.002 and 0.001 on the average; over 24 each at codes 4 and 5 at most
/// 0.007 and 0.039, and 0.002 and 0.004 on the average.
const NEAR: f64 = 0.1;

/// How far from it the level with the built-in list is at least. Over those seeds it was 0.55 to
/// 1.15, 0.69 to 0.94 and 0.60 to 1.11 too low, and 0.85, 0.82 and 0.83 on the average; at codes 4
/// and 5 it was 0.68 to 1.03 and, but for one seed of 0.39, 0.53 to 0.94, and 0.83 and 0.76 on the
/// average.
const FAR: f64 = 0.5;

/// An operator's list: the built-in thresholds, and three more in each doubling from 4 intervals to
/// 32, 1.5 dB apart, where the threshold of quiet speech lies.
pub const FINER: [u64; PLACES] = [
    1 << 24,
    1 << 25,
    1 << 26,
    79806338,
    94906265,
    112863206,
    1 << 27,
    159612677,
    189812531,
    225726412,
    1 << 28,
    319225354,
    379625062,
    451452825,
    1 << 29,
    1 << 30,
    1 << 31,
    1 << 32,
    1 << 33,
    1 << 34,
    1 << 35,
    1 << 36,
    1 << 37,
    1 << 38,
];

/// The samples of a seed's line.
fn samples(rate: &Rate, seed: u64) -> Vec<i16> {
    let mut voice = Voice::new(rate, seed);
    voice.phrases(SECONDS, 1.0, PAUSE.0, PAUSE.1);
    Line::in_noise(&voice, seed, NOISE, ENERGY).samples()
}

/// What is opened with: the built-in list, and the finer one.
fn settings(rate: &Rate) -> [(&'static str, Setting); 2] {
    let usual = Setting::usual(rate.code);
    let finer = Setting {
        thresholds: Thresholds::of(&FINER),
        ..usual
    };
    [("built-in list", usual), ("finer list", finer)]
}

/// The script of a seed's line, measured with either list.
pub fn script(rate: &Rate, seed: u64) -> Vec<u8> {
    let samples = samples(rate, seed);
    let mut out = Vec::new();
    for (_, setting) in settings(rate) {
        measurement::write(setting, &samples, &mut out);
    }
    out
}

/// The levels at a crossing that is searched for closely, from 4 intervals to 32.
fn searched(rate: &Rate, samples: &[i16]) -> Option<Levels> {
    let threshold = |k: u32| 4.0 * (f64::from(k) / f64::from(CLOSE)).exp2();
    let thresholds: Vec<f64> = (0..=3 * CLOSE).map(threshold).collect();
    float::measure_at(rate, samples, &thresholds, float::M)
}

/// Checks what a replay program printed for the script, and shows the levels at a crossing that is
/// searched for closely and with either list.
pub fn check(rate: &Rate, seed: u64, printed: &str) -> Tally {
    let mut tally = Tally::new();
    let (samples, mut lines) = (samples(rate, seed), printed.lines());
    let searched = searched(rate, &samples);
    let measured = settings(rate).map(|(name, setting)| {
        let measurement = measurement::read(&mut lines, setting, samples.len());
        let levels = measurement.and_then(|measurement| measurement.levels().ok());
        levels.map(|levels| (name, levels))
    });
    tally.equal("lines left over", lines.count(), 0);
    let (Some(searched), [Some(built_in), Some(finer)]) = (searched, measured) else {
        tally.holds("levels", false);
        return tally;
    };
    println!("{}", told(rate, "searched closely", &searched));
    let too_low = |levels: &Levels| searched.active - levels.active;
    let (name, levels) = built_in;
    tally.shown(&told(rate, name, &levels), too_low(&levels) >= FAR);
    let (name, levels) = finer;
    tally.shown(&told(rate, name, &levels), too_low(&levels).abs() <= NEAR);
    tally
}

//! The signals of clause 11, of a given root mean square in quantizing intervals.

use super::length;
use crate::generate::random::Random;
use crate::rate::Rate;
use std::f64::consts::{SQRT_2, TAU};

/// The frequency of the tone, in hertz.
const TONE: f64 = 1000.0;

/// How long a pulse of noise lasts, and each pause after it, in seconds.
const PULSE: u64 = 3;

/// The seed of the noise; the attenuator's two settings have the same noise.
const SEED: u64 = 56;

/// A value as a sample.
fn sample(value: f64) -> i16 {
    value.round() as i16
}

/// No signal.
pub fn silence(rate: &Rate, _rms: f64) -> Vec<i16> {
    vec![0; length(rate)]
}

/// A sine of 1000 Hz.
///
/// At 694 samples a second, the Recommendation's own rate, that is above half the rate, and clause
/// 8.1 means it so. The samples are then those of a tone of 306 Hz, which is below half the rate
/// and has the same level.
pub fn tone(rate: &Rate, rms: f64) -> Vec<i16> {
    let phase = TAU * TONE / rate.samples_per_second as f64;
    (0..length(rate))
        .map(|i| sample(SQRT_2 * rms * (phase * i as f64).sin()))
        .collect()
}

/// Gaussian noise, each sample independent of the others.
///
/// No sample is beyond 8.6 times the root mean square, so at 0 dBV none clips.
pub fn white_noise(rate: &Rate, rms: f64) -> Vec<i16> {
    let mut random = Random::new(SEED);
    (0..length(rate))
        .map(|_| sample(rms * random.gaussian()))
        .collect()
}

/// White noise that is on for 3 s and off for 3 s, by turns, twice.
///
/// It begins with a pulse. A measurement that ended with one would miss the last hangover, and its
/// activity factor would be near 52 %, which the Recommendation's figure does not allow.
pub fn pulsed_noise(rate: &Rate, rms: f64) -> Vec<i16> {
    let mut samples = white_noise(rate, rms);
    let pulse = (PULSE * rate.samples_per_second) as usize;
    for pause in samples.chunks_mut(pulse).skip(1).step_by(2) {
        pause.fill(0);
    }
    samples
}

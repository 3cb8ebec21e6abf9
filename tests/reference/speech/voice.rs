//! Speech-like samples, for where no recording is at hand.

use crate::generate::random::Random;
use crate::rate::Rate;
use std::f64::consts::{PI, TAU};

/// How long a voice speaks, pauses among it, in seconds.
const SECONDS: f64 = 30.0;

/// The root mean square of the faint noise under the voice, in quantizing intervals.
const NOISE: f64 = 2.0;

/// A voice under way: its chances, its rate and what was spoken so far.
pub struct Voice {
    random: Random,
    samples_per_second: f64,
    pub spoken: Vec<f64>,
}

/// The voice of a seed: phrases with pauses, over faint noise.
///
/// Voices differ by up to four doublings of voltage, so that crossings lie anywhere between two
/// thresholds. What is too loud for 16 bits clips.
pub fn voice(rate: &Rate, seed: u64) -> Vec<i16> {
    let mut voice = Voice::new(rate, seed);
    let loudness = 500.0 * voice.random.fraction_between(0.0, 4.0).exp2();
    voice.phrases(SECONDS, loudness, 0.2, 1.5);
    let Voice {
        mut random, spoken, ..
    } = voice;
    spoken
        .iter()
        .map(|x| (x + NOISE * random.gaussian()).round() as i16)
        .collect()
}

impl Voice {
    /// The voice of a seed before it speaks.
    pub fn new(rate: &Rate, seed: u64) -> Voice {
        Voice {
            random: Random::new(seed),
            samples_per_second: rate.samples_per_second as f64,
            spoken: Vec::new(),
        }
    }

    /// Phrases for so many seconds in all, with a pause of least to most seconds after each.
    pub fn phrases(&mut self, seconds: f64, loudness: f64, least: f64, most: f64) {
        let length = self.samples_in(seconds);
        while self.spoken.len() < length {
            self.phrase(loudness);
            self.pause(least, most);
        }
        self.spoken.truncate(length);
    }

    /// How many samples so many seconds have.
    fn samples_in(&self, seconds: f64) -> usize {
        (seconds * self.samples_per_second) as usize
    }

    /// A pause, of least to most seconds.
    fn pause(&mut self, least: f64, most: f64) {
        let seconds = self.random.fraction_between(least, most);
        let length = self.spoken.len() + self.samples_in(seconds);
        self.spoken.resize(length, 0.0);
    }

    /// Two to eight syllables, some decibels apart in loudness, three in four of them voiced.
    fn phrase(&mut self, loudness: f64) {
        let pitch = self.random.fraction_between(90.0, 220.0);
        for _ in 0..self.random.between(2, 8) {
            let peak = loudness * 10f64.powf(self.random.gaussian() / 5.0);
            if self.random.once_in(4) {
                self.syllable(0.3 * peak, |random, _| random.gaussian());
            } else {
                self.syllable(peak, |_, seconds| harmonics(TAU * pitch * seconds));
            }
            self.pause(0.0, 0.06);
        }
    }

    /// A syllable of 0.1 to 0.3 s that swells and fades, over a source told the time in seconds.
    fn syllable(&mut self, peak: f64, source: impl Fn(&mut Random, f64) -> f64) {
        let seconds = self.random.fraction_between(0.1, 0.3);
        for i in 0..self.samples_in(seconds) {
            let time = i as f64 / self.samples_per_second;
            let swell = (PI * time / seconds).sin().powi(2);
            let value = peak * swell * source(&mut self.random, time);
            self.spoken.push(value);
        }
    }
}

/// The first ten harmonics at a phase, each weaker than the one before.
fn harmonics(phase: f64) -> f64 {
    (1..=10).map(f64::from).map(|k| (k * phase).sin() / k).sum()
}

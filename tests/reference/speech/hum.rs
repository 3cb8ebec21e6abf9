//! Steady hum and rare loud speech on one line (the customer's request L4), and what a replay
//! program measured there.

use super::line::Line;
use super::told;
use super::voice::Voice;
use crate::float;
use crate::measurement::{self, Levels};
use crate::rate::Rate;
use crate::setting::Setting;
use crate::tally::Tally;
use std::f64::consts::TAU;

/// How long the line is measured, in seconds.
const SECONDS: f64 = 300.0;

/// The frequency of the mains, in hertz.
const MAINS: f64 = 50.0;

/// The peak of the hum, in quantizing intervals.
///
/// It holds the envelope at 2/pi of that, 90.4 intervals, half-way in decibels between the
/// thresholds of j = 6 and j = 7: those up to 6 are active all the time, those above while there is
/// speech.
const HUM: f64 = 142.0;

/// The least and the most seconds from one phrase to the next: four phrases or five in all, which
/// are active for about one to three seconds of each hundred.
const PAUSE: (f64, f64) = (65.0, 95.0);

/// The energy of the speech, relative to that of the hum.
///
/// Over all the time the line is then 10 log(1 + 6), 8.5 dB, above the hum, which is 48.5 dB. The
/// threshold of j = 5, 30.1 dB, is more than the margin below that, and the one of j = 6, 36.1 dB,
/// is less: the hum has a crossing between them. The speech has its own further up.
const ENERGY: f64 = 6.0;

/// How far from the speech alone the level reported may be, in decibels.
///
/// By P.56, clause 9, readings within 1 dB of those of method B make a method equivalent to it.
/// Most of that is for the energy of the hum, which is in the sum of squares: it lifts every level
/// by 10 log(1 + 1/6), 0.67 dB. The rest is for hum that lifts the envelope of the speech over a
/// threshold, or holds it under one. Over a hundred seeds the two came to 0.54 to 0.73 dB, and over
/// 16 each at codes 4 and 5 to 0.55 to 0.69 and 0.61 to 0.72.
const NEAR: f64 = 1.0;

/// How far from the speech alone the level at the lowest crossing is at least, in decibels.
///
/// There all the time is active. Of the speech at most five phrases are, none of them for longer
/// than 3.3 s: eight syllables of 0.3 s and pauses of 0.06 s, the envelope's fall, the hangover.
/// That is 12.6 dB too low a level, of which the energy of the hum makes up 0.67 dB. Over those
/// seeds at codes 4 and 5 it was 15.3 dB or more.
const FAR: f64 = 10.0;

/// The line of a seed.
pub fn line(rate: &Rate, seed: u64) -> Line {
    let mut voice = Voice::new(rate, seed);
    voice.phrases(SECONDS, 1.0, PAUSE.0, PAUSE.1);
    let phase = TAU * MAINS / rate.samples_per_second as f64;
    let hum = |i: usize| (HUM * (phase * i as f64).sin()).round() as i16;
    let hum = (0..voice.spoken.len()).map(hum).collect();
    Line::new(&voice, hum, ENERGY)
}

/// Checks what a replay program printed for the script of a seed's samples, and shows the levels of
/// the hum alone, of the speech alone, at the lowest crossing and as reported.
pub fn heard(rate: &Rate, seed: u64, printed: &str) -> Tally {
    let mut tally = Tally::new();
    let line = line(rate, seed);
    let samples = line.samples();
    let setting = Setting::usual(rate.code);
    let measurement = measurement::read(&mut printed.lines(), setting, samples.len());
    let reported = measurement.and_then(|measurement| measurement.levels().ok());
    tally.holds("levels printed", reported.is_some());
    let crossings = float::crossings(rate, &samples, float::M);
    tally.holds("two crossings or more", crossings.len() >= 2);
    let alone = float::measure(rate, &line.speech, float::M);
    tally.holds("levels of the speech alone", alone.is_some());
    let hum = float::long_term_level(&line.rest);
    println!("code {}, hum alone: {hum:.2} dB", rate.code);
    if let (Some(reported), Some(lowest), Some(alone)) = (reported, crossings.first(), alone) {
        let told = |name: &str, levels: &Levels| told(rate, name, levels);
        println!("{}", told("speech alone", &alone));
        let off = |levels: &Levels| (levels.active - alone.active).abs();
        let first = format!("lowest of {} crossings", crossings.len());
        tally.shown(&told(&first, lowest), off(lowest) >= FAR);
        tally.shown(&told("reported", &reported), off(&reported) <= NEAR);
    }
    tally
}

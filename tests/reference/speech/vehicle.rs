//! Rare speech in the steady noise of a vehicle (the customer's request L5), and what a replay
//! program measured there at the usual margin and at a smaller one.

use super::line::Line;
use super::voice::Voice;
use super::{told, ACTIVE_BOUND};
use crate::float;
use crate::measurement::{self, Levels, STEP};
use crate::rate::Rate;
use crate::setting::Setting;
use crate::tally::Tally;

/// How long the line is measured, in seconds.
const SECONDS: f64 = 120.0;

/// The least and the most seconds from one phrase to the next, which are active for about one second
/// of each seven.
const PAUSE: (f64, f64) = (4.0, 10.0);

/// The root mean square of the noise, in quantizing intervals.
const NOISE: f64 = 100.0;

/// The energy of the speech, relative to that of the noise.
///
/// While it lasts the speech is then some 14 dB above the noise, which is less than the usual
/// margin: what is that far below the speech is below the noise as well, and all the time is active.
const ENERGY: f64 = 4.0;

/// The usual margin, with which a report has no mark.
const USUAL: (i64, bool) = (21635, false);

/// The smaller margin in steps, 10 dB, which leaves the threshold above the noise, and with which a
/// report has the mark.
const SMALLER: (i64, bool) = (13606, true);

/// How far from the speech alone the level at the smaller margin may be, in decibels.
///
/// The energy of the noise, which is in the sum of squares, lifts it by 10 log(1 + 1/4), 0.97 dB.
/// The rest is for the higher threshold, at which less of the speech is active. Over a hundred seeds
/// at code 1 the two came to 1.18 to 1.84 dB, but for one seed with a syllable so loud that it has a
/// crossing of its own; over 24 each at codes 4 and 5 to 1.20 to 1.76 and 1.28 to 1.83.
const NEAR: f64 = 2.0;

/// How far from the speech alone the level at the usual margin is at least, in decibels: it is that
/// of all the time, of which the speech takes about a seventh. Over those seeds it was 5.95 to 8.18,
/// 6.14 to 7.81 and 6.20 to 7.85.
const FAR: f64 = 5.0;

/// The line of a seed.
fn line(rate: &Rate, seed: u64) -> Line {
    let mut voice = Voice::new(rate, seed);
    voice.phrases(SECONDS, 1.0, PAUSE.0, PAUSE.1);
    Line::in_noise(&voice, seed, NOISE, ENERGY)
}

/// What is opened with for a margin.
fn setting(rate: &Rate, margin: i64) -> Setting {
    Setting {
        margin,
        ..Setting::usual(rate.code)
    }
}

/// The script of a seed's line, measured at the usual margin and at the smaller one.
pub fn script(rate: &Rate, seed: u64) -> Vec<u8> {
    let samples = line(rate, seed).samples();
    let mut out = Vec::new();
    for (margin, _) in [USUAL, SMALLER] {
        measurement::write(setting(rate, margin), &samples, &mut out);
    }
    out
}

/// The levels that a replay program printed for a margin, where they are those in floating point;
/// checks the margin and the mark of the report.
///
/// The reason of the bound holds here as well: M is the same number of steps in floating point, and
/// the count falls by no more than a third from the lower threshold to the upper. Over a hundred
/// seeds at code 1, 24 at each of codes 2, 4 and 5 and 16 at code 3 it fell by less than 0.04 % at
/// the usual margin and less than 30 % at the smaller one, and the difference stayed below 0.0008 dB
/// and 0.0015 dB.
fn measured<'a>(
    tally: &mut Tally,
    lines: &mut impl Iterator<Item = &'a str>,
    rate: &Rate,
    samples: &[i16],
    (margin, mark): (i64, bool),
) -> Option<Levels> {
    let measurement = measurement::read(lines, setting(rate, margin), samples.len())?;
    let measured = measurement.levels().ok()?;
    let report = measurement.report.ok()?;
    let told = (report.margin, report.mark);
    tally.equal("margin and mark", told, (margin, mark));
    let expected = float::measure(rate, samples, STEP * margin as f64)?;
    let agree = (measured.active - expected.active).abs() <= ACTIVE_BOUND;
    agree.then_some(measured)
}

/// Checks what a replay program printed for the script, and shows the levels of the speech alone and
/// at either margin.
pub fn check(rate: &Rate, seed: u64, printed: &str) -> Tally {
    let mut tally = Tally::new();
    let line = line(rate, seed);
    let (samples, mut lines) = (line.samples(), printed.lines());
    let usual = measured(&mut tally, &mut lines, rate, &samples, USUAL);
    let smaller = measured(&mut tally, &mut lines, rate, &samples, SMALLER);
    let alone = float::measure(rate, &line.speech, float::M);
    tally.equal("lines left over", lines.count(), 0);
    let (Some(usual), Some(smaller), Some(alone)) = (usual, smaller, alone) else {
        tally.holds("levels, and as in floating point", false);
        return tally;
    };
    println!("{}", told(rate, "speech alone", &alone));
    let off = |levels: &Levels| (levels.active - alone.active).abs();
    let name = format!("margin {}", USUAL.0);
    tally.shown(&told(rate, &name, &usual), off(&usual) >= FAR);
    let name = format!("margin {}", SMALLER.0);
    tally.shown(&told(rate, &name, &smaller), off(&smaller) <= NEAR);
    tally
}

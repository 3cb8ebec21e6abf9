//! The routine calibration of P.56, clause 11, as a script to play and a check of what was printed.
//!
//! The Recommendation's levels are in dBV. Here one volt is 3276.8 quantizing intervals, so that
//! 10 V, the converter's maximum in clause 10.3.1, is the end of the 16-bit range. The sources are
//! at 0 dBV, and the attenuator of 0 or 20 dB lowers them. No source then clips, and behind 20 dB
//! the threshold of the active level is still more than five doublings above one interval.
//!
//! Clause 11.3.2 is not here: it is about the filter, and this meter has none.

mod reading;
mod signals;

use crate::measurement::{self, Levels, Measurement};
use crate::rate::{Rate, RATES};
use crate::setting::Setting;
use crate::tally::Tally;
use reading::{Figure, Reading};
use signals::{pulsed_noise, silence, tone, white_noise};

/// Quantizing intervals in a volt.
const VOLT: f64 = 3276.8;

/// How long each signal lasts, in seconds; the Recommendation allows 0.2 s of tolerance.
const SECONDS: u64 = 12;

/// An activity factor of all the time, less at most half a percent.
const ALWAYS: Figure = Figure {
    value: 100.0,
    below: 0.5,
    above: 0.0,
};

/// What is to be displayed: the activity factor in percent, the levels in dBV behind 0 dB.
struct Figures {
    activity_factor: Figure,
    active: Figure,
    long_term: Figure,
}

/// One test of clause 11.
struct Test {
    name: &'static str,
    /// The samples at a rate, of this root mean square while the signal is on.
    signal: fn(&Rate, f64) -> Vec<i16>,
    /// The settings of the attenuator, in decibels.
    attenuators: &'static [f64],
    /// None where there is no signal, and so no level.
    figures: Option<Figures>,
}

/// The tests, with the Recommendation's figures and tolerances.
const TESTS: [Test; 4] = [
    Test {
        name: "11.1 no input",
        signal: silence,
        attenuators: &[0.0],
        figures: None,
    },
    Test {
        name: "11.2 continuous tone",
        signal: tone,
        attenuators: &[0.0, 20.0],
        figures: Some(Figures {
            activity_factor: ALWAYS,
            active: Figure::about(0.0, 0.1),
            long_term: Figure::about(0.0, 0.1),
        }),
    },
    Test {
        name: "11.3.1 white noise",
        signal: white_noise,
        attenuators: &[0.0, 20.0],
        figures: Some(Figures {
            activity_factor: ALWAYS,
            active: Figure::about(0.0, 0.5),
            long_term: Figure::about(0.0, 0.5),
        }),
    },
    Test {
        name: "11.3.3 pulsed noise",
        signal: pulsed_noise,
        attenuators: &[0.0, 20.0],
        figures: Some(Figures {
            activity_factor: Figure::about(55.0, 1.5),
            active: Figure::about(0.0, 1.0),
            long_term: Figure::about(-2.7, 1.0),
        }),
    },
];

/// One test at one rate and one setting of the attenuator.
struct Case {
    test: &'static Test,
    rate: &'static Rate,
    attenuator: f64,
}

/// Every case, in the order of the script.
fn cases() -> Vec<Case> {
    let mut cases = Vec::new();
    for rate in &RATES {
        for test in &TESTS {
            cases.extend(test.attenuators.iter().map(|&attenuator| Case {
                test,
                rate,
                attenuator,
            }));
        }
    }
    cases
}

/// How many samples a signal of clause 11 has at a rate.
fn length(rate: &Rate) -> usize {
    (SECONDS * rate.samples_per_second) as usize
}

impl Case {
    /// The case in words.
    fn name(&self) -> String {
        format!(
            "{}, {} samples/s, attenuator {} dB",
            self.test.name, self.rate.samples_per_second, self.attenuator
        )
    }

    /// What the meter is opened with: the margin of the Recommendation, and no offset.
    fn setting(&self) -> Setting {
        Setting::usual(self.rate.code)
    }

    /// The samples to measure.
    fn samples(&self) -> Vec<i16> {
        let rms = VOLT / 10f64.powf(self.attenuator / 20.0);
        (self.test.signal)(self.rate, rms)
    }

    /// A level relative to one interval, as a reading in dBV.
    fn level(&self, name: &'static str, level: f64, figure: Figure) -> Reading {
        Reading {
            name,
            unit: "dBV",
            measured: level - 20.0 * VOLT.log10(),
            figure: figure.behind(self.attenuator),
        }
    }

    /// The three readings of a report that gives levels.
    fn readings(&self, levels: &Levels, figures: &Figures) -> [Reading; 3] {
        let factor = Reading {
            name: "activity factor",
            unit: "%",
            measured: levels.percent,
            figure: figures.activity_factor,
        };
        let active = self.level("active level", levels.active, figures.active);
        let long_term = self.level("long-term level", levels.long_term, figures.long_term);
        [factor, active, long_term]
    }

    /// What was measured beside what is expected, and whether it is within the tolerances.
    fn result(&self, measurement: &Measurement) -> (String, bool) {
        match (&self.test.figures, measurement.levels()) {
            (None, Err(r)) => no_level(r, measurement),
            (None, Ok(_)) => ("levels for refusal 13".to_string(), false),
            (Some(_), Err(r)) => (format!("refusal {r} for levels"), false),
            (Some(figures), Ok(levels)) => {
                let readings = self.readings(&levels, figures);
                let texts: Vec<String> = readings.iter().map(Reading::text).collect();
                (texts.join(", "), readings.iter().all(Reading::within))
            }
        }
    }
}

/// The result of no input.
///
/// The Recommendation has an activity factor of 0 to 0.5 % and both levels below -60 dBV, for a
/// meter with some noise of its own. A meter of samples has none: its sum of squares is 0, which
/// has no level, and the scope's refusal 13 stands for both levels. That nothing is counted at
/// any threshold stands for the factor.
fn no_level(r: u32, measurement: &Measurement) -> (String, bool) {
    let sq = measurement.meter.sq;
    let most = measurement.meter.a.iter().copied().fold(0, u64::max);
    let text =
        format!("refusal {r} for 13, sum of squares {sq} for 0, activity counts to {most} for 0");
    (text, (r, sq, most) == (13, 0, 0))
}

/// The script: for each case an opening, the signal, a report and a show.
pub fn script() -> Vec<u8> {
    let mut out = Vec::new();
    for case in cases() {
        measurement::write(case.setting(), &case.samples(), &mut out);
    }
    out
}

/// Checks what a replay program printed for the script, with a line for each case.
pub fn check(printed: &str) -> Tally {
    let mut tally = Tally::new();
    let mut lines = printed.lines();
    for case in cases() {
        let measurement = measurement::read(&mut lines, case.setting(), length(case.rate));
        let (text, within) = match measurement {
            Some(measurement) => case.result(&measurement),
            None => ("not the lines of a whole measurement".to_string(), false),
        };
        tally.shown(&format!("{}: {text}", case.name()), within);
    }
    tally.equal("lines left over", lines.count(), 0);
    tally
}

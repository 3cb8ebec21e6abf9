//! One whole measurement: an opening, its samples in chunks or in blocks, a report and a show.

use crate::meter::{Meter, Report, MOST_IN_CHUNK};
use crate::printed;
use crate::rate::Rate;
use crate::records::{block_calls, Record};
use crate::setting::Setting;

/// A step in decibels: 1/4096 of a doubling of power (the customer's scope, "The level logarithm").
pub const STEP: f64 = 10.0 * std::f64::consts::LOG10_2 / 4096.0;

/// What a measurement tells, in decibels; the levels are relative to one quantizing interval.
pub struct Levels {
    pub long_term: f64,
    pub active: f64,
    /// Ten times the logarithm of the activity factor.
    pub factor: f64,
    /// The activity factor in percent.
    pub percent: f64,
}

/// A measurement as a replay program printed it.
pub struct Measurement {
    /// The report, or the number of its refusal.
    pub report: Result<Report, u32>,
    pub meter: Meter,
}

impl Measurement {
    /// The levels, or the number of the report's refusal.
    pub fn levels(&self) -> Result<Levels, u32> {
        self.report.as_ref().map(levels).map_err(|&r| r)
    }
}

/// Whether a report's n, s, sq, counts and margin are those of a meter; a refused one has none.
fn totals_of(answer: &Result<Report, u32>, meter: &Meter) -> bool {
    let totals = |r: &Report| (r.n, r.s, r.sq, r.a, r.margin);
    let own = totals(&meter.totals());
    answer.as_ref().map_or(true, |report| totals(report) == own)
}

/// The levels of a report; its T is in hundredths of a percent (the customer's request L1).
fn levels(report: &Report) -> Levels {
    Levels {
        long_term: STEP * report.L as f64,
        active: STEP * report.A as f64,
        factor: STEP * report.F as f64,
        percent: report.T as f64 / 100.0,
    }
}

/// Writes the records of a measurement by these calls.
fn write_calls(setting: Setting, calls: impl Iterator<Item = Record>, out: &mut Vec<u8>) {
    Record::open(setting).write(out);
    for call in calls {
        call.write(out);
    }
    Record::Report.write(out);
    Record::Show.write(out);
}

/// Writes the records of a measurement of samples in chunks.
pub fn write(setting: Setting, samples: &[i16], out: &mut Vec<u8>) {
    let chunks = samples.chunks(MOST_IN_CHUNK);
    let calls = chunks.map(|chunk| Record::Chunk(chunk.to_vec()));
    write_calls(setting, calls, out);
}

/// The script of one measurement of a recording of blocks.
pub fn recorded(rate: &Rate, recording: &[u8]) -> Vec<u8> {
    let mut out = Vec::new();
    write_calls(Setting::usual(rate.code), block_calls(recording), &mut out);
    out
}

/// Reads the next lines as those of a measurement of so many samples.
///
/// None where one is missing, where the opening or a chunk was refused, where the meter shown did
/// not take those samples at that setting, or where the report's totals are not that meter's.
pub fn read<'a>(
    lines: &mut impl Iterator<Item = &'a str>,
    setting: Setting,
    length: usize,
) -> Option<Measurement> {
    if lines.next()? != "open 0" {
        return None;
    }
    for _ in 0..length.div_ceil(MOST_IN_CHUNK) {
        if lines.next()? != "chunk 0" {
            return None;
        }
    }
    let report = printed::report(lines.next()?)?;
    let meter = printed::meter(lines.next()?)?;
    let opened = meter.setting == setting;
    let whole = opened && meter.n == length as u64 && totals_of(&report, &meter);
    whole.then_some(Measurement { report, meter })
}

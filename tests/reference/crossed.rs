//! Where the samples of a script take the envelope: over the thresholds of the meter's own list,
//! onto them, just under them.

use crate::meter::Meter;
use crate::rate::rate;
use crate::replay::taken;
use std::collections::BTreeSet;

/// Lines for what the samples that were taken did at the thresholds, sorted, each of them once; None
/// where the script has a bad record.
pub fn crossed(script: &[u8]) -> Option<String> {
    let mut lines = BTreeSet::new();
    for (meter, samples) in taken(script)? {
        follow(meter, &samples, &mut lines);
    }
    Some(lines.into_iter().collect())
}

/// Follows the envelope over the samples of an accepted call, from the meter before it on.
fn follow(mut meter: Meter, samples: &[i16], lines: &mut BTreeSet<String>) {
    let rate = rate(u32::from(meter.setting.code)).expect("refusal 2 is past");
    for &x in samples {
        let before = meter.Q;
        meter.sample(rate, x);
        let list = meter.setting.thresholds.entries();
        lines.extend(crossings(list, before, meter.Q));
        lines.extend(places(list, meter.Q));
    }
}

/// A line for each place of a list whose threshold is of some kind.
fn told(list: &[u64], word: &str, of_kind: impl Fn(u64) -> bool) -> Vec<String> {
    let places = list.iter().enumerate();
    let found = places.filter(|(_, &c_j)| of_kind(c_j));
    found.map(|(j, _)| format!("{word} {j}\n")).collect()
}

/// The thresholds between an envelope before a sample and the one after it, and whether it leapt up
/// over two of them or more.
fn crossings(list: &[u64], before: u64, after: u64) -> Vec<String> {
    let mut lines = told(list, "up", |c_j| before < c_j && after >= c_j);
    if lines.len() >= 2 {
        lines.push("leap\n".to_string());
    }
    lines.extend(told(list, "down", |c_j| before >= c_j && after < c_j));
    lines
}

/// The threshold that an envelope is at or just under, and whether it is twice the highest or more.
fn places(list: &[u64], Q: u64) -> Vec<String> {
    let mut lines = told(list, "at", |c_j| Q == c_j);
    lines.extend(told(list, "under", |c_j| Q + 1 == c_j));
    if list.last().is_some_and(|highest| Q >= 2 * highest) {
        lines.push("past\n".to_string());
    }
    lines
}

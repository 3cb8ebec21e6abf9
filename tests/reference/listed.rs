//! With which lists of thresholds the meters of a script were opened and handed in, and gave levels
//! (the customer's request L8).

use crate::meter::Meter;
use crate::rate::rate;
use crate::records::Record;
use crate::replay::played;
use crate::setting::{in_range, Opening};
use crate::thresholds::{breaks_rise, wrong_end, wrong_length, zero_past, Thresholds, PLACES};
use std::collections::BTreeSet;

/// Lines for the openings, the meters handed in and the levels reported, sorted, each of them once;
/// None where the script has a bad record.
pub fn listed(script: &[u8]) -> Option<String> {
    let played = played(script)?.into_iter();
    let lines = played.flat_map(|(record, meter)| lines(&record, &meter));
    Some(lines.collect::<BTreeSet<String>>().into_iter().collect())
}

/// What is told of a record and of the meter after it.
fn lines(record: &Record, after: &Meter) -> Vec<String> {
    match record {
        Record::Open(opening) => opened(opening),
        Record::Load(meter) => handed_in(meter),
        Record::Report => level(after),
        _ => Vec::new(),
    }
}

/// Each of 1, 17, 19, 20 and 21 that applies to an opening, by itself.
fn faults(opening: &Opening) -> Vec<u32> {
    let entries = opening.thresholds.as_deref();
    let entries = entries.unwrap_or(Thresholds::BUILT_IN.entries());
    let rows = [
        (1, rate(u32::from(opening.code)).is_none()),
        (17, !in_range(opening.margin)),
        (19, wrong_length(entries.len() as u64)),
        (20, breaks_rise(entries)),
        (21, wrong_end(entries)),
    ];
    let found = rows.into_iter().filter(|(_, applies)| *applies);
    found.map(|(r, _)| r).collect()
}

/// Of an opening the answer, and all the numbers that apply; and, where the list alone is in doubt,
/// what is at a bound in it: the built-in one asked for, its length, its ends, its least step and
/// its greatest.
fn opened(opening: &Opening) -> Vec<String> {
    let faults = faults(opening);
    let r = opening.setting().refusal();
    let all: Vec<String> = faults.iter().map(u32::to_string).collect();
    let mut lines = vec![format!("open {r} of {}\n", all.join(" "))];
    if r == 1 || r == 17 {
        return lines;
    }
    let Some(list) = &opening.thresholds else {
        lines.push(format!("open built-in {r}\n"));
        return lines;
    };
    lines.push(format!("open length {} {r}\n", list.len()));
    if !wrong_length(list.len() as u64) && faults.len() <= 1 {
        lines.push(format!("open first {} {r}\n", list[0]));
        lines.push(format!("open last {} {r}\n", list[list.len() - 1]));
        let steps = list.windows(2).filter_map(|pair| step(pair[0], pair[1]));
        lines.extend(steps.map(|step| format!("open {step} {r}\n")));
    }
    lines
}

/// The step from one threshold to the next, where it is at a bound or just past it, or beyond what
/// the double of a word of 64 bits holds.
fn step(before: u64, after: u64) -> Option<&'static str> {
    let twice = 2 * u128::from(before);
    match u128::from(after) {
        after if after == u128::from(before) => Some("step of none"),
        after if after == u128::from(before) + 1 && before >= 1 << 63 => Some("step past 2^63"),
        after if after == u128::from(before) + 1 => Some("step of one"),
        after if after == twice => Some("step of twice"),
        after if after == twice + 1 => Some("step of twice and one"),
        _ => None,
    }
}

/// Of a meter handed in its list's length and 0, or 2 where that is for the list, or for what
/// stands past its end, alone.
fn handed_in(meter: &Meter) -> Vec<String> {
    let setting = &meter.setting;
    let named = rate(u32::from(setting.code)).is_some();
    if !named || !in_range(setting.margin) || meter.impossible_state() {
        return Vec::new();
    }
    let (length, r) = (setting.thresholds.length, setting.thresholds.refusal());
    if r == 0 && meter.past_end() {
        return past_end(meter);
    }
    let refused = if r == 0 { 0 } else { 2 };
    let mut lines = vec![format!("load length {length} {refused}\n")];
    if r != 0 {
        lines.push(format!("load list {r} 2\n"));
    }
    lines
}

/// What stands past the end of a meter's list, where it is of one kind: whether it is right past
/// the end, and whether it is in the last place.
fn past_end(meter: &Meter) -> Vec<String> {
    let thresholds = &meter.setting.thresholds;
    let kinds = [
        ("threshold", &thresholds.places),
        ("count", &meter.a),
        ("hangover", &meter.h),
    ];
    let count = thresholds.count();
    let past = kinds.iter().filter(|(_, at)| !zero_past(at, count));
    let [(name, at)] = past.collect::<Vec<_>>()[..] else {
        return Vec::new();
    };
    let places = [("next", at[count]), ("last", at[PLACES - 1])];
    let found = places.iter().filter(|(_, number)| *number != 0);
    found
        .map(|(place, _)| format!("load past {name} {place} 2\n"))
        .collect()
}

/// Of a level its list's length, its sign, and the level itself where it is just below 0 or at it;
/// and whether two thresholds of the list have one level.
fn level(meter: &Meter) -> Vec<String> {
    let Ok(report) = meter.report() else {
        return Vec::new();
    };
    let thresholds = &meter.setting.thresholds;
    let mut lines = vec![format!("level length {}\n", thresholds.length)];
    if report.A < 0 {
        lines.push("level below 0\n".to_string());
    }
    if (-3..=0).contains(&report.A) {
        lines.push(format!("level of {}\n", report.A));
    }
    let levels: Vec<Option<i64>> = meter.places().map(|j| thresholds.C_(j)).collect();
    if levels.windows(2).any(|pair| pair[0] == pair[1]) {
        lines.push("level with equal C_j\n".to_string());
    }
    lines
}

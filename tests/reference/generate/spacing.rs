//! Lists of thresholds to open with: ones that load, at the edges and inside, and ones that do not
//! (the customer's request L8).

use super::random::Random;
use crate::thresholds::{breaks_rise, wrong_end, Thresholds, FIRST, LAST, LENGTHS, PLACES};

/// Firsts and lasts to accept: at the bounds of their ranges and next to them.
const FIRSTS: [u64; 4] = [1 << 22, (1 << 22) + 1, (1 << 24) - 1, 1 << 24];
const LASTS: [u64; 4] = [1 << 37, (1 << 37) + 1, (1 << 39) - 1, 1 << 39];

/// Firsts and lasts to refuse: just past the bounds.
const WRONG_FIRSTS: [u64; 2] = [(1 << 22) - 1, (1 << 24) + 1];
const WRONG_LASTS: [u64; 2] = [(1 << 37) - 1, (1 << 39) + 1];

/// Lengths to refuse: none, next to the bounds, and such that the low byte alone is within them.
const WRONG_LENGTHS: [usize; 9] = [0, 1, 13, 13, 25, 25, 26, 48, 256 + 15];

/// The most thresholds that an opening's record can have. They take half a megabyte, and are
/// seldom.
const LONGEST: usize = 65534;

/// The shortest list there is: from 2^24 to 2^37 with thirteen doublings.
fn shortest() -> Vec<u64> {
    (24..=37).map(|k| 1 << k).collect()
}

/// How the next threshold is drawn from those that leave a way to the last.
#[derive(Clone, Copy)]
enum Step {
    /// The least: one unit, until only doubling is left.
    Least,
    /// The most: twice, until only single units are left.
    Most,
    /// Any number, any ratio, or an end.
    Any,
    /// About as far as the others.
    Even,
}

/// A threshold from low to high, after which so many follow up to the last.
fn drawn(random: &mut Random, step: Step, low: u64, high: u64, even: u64) -> u64 {
    let any = random.between(low, high);
    let bits = (high / low).max(1).ilog2();
    let ratio = low << random.below(u64::from(bits) + 1);
    match step {
        Step::Least => low,
        Step::Most => high,
        Step::Even => even.clamp(low, high),
        Step::Any => random.pick(&[low, high, any, any, ratio]),
    }
}

/// A list that rises as it must, of so many thresholds, from a first to a last; None where doubling
/// does not get there.
fn between(random: &mut Random, length: usize, first: u64, last: u64) -> Option<Vec<u64>> {
    let steps = length as u32 - 1;
    if u128::from(first) << steps < u128::from(last) {
        return None;
    }
    let step = random.pick(&[Step::Least, Step::Most, Step::Any, Step::Any, Step::Even]);
    let ratio = (last as f64 / first as f64).powf(1.0 / f64::from(steps));
    let mut entries = vec![first];
    for left in (0..steps).rev() {
        let before = entries[entries.len() - 1];
        let low = (before + 1).max(last.div_ceil(1 << left));
        let high = (2 * before).min(last - u64::from(left));
        let even = (before as f64 * ratio) as u64;
        entries.push(drawn(random, step, low, high, even));
    }
    Some(entries)
}

/// A list that rises as it must, its length in the range and its ends from these.
fn with_ends(random: &mut Random, firsts: &[u64], lasts: &[u64]) -> Vec<u64> {
    let (first, last) = (random.pick(firsts), random.pick(lasts));
    let any = random.between(*LENGTHS.start(), *LENGTHS.end()) as usize;
    let length = random.pick(&[15, 16, PLACES - 1, PLACES, any, any, any]);
    let lengths = length..;
    let mut lists = lengths.filter_map(|length| between(random, length, first, last));
    lists.next().expect("some length reaches the last")
}

/// Thresholds of a list that loads: the shortest there is, or one from any first to any last, often
/// at the bounds of their ranges.
pub fn loading(random: &mut Random) -> Vec<u64> {
    if random.once_in(8) {
        return shortest();
    }
    let any_first = random.between(*FIRST.start(), *FIRST.end());
    let any_last = random.between(*LAST.start(), *LAST.end());
    let firsts = [&FIRSTS[..], &[any_first; 3]].concat();
    let lasts = [&LASTS[..], &[any_last; 3]].concat();
    with_ends(random, &firsts, &lasts)
}

/// A list that loads: the built-in one, or any.
pub fn thresholds(random: &mut Random) -> Thresholds {
    if random.once_in(4) {
        Thresholds::BUILT_IN
    } else {
        Thresholds::of(&loading(random))
    }
}

/// A list that loads and has at least so many thresholds.
pub fn longer(random: &mut Random, least: u64) -> Thresholds {
    loop {
        let list = thresholds(random);
        if list.length >= least {
            return list;
        }
    }
}

/// A list that loads and has just so many thresholds.
pub fn of_length(random: &mut Random, length: usize) -> Thresholds {
    loop {
        let (first, last) = (random.pick(&FIRSTS), random.pick(&LASTS));
        if let Some(entries) = between(random, length, first, last) {
            return Thresholds::of(&entries);
        }
    }
}

/// A list that loads and begins at 2^22, where levels are lowest.
pub fn lowest(random: &mut Random) -> Thresholds {
    let last = random.pick(&LASTS);
    Thresholds::of(&with_ends(random, &[1 << 22], &[last]))
}

/// Lists that load, one for each first, each last and each length at a bound.
pub fn edges(random: &mut Random) -> Vec<Vec<u64>> {
    let mut lists = vec![shortest()];
    for first in FIRSTS {
        for last in LASTS {
            lists.push(with_ends(random, &[first], &[last]));
        }
    }
    for length in [15, 18, PLACES] {
        let list = between(random, length, 1 << 24, 1 << 37);
        lists.push(list.expect("fourteen are enough"));
    }
    lists
}

/// Thresholds of a wrong length: by doubling from 2^24 on, one unit apart, none above 0, one value
/// throughout, or any. 21 applies to most of them as well, and 20 to many.
pub fn of_wrong_length(random: &mut Random) -> Vec<u64> {
    let few = random.pick(&WRONG_LENGTHS);
    let length = if random.once_in(60) { LONGEST } else { few };
    let any = random.next();
    let kind = random.below(5);
    let entry = |j: usize| match kind {
        0 => 1 << (24 + j % 40),
        1 => (1 << 24) + j as u64,
        2 => 0,
        3 => any,
        _ => any.wrapping_mul(j as u64 + 1),
    };
    (0..length).map(entry).collect()
}

/// Too many thresholds, which rise as they must and have their ends in range.
fn too_many(random: &mut Random) -> Vec<u64> {
    let length = PLACES + random.between(1, 6) as usize;
    let (first, last) = (random.pick(&FIRSTS), random.pick(&LASTS));
    between(random, length, first, last).expect("more than a meter has are enough")
}

/// A list that loads but for one threshold, which is the one before, or less, or more than twice
/// it, by a little or by much.
pub fn of_wrong_rise(random: &mut Random) -> Vec<u64> {
    let mut entries = loading(random);
    let j = random.between(1, entries.len() as u64 - 1) as usize;
    let before = entries[j - 1];
    entries[j] = match random.below(6) {
        0 => before,
        1 => before - 1,
        2 => 2 * before + 1,
        3 => 0,
        4 => before + (1 << 63),
        _ => u64::MAX,
    };
    entries
}

/// A list that rises as it must, with an end or both just or far out of range; some of its
/// thresholds are 2^63 or more, so that twice one of them is no word.
pub fn of_wrong_end(random: &mut Random) -> Vec<u64> {
    match random.below(6) {
        0 => with_ends(random, &WRONG_FIRSTS, &LASTS),
        1 => with_ends(random, &FIRSTS, &WRONG_LASTS),
        2 => with_ends(random, &WRONG_FIRSTS, &WRONG_LASTS),
        3 => (0..15).map(|j| 1 << (15 + j)).collect(),
        4 => {
            let length = random.between(*LENGTHS.start(), *LENGTHS.end());
            let rest = (0..length - 2).map(|j| (1 << 63) + 1 + j);
            [1 << 62, 1 << 63].into_iter().chain(rest).collect()
        }
        _ => (0..14).map(|j| u64::MAX - 13 + j).collect(),
    }
}

/// Thresholds that do not load: for their number, their rise or an end.
pub fn refused(random: &mut Random) -> Vec<u64> {
    match random.below(4) {
        0 => of_wrong_length(random),
        1 => too_many(random),
        2 => of_wrong_rise(random),
        _ => of_wrong_end(random),
    }
}

/// Thresholds to which just these of 19, 20 and 21 apply, each by itself.
pub fn with_faults(random: &mut Random, length: bool, rise: bool, end: bool) -> Vec<u64> {
    loop {
        let entries = match (length, rise, end) {
            (false, false, false) => loading(random),
            (true, false, false) => too_many(random),
            (true, true, false) => [too_many(random), too_many(random)].concat(),
            (true, _, true) => of_wrong_length(random),
            (false, true, _) => of_wrong_rise(random),
            (false, false, true) => of_wrong_end(random),
        };
        if (breaks_rise(&entries), wrong_end(&entries)) == (rise, end) {
            return entries;
        }
    }
}

//! The thresholds of a meter: a list of the customer's choosing, or the built-in one (the
//! customer's request L8).

use crate::fields::Value;
use crate::level::steps;
use std::ops::RangeInclusive;

/// How many places a meter has for thresholds, and so for counts and hangovers (the customer's
/// request L8).
pub const PLACES: usize = 24;

/// How many thresholds a list may have (the customer's request L8).
pub const LENGTHS: RangeInclusive<u64> = 14..=PLACES as u64;

/// How many the built-in list has (the customer's scope, "One sample").
pub const BUILT_IN_LENGTH: usize = 15;

/// Where the first threshold may be and where the last, in units (the customer's request L8).
pub const FIRST: RangeInclusive<u64> = 1 << 22..=1 << 24;
pub const LAST: RangeInclusive<u64> = 1 << 37..=1 << 39;

fields! {
    /// A list: its length, and a threshold in units at each place, 0 past its end (the customer's
    /// request L8). In a meter that is handed in the length is any number, and so is what stands
    /// past the end. A text has the thresholds alone.
    #[derive(Clone, Copy, Debug, Default, PartialEq)]
    pub struct Thresholds {
        length: u64,
        places: [u64; PLACES],
    }
    of listed
}

/// The list of these numbers.
fn listed(numbers: &[i128]) -> Option<Thresholds> {
    Some(Thresholds::of(&Vec::of(numbers)?))
}

impl Thresholds {
    /// The built-in list, doubled out: c_j is 2^(j + 24) for j from 0 to 14 (the customer's scope,
    /// "One sample").
    pub const BUILT_IN: Thresholds = {
        let mut places = [0; PLACES];
        let mut j = 0;
        while j < BUILT_IN_LENGTH {
            places[j] = if j == 0 { 1 << 24 } else { 2 * places[j - 1] };
            j += 1;
        }
        Thresholds {
            length: BUILT_IN_LENGTH as u64,
            places,
        }
    };

    /// The list of these thresholds. Those that have no place are left out; the length tells of
    /// them.
    pub fn of(entries: &[u64]) -> Thresholds {
        Thresholds {
            length: entries.len() as u64,
            places: placed(entries),
        }
    }

    /// How many places the list takes.
    pub fn count(&self) -> usize {
        self.length.min(PLACES as u64) as usize
    }

    /// The thresholds within the list.
    pub fn entries(&self) -> &[u64] {
        &self.places[..self.count()]
    }

    /// Whether nothing but zero stands past the list's end (the customer's request L8).
    pub fn ends(&self) -> bool {
        zero_past(&self.places, self.count())
    }

    /// The lowest refusal of the list at opening, else 0 (the customer's request L8).
    pub fn refusal(&self) -> u32 {
        if wrong_length(self.length) {
            19
        } else if breaks_rise(self.entries()) {
            20
        } else if wrong_end(self.entries()) {
            21
        } else {
            0
        }
    }

    /// C_j, where c_j is above 0: twice lev(c_j), less 196608 (the customer's request L8).
    pub fn C_(&self, j: usize) -> Option<i64> {
        let c_j = *self.entries().get(j)?;
        Some(2 * steps(u128::from(c_j))? - 196608)
    }
}

/// Numbers from the first place on, as many as there are places, and 0 in the others.
pub fn placed(numbers: &[u64]) -> [u64; PLACES] {
    let mut places = [0; PLACES];
    for (place, number) in places.iter_mut().zip(numbers) {
        *place = *number;
    }
    places
}

/// Whether every place from some number of them on is 0.
pub fn zero_past(places: &[u64; PLACES], count: usize) -> bool {
    places[count..].iter().all(|&number| number == 0)
}

/// 19: whether a list has too few thresholds or too many, whatever they are (the customer's request
/// L8).
pub fn wrong_length(length: u64) -> bool {
    !LENGTHS.contains(&length)
}

/// 20: whether some threshold is not above the one before, or is more than twice that (the
/// customer's request L8).
pub fn breaks_rise(entries: &[u64]) -> bool {
    let twice = |threshold: u64| 2 * u128::from(threshold);
    let breaks = |pair: &[u64]| pair[1] <= pair[0] || u128::from(pair[1]) > twice(pair[0]);
    entries.windows(2).any(breaks)
}

/// 21: whether the first threshold or the last is out of its range (the customer's request L8).
pub fn wrong_end(entries: &[u64]) -> bool {
    let within = |threshold: Option<&u64>, range: RangeInclusive<u64>| {
        threshold.is_some_and(|threshold| range.contains(threshold))
    };
    !within(entries.first(), FIRST) || !within(entries.last(), LAST)
}

/// By doubling, so many thresholds from a first on.
pub fn doubled(count: usize, first: u64) -> Vec<u64> {
    (0..count).map(|j| first << j).collect()
}

/// A list with one threshold changed.
pub fn changed(mut list: Vec<u64>, j: usize, threshold: u64) -> Vec<u64> {
    list[j] = threshold;
    list
}

//! Meters to hand in whose envelope the next samples bring onto a threshold, or just under it.

use super::meters::{plausible, MOST_ENVELOPE};
use super::random::Random;
use super::signals::{around, noise_within};
use super::spacing::longer;
use crate::meter::Meter;
use crate::rate::rate;
use crate::thresholds::PLACES;

/// Where to bring the envelope: to a place of a meter's list, so many units under it.
#[derive(Clone, Copy)]
pub struct Target {
    place: usize,
    under: u64,
}

impl Target {
    /// The threshold of each place that a list can have, and the last value under it.
    pub fn all() -> impl Iterator<Item = Target> {
        let both = |place| [0, 1].map(|under| Target { place, under });
        (0..PLACES).flat_map(both)
    }
}

/// A meter that refusal 2 lets pass, and one to four samples, the last of which brings Q to a target
/// exactly, from below or from above.
pub fn approach(random: &mut Random, code: u8, target: Target) -> (Meter, Vec<i16>) {
    let list = longer(random, target.place as u64 + 1);
    let target = list.places[target.place] - target.under;
    let length = random.between(1, 4);
    let most = most_input(random, code, target, length);
    let meter = plausible(random, code).at_thresholds(list);
    let meter = Meter {
        P: random.between(0, most),
        a: meter.all(meter.n / 2),
        h: meter.all(1),
        ..meter
    };
    let sizes = noise_within(random, (most >> 24).min(32768), length as usize);
    let samples = around(meter.setting.offset, &sizes);
    let Q = least_before(&meter, &samples, target);
    (Meter { Q, ..meter }, samples)
}

/// How large P and the samples may be, in units, so that Q falls to the target, or so that it can
/// rise to it and, from 0, not past it: a sample adds to Q at most P K / 2^20, with no P above this.
fn most_input(random: &mut Random, code: u8, target: u64, length: u64) -> u64 {
    let K = rate(u32::from(code)).expect("a named code").K;
    let rise = (target << 20) / (length * K);
    random.pick(&[target, rise]).min(MOST_ENVELOPE)
}

/// The least Q from which samples lead to a target or past it, which is to the target: Q is not past
/// it from 0, and one more before the samples is at most one more after them.
fn least_before(meter: &Meter, samples: &[i16], target: u64) -> u64 {
    let after = |Q| Meter { Q, ..meter.clone() }.chunk(samples).0.Q;
    let (mut low, mut high) = (0, MOST_ENVELOPE);
    while low < high {
        let middle = (low + high) / 2;
        if after(middle) < target {
            low = middle + 1;
        } else {
            high = middle;
        }
    }
    low
}

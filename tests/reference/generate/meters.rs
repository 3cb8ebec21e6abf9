//! Meters to hand in: plausible ones, and ones made for a report.

use super::random::Random;
use super::settings::{near_crossing, setting};
use super::spacing::lowest;
use crate::level::steps;
use crate::meter::Meter;
use crate::rate::rate;
use crate::thresholds::{placed, PLACES};

/// The bound of P and Q.
pub const MOST_ENVELOPE: u64 = 1 << 40;

/// The bound of sq at n samples.
pub fn most_squares(n: u64) -> u128 {
    u128::from(n) << 32
}

/// So many counts that never rise, from one no larger than n, and none past them.
pub fn falling(random: &mut Random, n: u64, count: usize) -> [u64; PLACES] {
    let any = random.between(0, n);
    let mut next = random.pick(&[n, n, any]);
    let mut a = [0; PLACES];
    for a_j in &mut a[..count] {
        *a_j = next;
        next = match random.below(4) {
            0 => next,
            1 => next / random.pick(&[2, 3, 4, 8, 64, 4096]),
            2 => random.between(0, next),
            _ => next - next.min(random.below(10)),
        };
    }
    a
}

/// So many hangovers that never fall, none above I, and none past them.
fn rising(random: &mut Random, I: u64, count: usize) -> [u64; PLACES] {
    let mut h: Vec<u64> = (0..count).map(|_| random.between(0, I)).collect();
    h.sort();
    placed(&h)
}

/// A meter that refusal 2 lets pass, with 1 to 2^48 - 1 samples.
pub fn plausible(random: &mut Random, code: u8) -> Meter {
    let bits = random.between(1, 48);
    let n = random.of_length(bits) as u64;
    of_samples(random, code, n)
}

/// A meter of n samples, fewer than 2^48, that refusal 2 lets pass.
pub fn of_samples(random: &mut Random, code: u8, n: u64) -> Meter {
    let rate = rate(u32::from(code)).expect("a named code");
    let s = random.between(0, n << 15) as i64;
    let bits = random.between(1, 80);
    let setting = setting(random, code);
    let count = setting.thresholds.count();
    Meter {
        setting,
        n,
        s: random.pick(&[s, -s]),
        sq: random.of_length(bits).min(most_squares(n)),
        P: random.between(0, MOST_ENVELOPE),
        Q: random.between(0, MOST_ENVELOPE),
        a: falling(random, n, count),
        h: rising(random, rate.I, count),
    }
}

/// C_j of a meter that refusal 2 lets pass, at a place of its list.
fn C_(meter: &Meter, j: usize) -> i64 {
    let level = meter.setting.thresholds.C_(j);
    level.expect("a threshold above 0")
}

/// Any place of a meter's list.
fn any_place(random: &mut Random, meter: &Meter) -> usize {
    random.below(meter.places().len() as u64) as usize
}

/// A meter whose d_j is 0 or next to it for some j.
pub fn tuned(random: &mut Random, code: u8) -> Meter {
    let meter = plausible(random, code);
    let j = any_place(random, &meter);
    let bits = random.between(1, 30);
    let a_j = random.of_length(bits) as u64;
    let level =
        steps(u128::from(a_j)).expect("a_j is above 0") + C_(&meter, j) + meter.setting.margin;
    let sq = least_of_level(level - 1 + random.below(3) as i64);
    let n = a_j.max((sq >> 32) as u64 + 1) + random.below(1000);
    let mut a = meter.all(a_j / random.pick(&[1, 2, 16, 1 << 31]));
    a[..=j].fill(a_j);
    Meter {
        n,
        s: 0,
        sq,
        a,
        ..meter
    }
}

/// A meter of this F, 0 or below, at a crossing anywhere up to the last threshold but one.
///
/// A_j is the same for every j, so that F is lev(a_j) - lev(n). Down to -60000 there is always such
/// an a_j, since n has at least 30 bits; where F is too low for n, a_j is 1.
pub fn of_factor(random: &mut Random, code: u8, F: i64) -> Meter {
    let meter = plausible(random, code);
    let bits = random.between(30, 48);
    let n = random.of_length(bits);
    let a_j = least_of_level(steps(n).expect("n is above 0") + F);
    let (first, last) = (C_(&meter, 0), C_(&meter, meter.places().len() - 2));
    let above = first + random.below((last - first) as u64 + 1) as i64 + meter.setting.margin;
    let sq = least_of_level(steps(a_j).expect("a_j is above 0") + above);
    Meter {
        n: n as u64,
        s: 0,
        sq,
        a: meter.all(a_j as u64),
        ..meter
    }
}

/// A meter whose A_j is this level at every j, from -16383 up, at a list that begins at 2^22, and
/// at a margin at which some d_j is 0 or a step from it.
pub fn of_level(random: &mut Random, code: u8, level: i64) -> Meter {
    let (meter, list) = (plausible(random, code), lowest(random));
    let bits = random.between(20, 40);
    let a_j = random.of_length(bits);
    let meter = Meter {
        n: a_j as u64 + random.below(1 << 40),
        s: 0,
        sq: least_of_level(steps(a_j).expect("a_j is above 0") + level),
        h: [0; PLACES],
        ..meter.at_thresholds(list)
    };
    let a = meter.all(a_j as u64);
    let meter = Meter { a, ..meter };
    meter.at_margin(near_crossing(random, &meter))
}

/// A meter whose d_j waver around 0, so that it has many crossings, up to one at every j; in some
/// the highest thresholds were never reached.
///
/// Each d_j is drawn from -4096 to 4096; it is lower only where a_j cannot be small enough, and
/// higher only where a_j would rise. a_0 is at most n, since with a d_0 of 0 its lev would be 4096
/// or more below that of n.
pub fn wavering(random: &mut Random, code: u8) -> Meter {
    let meter = plausible(random, code);
    let bits = random.between(30, 48);
    let n = random.of_length(bits);
    let level = steps(n).expect("n is above 0") - random.between(4096, 20480) as i64;
    let some = any_place(random, &meter) + 1;
    let whole = meter.places().len();
    let reached = random.pick(&[whole, whole, some]);
    let lowest = C_(&meter, 0);
    let wanted = |j| level + lowest - C_(&meter, j) - near_zero(random);
    let mut a: Vec<u64> = (0..reached)
        .map(wanted)
        .map(|level| least_of_level(level) as u64)
        .collect();
    for j in 1..reached {
        a[j] = a[j].min(a[j - 1]);
    }
    Meter {
        n: n as u64,
        s: 0,
        sq: least_of_level(level + lowest + meter.setting.margin),
        a: placed(&a),
        ..meter
    }
}

/// A d_j: one time in three 0, one time in three next to it, else any up to 4096 either way.
fn near_zero(random: &mut Random) -> i64 {
    let any = random.between(0, 8192) as i64 - 4096;
    random.pick(&[0, 0, 1, -1, any, any])
}

/// The least number below 2^80 whose lev is not below a level.
fn least_of_level(level: i64) -> u128 {
    let (mut low, mut high) = (1, 1 << 80);
    while low < high {
        let middle = (low + high) / 2;
        if steps(middle) < Some(level) {
            low = middle + 1;
        } else {
            high = middle;
        }
    }
    low
}

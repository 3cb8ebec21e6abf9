//! The sizes |x - o| of the samples of two cards on one line, at most d apart (the customer's
//! request L7).

use super::random::Random;
use super::signals::{bursts, furthest, placed, signal};
use crate::rate::{Rate, RATES};
use crate::setting::Setting;
use crate::thresholds::Thresholds;

/// The sizes of a card's samples.
pub type Sizes = Vec<i64>;

/// What is on the line.
#[derive(Clone, Copy)]
pub enum Kind {
    Steady,
    Hump,
    Threshold,
    Bursts,
    Any,
}

/// Every kind.
pub const KINDS: [Kind; 5] = [
    Kind::Steady,
    Kind::Hump,
    Kind::Threshold,
    Kind::Bursts,
    Kind::Any,
];

impl Kind {
    /// A rate for it: that of code 1 three times in seven, and always where at others it would take
    /// more samples.
    pub fn rate(self, random: &mut Random) -> &'static Rate {
        match self {
            Kind::Steady | Kind::Hump => &RATES[0],
            _ => &RATES[random.pick(&[0, 0, 0, 1, 2, 3, 4])],
        }
    }

    /// The sizes of both cards, d or less apart, the second at this setting.
    pub fn sizes(self, random: &mut Random, rate: &Rate, setting: Setting, d: i64) -> [Sizes; 2] {
        let I = random.pick(&[RATES[0].I, rate.I]);
        let length = random.between(200, 1000) as usize;
        let threshold = any_threshold(random, &setting.thresholds);
        let second = match self {
            Kind::Steady => return steady(random, threshold, d),
            Kind::Hump => return hump(random, rate, d),
            Kind::Threshold => near_threshold(random, threshold, length),
            Kind::Bursts => sizes(0, &bursts(random, I, 2 * length)),
            Kind::Any => {
                let samples = signal(random, I, length);
                sizes(setting.offset, &placed(random, setting.offset, samples))
            }
        };
        let most = size(setting.offset, furthest(setting.offset));
        [moved(random, &second, d, most), second]
    }
}

/// How far a sample is from an offset.
fn size(offset: i16, x: i16) -> i64 {
    i64::from(x.abs_diff(offset))
}

/// How far samples are from an offset.
fn sizes(offset: i16, samples: &[i16]) -> Sizes {
    samples.iter().map(|&x| size(offset, x)).collect()
}

/// Sizes of d more, or up to d more, or up to d more or less, as far as there is room.
fn moved(random: &mut Random, sizes: &[i64], d: i64, most: i64) -> Sizes {
    let least = random.pick(&[d, 0, -d]);
    let more = |_| least + random.below((d - least + 1) as u64) as i64;
    let mores: Sizes = sizes.iter().map(more).collect();
    let both = sizes.iter().zip(mores);
    both.map(|(size, more)| (size + more).clamp(0, most))
        .collect()
}

/// Sizes less d.
fn less(sizes: &[i64], d: i64) -> Sizes {
    sizes.iter().map(|size| size - d).collect()
}

/// The whole intervals of a threshold, up to 16384 of them.
fn any_threshold(random: &mut Random, thresholds: &Thresholds) -> i64 {
    let entries = thresholds.entries().iter().copied();
    let low: Vec<u64> = entries.filter(|&c_j| c_j <= 1 << 38).collect();
    (random.pick(&low) >> 24) as i64
}

/// A threshold's whole intervals and d more, and these without d, for so long that at code 1 either
/// envelope comes to less than an interval under its constant, and never over it.
fn steady(random: &mut Random, threshold: i64, d: i64) -> [Sizes; 2] {
    let length = random.between(350, 450) as usize;
    let first = vec![threshold + d; length];
    let second = less(&first, d);
    [first, second]
}

/// A hump and then constant 2^j + d, and the same less d, for the built-in list.
///
/// Right after the hump p is just above the constant and q below it: q is over it from some far
/// sample on, by ever less, and stays. A rounded envelope has come to rest under it by then. With k
/// for K / 2^20, e for what p is above and f for what q is below, as parts of the constant, that
/// sample is about f / (e k) after the hump. The larger d is beside 2^j, the longer the hump has to
/// be for the same to hold of the second.
fn hump(random: &mut Random, rate: &Rate, d: i64) -> [Sizes; 2] {
    let least = (4..).find(|&j| 8 * d <= 1 << j).expect("d is small");
    let low = 1 << random.between(least, 13);
    let hump = 10 + 700 * d / low + random.below(20) as i64;
    let k = rate.K as f64 / (1 << 20) as f64;
    let left = (1.0 - k).powi(hump as i32);
    let f = k * hump as f64 * left / (1.0 - left);
    let e = f / random.fraction_between(30.0, 45.0);
    let height = ((low + d) as f64 * (1.0 + e) / (1.0 - left)).ceil() as i64;
    let rest = random.between(1000, 1200) as usize;
    let first = [vec![height; hump as usize], vec![low + d; rest]].concat();
    let second = less(&first, d);
    [first, second]
}

/// Noise around a threshold, as large as it or smaller.
fn near_threshold(random: &mut Random, threshold: i64, length: usize) -> Sizes {
    let threshold = threshold.max(1);
    let most = threshold as u64 >> random.below(4);
    let near = (0..length).map(|_| threshold + i64::from(random.sample(most)));
    near.collect()
}

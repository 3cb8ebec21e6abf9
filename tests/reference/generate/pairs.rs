//! Two cards on one line, and the calls that each is given (the customer's request L7).

use super::cuts::{script, Cut};
use super::random::Random;
use super::settings;
use super::sizes::{Kind, KINDS};
use super::spacing::thresholds;
use crate::setting::Setting;
use crate::thresholds::Thresholds;

/// The most that the sizes of two cards differ by.
const MOST_APART: u64 = 400;

/// What each of the two cards is opened with, and its samples.
struct Pair {
    settings: [Setting; 2],
    samples: [Vec<i16>; 2],
}

/// The script of one of the two cards of a seed; the first has about so many calls.
pub fn card(seed: u64, count: u64, which: usize) -> Vec<u8> {
    let mut random = Random::new(seed);
    let pair = Pair::new(&mut random, seed);
    let first = count.max(1);
    let calls = [first, random.between(1, 2 * first)];
    let refuses = random.pick(&[[true, true], [true, false], [false, true]]);
    let seeds = [random.next(), random.next()];
    let cut = Cut {
        seed: seeds[which],
        calls: calls[which],
        refuses: refuses[which],
    };
    script(pair.settings[which], &pair.samples[which], &cut)
}

impl Pair {
    /// The pair of a seed: each kind of line in its turn, at a d in its turn. One time in two the
    /// sizes are exchanged.
    fn new(random: &mut Random, seed: u64) -> Pair {
        let kind = KINDS[seed as usize % KINDS.len()];
        let d = apart(random, seed / KINDS.len() as u64) as i64;
        let rate = kind.rate(random);
        let mut settings = both(random, rate.code);
        if let Kind::Hump = kind {
            settings[1].thresholds = Thresholds::BUILT_IN;
        }
        let mut sizes = kind.sizes(random, rate, settings[1], d);
        if random.once_in(2) {
            sizes.reverse();
            settings.reverse();
        }
        let offset = settings[0].offset;
        Pair {
            settings,
            samples: sizes.map(|sizes| placed(random, offset, &sizes)),
        }
    }
}

/// What two cards are opened with: one code and one offset, and mostly margins and lists that
/// differ.
fn both(random: &mut Random, code: u8) -> [Setting; 2] {
    let first = settings::setting(random, code);
    let own = Setting {
        margin: settings::margin(random),
        thresholds: thresholds(random),
        ..first
    };
    [first, random.pick(&[own, own, first])]
}

/// The d of a turn: of three turns in ten 0, 1 and the most.
fn apart(random: &mut Random, turn: u64) -> u64 {
    let any = random.between(0, MOST_APART);
    match turn % 10 {
        0 => 0,
        1 => 1,
        2 => MOST_APART,
        _ => any,
    }
}

/// Samples of these sizes around an offset, above it, below it or on either side, as far as there
/// is room: what lies on other sides for two cards is mirrored.
fn placed(random: &mut Random, offset: i16, sizes: &[i64]) -> Vec<i16> {
    let sides = random.pick(&[&[1][..], &[-1], &[1, -1]]);
    let offset = i64::from(offset);
    let sample = |&size: &i64| {
        let away = size * random.pick(sides);
        let there = i16::try_from(offset + away);
        there.unwrap_or_else(|_| i16::try_from(offset - away).expect("room on one side"))
    };
    sizes.iter().map(sample).collect()
}

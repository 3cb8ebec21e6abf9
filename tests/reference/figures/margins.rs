//! The figures of a chosen margin (the customer's request L5), and what `margins` tells of scripts.

use super::{handed_in, refused};
use crate::block;
use crate::float;
use crate::generate::settings::REFUSED_MARGINS;
use crate::margins::margins as told;
use crate::measurement::STEP;
use crate::meter::Meter;
use crate::rate::RATES;
use crate::records::{script, Record};
use crate::setting::{marked, Setting, USUAL_MARGIN};
use crate::speech::voice;
use crate::tally::Tally;

/// Every figure.
pub fn margins(tally: &mut Tally) {
    openings(tally);
    meters(tally);
    kept(tally);
    decibels(tally);
    lines(tally);
}

/// A code and a margin with an offset, which has no part in this.
fn setting(code: u8, margin: i64) -> Setting {
    Setting {
        offset: 300,
        margin,
        ..Setting::usual(code)
    }
}

/// An opening with a margin outside the range, at a code that is named and not, leaves all zeros.
fn openings(tally: &mut Tally) {
    for margin in REFUSED_MARGINS {
        let found = [2, 0].map(|code| Meter::open(setting(code, margin)));
        let expected = [17, 1].map(|r| (Meter::zero(), r));
        tally.equal(&format!("opened with {margin}"), found, expected);
    }
}

/// Every call on a meter with a margin outside the range is refused; at the ends of it none is.
fn meters(tally: &mut Tally) {
    let sound = handed_in(16384, 1 << 30, &[4096; 8]);
    for margin in REFUSED_MARGINS {
        refused(tally, &sound.at_margin(margin));
    }
    for margin in [1, 22314] {
        let meter = sound.at_margin(margin);
        let block = block::make(2, 16384, &[1]);
        let found = [meter.chunk(&[1]).1, meter.block(&block).1];
        tally.equal(&format!("handed in with {margin}"), found, [0, 0]);
    }
}

/// A voice is measured alike at every margin, by chunks and by blocks: only the margin is another.
fn kept(tally: &mut Tally) {
    let (rate, samples) = (&RATES[0], &voice(&RATES[0], 1)[..248]);
    let (usual, _) = Meter::open(Setting::usual(rate.code)).0.chunk(samples);
    for margin in [1, 20954, 20955, 22314] {
        let (fresh, _) = Meter::open(Setting {
            margin,
            ..Setting::usual(rate.code)
        });
        let name = format!("a voice at {margin}");
        let expected = (usual.at_margin(margin), 0);
        tally.equal(&name, fresh.chunk(samples), expected.clone());
        let by_block = fresh.block(&block::make(rate.code, 0, samples));
        tally.equal(&name, by_block, expected);
    }
}

/// The mark is for every margin below 15.4 dB, and 21635 steps are 15.9 dB to the nearest step.
fn decibels(tally: &mut Tally) {
    let right = |margin: i64| marked(margin) == (STEP * (margin as f64) < 15.4);
    tally.holds("the mark below 15.4 dB", (1..=22314).all(right));
    let difference = STEP * USUAL_MARGIN as f64 - float::M;
    tally.holds("21635 steps for 15.9 dB", difference.abs() <= STEP / 2.0);
}

/// What is told of openings, of meters handed in and of levels; a meter that is refused for more
/// than its margin, and reports that are refused, have no line.
fn lines(tally: &mut Tally) {
    let level = handed_in(16384, 1 << 30, &[4096; 8]);
    let impossible = handed_in(0, 1 << 30, &[4096; 8]);
    let records = script(&[
        Record::open(setting(2, 20955)),
        Record::Report,
        Record::open(setting(2, 0)),
        Record::open(setting(6, 0)),
        Record::Load(level.at_margin(20954)),
        Record::Report,
        Record::Load(level.at_margin(-1)),
        Record::Report,
        Record::Load(impossible.at_margin(22315)),
    ]);
    let expected = "level 20954 1\nload -1 2\nload 20954 0\nopen 0 1\nopen 0 17\nopen 20955 0\n";
    tally.equal("margins told", told(&records).as_deref(), Some(expected));
    tally.equal("margins of a bad record", told(&[4, 0]), None);
}

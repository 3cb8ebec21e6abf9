//! What `crossed` tells of scripts whose envelopes are known.

use crate::crossed::crossed;
use crate::meter::Meter;
use crate::records::{script, Record};
use crate::setting::Setting;
use crate::tally::Tally;

/// What is told of samples given to a meter that is handed in.
fn told(meter: Meter, samples: &[i16]) -> Option<String> {
    crossed(&script(&[
        Record::Load(meter),
        Record::Chunk(samples.to_vec()),
    ]))
}

/// Every figure.
pub fn crossings(tally: &mut Tally) {
    one_sample(tally);
    pair(tally);
    nothing_taken(tally);
}

/// One sample of no size at code 2, which takes Q onto a threshold and just under it, down and up
/// from one, over one and over two, to 2^39, just under it and far past it.
fn one_sample(tally: &mut Tally) {
    let rows = [
        (0, 134778139, "at 3\n"),
        (0, 134778138, "down 3\nunder 3\n"),
        (0, 1 << 27, "down 3\n"),
        (1 << 40, 1 << 37, ""),
        (1 << 40, (1 << 37) - 1, "up 13\n"),
        (1 << 40, (1 << 31) - 1, "leap\nup 7\nup 8\n"),
        (0, 552051254055, "past\n"),
        (0, 552051254054, ""),
        (1 << 40, 1 << 40, "past\n"),
    ];
    for (P, Q, lines) in rows {
        let (fresh, _) = Meter::open(Setting::usual(2));
        let found = told(Meter { P, Q, ..fresh }, &[0]);
        tally.equal(&format!("P {P}, Q {Q}"), found.as_deref(), Some(lines));
    }
}

/// The pair of samples that brings Q to 2^30, over five thresholds at once and then over two, in one
/// call and in two.
fn pair(tally: &mut Tally) {
    let lines = "at 6\nleap\nup 0\nup 1\nup 2\nup 3\nup 4\nup 5\nup 6\n";
    let (fresh, _) = Meter::open(Setting::usual(1));
    let found = told(fresh, &[9126, 11705]);
    tally.equal("crossed by the pair", found.as_deref(), Some(lines));
    let apart = [
        Record::open(Setting::usual(1)),
        Record::Chunk(vec![9126]),
        Record::Chunk(vec![11705]),
    ];
    let found = crossed(&script(&apart));
    tally.equal("crossed by the pair apart", found.as_deref(), Some(lines));
}

/// A chunk that is too long, a meter that refusal 2 stops, and a bad record.
fn nothing_taken(tally: &mut Tally) {
    let (fresh, _) = Meter::open(Setting::usual(2));
    let found = told(fresh.clone(), &[32767; 4097]);
    tally.equal("crossed by 4097", found.as_deref(), Some(""));
    let refused = Meter {
        n: u64::MAX,
        ..fresh
    };
    let found = told(refused, &[32767; 4096]);
    tally.equal("crossed after refusal 2", found.as_deref(), Some(""));
    tally.equal("crossed by a bad record", crossed(&[0]), None);
}

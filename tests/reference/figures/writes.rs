//! Blocks that are written within the bounds (the customer's request L6), and what `written` tells
//! of writes.

use crate::generate::generate;
use crate::meter::Meter;
use crate::rate::RATES;
use crate::records::{script, Record, Writing};
use crate::replay::replay;
use crate::setting::Setting;
use crate::speech::voice;
use crate::tally::Tally;
use crate::written::{claims, written};

/// The most samples there are, as a number, since the figures hold the bound to it.
const END: u64 = 1 << 48;

/// A code, a number before, a number of samples and the length of a buffer.
type Row = (u32, u64, usize, u16);

/// Every figure.
pub fn writes(tally: &mut Tally) {
    within(tally);
    read_back(tally);
    cut(tally);
    words(tally);
    kinds(tally);
    occurrences(tally);
}

/// A write of ones.
fn ones((code, before, count, length): Row) -> Writing {
    Writing::new(code, before, &vec![1; count], length)
}

/// Numbers of samples and ends within their bounds: a block is written.
fn within(tally: &mut Tally) {
    let rows = [
        (1, 0, 1, 512),
        (2, 0, 248, 512),
        (3, 1, 247, 512),
        (4, 2, 246, 512),
        (5, 3, 245, 512),
        (1, END - 1, 1, 512),
        (2, END - 2, 2, 512),
        (3, END - 248, 248, 512),
        (4, END - 3, 3, 512),
        (5, END - 247, 247, 512),
    ];
    for row in rows {
        let (r, buffer) = ones(row).answer();
        let untouched = buffer == [165; 512];
        tally.equal(&ones(row).to_string(), (r, untouched), (0, false));
    }
}

/// A voice in blocks that are written one after the other is measured as it is in chunks.
fn read_back(tally: &mut Tally) {
    for rate in &RATES {
        let (fresh, _) = Meter::open(Setting::usual(rate.code));
        let (mut by_block, mut by_chunk) = (fresh.clone(), fresh);
        for samples in voice(rate, 1)[..4000].chunks(248) {
            let writing = Writing::new(u32::from(rate.code), by_block.n, samples, 512);
            (by_block, _) = by_block.block(&writing.answer().1);
            (by_chunk, _) = by_chunk.chunk(samples);
        }
        let name = format!("a voice in written blocks, code {}", rate.code);
        tally.equal(&name, (by_chunk.n, by_block), (4000, by_chunk));
    }
}

/// The record of a write, cut.
fn cut(tally: &mut Tally) {
    let record = script(&[Record::Write(ones((1, 0, 1, 512)))]);
    for length in 1..record.len() {
        let cut = replay(&record[..length]);
        tally.equal("a record cut", cut.as_str(), "bad record 1\n");
    }
}

/// Checks what occurs in a write as the reference answers it, with no claim failing.
fn told(tally: &mut Tally, writing: Writing, names: &[&str]) {
    let script = script(&[Record::Write(writing)]);
    let claims = claims(&script, &replay(&script)).expect("no record is bad");
    let occurred = claims.occurred.into_iter().filter(|&(_, times)| times > 0);
    let found: Vec<&str> = occurred.map(|(name, _)| name).collect();
    tally.equal("occurs in a write", &found[..], names);
    tally.equal("fails in a write", claims.tally.failed(), &[]);
}

/// What `written` tells of single samples.
fn words(tally: &mut Tally) {
    let rows = [
        (32767, None),
        (-259, Some("a first check word of 0")),
        (-260, Some("a first check word of 65534")),
        (-1058, Some("a second check word of 0")),
        (15591, Some("a second check word of 65534")),
    ];
    for (x, word) in rows {
        let always = ["written at code 1", "written from 1 sample"];
        let names: Vec<&str> = word.into_iter().chain(always).collect();
        told(tally, Writing::new(1, 0, &[x], 512), &names);
    }
}

/// What it tells of ones, beside the code of those that are written and the number of the others.
fn kinds(tally: &mut Tally) {
    let rows = [
        ((2, 0, 2, 512), None),
        ((2, 0, 248, 512), Some("written from 248 samples")),
        ((3, END - 2, 2, 512), Some("written with an end at 2^48")),
        ((4, 0, 2, 512), None),
        ((5, 0, 2, 512), None),
        ((6, 0, 2, 512), None),
        ((0, 0, 1, 512), None),
        ((0, 0, 1, 3), None),
        ((0, 0, 0, 512), None),
        ((0, 0, 0, 3), Some("1 where 4 and 18 apply too")),
        ((1, 0, 1, 3), None),
        ((1, 0, 0, 3), Some("4 where 18 applies too")),
        ((1, 0, 0, 512), Some("18 for 0 samples")),
        ((1, END + 1, 0, 512), None),
        ((1, 0, 249, 512), Some("18 for 249 samples")),
        ((1, 0, 250, 512), None),
        ((1, END, 249, 512), None),
        ((1, END, 1, 512), Some("18 for an end at 2^48 + 1")),
        ((1, END, 2, 512), None),
        ((1, u64::MAX, 1, 512), Some("18 for an end at 2^64")),
        ((1, u64::MAX, 2, 512), Some("18 for an end past 2^64")),
    ];
    for (row, kind) in rows {
        let always = match ones(row).answer().0 {
            0 => format!("written at code {}", row.0),
            r => format!("refused with {r}"),
        };
        let mut names: Vec<&str> = kind.into_iter().chain([&always[..]]).collect();
        names.sort();
        told(tally, ones(row), &names);
    }
}

/// In a script of writes all occurs that must, even without a random one, and no claim fails; in a
/// script of nothing it is all missed; a bad record leaves nothing to tell.
fn occurrences(tally: &mut Tally) {
    for (seed, count) in [(1, 0), (2, 0), (3, 50)] {
        let script = generate("write", seed, count).expect("a kind of script");
        let claims = claims(&script, &replay(&script)).expect("no record is bad");
        tally.equal("fails in a script", claims.tally.failed(), &[]);
        let mut times = claims.occurred.into_values();
        tally.holds("all occurs in a script", times.all(|times| times > 0));
    }
    let nothing = written(&[], "").expect("no record is bad");
    let missed = |name: &&String| name.ends_with(": 0 times");
    let found = nothing.failed().iter().filter(missed).count();
    tally.equal("missed in nothing", found, 25);
    let bad = written(&[0], "bad record 1");
    tally.holds("written by a bad record", bad.is_none());
}

//! The figures of two cards on one line (the customer's request L7), worked out by hand, and pairs
//! of cards as they are generated.

use crate::block;
use crate::cards::{cards as held_to, compared, Held};
use crate::exact::Exact;
use crate::generate::generate;
use crate::meter::Meter;
use crate::noise::noisy;
use crate::rate::RATES;
use crate::records::{script, Record};
use crate::replay::replay;
use crate::report::report;
use crate::setting::Setting;
use crate::tally::Tally;

/// Code 1 with no offset and the usual margin.
const USUAL: Setting = Setting::usual(1);

/// Every figure.
pub fn cards(tally: &mut Tally) {
    alike(tally);
    constants(tally);
    without_D(tally);
    late(tally);
    around_offsets(tally);
    cut_differently(tally);
    settings(tally);
    next_threshold(tally);
    generated(tally);
    recordings(tally);
    noise(tally);
}

/// A script of an opening, calls and a show.
fn card(setting: Setting, calls: Vec<Record>) -> Vec<u8> {
    let opening = [Record::open(setting)];
    let records = opening.into_iter().chain(calls).chain([Record::Show]);
    script(&records.collect::<Vec<_>>())
}

/// The card of one chunk.
fn of_chunk(setting: Setting, samples: &[i16]) -> Vec<u8> {
    card(setting, vec![Record::Chunk(samples.to_vec())])
}

/// What is found of two cards that this program plays.
fn played(scripts: [&[u8]; 2]) -> Held {
    let [first, second] = scripts.map(replay);
    held_to(scripts, [&first, &second]).expect("no record is bad")
}

/// What is told of a bound that is met with equality, one way round and the other.
const EQUAL: &str = "equal, first against second";
const EQUAL_BACK: &str = "equal, second against first";

/// Checks that nothing fails for two cards, and what is told of them: d, the code, the offset and
/// how many samples, then the facts of this pair.
fn row(tally: &mut Tally, name: &str, scripts: [&[u8]; 2], numbers: [i64; 4], facts: &[&str]) {
    let held = played(scripts);
    tally.equal(&format!("{name}, failed"), held.tally.failed(), &[]);
    let words = ["d", "code", "offset", "samples"];
    let numbers = words.iter().zip(numbers);
    let mut expected: Vec<String> = numbers.map(|(word, n)| format!("{word} {n}")).collect();
    expected.extend(facts.iter().map(|fact| fact.to_string()));
    tally.equal(name, held.lines, expected);
}

/// The same samples: none; 248 of 100; the pair that brings Q to a threshold exactly.
fn alike(tally: &mut Tally) {
    let rows = [
        (&[][..], &[][..]),
        (&[100; 248], &[EQUAL, EQUAL_BACK]),
        (&[9126, 11705], &[EQUAL, EQUAL_BACK]),
    ];
    for (samples, facts) in rows {
        let card = of_chunk(USUAL, samples);
        let length = samples.len() as i64;
        let name = format!("{length} samples for both");
        row(tally, &name, [&card, &card], [0, 1, 0, length], facts);
    }
}

/// Constant 2^j + d against constant 2^j, 400 samples at code 1: neither envelope reaches its
/// constant, and the first comes to less than an interval under it. So the second meter counts
/// nothing at j, and E's count for the first is 0 where c_j is raised by d, but not by d - 1.
fn constants(tally: &mut Tally) {
    for (j, d) in [(0, 1), (0, 2), (0, 400), (3, 5), (8, 400), (14, 16000)] {
        let low = 1 << j;
        let (first, second) = (
            of_chunk(USUAL, &[low + d; 400]),
            of_chunk(USUAL, &[low; 400]),
        );
        let name = format!("{} against {low}", low + d);
        let numbers = [i64::from(d), 1, 0, 400];
        let there = ["breaks at d - 1, first against second"];
        row(tally, &name, [&first, &second], numbers, &there);
        let back = ["breaks at d - 1, second against first"];
        row(tally, &name, [&second, &first], numbers, &back);
        let (meter, _) = Meter::open(USUAL).0.chunk(&[low; 400]);
        tally.equal(&format!("a_{j} of constant {low}"), meter.a[j], 0);
    }
}

/// A sample of 22 and then ones, at code 1. With k for K/2^20, p is 22 k - 1 above 1 after the
/// first sample and q is 1 - 22 k^2 below; after i more, q is below by (1 - 22 k^2) - i k (22 k -
/// 1), all times (1 - k)^i. That is above 0 up to an i of 639 and below it from 640 on: q is at c_0
/// or above it from the 641st sample on, and P has long been 1 exactly, with Q at rest under it.
fn without_D(tally: &mut Tally) {
    let samples = [&[22][..], &[1; 699]].concat();
    let card = of_chunk(USUAL, &samples);
    let facts = [
        "breaks without D, first against second",
        "breaks without D, second against first",
    ];
    row(tally, "22 and ones", [&card, &card], [0, 1, 0, 700], &facts);
    let mut exact = Exact::open(&RATES[0], 0);
    exact.chunk(&samples);
    let counts = [0, 1, 43].map(|units| exact.count((1 << 24) + units));
    tally.equal("22 and ones, E's counts", counts, [60, 0, 0]);
    let (meter, _) = Meter::open(USUAL).0.chunk(&samples);
    tally.equal("22 and ones, P", meter.P, 1 << 24);
    tally.equal("22 and ones, a_0", meter.a[0], 0);
}

/// The same with samples an interval apart, after a hump of 22491 and one less: E's count for the
/// first is above 0 where c_10 is raised by an interval, and the second meter's is 0.
fn late(tally: &mut Tally) {
    let first = [&[22491][..], &[1025; 800]].concat();
    let second: Vec<i16> = first.iter().map(|x| x - 1).collect();
    let scripts = [&of_chunk(USUAL, &first)[..], &of_chunk(USUAL, &second)];
    let facts = [
        "breaks at d - 1, first against second",
        "breaks without D, first against second",
        EQUAL,
        EQUAL_BACK,
    ];
    row(tally, "a hump", scripts, [1, 1, 0, 801], &facts);
}

/// Samples as far above an offset as others are below it have the same sizes; samples as far from 0
/// do not; an offset at the end of the range.
fn around_offsets(tally: &mut Tally) {
    let rows = [
        (300, [400, 200], 0, &["mirrored", EQUAL, EQUAL_BACK][..]),
        (5, [5, -5], 10, &[]),
        (-32768, [32767, 32766], 1, &[EQUAL, EQUAL_BACK]),
    ];
    for (offset, [first, second], d, facts) in rows {
        let setting = Setting { offset, ..USUAL };
        let scripts = [first, second].map(|x| of_chunk(setting, &[x; 400]));
        let name = format!("{first} and {second} around {offset}");
        let numbers = [d, 1, i64::from(offset), 400];
        row(tally, &name, [&scripts[0], &scripts[1]], numbers, facts);
    }
}

/// A chunk against a block with a chunk of none before it and, refused, itself after it; and
/// against itself with one of 4097 samples before it, which is refused.
fn cut_differently(tally: &mut Tally) {
    let samples = [100; 248];
    let block = block::make(1, 0, &samples);
    let calls = vec![
        Record::Chunk(Vec::new()),
        Record::Block(block.clone()),
        Record::Block(block),
    ];
    let too_long = vec![
        Record::Chunk(vec![32767; 4097]),
        Record::Chunk(samples.to_vec()),
    ];
    let first = of_chunk(USUAL, &samples);
    let numbers = [0, 1, 0, 248];
    let facts = ["refused second", "cut differently", EQUAL, EQUAL_BACK];
    let second = card(USUAL, calls);
    row(tally, "a block", [&first, &second], numbers, &facts);
    let facts = ["refused first", EQUAL, EQUAL_BACK];
    let long = card(USUAL, too_long);
    row(tally, "4097", [&long, &first], numbers, &facts);
}

/// Margins at both ends of the range, at each rate.
fn settings(tally: &mut Tally) {
    for rate in &RATES {
        let at = |margin| Setting {
            margin,
            ..Setting::usual(rate.code)
        };
        let scripts = [1, 22314].map(|margin| of_chunk(at(margin), &[3000; 50]));
        let name = format!("margins 1 and 22314 at code {}", rate.code);
        let facts = ["margins differ", EQUAL, EQUAL_BACK];
        let numbers = [0, i64::from(rate.code), 0, 50];
        row(tally, &name, [&scripts[0], &scripts[1]], numbers, &facts);
    }
}

/// Constant 2^(j+1) and one more against constant 2^j, 400 samples at code 1. The second's count at
/// j is 0. The one constant is 2^j more, so that the first's count at j + 1 is 0 as well; the other
/// is 2^j + 1 more, so that nothing is claimed of that count, which is above 0.
fn next_threshold(tally: &mut Tally) {
    let counts = |x: i16| Meter::open(USUAL).0.chunk(&[x; 400]).0.a;
    for j in 0..14 {
        let (low, high) = (1 << j, 2 << j);
        let found = (counts(low)[j], counts(high)[j + 1]);
        tally.equal(&format!("constants {high} and {low}"), found, (0, 0));
        let above = counts(high + 1)[j + 1];
        tally.holds(&format!("a_{} of {}", j + 1, high + 1), above > 0);
        let scripts = [high + 1, low].map(|x| of_chunk(USUAL, &[x; 400]));
        let failed = played([&scripts[0], &scripts[1]]).tally;
        tally.equal("constants, failed", failed.failed(), &[]);
    }
}

/// A pair is generated the same for the same seed.
fn generated(tally: &mut Tally) {
    for seed in 0..20 {
        let kinds = ["first", "second", "first", "second"];
        let scripts = kinds.map(|kind| generate(kind, seed, 20).expect("a kind"));
        tally.holds("a pair again", scripts[..2] == scripts[2..]);
    }
}

/// Two recordings of one block, in the first of which it comes again and is refused: the rows of
/// the table.
fn recordings(tally: &mut Tally) {
    let block = block::pack(1, &[100; 248]);
    let twice = [&block[..], &block].concat();
    let printed = [report(&twice), report(&block)];
    let held = compared([&twice, &block], [&printed[0], &printed[1]]);
    tally.equal("recordings, failed", held.tally.failed(), &[]);
    let counts = [246, 245, 242, 239, 234, 225, 204, 0, 0, 0, 0, 0, 0, 0, 0];
    let rows = counts.iter().enumerate();
    let rows = rows.map(|(j, a)| format!("| {j} | {a} | {a} | {a} | {a} |"));
    let lines: Vec<String> = ["d 0".to_string()].into_iter().chain(rows).collect();
    tally.equal("recordings", held.lines, lines);
}

/// Noise of none, noise of at most 3, which takes every value and is the same for the same seed,
/// and noise at the ends of the range.
fn noise(tally: &mut Tally) {
    tally.equal("no noise", noisy(&[-32768, 0, 5], 0, 1), vec![-32768, 0, 5]);
    let mut values = noisy(&[1000; 500], 3, 1);
    tally.holds("noise again", values == noisy(&[1000; 500], 3, 1));
    values.sort();
    values.dedup();
    tally.equal("noise of 3", values, (997..=1003).collect());
    let [low, high] = [-32768, 32767].map(|x| noisy(&[x; 100], 5, 1));
    let near = low.iter().all(|&x| x <= -32763) && high.iter().all(|&x| x >= 32762);
    tally.holds("noise at the ends", near);
}

//! Calls that bring the totals of a meter past one word, and to the most that it counts.

use super::meters::{most_squares, plausible};
use super::script::Script;
use crate::meter::{Meter, MOST_SAMPLES};
use crate::records::Record;

/// A meter whose sq is just below 2^64, and samples that bring it past, whatever the offset.
pub fn two_words(script: &mut Script) {
    let code = script.random.named();
    let n = (1 << 34) + script.random.below(1 << 34);
    let sq = (1u128 << 64) - u128::from(script.random.between(1, 1 << 31));
    let meter = Meter {
        n,
        sq,
        ..plausible(&mut script.random, code)
    };
    let s = meter.s.clamp(-(1 << 49), 1 << 49);
    let a = meter.a.map(|a_j| a_j.min(n));
    script.add(Record::Load(Meter { s, a, ..meter }));
    script.add(Record::Report);
    for x in [-32768, 32767, -32768] {
        script.add(Record::Chunk(vec![x]));
        script.add(Record::Show);
    }
    script.add(Record::Report);
}

/// A meter of 2^48 - k samples, its totals at the bounds or not.
fn nearly_full(script: &mut Script, k: u64) -> Meter {
    let code = script.random.named();
    let meter = plausible(&mut script.random, code);
    let n = MOST_SAMPLES - k;
    let most = i128::from(n) << 15;
    let full = most_squares(n);
    match script.random.below(3) {
        0 => Meter {
            n,
            s: -most as i64,
            sq: full,
            a: meter.all(n),
            ..meter
        },
        1 => Meter {
            n,
            s: most.min(i128::from(i64::MAX)) as i64,
            sq: full,
            ..meter
        },
        _ => Meter { n, ..meter },
    }
}

/// Chunks that fill a meter exactly, and by one too many.
pub fn last_chunks(script: &mut Script) {
    let few = script.random.between(0, 40);
    let many = script.random.between(0, 4095);
    let k = script.random.pick(&[few, few, many, 4095, 4096]);
    let meter = nearly_full(script, k);
    script.add(Record::Load(meter));
    let x = script.random.pick(&[-32768, 32767, 1]);
    for length in [k + 1, k] {
        script.add(Record::Chunk(vec![x; length as usize]));
        script.add(Record::Show);
    }
    script.add(Record::Report);
    for length in [0, 1, 4096, 4097] {
        script.add(Record::Chunk(vec![x; length]));
    }
}

/// Blocks that fill a meter exactly, and by one too many.
pub fn last_blocks(script: &mut Script) {
    let k = script.random.between(1, 247);
    let meter = nearly_full(script, k);
    script.add(Record::Load(meter));
    for count in [k + 1, k] {
        let misplaced = script.misplaced();
        script.add(Record::Block(misplaced));
        let bytes = script.fitting(count);
        script.add(Record::Block(bytes));
        script.add(Record::Show);
    }
    let bytes = script.fitting(1);
    script.add(Record::Block(bytes));
    script.add(Record::Report);
}

//! What the reference is held to beside the worked figures of tests/figures: figures of what no
//! record asks for, rules that hold over many of them, and wrong answers that the check of demand 3
//! and those of the customer's requests L6 and L7 refuse.

mod cards;
mod crossings;
mod highest;
mod host;
mod margins;
mod offsets;
mod rates;
mod recorded;
mod thresholds;
mod writes;

use crate::block;
use crate::doctored::doctored;
use crate::meter::Meter;
use crate::percent;
use crate::report::report;
use crate::setting::Setting;
use crate::tally::Tally;

/// Every figure; whether none failed.
pub fn figures() -> bool {
    let mut tally = Tally::new();
    rates::rates(&mut tally);
    program(&mut tally);
    percentages(&mut tally);
    percentage_never_falls(&mut tally);
    percentage_is_near(&mut tally);
    offsets::offsets(&mut tally);
    crossings::crossings(&mut tally);
    highest::highest(&mut tally);
    margins::margins(&mut tally);
    thresholds::thresholds(&mut tally);
    writes::writes(&mut tally);
    host::host(&mut tally);
    recorded::recorded(&mut tally);
    cards::cards(&mut tally);
    doctored(&mut tally);
    tally.finish()
}

/// A meter handed in at code 2, its first a_j given (the customer's scope, "Worked figures"), with
/// the margin 21635 (the customer's request L5).
fn handed_in(n: u64, sq: u128, a: &[u64]) -> Meter {
    let mut meter = Meter {
        setting: Setting::usual(2),
        n,
        sq,
        ..Meter::zero()
    };
    meter.a[..a.len()].copy_from_slice(a);
    meter
}

/// Every call on a meter is refused with 2 and hands it back.
fn refused(tally: &mut Tally, meter: &Meter) {
    let name = format!("refused: {:?}", meter.setting);
    tally.equal(&name, meter.report(), Err(2));
    tally.equal(&name, meter.chunk(&[1]), (meter.clone(), 2));
    tally.equal(&name, meter.chunk(&[]), (meter.clone(), 2));
    let block = block::make(2, meter.n, &[1]);
    tally.equal(&name, meter.block(&block), (meter.clone(), 2));
}

/// The example of the report program (the customer's scope, "Worked figures"), inputs at the edges,
/// and a level with its percentage (the customer's request L1).
fn program(tally: &mut Tally) {
    let example = "samples 1\nsum 32767\nsquares 0 1073676289\n\
                   counts 1 1 1 1 1 1 1 0 0 0 0 0 0 0 0\nrefused 16\n";
    let nothing = "samples 0\nsum 0\nsquares 0 0\n\
                   counts 0 0 0 0 0 0 0 0 0 0 0 0 0 0 0\nrefused 12\n";
    let level = "samples 248\nsum 24800\nsquares 0 2480000\n\
                 counts 246 245 242 239 234 225 204 0 0 0 0 0 0 0 0\n\
                 level 54426 54779 33144 -353\npercent 9420\n";
    let block = block::make(1, 0, &[32767]);
    let steady = block::make(1, 0, &[100; 248]);
    let twice = [&block[..], &block].concat();
    let rows = [
        ("example", &block[..], "", example),
        ("empty input", &[], "", nothing),
        ("short block", &block[..511], "block 1 refused 4\n", nothing),
        ("twice", &twice, "block 2 refused 10\n", example),
        ("one more", &twice[..513], "block 2 refused 4\n", example),
        ("a level", &steady, "", level),
    ];
    for (name, input, refused, measurement) in rows {
        tally.equal(name, report(input), [refused, measurement].concat());
    }
}

/// The figures of the percentage (the customer's request L1), more of them at its ends, and F far
/// beyond any report's.
fn percentages(tally: &mut Tally) {
    let rows = [
        (i64::MIN, 0),
        (-54427, 0),
        (-54426, 1),
        (-8192, 2500),
        (-4096, 5000),
        (-1, 9999),
        (0, 10000),
        (i64::MAX, 10000),
    ];
    for (F, T) in rows {
        tally.equal(&format!("T of F {F}"), percent::T(F), T);
    }
}

/// A larger F never shows a smaller percentage (the customer's request L1): every F where T
/// changes, a few more at either end, and some far away.
fn percentage_never_falls(tally: &mut Tally) {
    let far = [i64::MIN, i64::MIN + 1, -(1 << 32), -196608, -65536];
    let beyond = [54426, 65536, 1 << 32, i64::MAX - 1, i64::MAX];
    let factors = far.into_iter().chain(-54430..=2).chain(beyond);
    let shown: Vec<u64> = factors.map(percent::T).collect();
    let never_falls = shown.windows(2).all(|pair| pair[0] <= pair[1]);
    tally.holds("T never falls as F grows", never_falls);
}

/// For every F that has a T above 0, and a few below, T is less than one hundredth away from the
/// share of the whole that F stands for.
fn percentage_is_near(tally: &mut Tally) {
    let share = |F: i64| 10000.0 * 2f64.powf(F as f64 / 4096.0);
    let near = (-54430..=0).all(|F| (percent::T(F) as f64 - share(F)).abs() < 1.0);
    tally.holds("T less than one hundredth from 2^(F/4096)", near);
}

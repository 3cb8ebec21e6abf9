//! The figures of the rates (the customer's scope, "Rates"), the error of the envelope at these and
//! other K (the customer's request L9), and what `codes` tells of scripts.

use super::handed_in;
use crate::codes::codes;
use crate::exact::Exact;
use crate::generate::random::Random;
use crate::generate::signals::{placed, signal};
use crate::meter::Meter;
use crate::rate::{rate, Rate, RATES};
use crate::records::{script, Record};
use crate::setting::Setting;
use crate::tally::Tally;
use std::iter;

/// K at both ends of the range for which the error is stated, next to them, and between.
const KS: [u64; 9] = [
    1,
    2,
    100,
    16384,
    99999,
    1 << 19,
    1000000,
    (1 << 20) - 1,
    1 << 20,
];

/// How many signals are measured at each K, and how many samples each has.
const SIGNALS: usize = 8;
const SAMPLES: usize = 300;

/// Every figure.
pub fn rates(tally: &mut Tally) {
    table(tally);
    codes_named(tally);
    time_constants(tally);
    envelopes(tally);
    widest(tally);
    hangovers(tally);
    lines(tally);
}

/// The table of rates with D, and I by its rule.
fn table(tally: &mut Tally) {
    let row = |rate: &Rate| (rate.code, rate.samples_per_second, rate.K, rate.I, rate.D());
    let found: Vec<_> = RATES.iter().map(row).collect();
    let expected = vec![
        (1, 694, 49174, 139, 43),
        (2, 8000, 4360, 1600, 481),
        (3, 16000, 2182, 3200, 962),
        (4, 32000, 1092, 6400, 1921),
        (5, 48000, 728, 9600, 2881),
    ];
    tally.equal("the table of rates", found, expected);
    for rate in &RATES {
        tally.equal("I by its rule", rate.I_by_rule(), rate.I);
    }
}

/// The codes that name a rate, and those next to them and beyond a byte.
fn codes_named(tally: &mut Tally) {
    let codes = (0..=1024).chain([65537, 1 << 24, u32::MAX]);
    let named: Vec<u32> = codes.filter(|&code| rate(code).is_some()).collect();
    tally.equal("codes that name a rate", named, vec![1, 2, 3, 4, 5]);
}

/// 2^20 (1 - g) to the nearest whole number, with the g of P.56 for a T of 0.03 s.
fn K_of(rate: &Rate) -> u64 {
    let g = (-1.0 / (rate.samples_per_second as f64 * 0.03)).exp();
    ((1 << 20) as f64 * (1.0 - g)).round() as u64
}

/// T within its tolerance at each rate, also with a K that is 4 % smaller or larger, and not with
/// one that is 6 % smaller or larger (the customer's scope, "Rates"). The K of the table is the one
/// nearest to the exponential.
fn time_constants(tally: &mut Tally) {
    let rows = [
        (94, false),
        (96, true),
        (100, true),
        (104, true),
        (106, false),
    ];
    for rate in &RATES {
        tally.equal("K by the exponential", K_of(rate), rate.K);
        for (percent, kept) in rows {
            let K = (rate.K * percent + 50) / 100;
            let found = Rate { K, ..*rate }.keeps_time_constant();
            let name = format!("rate {}: T within 5 % with K {K}", rate.code);
            tally.equal(&name, found, kept);
        }
    }
}

/// A fresh meter and E, both before any sample.
fn fresh(rate: &Rate, offset: i16) -> (Meter, Exact) {
    let setting = Setting {
        offset,
        ..Setting::usual(rate.code)
    };
    (Meter::open(setting).0, Exact::open(rate, offset))
}

/// The error of the envelope after each sample of some signals, at the five rates and at other K,
/// from the least to the most (the customer's request L9).
fn envelopes(tally: &mut Tally) {
    let any = KS.map(|K| Rate { K, ..RATES[0] });
    let mut random = Random::new(9);
    for rate in RATES.iter().chain(&any) {
        for _ in 0..SIGNALS {
            let offset = random.offset();
            let samples = signal(&mut random, RATES[0].I, SAMPLES);
            let samples = placed(&mut random, offset, samples);
            let (mut meter, mut exact) = fresh(rate, offset);
            let holds = samples.iter().all(|&x| {
                meter.sample(rate, x);
                exact.chunk(&[x]) && exact.envelope(meter.Q)
            });
            tally.holds(&format!("the envelope's error at K {}", rate.K), holds);
        }
    }
}

/// 500 ones and then 31417 at code 1: q is D - 1 or more above Q, so that no smaller D would do. At
/// a K of 2^20 nothing is rounded, and Q is q.
fn widest(tally: &mut Tally) {
    let whole = Rate {
        K: 1 << 20,
        ..RATES[0]
    };
    for (rate, error) in [(&RATES[0], 42), (&whole, 0)] {
        let (mut meter, mut exact) = fresh(rate, 0);
        for x in [&[1; 500][..], &[31417]].concat() {
            meter.sample(rate, x);
            exact.chunk(&[x]);
        }
        let raised = [0, error, error + 1].map(|units| exact.envelope(meter.Q + units));
        tally.equal("the widest error", raised, [true, true, false]);
    }
}

/// One sample of 1 and a pause, at the I of each rate and a K of 2^20, with which the envelope is at
/// c_0 in that sample alone: meter and E both count it and the pause, up to I samples of that.
fn hangovers(tally: &mut Tally) {
    for (rate, I) in RATES.iter().zip([139, 1600, 3200, 6400, 9600]) {
        let rate = Rate {
            K: 1 << 20,
            ..*rate
        };
        let (mut meter, mut exact) = fresh(&rate, 0);
        let mut counts = Vec::new();
        for x in iter::once(1).chain(iter::repeat_n(0, I + 1)) {
            meter.sample(&rate, x);
            exact.chunk(&[x]);
            counts.push(meter.a[0]);
        }
        let name = format!("the hangover of code {}", rate.code);
        let expected = (1..=I as u64 + 1).chain([I as u64 + 1]);
        tally.holds(&name, expected.eq(counts));
        tally.equal(&name, exact.count(1 << 24), I as u64 + 1);
    }
}

/// What is told of openings and of meters handed in; a meter that is refused for more than its code
/// has no line.
fn lines(tally: &mut Tally) {
    let level = handed_in(16384, 1 << 30, &[4096; 8]);
    let impossible = handed_in(0, 1 << 30, &[4096; 8]);
    let records = script(&[
        Record::open(Setting::usual(4)),
        Record::Report,
        Record::open(Setting::usual(6)),
        Record::Load(level.at_code(5)),
        Record::Load(level.at_code(6)),
        Record::Load(impossible.at_code(7)),
    ]);
    let expected = "load 5 0\nload 6 2\nopen 4 0\nopen 6 1\n";
    tally.equal("codes told", codes(&records).as_deref(), Some(expected));
    tally.equal("codes of a bad record", codes(&[4, 0]), None);
}

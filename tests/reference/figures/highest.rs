//! Meters with several crossings, of which the highest is used (the customer's request L4), and
//! what `chosen` tells of them.

use super::handed_in;
use crate::chosen::chosen;
use crate::meter::{Meter, Report};
use crate::records::{script, Record};
use crate::setting::Setting;
use crate::tally::Tally;
use crate::thresholds::BUILT_IN_LENGTH;

/// What the report at a crossing has: A, C and F, the lower and the upper threshold, T.
type Crossing = ([i64; 3], usize, usize, u64);

/// Every figure.
pub fn highest(tally: &mut Tally) {
    two(tally);
    three(tally);
    exact(tally);
    exact_below(tally);
    exact_everywhere(tally);
    first_negative(tally);
    none(tally);
    nothing_chosen(tally);
}

/// Checks a meter's L and its report at each crossing, from the lowest on; that these are all; that
/// the last is the one used; and the line that `chosen` has for it.
fn row(tally: &mut Tally, name: &str, meter: Meter, L: i64, crossings: &[Crossing], line: &str) {
    let at = |&([A, C, F], lower, upper, T): &Crossing| Report {
        L,
        A,
        C,
        F,
        lower,
        upper,
        T,
        ..meter.totals()
    };
    let expected: Vec<_> = crossings.iter().map(at).collect();
    let reports = meter.places().filter_map(|j| meter.report_at(j));
    tally.equal(name, reports.collect(), expected.clone());
    let last = expected.last().cloned();
    tally.equal(&format!("{name}, used"), meter.report().ok(), last);
    let told = chosen(&script(&[Record::Load(meter), Record::Report]));
    tally.equal(&format!("{name}, chosen"), told.as_deref(), Some(line));
}

/// Two crossings far apart, so that at the one used F is too low for a T above 0.
fn two(tally: &mut Tally) {
    let mut a = [1 << 14; BUILT_IN_LENGTH];
    a[..4].fill(1 << 30);
    let meter = handed_in(1 << 30, 1 << 40, &a);
    let crossings = [
        ([40960, 19325, 0], 2, 3, 10000),
        ([106496, 84861, -65536], 10, 11, 0),
    ];
    row(tally, "two", meter, 40960, &crossings, "2 change\n");
}

/// Three crossings, each between two counts that are one doubling apart: A_j is 24576 at 0, 40960
/// at 2, 57344 at 4, and 4096 more right above each, where d_j goes from 2941 to -1155.
fn three(tally: &mut Tally) {
    let mut a = [1 << 11; BUILT_IN_LENGTH];
    a[..5].copy_from_slice(&[1 << 20, 1 << 19, 1 << 16, 1 << 15, 1 << 12]);
    let meter = handed_in(1 << 20, 1 << 26, &a);
    let crossings = [
        ([27517, 5882, -2941], 0, 1, 6079),
        ([43901, 22266, -19325], 2, 3, 379),
        ([60285, 38650, -35709], 4, 5, 23),
    ];
    row(tally, "three", meter, 24576, &crossings, "3 change\n");
}

/// A change of sign and, above it, a d_j of 0, after which d_j is negative.
fn exact(tally: &mut Tally) {
    let mut a = [512; BUILT_IN_LENGTH];
    a[..2].fill(16384);
    let meter = handed_in(32768, 1275068, &a);
    let crossings = [
        ([25731, 4096, -4096], 0, 1, 5000),
        ([46211, 24576, -24576], 3, 3, 156),
    ];
    row(tally, "zero above", meter, 21635, &crossings, "2 zero\n");
}

/// A d_0 of 0 and, above it, a change of sign.
fn exact_below(tally: &mut Tally) {
    let mut a = [1024; BUILT_IN_LENGTH];
    a[0] = 32768;
    let meter = handed_in(32768, 1275068, &a);
    let crossings = [
        ([21635, 0, 0], 0, 0, 10000),
        ([42115, 20480, -20480], 2, 3, 312),
    ];
    row(tally, "zero below", meter, 21635, &crossings, "2 change\n");
}

/// Each count a quarter of the one before, so that every d_j is 0.
fn exact_everywhere(tally: &mut Tally) {
    let a: Vec<u64> = (0..BUILT_IN_LENGTH).map(|j| 1 << (28 - 2 * j)).collect();
    let meter = handed_in(1 << 28, 1275068 << 13, &a);
    let percentages = [10000, 2500, 625, 156, 39, 9, 2, 0, 0, 0, 0, 0, 0, 0, 0];
    let at = |(j, T): (usize, u64)| {
        let C = 8192 * j as i64;
        ([21635 + C, C, -C], j, j, T)
    };
    let crossings: Vec<Crossing> = percentages.into_iter().enumerate().map(at).collect();
    row(tally, "all zero", meter, 21635, &crossings, "15 zero\n");
}

/// d_0 negative and a crossing further up, so that this is not refusal 15; and above the crossing a
/// positive d_j, after which no threshold was reached.
fn first_negative(tally: &mut Tally) {
    let meter = handed_in(65536, 1 << 21, &[65536, 8192, 8192, 256]);
    let crossings = [([32768, 11133, -12288], 1, 2, 1250)];
    row(tally, "d_0 < 0", meter, 20480, &crossings, "1 change\n");
}

/// No crossing: d_0 negative and all others positive, as far as there are any; every d_j positive.
fn none(tally: &mut Tally) {
    let rises = handed_in(65536, 1 << 21, &[65536, 32]);
    tally.equal("d_0 negative, d_1 not", rises.report(), Err(15));
    let above = handed_in(4096, 1 << 44, &[1024; BUILT_IN_LENGTH]);
    tally.equal("every d_j positive", above.report(), Err(16));
}

/// Reports that are refused have no line; a bad record leaves none at all.
fn nothing_chosen(tally: &mut Tally) {
    let found = chosen(&script(&[
        Record::Report,
        Record::open(Setting::usual(2)),
        Record::Report,
    ]));
    tally.equal("chosen for refusals", found.as_deref(), Some(""));
    tally.equal("chosen by a bad record", chosen(&[4, 0]), None);
}

//! The figures of thresholds of the customer's choosing (the customer's request L8), and what
//! `listed` tells of scripts.

use super::{handed_in, refused};
use crate::doctored::altered;
use crate::exact::Exact;
use crate::listed::listed;
use crate::meter::Meter;
use crate::rate::RATES;
use crate::records::{script, Record};
use crate::setting::{Opening, Setting};
use crate::tally::Tally;
use crate::thresholds::{changed, doubled, placed, Thresholds, BUILT_IN_LENGTH, PLACES};

/// Every figure.
pub fn thresholds(tally: &mut Tally) {
    built_in(tally);
    levels(tally);
    meters(tally);
    to_the_end(tally);
    past_end(tally);
    bounds_below_zero(tally);
    lines(tally);
}

/// Seven thresholds a unit apart from 2^22 on, then by doubling to 2^39: 24 in all.
fn longest() -> Vec<u64> {
    let close = (1 << 22)..(1 << 22) + 7;
    close.chain(doubled(17, 1 << 23)).collect()
}

/// Code 2 with these thresholds.
fn setting(list: &[u64]) -> Setting {
    Setting {
        thresholds: Thresholds::of(list),
        ..Setting::usual(2)
    }
}

/// The built-in list is the scope's thresholds and no more, and its levels are 8192 j.
fn built_in(tally: &mut Tally) {
    let list = Thresholds::BUILT_IN;
    tally.equal("built in", list, Thresholds::of(&doubled(15, 1 << 24)));
    for j in 0..BUILT_IN_LENGTH {
        tally.equal("built in, C_j", list.C_(j), Some(8192 * j as i64));
    }
    tally.equal("built in, past its end", list.C_(BUILT_IN_LENGTH), None);
}

/// C_j of single thresholds: some have the same; twice the level of 5 is less than that of 25.
fn levels(tally: &mut Tally) {
    let rows = [
        (1 << 22, -16384),
        ((1 << 22) + 1, -16384),
        (5 << 20, -13748),
        (3 << 21, -11592),
        (1 << 23, -8192),
        ((1 << 24) - 1, -2),
        (1 << 24, 0),
        (5 << 22, 2636),
        (7 << 23, 14804),
        (1 << 37, 106496),
        ((1 << 39) - 1, 122878),
        (1 << 39, 122880),
    ];
    for (c_j, C_j) in rows {
        let found = Thresholds::of(&[c_j]).C_(0);
        tally.equal(&format!("C_j of {c_j}"), found, Some(C_j));
    }
}

/// Meters handed in with lists that load and that do not, each called in every way.
fn meters(tally: &mut Tally) {
    let lengths = [0, 13, 16, 25, (1 << 32) + 15, u64::MAX];
    let of_length = |length| Thresholds {
        length,
        ..Thresholds::BUILT_IN
    };
    let not_loading = [
        doubled(14, 1 << 23),
        changed(doubled(15, 1 << 24), 7, 1 << 30),
        changed(doubled(15, 1 << 24), 1, (1 << 25) + 1),
        changed(doubled(14, 1 << 24), 13, (1 << 37) - 1),
    ];
    let lists = not_loading.iter().map(|list| Thresholds::of(list));
    let meter = handed_in(16384, 1 << 30, &[4096; 8]);
    for thresholds in lengths.into_iter().map(of_length).chain(lists) {
        refused(tally, &meter.at_thresholds(thresholds));
    }
    for list in [doubled(14, 1 << 24), doubled(15, 1 << 24), longest()] {
        let meter = meter.at_thresholds(Thresholds::of(&list));
        tally.equal("a list that loads", meter.chunk(&[1]).1, 0);
    }
}

/// Refusal 2 reads counts and hangovers up to the last of 24, and all of a length whose lowest byte
/// or word is 24.
fn to_the_end(tally: &mut Tally) {
    let (fresh, _) = Meter::open(setting(&longest()));
    let full = Meter {
        n: 9,
        a: [8; PLACES],
        ..fresh
    };
    let with = |change: &dyn Fn(&mut Meter)| altered(&full, change).refusal_2();
    let found = [
        with(&|_| ()),
        with(&|meter| meter.a[PLACES - 1] = 9),
        with(&|meter| meter.a = [10; PLACES]),
        with(&|meter| meter.h[PLACES - 1] = 1599),
        with(&|meter| meter.h[PLACES - 1] = 1601),
        with(&|meter| meter.setting.thresholds.length += 1 << 8),
        with(&|meter| meter.setting.thresholds.length += 1 << 32),
    ];
    let expected = [false, true, true, true, true, true, true];
    tally.equal("up to the end", found, expected);
}

/// Something past the end is refused, wherever; neighbours there are not compared, nor is the last
/// within the list with what is past it.
fn past_end(tally: &mut Tally) {
    let (fresh, _) = Meter::open(setting(&doubled(14, 1 << 24)));
    let full = Meter {
        n: 9,
        a: placed(&[9; 14]),
        ..fresh
    };
    tally.equal("counts to the end", full.refusal_2(), false);
    for place in [14, 20, PLACES - 1] {
        let with = |change: &dyn Fn(&mut Meter)| altered(&full, change).refusal_2();
        let found = [
            with(&|meter| meter.a[place] = 1),
            with(&|meter| meter.h[place] = 1600),
            with(&|meter| meter.setting.thresholds.places[place] = 1 << 38),
        ];
        tally.equal(&format!("past the end, {place}"), found, [true; 3]);
    }
}

/// The two bounds on A by E where powers of two are on the other side, at the first A for which
/// each holds or breaks: all samples are active, at a threshold of 0 and at one raised to D.
///
/// With 1 for the square and 4 samples the level is -8192; with 2363 and 2364 it is -2.4998; with 1
/// and 1 it is 0. Both powers move, or 2^A alone.
fn bounds_below_zero(tally: &mut Tally) {
    let rows = [
        (vec![1, 0, 0, 0], -8193, -8191),
        ([vec![1; 2363], vec![0]].concat(), -4, -1),
        (vec![1], -1, 1),
    ];
    for (samples, least, most) in rows {
        let mut exact = Exact::open(&RATES[0], 0);
        exact.chunk(&samples);
        let below = [least - 1, least].map(|A| exact.level_from_below(A, 0));
        let above = [most, most + 1].map(|A| exact.level_from_above(A, 0));
        let name = format!("bounds on A, {} samples", samples.len());
        tally.equal(&name, (below, above), ([false, true], [true, false]));
    }
}

/// What is told of openings, of meters handed in and of levels.
fn lines(tally: &mut Tally) {
    let own = Opening::from(setting(&changed(doubled(14, 1 << 24), 0, (1 << 24) + 1)));
    let level = handed_in(16384, 1 << 30, &[4096; 8]);
    let mut past = level.clone();
    past.a[PLACES - 1] = 1;
    let longer = Thresholds {
        length: 16,
        ..Thresholds::BUILT_IN
    };
    let records = script(&[
        Record::open(Setting::usual(1)),
        Record::open(Setting::usual(6)),
        Record::Open(Opening {
            margin: 0,
            ..own.clone()
        }),
        Record::Open(own),
        Record::Load(past),
        Record::Load(level.at_thresholds(longer)),
        Record::Load(level),
        Record::Report,
    ]);
    let expected = "level length 15\nload length 15 0\nload length 16 2\nload list 20 2\n\
                    load past count last 2\nopen 0 of \nopen 1 of 1\nopen 17 of 17 21\n\
                    open 21 of 21\nopen built-in 0\nopen first 16777217 21\n\
                    open last 137438953472 21\nopen length 14 21\nopen step of twice 21\n";
    tally.equal("lists told", listed(&records).as_deref(), Some(expected));
    tally.equal("lists of a bad record", listed(&[4, 0]), None);
}

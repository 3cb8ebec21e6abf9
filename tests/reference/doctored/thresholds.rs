//! Wrong answers to openings and to lists of calls with thresholds of the customer's choosing (the
//! customer's request L8).

use super::{altered, List, USUAL};
use crate::compare::agrees;
use crate::meter::{Meter, Report};
use crate::rate::RATES;
use crate::records::Record;
use crate::replay::{meter_line, report_line, spaced};
use crate::setting::{Opening, Setting};
use crate::tally::Tally;
use crate::thresholds::{changed, doubled, placed, Thresholds, BUILT_IN_LENGTH, PLACES};

/// What breaks where refusal 2 would stop the meter shown, and none is reported on.
const LOST: [&str; 2] = ["refusal 2 lets it pass", "a meter shown before it"];

/// The answers that an opening can be given.
const ANSWERS: [u32; 7] = [0, 1, 2, 17, 19, 20, 21];

/// Thresholds from a quarter of an interval on: up to 4 intervals at 2^k and 1.25 times that, then
/// by doubling up to 2^38.
pub fn fine() -> Vec<u64> {
    let close = (22..26).flat_map(|k| [1 << k, 5 << (k - 2)]);
    close.chain((26..=38).map(|k| 1 << k)).collect()
}

/// Every wrong answer.
pub fn thresholds(tally: &mut Tally) {
    openings(tally);
    unopened(tally);
    let list = quiet();
    list.breaks_showing(tally, "the right meter", &list.meter, &[]);
    counts(tally, &list);
    lists(tally, &list);
    past_end(tally, &list);
    levels(tally, &list);
    values(tally, &list);
}

/// Ones and zeros, and a pause.
fn samples() -> Vec<i16> {
    [[1, 0].repeat(60), vec![0; 180]].concat()
}

/// A list of them at code 1, so quiet that the level is below 0: the envelope comes over c_1,
/// 0.3125 interval, and not to c_3, 0.625. d_0 is positive and d_1 negative.
fn quiet() -> List {
    let setting = Setting {
        margin: 6000,
        thresholds: Thresholds::of(&fine()),
        ..USUAL
    };
    List::of_chunk(setting, &samples())
}

/// A code, a margin and thresholds with the right answer to an opening; any other is refused.
fn openings(tally: &mut Tally) {
    let (least, most) = (doubled(14, 1 << 24), doubled(18, 1 << 22));
    let wrapping = (1..13).map(|j| (1 << 63) + j);
    let wrapping: Vec<u64> = [1 << 62, 1 << 63].into_iter().chain(wrapping).collect();
    let rows = [
        (1, 21635, least.clone(), 0),
        (1, 21635, most.clone(), 0),
        (1, 21635, doubled(13, 1 << 24), 19),
        (1, 21635, doubled(25, 1 << 22), 19),
        (1, 21635, vec![], 19),
        (1, 21635, vec![7; 13], 19),
        (1, 21635, changed(most.clone(), 5, 1 << 26), 20),
        (1, 21635, changed(least.clone(), 1, (2 << 24) + 1), 20),
        (1, 21635, vec![7; 14], 20),
        (1, 21635, changed(most.clone(), 17, 1 << 40), 20),
        (1, 21635, wrapping, 21),
        (1, 21635, changed(least.clone(), 0, (1 << 24) + 1), 21),
        (1, 21635, changed(least.clone(), 13, (1 << 37) - 1), 21),
        (1, 22315, vec![], 17),
        (1, 0, vec![7; 14], 17),
        (6, 0, vec![], 1),
        (6, 21635, doubled(14, 1), 1),
    ];
    for (code, margin, list, right) in rows {
        answered(tally, code, margin, list, right);
    }
}

/// Of all the answers to an opening just this one is right.
fn answered(tally: &mut Tally, code: u8, margin: i64, list: Vec<u64>, right: u32) {
    let name = format!("code {code}, margin {margin}, {} thresholds", list.len());
    let mut script = Vec::new();
    let opening = Opening {
        margin,
        thresholds: Some(list),
        ..Opening::from(Setting::usual(code))
    };
    Record::Open(opening).write(&mut script);
    for r in ANSWERS {
        let agreed = agrees(&script, &format!("open {r}")).expect("no record is bad");
        let name = format!("open {r} for {name}");
        tally.equal(&name, agreed.failed().is_empty(), r == right);
    }
}

/// A list whose opening is refused: the meter that it leaves is of all zeros, with no list and no
/// hangovers.
fn unopened(tally: &mut Tally) {
    let thresholds = Thresholds::of(&doubled(13, 1 << 24));
    let setting = Setting {
        thresholds,
        ..USUAL
    };
    let list = List::of_chunk(setting, &[100; 10]);
    list.breaks(tally, "report 2", &[]);
    let zero = Meter::zero();
    let hung = Meter {
        h: placed(&[139; BUILT_IN_LENGTH]),
        ..zero.clone()
    };
    let rows = [
        ("a list beside 19", zero.at_thresholds(thresholds)),
        (
            "the built-in one beside 19",
            zero.at_thresholds(Thresholds::BUILT_IN),
        ),
        ("hangovers beside 19", hung),
    ];
    for (name, meter) in rows {
        list.breaks_showing(tally, name, &meter, &["the answer of all zeros"]);
    }
}

/// The meter of the list, but for counts and hangovers, which are by these thresholds, as many as
/// its own.
fn counted(list: &List, thresholds: &[u64]) -> Meter {
    let mut meter = Meter::zero().at_thresholds(Thresholds::of(thresholds));
    meter.h = meter.all(RATES[0].I);
    for x in samples() {
        meter.sample(&RATES[0], x);
    }
    Meter {
        a: meter.a,
        h: meter.h,
        ..list.meter.clone()
    }
}

/// Meters that show the right list and count by another: the powers of two, each next threshold,
/// each one before.
fn counts(tally: &mut Tally, list: &List) {
    let own = fine();
    let next = [&own[1..], &[1 << 39]].concat();
    let before = [&[1 << 21][..], &own[..20]].concat();
    let (below, above) = ("a_j against c_j + D", "a_j against c_j");
    let rows = [
        ("own", own, &[][..]),
        ("powers of two", doubled(21, 1 << 24), &[below]),
        ("the next", next, &[below]),
        ("the one before", before, &[above, "A from below"]),
    ];
    for (name, thresholds, clauses) in rows {
        let meter = counted(list, &thresholds);
        list.breaks_showing(tally, &format!("counts by {name}"), &meter, clauses);
    }
}

/// Meters that show another list than they were opened with: the built-in one, one unit off, one
/// threshold less.
fn lists(tally: &mut Tally, list: &List) {
    let own = fine();
    let shown = |thresholds: Thresholds| list.meter.at_thresholds(thresholds);
    let off = Thresholds::of(&changed(own.clone(), 20, (1 << 38) - 1));
    let less = Thresholds::of(&own[..20]);
    let with = |clauses: &[&'static str]| [&["list"][..], clauses].concat();
    let rows = [
        ("a unit off", shown(off), with(&[])),
        ("one less", shown(less), with(&LOST)),
        ("the built-in one", shown(Thresholds::BUILT_IN), with(&LOST)),
    ];
    for (name, meter, clauses) in rows {
        let name = format!("list: {name}");
        list.breaks_showing(tally, &name, &meter, &clauses);
    }
}

/// Meters with something past the end of their list.
fn past_end(tally: &mut Tally, list: &List) {
    let with = |change: &dyn Fn(&mut Meter)| altered(&list.meter, change);
    let rows = [
        ("hangovers", with(&|meter| meter.h[21..].fill(139))),
        ("a hangover", with(&|meter| meter.h[PLACES - 1] = 1)),
        ("a count", with(&|meter| meter.a[21] = 1)),
        ("counts", with(&|meter| meter.a[21..].fill(1))),
    ];
    for (name, meter) in rows {
        let name = format!("{name} past the end");
        list.breaks_showing(tally, &name, &meter, &LOST);
    }
    let threshold = with(&|meter| meter.setting.thresholds.places[21] = 1 << 39);
    let clauses = [&["list"][..], &LOST].concat();
    list.breaks_showing(tally, "a threshold past the end", &threshold, &clauses);
}

/// Reports of a level below 0 that are off: for C_j of 8192 j, which has no crossing; without the
/// sign; with 0 in its place; and three steps too high or too low, one way past what E allows.
fn levels(tally: &mut Tally, list: &List) {
    let right = list.meter.report().expect("a crossing");
    tally.holds("a level below 0", right.A < -8000);
    list.breaks(tally, &report_line(&Ok(right.clone())), &[]);
    let no_crossing = [
        "0 just where a crossing is",
        "15 just where d_0 < 0, no crossing",
    ];
    list.breaks(tally, "report 15", &no_crossing);
    let with = |A: i64| Report { A, ..right.clone() };
    let (own, below, above) = ("A at the crossing", "A from below", "A from above");
    let least = "A the margin above C_j, j in range";
    let rows = [
        (with(-right.A), &[own, above][..]),
        (with(0), &[own, above]),
        (with(right.A + 1), &[own]),
        (with(right.A + 4096), &[own, above]),
        (with(right.A - 4096), &[own, least, below]),
    ];
    for (report, clauses) in rows {
        list.breaks(tally, &report_line(&Ok(report)), clauses);
    }
}

/// A meter shown without its list, or with fifteen places for everything; levels as unsigned
/// numbers.
fn values(tally: &mut Tally, list: &List) {
    let none = [&["the values of a meter"][..], &LOST[1..]].concat();
    let shown = meter_line(&list.meter);
    let Meter { setting, a, h, .. } = &list.meter;
    let without = shown.replace(&spaced(&setting.thresholds), "");
    list.breaks_shown(tally, &without, &none);
    let cut = |line: String, places: &[u64; PLACES]| {
        line.replace(
            &spaced(places),
            &spaced(&places[..BUILT_IN_LENGTH].to_vec()),
        )
    };
    let fifteen = [&setting.thresholds.places, a, h]
        .into_iter()
        .fold(shown, cut);
    list.breaks_shown(tally, &fifteen, &none);
    let report = list.meter.report().expect("a crossing");
    let line = report_line(&Ok(report.clone()));
    let unsigned = line.replace(
        &format!(" {} {} ", report.L, report.A),
        &format!(" {} {} ", report.L as u64, report.A as u64),
    );
    list.breaks(tally, &unsigned, &["a report or a refusal"]);
}

//! Wrong answers to lists of calls and on meters handed in, to see that the check of demand 3
//! refuses each of them; wrong answers to writes, for that of the customer's request L6, and to the
//! calls of two cards, for that of L7.

mod cards;
mod margins;
mod offsets;
mod rates;
mod read_back;
mod thresholds;
mod writes;

use crate::answer;
use crate::compare::agrees;
use crate::generate::signals::{around, hum_and_exact_shout};
use crate::measurement;
use crate::meter::{Meter, Report};
use crate::records::Record;
use crate::replay::{meter_line, replay, report_line, Player};
use crate::setting::Setting;
use crate::tally::Tally;
use std::iter;

/// Code 1 with no offset and the usual margin.
const USUAL: Setting = Setting::usual(1);

/// A list of calls at code 1: an opening, chunks and blocks, a show and a report.
struct List {
    script: Vec<u8>,
    /// The lines before the show's.
    lines: String,
    meter: Meter,
}

/// The script of an opening, some calls and a show, the lines before the show's, and the meter then.
fn played(setting: Setting, calls: &[Record]) -> (Vec<u8>, String, Meter) {
    let mut player = Player::new();
    let (mut script, mut lines) = (Vec::new(), String::new());
    let opening = Record::open(setting);
    for record in iter::once(&opening).chain(calls) {
        record.write(&mut script);
        lines += &player.answer(record);
        lines += "\n";
    }
    Record::Show.write(&mut script);
    (script, lines, player.meter)
}

impl List {
    /// The list of some calls at a setting.
    fn new(setting: Setting, calls: &[Record]) -> List {
        let (mut script, lines, meter) = played(setting, calls);
        Record::Report.write(&mut script);
        List {
            script,
            lines,
            meter,
        }
    }

    /// The list of one chunk at a setting.
    fn of_chunk(setting: Setting, samples: &[i16]) -> List {
        List::new(setting, &[Record::Chunk(samples.to_vec())])
    }

    /// Checks that with these lines these clauses of demand 3 fail, and no other.
    fn fails(&self, tally: &mut Tally, name: &str, lines: &str, clauses: &[&str]) {
        let agreed = agrees(&self.script, lines).expect("no record is bad");
        tally.equal(name, &broken(&agreed)[..], clauses);
    }

    /// The same, with this line for the report.
    fn breaks(&self, tally: &mut Tally, line: &str, clauses: &[&str]) {
        let lines = format!("{}{}\n{line}\n", self.lines, meter_line(&self.meter));
        self.fails(tally, line, &lines, clauses);
    }

    /// The same, with this line for the show.
    fn breaks_shown(&self, tally: &mut Tally, line: &str, clauses: &[&str]) {
        let reported = report_line(&self.meter.report());
        let lines = format!("{}{line}\n{reported}\n", self.lines);
        self.fails(tally, line, &lines, clauses);
    }

    /// The same, with this meter shown and its own report.
    fn breaks_showing(&self, tally: &mut Tally, name: &str, meter: &Meter, clauses: &[&str]) {
        let (shown, reported) = (meter_line(meter), report_line(&meter.report()));
        let lines = format!("{}{shown}\n{reported}\n", self.lines);
        self.fails(tally, name, &lines, clauses);
    }
}

/// A value with something changed.
pub fn altered<T: Clone>(value: &T, change: &dyn Fn(&mut T)) -> T {
    let mut value = value.clone();
    change(&mut value);
    value
}

/// The clauses of the checks that failed, without what they are about.
fn broken(checks: &Tally) -> Vec<&str> {
    let names = checks.failed().iter();
    names.filter_map(|name| name.rsplit(": ").next()).collect()
}

/// Steady hum that ends in a shout: crossings at 2 and at 4.
fn hum_and_shout() -> Vec<i16> {
    [&[6; 250][..], &[52; 30]].concat()
}

/// Steady hum, louder for a while, that ends in a shout: crossings at 2, at 4 and at 6.
fn hum_rise_and_shout() -> Vec<i16> {
    [&[6; 1300][..], &[30; 90], &[170; 25]].concat()
}

/// Hum too faint for a level, with a shout at its end: d_0 is negative, and a crossing is at 2.
fn faint_hum_and_shout() -> Vec<i16> {
    [&[2; 200][..], &[13; 38]].concat()
}

/// Every wrong answer.
pub fn doctored(tally: &mut Tally) {
    numbers(tally);
    crossings(tally);
    level_above(tally);
    reports(tally);
    percentages(tally);
    percentages_at_ends(tally);
    lines(tally);
    totals(tally);
    rates::rates(tally);
    offsets::offsets(tally);
    margins::margins(tally);
    thresholds::thresholds(tally);
    writes::writes(tally);
    read_back::read_back(tally);
    cards::cards(tally);
}

/// A list for each answer, on which any other breaks two clauses: the right one's and its own.
/// Around any offset they are the same.
fn numbers(tally: &mut Tally) {
    let rows = [
        (0, "0 just where a crossing is", hum_and_shout()),
        (12, "12 just where n = 0", vec![]),
        (13, "13 just where n > 0, sq = 0", vec![0]),
        (14, "14 just where n, sq > 0, a_0 = 0", vec![1]),
        (15, "15 just where d_0 < 0, no crossing", vec![3; 100]),
        (16, "16 just where d_0 > 0, no crossing", vec![32767]),
    ];
    for (right, due, samples) in &rows {
        for offset in [0, -1, 32767] {
            let setting = Setting { offset, ..USUAL };
            let list = List::of_chunk(setting, &around(offset, samples));
            list.breaks(tally, &report_line(&list.meter.report()), &[]);
            list.breaks(tally, "report 2", &[due]);
            for (wrong, own, _) in rows[1..].iter().filter(|row| row.0 != *right) {
                let mut clauses = [*due, *own];
                clauses.sort();
                list.breaks(tally, &format!("report {wrong}"), &clauses);
            }
        }
    }
}

/// Lists with several crossings, all of them changes of sign, or the highest two with a d_j of 0.
fn crossings(tally: &mut Tally) {
    at_crossings(tally, &hum_and_shout(), &[2, 4]);
    at_crossings(tally, &hum_rise_and_shout(), &[2, 4, 6]);
    at_crossings(tally, &hum_and_exact_shout(1), &[4, 5, 6]);
}

/// The reports at all the crossings of a list: the one at the highest breaks nothing, and any other
/// just the clause that it is used (the customer's request L4).
fn at_crossings(tally: &mut Tally, samples: &[i16], places: &[usize]) {
    let list = List::of_chunk(USUAL, samples);
    let found: Vec<usize> = list.meter.crossings().collect();
    tally.equal("the crossings of a list", &found[..], places);
    for (i, &j) in places.iter().enumerate() {
        let report = list.meter.report_at(j).expect("a crossing at j");
        let highest = i + 1 == places.len();
        let clauses = ["the crossing that is used"];
        let broken = if highest { &[][..] } else { &clauses };
        list.breaks(tally, &report_line(&Ok(report)), broken);
    }
}

/// A level although d_0 is negative: refusal 15 is for no crossing at all.
fn level_above(tally: &mut Tally) {
    let list = List::of_chunk(USUAL, &faint_hum_and_shout());
    tally.holds("a negative d_0", list.meter.d(0) < Some(0));
    let level = list.meter.report_at(2).expect("a crossing at 2");
    list.breaks(tally, &report_line(&Ok(level)), &[]);
    let clauses = [
        "0 just where a crossing is",
        "15 just where d_0 < 0, no crossing",
    ];
    list.breaks(tally, "report 15", &clauses);
}

/// Reports with one thing off.
fn reports(tally: &mut Tally) {
    let list = List::of_chunk(USUAL, &hum_and_shout());
    let right = list.meter.report_at(4).expect("a crossing at 4");
    let with = |change: &dyn Fn(&mut Report)| altered(&right, change);
    let rows = [
        ("a crossing at the upper threshold", with(&|r| r.upper = 5)),
        ("the lower threshold", with(&|r| r.lower = 0)),
        ("the report's n", with(&|r| r.n += 1)),
        ("the report's s", with(&|r| r.s = -r.s)),
        ("the report's sq", with(&|r| r.sq += 1)),
        ("the report's sq", with(&|r| r.sq += 1 << 64)),
        ("the report's a_j", with(&|r| r.a[14] += 1)),
        ("the report's a_j", with(&|r| r.a = list.meter.h)),
        ("L at the crossing", with(&|r| r.L += 1)),
        ("A at the crossing", with(&|r| r.A += 1)),
        ("C at the crossing", with(&|r| r.C += 1)),
        ("F at the crossing", with(&|r| r.F += 1)),
    ];
    for (clause, report) in rows {
        list.breaks(tally, &report_line(&Ok(report)), &[clause]);
    }
}

/// Reports whose T is off: one less and one more, none, the least that F allows, past the whole.
fn percentages(tally: &mut Tally) {
    let list = List::of_chunk(USUAL, &hum_and_shout());
    let right = list.meter.report().expect("a crossing");
    let rows = [
        (right.T - 1, &["no larger T"][..]),
        (right.T + 1, &["T is 0 or not above F"]),
        (0, &["no larger T"]),
        (1, &["no larger T"]),
        (10001, &["T from 0 to 10000", "T is 0 or not above F"]),
    ];
    for (T, clauses) in rows {
        let report = Report { T, ..right.clone() };
        list.breaks(tally, &report_line(&Ok(report)), clauses);
    }
}

/// A meter with `a` of its n samples active at every threshold, and a crossing.
///
/// A_j is the same for every j, so that F is lev(a) - lev(n).
fn active(n: u64, a: u64) -> Meter {
    let (fresh, _) = Meter::open(Setting::usual(2));
    Meter {
        n,
        sq: 64 * u128::from(a),
        a: fresh.all(a),
        ..fresh
    }
}

/// Right and wrong T at the ends of the range, where `a` of n samples are active, with the clauses
/// that the wrong ones break.
fn percentages_at_ends(tally: &mut Tally) {
    let rows = [
        (10001, 1, -54427, 0, &[][..]),
        (10001, 1, -54427, 1, &["T is 0 or not above F"]),
        (10000, 1, -54426, 0, &["no larger T"]),
        (10000, 1, -54426, 1, &[]),
        (10000, 1, -54426, 2, &["T is 0 or not above F"]),
        (10000, 9999, -1, 9998, &["no larger T"]),
        (10000, 9999, -1, 9999, &[]),
        (10000, 9999, -1, 10000, &["T is 0 or not above F"]),
        (10000, 10000, 0, 9999, &["no larger T"]),
        (10000, 10000, 0, 10000, &[]),
    ];
    for (n, a, F, T, clauses) in rows {
        let meter = active(n, a);
        let right = meter.report().expect("a crossing");
        tally.equal(&format!("{a} of {n} samples active, F"), right.F, F);
        let all = answer::clauses(&meter, &Ok(Report { T, ..right }));
        let broken = all.into_iter().filter(|&(_, holds)| !holds);
        let broken: Vec<&str> = broken.map(|(clause, _)| clause).collect();
        tally.equal(&format!("F {F}, T {T}"), &broken[..], clauses);
    }
}

/// Lines with more than a refusal on them, and with less or more than a whole report.
fn lines(tally: &mut Tally) {
    let list = List::of_chunk(USUAL, &hum_and_shout());
    let whole = report_line(&list.meter.report());
    let (less, _) = whole.rsplit_once(' ').expect("more than a word");
    let more = format!("{whole} 0");
    for line in ["report", "report 0", "report 12 0", less, &more] {
        list.breaks(tally, line, &["a report or a refusal"]);
    }
}

/// Measurements that are not read back: the report has another n or another margin than the meter
/// shown after it, or that meter has another offset or another margin than it was opened with.
fn totals(tally: &mut Tally) {
    let samples = hum_and_shout();
    let mut script = Vec::new();
    measurement::write(USUAL, &samples, &mut script);
    let right = replay(&script);
    let wrong = right.replace("report 0 280 ", "report 0 281 ");
    let read =
        |printed: &str| measurement::read(&mut printed.lines(), USUAL, samples.len()).is_some();
    tally.equal("a measurement read back", read(&right), true);
    tally.equal("one with another n", read(&wrong), false);
    let moved = right.replace("meter 1 0 ", "meter 1 1 ");
    tally.equal("one with an offset", read(&moved), false);
    let told = right.replace(" 21635 0\n", " 21634 0\n");
    tally.equal("one that tells another margin", read(&told), false);
    let held = told.replace("meter 1 0 21635 ", "meter 1 0 21634 ");
    tally.equal("one with another margin", read(&held), false);
}

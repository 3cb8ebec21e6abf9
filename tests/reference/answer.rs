//! Demand 3's "a report on that meter is the scope's report": clauses on a meter and an answer.
//!
//! No crossing is searched for: a report tells the place of its own, which is its upper threshold.
//! Nor is T searched for: the T that a report tells is tried against what marks the right one.

use crate::meter::{Meter, Report};
use crate::percent::{difference, WHOLE};
use crate::setting::marked;

/// A clause in words, and whether it holds.
pub type Clause = (&'static str, bool);

/// Every clause on a meter that refusal 2 lets pass and the report or the refusal given for it.
pub fn clauses(meter: &Meter, answer: &Result<Report, u32>) -> Vec<Clause> {
    match answer {
        Ok(report) => [&numbers(meter, 0)[..], &fields(meter, report)].concat(),
        Err(r) => numbers(meter, *r).to_vec(),
    }
}

/// Each number is given where its condition holds and nowhere else; one of the conditions always
/// holds (the customer's scope, "Why a call is refused").
fn numbers(meter: &Meter, given: u32) -> [Clause; 6] {
    let started = meter.n > 0;
    let heard = started && meter.sq > 0;
    let active = heard && meter.a[0] > 0;
    let crossed = active && meter.crossings().next().is_some();
    let no_crossing = |sign| active && !crossed && meter.d(0).map(i64::signum) == Some(sign);
    let rows = [
        (0, "0 just where a crossing is", crossed),
        (12, "12 just where n = 0", !started),
        (13, "13 just where n > 0, sq = 0", started && !heard),
        (14, "14 just where n, sq > 0, a_0 = 0", heard && !active),
        (15, "15 just where d_0 < 0, no crossing", no_crossing(-1)),
        (16, "16 just where d_0 > 0, no crossing", no_crossing(1)),
    ];
    rows.map(|(r, clause, condition)| (clause, (given == r) == condition))
}

/// The report is the one at a crossing, the one that is used, which is the highest, at the margin of
/// the meter (the customer's scope, "The report"; the customer's requests L4 and L5).
fn fields(meter: &Meter, report: &Report) -> Vec<Clause> {
    let j = report.upper;
    let at_j = "a crossing at the upper threshold";
    let Some(expected) = meter.report_at(j) else {
        return vec![(at_j, false)];
    };
    let at_crossing = [
        (at_j, true),
        ("the crossing that is used", meter.uses_crossing(j)),
        ("the report's n", report.n == meter.n),
        ("the report's s", report.s == meter.s),
        ("the report's sq", report.sq == meter.sq),
        ("the report's a_j", report.a == meter.a),
        ("L at the crossing", report.L == expected.L),
        ("A at the crossing", report.A == expected.A),
        ("C at the crossing", report.C == expected.C),
        ("F at the crossing", report.F == expected.F),
        ("the lower threshold", report.lower == expected.lower),
        ("the report's margin", report.margin == meter.setting.margin),
        ("the mark", report.mark == marked(meter.setting.margin)),
    ];
    [&at_crossing[..], &percentage(report.T, expected.F)].concat()
}

/// T is from 0 to 10000; where it is above 0, its difference is not above F; any larger one up to
/// 10000 has a difference above F (the customer's request L1).
fn percentage(T: u64, F: i64) -> [Clause; 3] {
    let not_above = |T| difference(T).is_some_and(|difference| difference <= F);
    let none_larger = (1..=WHOLE).all(|larger| larger <= T || !not_above(larger));
    [
        ("T from 0 to 10000", T <= WHOLE),
        ("T is 0 or not above F", T == 0 || not_above(T)),
        ("no larger T", none_larger),
    ]
}

//! Wrong answers to openings and to lists of calls at a margin (the customer's request L5).

use super::{altered, List, USUAL};
use crate::compare::agrees;
use crate::meter::{Meter, Report};
use crate::records::Record;
use crate::replay::{meter_line, report_line};
use crate::setting::Setting;
use crate::tally::Tally;

/// A margin in the range that has the mark.
const MARGIN: i64 = 20000;

/// What breaks where the meter shown has a margin outside the range, and none is reported on.
const LOST: [&str; 3] = [
    "margin",
    "refusal 2 lets it pass",
    "a meter shown before it",
];

/// A shout and a pause at a margin: where opening accepts it, a level, as A_j is above C_j by more
/// than 22314 at 3, and below it at 6.
fn list(margin: i64) -> List {
    let samples = [&[120; 50][..], &[0; 200]].concat();
    List::of_chunk(Setting { margin, ..USUAL }, &samples)
}

/// Every wrong answer.
pub fn margins(tally: &mut Tally) {
    openings(tally);
    unopened(tally);
    marks(tally);
    let list = list(MARGIN);
    list.breaks_showing(tally, "the right meter", &list.meter, &[]);
    reports(tally, &list);
    meters(tally, &list);
    values(tally, &list);
}

/// Openings with the right answer to each; any other is refused.
fn openings(tally: &mut Tally) {
    let rows = [
        (1, 1, 0),
        (1, 22314, 0),
        (1, 0, 17),
        (1, 22315, 17),
        (1, -1, 17),
        (1, i64::MIN, 17),
        (1, 21635 + (1 << 32), 17),
        (4, 1, 0),
        (5, 22314, 0),
        (5, 0, 17),
        (6, 21635, 1),
        (6, 0, 1),
        (0, 22315, 1),
    ];
    for (code, margin, right) in rows {
        let mut script = Vec::new();
        let setting = Setting {
            code,
            margin,
            ..USUAL
        };
        Record::open(setting).write(&mut script);
        for r in [0, 1, 2, 17] {
            let agreed = agrees(&script, &format!("open {r}")).expect("no record is bad");
            let name = format!("open {r} for code {code}, margin {margin}");
            tally.equal(&name, agreed.failed().is_empty(), r == right);
        }
    }
}

/// A list whose opening is refused: the meter that it leaves is of all zeros, and refuses all.
fn unopened(tally: &mut Tally) {
    let list = list(0);
    let all_zeros = ["the answer of all zeros"];
    list.breaks(tally, "report 2", &[]);
    list.breaks(tally, "report 12", &all_zeros);
    let held = Meter::zero().at_margin(21635);
    list.breaks_showing(tally, "a margin beside 17", &held, &all_zeros);
    let taken = list.lines.replace("chunk 2", "chunk 0");
    let lines = format!("{taken}{}\nreport 2\n", meter_line(&list.meter));
    list.fails(tally, "a chunk taken after 17", &lines, &all_zeros);
}

/// Marks that are not the margin's, at the bounds of the mark and of the range.
fn marks(tally: &mut Tally) {
    for margin in [1, 20954, 20955, 22314] {
        let list = list(margin);
        let right = list.meter.report().expect("a crossing");
        tally.equal("the mark of a list", right.mark, margin < 20955);
        let wrong = Report {
            mark: !right.mark,
            ..right.clone()
        };
        list.breaks(tally, &report_line(&Ok(right)), &[]);
        list.breaks(tally, &report_line(&Ok(wrong)), &["the mark"]);
    }
}

/// Reports with the margin or the mark off, and ones made with the usual margin: one level, or all,
/// or the margin and the mark too.
fn reports(tally: &mut Tally, list: &List) {
    let right = list.meter.report().expect("a crossing");
    let usual = list.meter.at_margin(21635).report().expect("a crossing");
    let with = |change: &dyn Fn(&mut Report)| altered(&right, change);
    let all_but_told = Report {
        margin: right.margin,
        mark: right.mark,
        ..usual.clone()
    };
    let levels = [
        "A at the crossing",
        "C at the crossing",
        "F at the crossing",
    ];
    let (told, percent) = (
        ["the report's margin", "the mark"],
        ["T is 0 or not above F"],
    );
    let rows = [
        (with(&|r| r.margin += 1), told[..1].to_vec()),
        (with(&|r| r.margin = 21635), told[..1].to_vec()),
        (with(&|r| r.mark = false), told[1..].to_vec()),
        (with(&|r| r.A = usual.A), levels[..1].to_vec()),
        (with(&|r| r.C = r.A - 21635), levels[1..2].to_vec()),
        (with(&|r| r.F = usual.F), levels[2..].to_vec()),
        (all_but_told, [&levels[..], &percent].concat()),
        (usual.clone(), [&levels[..], &told, &percent].concat()),
    ];
    for (report, clauses) in rows {
        list.breaks(tally, &report_line(&Ok(report)), &clauses);
    }
}

/// Meters that hold another margin than they were opened with, and report at it.
fn meters(tally: &mut Tally, list: &List) {
    for margin in [21635, MARGIN - 1, MARGIN + 1] {
        let name = format!("margin {margin} for {MARGIN}");
        let meter = list.meter.at_margin(margin);
        list.breaks_showing(tally, &name, &meter, &["margin"]);
    }
    let outside = list.meter.at_margin(MARGIN + (1 << 32));
    list.breaks_showing(tally, "a margin outside the range", &outside, &LOST);
}

/// A meter shown without its margin, and with margin and offset exchanged; a report whose margin and
/// mark are exchanged, and one whose mark is neither 0 nor 1.
fn values(tally: &mut Tally, list: &List) {
    let shown = meter_line(&list.meter);
    let less = shown.replace("meter 1 0 20000 ", "meter 1 0 ");
    list.breaks_shown(
        tally,
        &less,
        &["the values of a meter", "a meter shown before it"],
    );
    let exchanged = shown.replace("meter 1 0 20000 ", "meter 1 20000 0 ");
    list.breaks_shown(tally, &exchanged, &[&["offset"][..], &LOST].concat());
    let reported = report_line(&list.meter.report());
    for end in [" 1 20000", " 20000 2", " 20000 -1"] {
        let line = reported.replace(" 20000 1", end);
        list.breaks(tally, &line, &["a report or a refusal"]);
    }
}

//! Wrong answers to a list of calls at a standing offset (the customer's request L2).

use super::{altered, List};
use crate::block;
use crate::meter::{Meter, Report};
use crate::records::Record;
use crate::replay::{meter_line, report_line};
use crate::setting::Setting;
use crate::tally::Tally;

/// The offset of the list, and what it opens with.
const OFFSET: i16 = -20000;
const SETTING: Setting = Setting {
    offset: OFFSET,
    ..Setting::usual(1)
};

/// The samples of its three calls, of sizes 10, 3000 and 45000.
const CALLS: [[i16; 100]; 3] = [[-19990; 100], [-17000; 100], [25000; 100]];

/// What breaks where squares and envelope are wrong, with counts too large and with counts too small.
const TOO_ACTIVE: &[&str] = &["sq", "Q against q", "a_j against c_j", "A from below"];
const TOO_QUIET: &[&str] = &["sq", "Q against q", "a_j against c_j + D", "A from below"];

/// A chunk, a block, the same block again, which is refused, a chunk, and one of no samples.
fn list() -> List {
    let calls = [
        Record::Chunk(CALLS[0].to_vec()),
        Record::Block(block::make(1, 100, &CALLS[1])),
        Record::Block(block::make(1, 100, &CALLS[1])),
        Record::Chunk(CALLS[2].to_vec()),
        Record::Chunk(Vec::new()),
    ];
    List::new(SETTING, &calls)
}

/// The meter after the calls, each taken at an offset of its own.
fn taken_at(offsets: [i16; 3]) -> Meter {
    let mut meter = Meter::open(SETTING).0;
    for (offset, samples) in offsets.into_iter().zip(CALLS) {
        (meter, _) = meter.at_offset(offset).chunk(&samples);
    }
    meter
}

/// The same, with the right offset kept.
fn kept(offsets: [i16; 3]) -> Meter {
    taken_at(offsets).at_offset(OFFSET)
}

/// The right meter but for what it takes for x - o.
fn taking(right: &Meter, difference: impl Fn(i16) -> i16) -> Meter {
    let samples: Vec<i16> = CALLS.concat().into_iter().map(difference).collect();
    let (meter, _) = Meter::open(Setting::usual(1)).0.chunk(&samples);
    Meter {
        setting: right.setting,
        s: right.s,
        ..meter
    }
}

/// Every wrong answer.
pub fn offsets(tally: &mut Tally) {
    let list = list();
    list.breaks_showing(tally, "the right meter", &list.meter, &[]);
    fields(tally, &list);
    differences(tally, &list);
    calls(tally, &list);
    reports(tally, &list);
    refused(tally, &list);
    values(tally, &list);
}

/// The sum of x - o, which is not s.
fn sum_of_differences(right: &Meter) -> i64 {
    right.s - right.n as i64 * i64::from(right.setting.offset)
}

/// Meters with one thing of the samples as they are, or of x - o, that should be of the other.
fn fields(tally: &mut Tally, list: &List) {
    let with = |change: &dyn Fn(&mut Meter)| altered(&list.meter, change);
    let raw = kept([0; 3]);
    let s_moved = with(&|meter| meter.s = sum_of_differences(meter));
    let sq_raw = with(&|meter| meter.sq = raw.sq);
    let envelope_raw = Meter {
        sq: list.meter.sq,
        ..raw
    };
    let forgotten = list.meter.at_offset(0);
    let rows = [
        ("s of x - o", s_moved, &["s"][..]),
        ("sq of x", sq_raw, &["sq", "A from below"]),
        ("the envelope of x", envelope_raw, &TOO_ACTIVE[1..]),
        ("no offset in the end", forgotten, &["offset"]),
    ];
    for (name, meter, clauses) in rows {
        list.breaks_showing(tally, name, &meter, clauses);
    }
}

/// Meters that work on something else than x - o.
fn differences(tally: &mut Tally, list: &List) {
    let wrapped = taking(&list.meter, |x| x.wrapping_sub(OFFSET));
    let clipped = taking(&list.meter, |x| x.saturating_sub(OFFSET));
    let rectified = taking(&list.meter, |x| x.abs() - OFFSET.abs());
    let rows = [
        ("x", kept([0; 3]), TOO_ACTIVE),
        ("x + o", kept([-OFFSET; 3]), TOO_ACTIVE),
        ("x - o wrapped in 16 bits", wrapped, TOO_QUIET),
        ("x - o clipped to 16 bits", clipped, TOO_QUIET),
        ("|x| - |o|", rectified, TOO_QUIET),
    ];
    for (name, meter, clauses) in rows {
        list.breaks_showing(tally, name, &meter, clauses);
    }
}

/// Meters whose opening or one kind of call forgets the offset, for itself or for good.
fn calls(tally: &mut Tally, list: &List) {
    let lost = |clauses| [&["offset"][..], clauses].concat();
    let rows = [
        ("opening", taken_at([0; 3]), lost(TOO_ACTIVE)),
        ("block", kept([OFFSET, 0, OFFSET]), TOO_ACTIVE.to_vec()),
        ("chunk", kept([0, OFFSET, 0]), TOO_ACTIVE.to_vec()),
        ("refusal", taken_at([OFFSET, OFFSET, 0]), lost(TOO_QUIET)),
    ];
    for (call, meter, clauses) in rows {
        let name = format!("offset forgotten by the {call}");
        list.breaks_showing(tally, &name, &meter, &clauses);
    }
}

/// A report with the sum of x - o.
fn reports(tally: &mut Tally, list: &List) {
    let report = Report {
        s: sum_of_differences(&list.meter),
        ..list.meter.report().expect("a crossing")
    };
    list.breaks(tally, &report_line(&Ok(report)), &["the report's s"]);
}

/// The calls on a meter whose envelopes are above 2^39 refused with 2, as if that were the bound.
fn refused(tally: &mut Tally, list: &List) {
    let calls = list
        .lines
        .replace("chunk 0\nchunk 0\n", "chunk 0\nchunk 2\n");
    let lines = format!("{calls}{}\nreport 2\n", meter_line(&list.meter));
    let clauses = ["acceptance", "0 just where a crossing is"];
    list.fails(tally, "2 for envelopes above 2^39", &lines, &clauses);
}

/// A meter shown without its offset.
fn values(tally: &mut Tally, list: &List) {
    let shown = meter_line(&list.meter).replace("meter 1 -20000 ", "meter 1 ");
    list.breaks_shown(
        tally,
        &shown,
        &["the values of a meter", "a meter shown before it"],
    );
}

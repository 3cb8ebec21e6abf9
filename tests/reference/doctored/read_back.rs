//! Wrong answers to the calls that read a written block back, and to a write from the contents of a
//! sound block (the customer's request L6).

use super::writes::{exchanged, fails, sealed, to_accept};
use crate::block;
use crate::meter::Meter;
use crate::records::{script, Record, Writing};
use crate::replay::{replay, write_line};
use crate::setting::Setting;
use crate::tally::Tally;
use crate::written::claims;

/// Every wrong answer.
pub fn read_back(tally: &mut Tally) {
    wrong(tally);
    unclaimed(tally);
    afresh(tally);
    not_afresh(tally);
}

/// A check with a code, then a block and a chunk of samples, each on a meter.
struct Calls {
    code: u32,
    bytes: Vec<u8>,
    samples: Vec<i16>,
    meters: [Meter; 2],
}

impl Calls {
    /// Those that read back what is written, both on one meter.
    fn new() -> Calls {
        let writing = to_accept();
        let (_, bytes) = writing.answer();
        let meter = Meter {
            n: writing.before,
            ..Meter::open(Setting::usual(writing.code as u8)).0
        };
        Calls {
            code: writing.code,
            bytes,
            samples: writing.samples,
            meters: [meter.clone(), meter],
        }
    }

    /// The write, and the calls after it.
    fn records(self) -> [Record; 8] {
        let [first, second] = self.meters;
        [
            Record::Write(to_accept()),
            Record::Check(self.code, self.bytes.clone()),
            Record::Load(first),
            Record::Block(self.bytes),
            Record::Show,
            Record::Load(second),
            Record::Chunk(self.samples),
            Record::Show,
        ]
    }
}

/// The right lines for these, and ones with the check, a call or a meter shown off; a line less.
fn wrong(tally: &mut Tally) {
    let records = Calls::new().records();
    let right = replay(&script(&records));
    let as_chunk = "a block as a chunk";
    let rows = [
        ("check 0", "check 0", None),
        ("check 0", "check 5", Some("the check of a written block")),
        ("block 0", "block 5", Some(as_chunk)),
        ("chunk 0", "chunk 2", Some(as_chunk)),
        ("block 0\nmeter 2 0 ", "block 0\nmeter 2 1 ", Some(as_chunk)),
        ("chunk 0\nmeter 2 0 ", "chunk 0\nmeter 3 0 ", Some(as_chunk)),
    ];
    for (line, wrong, clause) in rows {
        let lines = right.replace(line, wrong);
        fails(tally, wrong, &records, &lines, clause.as_slice());
    }
    let (less, _) = right.rsplit_once("meter").expect("a meter shown");
    fails(tally, "a line less", &records, less, &["7 for 8"]);
}

/// Calls with how many checks and how many pairs of them are claimed to read back what is written:
/// those that do; a check with another code; meters with another code, another n, a margin that 2
/// refuses; another second meter; other samples; another block.
fn unclaimed(tally: &mut Tally) {
    let with = |change: &dyn Fn(&mut Calls)| {
        let mut calls = Calls::new();
        change(&mut calls);
        calls
    };
    let both =
        |change: &dyn Fn(&mut Meter)| with(&|calls| calls.meters.iter_mut().for_each(change));
    let other = |calls: &mut Calls| {
        calls.bytes = sealed(&|b| b.swap(12, 13));
        calls.samples = block::samples(&calls.bytes);
    };
    let rows = [
        (Calls::new(), [1, 1]),
        (with(&|calls| calls.code = 1), [0, 1]),
        (both(&|meter| meter.setting.code = 3), [1, 0]),
        (both(&|meter| meter.n += 1), [1, 0]),
        (both(&|meter| meter.setting.margin = 0), [1, 0]),
        (with(&|calls| calls.meters[1].n += 1), [1, 0]),
        (with(&|calls| calls.samples[0] = 0), [1, 0]),
        (with(&other), [0, 0]),
    ];
    for (calls, times) in rows {
        let script = script(&calls.records());
        let claims = claims(&script, &replay(&script)).expect("no record is bad");
        tally.equal("fails in calls", claims.tally.failed(), &[]);
        let names = ["a written block checked", "a written block read back"];
        let found = names.map(|name| claims.occurred[name]);
        tally.equal("claimed of calls", found, times);
    }
}

/// A sound block checked and written from its own contents: right, with a sample big-endian, and
/// refused.
fn afresh(tally: &mut Tally) {
    let writing = to_accept();
    let (_, bytes) = writing.answer();
    let other = sealed(&|b| b.swap(12, 13));
    let clauses = [&["its own bytes"][..], &exchanged(18, 0)].concat();
    let rows = [
        (write_line(0, &bytes), &[][..]),
        (write_line(0, &other), &["its own bytes", "the samples"]),
        (write_line(18, &[165; 512]), &clauses),
    ];
    let records = [Record::Check(2, bytes), Record::Write(writing)];
    for (line, clauses) in rows {
        let lines = format!("check 0\n{line}\n");
        fails(tally, "written afresh", &records, &lines, clauses);
    }
}

/// Writes after a check, two of them afresh, and those that are not: of other contents than the
/// block's, into a longer buffer, of a block that is not sound, of one whose samples end past 2^48.
fn not_afresh(tally: &mut Tally) {
    let own = |code, before, samples: &[i16]| {
        let bytes = block::make(code, before, samples);
        (bytes, Writing::new(u32::from(code), before, samples, 512))
    };
    let (bytes, writing) = own(2, 7, &[1]);
    let other = |code, before, x, length| {
        let writing = Writing::new(code, before, &[x], length);
        (bytes.clone(), writing)
    };
    let rows = [
        ((bytes.clone(), writing), 1),
        (other(3, 7, 1, 512), 0),
        (other(2, 8, 1, 512), 0),
        (other(2, 7, 2, 512), 0),
        (other(2, 7, 1, 513), 0),
        (own(2, 7, &[]), 0),
        (own(5, 7, &[1]), 1),
        (own(6, 7, &[1]), 0),
        (own(2, 1 << 48, &[1]), 0),
    ];
    for ((bytes, writing), times) in rows {
        let script = script(&[Record::Check(2, bytes), Record::Write(writing)]);
        let claims = claims(&script, &replay(&script)).expect("no record is bad");
        tally.equal("fails in a write", claims.tally.failed(), &[]);
        let found = claims.occurred["a sound block written afresh"];
        tally.equal("claimed of a write", found, times);
    }
}

//! The customer's request L6 checked over the printed answers to a script: what each write answers
//! and leaves in its buffer, and that a block reads back. Blocks are read here, and none is made.

mod write;

use crate::block;
use crate::meter::Meter;
use crate::printed;
use crate::records::{read, Record, Writing};
use crate::tally::Tally;
use std::collections::BTreeMap;
use write::{is_afresh, Write, KINDS};

/// What must occur beside the kinds of writes.
const CHECKED: &str = "a written block checked";
const READ_BACK: &str = "a written block read back";
const AFRESH: &str = "a sound block written afresh";

/// A record and the line printed for it.
type Played<'a> = (&'a Record, &'a str);

/// A meter handed in, a call on it with its answer, and what was shown after it.
struct Call<'a> {
    meter: &'a Meter,
    record: &'a Record,
    answer: &'a str,
    left: &'a str,
}

impl<'a> Call<'a> {
    /// The call that three records are, if they are one.
    fn of(played: &[Played<'a>]) -> Option<Call<'a>> {
        match *played {
            [(Record::Load(meter), _), (record, answer), (Record::Show, left)] => Some(Call {
                meter,
                record,
                answer,
                left,
            }),
            _ => None,
        }
    }

    /// Whether the meter is one for a sound block: it has the code and the number before for its n,
    /// and 2 does not refuse it.
    fn suits(&self, bytes: &[u8]) -> bool {
        block::code(bytes) == u32::from(self.meter.setting.code)
            && block::before(bytes) == self.meter.n
            && !self.meter.refusal_2()
    }
}

/// The claims of the request on the lines so far.
pub struct Claims {
    pub tally: Tally,
    /// How often each thing occurred that must.
    pub occurred: BTreeMap<&'static str, u64>,
    /// The block that the last write wrote, if it is a sound one.
    block: Option<Vec<u8>>,
}

impl Claims {
    /// Nothing claimed yet.
    fn new() -> Claims {
        let kinds = KINDS.iter().map(|&(name, _)| name);
        let names = kinds.chain([CHECKED, READ_BACK, AFRESH]);
        Claims {
            tally: Tally::new(),
            occurred: names.map(|name| (name, 0)).collect(),
            block: None,
        }
    }

    /// Counts one more of a thing that must occur.
    fn occurs(&mut self, name: &'static str) {
        *self.occurred.entry(name).or_default() += 1;
    }

    /// Counts a clause on the record at a place.
    fn holds(&mut self, k: usize, clause: &str, condition: bool) {
        let name = format!("record {}: {clause}", k + 1);
        self.tally.holds(&name, condition);
    }

    /// Every claim on the record at a place and on those after it.
    fn at(&mut self, k: usize, played: &[Played]) {
        match &played[k..] {
            [(Record::Write(writing), line), ..] => self.write(k, writing, line),
            [(Record::Check(code, bytes), line), rest @ ..] => {
                self.checked(k, *code, bytes, line);
                if let [(Record::Write(writing), line), ..] = rest {
                    self.afresh(k + 1, writing, bytes, line);
                }
            }
            rest if rest.len() >= 6 => self.read_back(k, &rest[..3], &rest[3..6]),
            _ => (),
        }
    }

    /// The clauses on a write, and its kinds.
    fn write(&mut self, k: usize, writing: &Writing, line: &str) {
        let answer = printed::write(line);
        self.holds(k, "a number and a buffer", answer.is_some());
        let Some((r, buffer)) = answer else {
            return;
        };
        let write = Write { writing, r, buffer };
        for (clause, condition) in write.clauses() {
            self.holds(k, &format!("{writing}: {clause}"), condition);
        }
        for (name, _) in KINDS.iter().filter(|(_, is_kind)| is_kind(&write)) {
            self.occurs(name);
        }
        self.block = (r == 0 && block::sound(&write.buffer)).then_some(write.buffer);
    }

    /// The host's check of the block last written, with its own code, finds nothing wrong.
    fn checked(&mut self, k: usize, code: u32, bytes: &[u8], line: &str) {
        if self.block.as_deref() == Some(bytes) && block::code(bytes) == code {
            self.occurs(CHECKED);
            self.holds(k, "the check of a written block", line == "check 0");
        }
    }

    /// A sound block whose samples end at 2^48 or below, written afresh from its own contents, has
    /// its own bytes (the customer's request L6).
    fn afresh(&mut self, k: usize, writing: &Writing, bytes: &[u8], line: &str) {
        if is_afresh(writing, bytes) {
            self.occurs(AFRESH);
            let own = printed::write(line) == Some((0, bytes.to_vec()));
            self.holds(k, "its own bytes", own);
        }
    }

    /// The block last written is taken by a meter that suits it, and leaves of it what a chunk of
    /// the same samples leaves (the customer's request L6).
    fn read_back(&mut self, k: usize, first: &[Played], second: &[Played]) {
        let (Some(first), Some(second)) = (Call::of(first), Call::of(second)) else {
            return;
        };
        let (Record::Block(bytes), Record::Chunk(samples)) = (first.record, second.record) else {
            return;
        };
        let written = self.block.as_ref() == Some(bytes) && block::samples(bytes) == *samples;
        if written && first.meter == second.meter && first.suits(bytes) {
            self.occurs(READ_BACK);
            let taken = (first.answer, second.answer) == ("block 0", "chunk 0");
            self.holds(k, "a block as a chunk", taken && first.left == second.left);
        }
    }
}

/// The claims on the lines that a program printed for a script; None where the script has a bad
/// record.
pub fn claims(script: &[u8], output: &str) -> Option<Claims> {
    let (records, bad) = read(script);
    if bad {
        return None;
    }
    let lines: Vec<&str> = output.lines().collect();
    let mut claims = Claims::new();
    let tally = &mut claims.tally;
    tally.equal("one line for each record", lines.len(), records.len());
    let played: Vec<Played> = records.iter().zip(lines).collect();
    for k in 0..played.len() {
        claims.at(k, &played);
    }
    Some(claims)
}

/// The same with a check for each thing that must occur, and a line for each that did.
pub fn written(script: &[u8], output: &str) -> Option<Tally> {
    let claims = claims(script, output)?;
    let mut tally = claims.tally;
    for (name, times) in claims.occurred {
        tally.shown(&format!("{name}: {times} times"), times > 0);
    }
    Some(tally)
}

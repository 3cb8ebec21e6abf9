//! Replay: recorded calls, made again, with a line for each.

use crate::block;
use crate::fields::Value;
use crate::level::lev;
use crate::meter::{Meter, Report};
use crate::records::{read, Record, Writing};

/// The byte of which a lent buffer is full before a block is written into it.
pub const FILL: u8 = 165;

/// The meter that the records act on.
pub struct Player {
    pub meter: Meter,
}

impl Player {
    /// Starts with the meter of all zeros.
    pub fn new() -> Player {
        Player {
            meter: Meter::zero(),
        }
    }

    /// Plays one record and gives its line.
    pub fn answer(&mut self, record: &Record) -> String {
        match record {
            Record::Open(opening) => format!("open {}", self.keep(Meter::open(opening.setting()))),
            Record::Chunk(samples) => format!("chunk {}", self.keep(self.meter.chunk(samples))),
            Record::Block(bytes) => format!("block {}", self.keep(self.meter.block(bytes))),
            Record::Report => report_line(&self.meter.report()),
            Record::Load(meter) => {
                self.meter = meter.clone();
                "load".to_string()
            }
            Record::Show => meter_line(&self.meter),
            Record::Lev(number) => match lev(*number) {
                Some(level) => format!("lev {level}"),
                None => "lev none".to_string(),
            },
            Record::Check(code, bytes) => format!("check {}", block::host(*code, bytes)),
            Record::Write(writing) => {
                let (r, buffer) = writing.answer();
                write_line(r, &buffer)
            }
        }
    }

    /// Keeps the meter handed back and gives the number beside it.
    fn keep(&mut self, (meter, r): (Meter, u32)) -> u32 {
        self.meter = meter;
        r
    }
}

impl Writing {
    /// The answer to the write, and what it leaves in the buffer (the customer's request L6).
    pub fn answer(&self) -> (u32, Vec<u8>) {
        let mut buffer = vec![FILL; usize::from(self.length)];
        let r = block::write(self.code, self.before, &self.samples, &mut buffer);
        (r, buffer)
    }
}

/// The line of a write: its answer and, where the buffer has bytes, these in hexadecimal.
pub fn write_line(r: u32, buffer: &[u8]) -> String {
    let mut line = format!("write {r}");
    if !buffer.is_empty() {
        line += " ";
    }
    for byte in buffer {
        line += &format!("{byte:02x}");
    }
    line
}

/// The line of a report, with all that it holds, or of its refusal.
pub fn report_line(answer: &Result<Report, u32>) -> String {
    match answer {
        Ok(report) => format!("report 0{}", spaced(report)),
        Err(r) => format!("report {r}"),
    }
}

/// The line of a show: the values of a meter.
pub fn meter_line(meter: &Meter) -> String {
    format!("meter{}", spaced(meter))
}

/// The numbers of a value, each after a space.
pub fn spaced(value: &impl Value) -> String {
    let numbers = value.numbers().into_iter();
    numbers.map(|number| format!(" {number}")).collect()
}

/// Plays every record, one line each; a bad one ends the run with a line of its own.
pub fn replay(bytes: &[u8]) -> String {
    let (records, bad) = read(bytes);
    let mut player = Player::new();
    let mut lines = String::new();
    for record in &records {
        lines += &player.answer(record);
        lines += "\n";
    }
    if bad {
        lines += &format!("bad record {}\n", records.len() + 1);
    }
    lines
}

/// Each record of a script with the meter after it; None where the script has a bad record.
pub fn played(script: &[u8]) -> Option<Vec<(Record, Meter)>> {
    let (records, bad) = read(script);
    let mut player = Player::new();
    let after = |record: Record| {
        player.answer(&record);
        (record, player.meter.clone())
    };
    let played = records.into_iter().map(after).collect();
    (!bad).then_some(played)
}

/// The calls that took samples: the meter before each and its samples; None where the script has a
/// bad record.
///
/// n grows by a call's samples just where the call is accepted (the customer's scope, "One sample").
pub fn taken(script: &[u8]) -> Option<Vec<(Meter, Vec<i16>)>> {
    let mut before = Meter::zero();
    let mut calls = Vec::new();
    for (record, after) in played(script)? {
        let samples = match record {
            Record::Chunk(samples) => samples,
            Record::Block(bytes) => block::samples(&bytes),
            _ => Vec::new(),
        };
        if !samples.is_empty() && after.n > before.n {
            calls.push((before, samples));
        }
        before = after;
    }
    Some(calls)
}

/// The sizes of the samples that the accepted calls took; None where the script has a bad record.
fn sizes_taken(script: &[u8]) -> Option<Vec<u16>> {
    let sizes = |(meter, samples): &(Meter, Vec<i16>)| -> Vec<u16> {
        samples.iter().map(|&x| meter.size(x)).collect()
    };
    Some(taken(script)?.iter().flat_map(sizes).collect())
}

/// A line with the total length of the accepted calls; None where the script has a bad record.
pub fn accepted_samples(script: &[u8]) -> Option<String> {
    Some(format!("{}\n", sizes_taken(script)?.len()))
}

/// A line with the largest |x - o| that an accepted call took, 0 where none took any; None where
/// the script has a bad record.
pub fn largest_size(script: &[u8]) -> Option<String> {
    let largest = sizes_taken(script)?.into_iter().max().unwrap_or(0);
    Some(format!("{largest}\n"))
}

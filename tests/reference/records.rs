//! The records of a recorded list of calls, read and written; numbers are little-endian.

use crate::block;
use crate::fields::Value;
use crate::meter::Meter;
use crate::setting::{Opening, Setting};
use std::fmt;

/// How many bytes the code of a check or of a write has: in a script to play, and in one for the
/// host written in C.
const PLAYED_CODE: usize = 1;
const HOST_CODE: usize = 4;

/// One record.
pub enum Record {
    Open(Opening),
    Chunk(Vec<i16>),
    Block(Vec<u8>),
    Report,
    Load(Meter),
    Show,
    Lev(u128),
    Check(u32, Vec<u8>),
    Write(Writing),
}

fields! {
    /// What a block is written from, and the length of the buffer that is lent for it.
    #[derive(Clone)]
    pub struct Writing {
        code: u32,
        before: u64,
        samples: Vec<i16>,
        length: u16,
    }
}

impl Writing {
    /// A code, a number before, samples and a length.
    pub fn new(code: u32, before: u64, samples: &[i16], length: u16) -> Writing {
        Writing {
            code,
            before,
            samples: samples.to_vec(),
            length,
        }
    }
}

impl fmt::Display for Writing {
    /// In words, with the number of samples for the samples.
    fn fmt(&self, out: &mut fmt::Formatter) -> fmt::Result {
        let (code, before) = (self.code, self.before);
        let (count, length) = (self.samples.len(), self.length);
        write!(
            out,
            "code {code}, {before} before, {count} samples, {length} bytes"
        )
    }
}

/// Bytes read from the front; each reading is None where they are cut short.
pub struct Reader<'a> {
    rest: &'a [u8],
    pub code_length: usize,
}

/// Bytes written so far.
pub struct Writer {
    pub bytes: Vec<u8>,
    pub code_length: usize,
}

impl<'a> Reader<'a> {
    /// A reader at the front of a script to play.
    pub fn new(bytes: &'a [u8]) -> Reader<'a> {
        Reader {
            rest: bytes,
            code_length: PLAYED_CODE,
        }
    }

    /// A reader at the front of a script for the host.
    pub fn of_host(bytes: &'a [u8]) -> Reader<'a> {
        Reader {
            rest: bytes,
            code_length: HOST_CODE,
        }
    }

    /// Whether every byte is read.
    pub fn at_end(&self) -> bool {
        self.rest.is_empty()
    }

    /// The next bytes.
    pub fn take(&mut self, length: usize) -> Option<&'a [u8]> {
        if length > self.rest.len() {
            return None;
        }
        let (taken, rest) = self.rest.split_at(length);
        self.rest = rest;
        Some(taken)
    }

    /// One record; None also where the first byte is unknown.
    pub fn record(&mut self) -> Option<Record> {
        match u8::read(self)? {
            1 => Some(Record::Open(Value::read(self)?)),
            2 => Some(Record::Chunk(Value::read(self)?)),
            3 => Some(Record::Block(Value::read(self)?)),
            4 => Some(Record::Report),
            5 => Some(Record::Load(Value::read(self)?)),
            6 => Some(Record::Show),
            7 => Some(Record::Lev(Value::read(self)?)),
            8 => Some(Record::Check(Value::read(self)?, Value::read(self)?)),
            9 => Some(Record::Write(Value::read(self)?)),
            _ => None,
        }
    }
}

impl Writer {
    /// Writes the kind of a record.
    fn kind(&mut self, kind: u8) -> &mut Writer {
        self.bytes.push(kind);
        self
    }
}

/// The records up to the end or to the first bad one, and whether a bad one follows.
pub fn read(bytes: &[u8]) -> (Vec<Record>, bool) {
    let mut reader = Reader::new(bytes);
    let mut records = Vec::new();
    while !reader.at_end() {
        match reader.record() {
            Some(record) => records.push(record),
            None => return (records, true),
        }
    }
    (records, false)
}

/// The samples of a recording, which is nothing but samples; None where the last is cut short.
pub fn read_samples(bytes: &[u8]) -> Option<Vec<i16>> {
    let sample = |bytes: &[u8]| Some(i16::from_le_bytes(bytes.try_into().ok()?));
    bytes.chunks(2).map(sample).collect()
}

/// The block calls of a recording of blocks; a short last block counts as one, as it is.
pub fn block_calls(recording: &[u8]) -> impl Iterator<Item = Record> + '_ {
    let blocks = recording.chunks(block::LENGTH);
    blocks.map(|bytes| Record::Block(bytes.to_vec()))
}

/// Writes samples, two bytes each.
pub fn write_samples(samples: &[i16], out: &mut Vec<u8>) {
    out.extend(samples.iter().flat_map(|x| x.to_le_bytes()));
}

impl Record {
    /// An opening with a setting; its list is the built-in one where it has the same thresholds.
    pub fn open(setting: Setting) -> Record {
        Record::Open(Opening::from(setting))
    }

    /// Writes the record.
    pub fn write(&self, out: &mut Vec<u8>) {
        self.write_coded(PLAYED_CODE, out);
    }

    /// Writes the record, a check or a write, for the host.
    pub fn write_for_host(&self, out: &mut Vec<u8>) {
        self.write_coded(HOST_CODE, out);
    }

    /// Writes the record, the code of a check or of a write in so many bytes.
    fn write_coded(&self, code_length: usize, out: &mut Vec<u8>) {
        let bytes = std::mem::take(out);
        let mut writer = Writer { bytes, code_length };
        match self {
            Record::Open(opening) => opening.write(writer.kind(1)),
            Record::Chunk(samples) => samples.write(writer.kind(2)),
            Record::Block(bytes) => bytes.write(writer.kind(3)),
            Record::Report => writer.bytes.push(4),
            Record::Load(meter) => meter.write(writer.kind(5)),
            Record::Show => writer.bytes.push(6),
            Record::Lev(number) => number.write(writer.kind(7)),
            Record::Check(code, bytes) => {
                code.write(writer.kind(8));
                bytes.write(&mut writer);
            }
            Record::Write(writing) => writing.write(writer.kind(9)),
        }
        *out = writer.bytes;
    }
}

/// The bytes of a script of these records.
pub fn script(records: &[Record]) -> Vec<u8> {
    let mut bytes = Vec::new();
    for record in records {
        record.write(&mut bytes);
    }
    bytes
}

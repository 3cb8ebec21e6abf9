//! Blocks to write, accepted and refused, and to read back.

use super::blocks::{sound, tuned};
use super::byte_codes;
use super::meters::of_samples;
use super::random::Random;
use super::signals::noise;
use crate::block;
use crate::meter::MOST_SAMPLES;
use crate::records::{script, Record, Writing};

/// Numbers of samples: none, at the bounds, next to them, such that the low byte alone is within
/// them, and many.
const COUNTS: [u64; 13] = [0, 1, 2, 247, 248, 249, 250, 255, 256, 257, 504, 512, 4096];

/// Lengths of the buffer: 512, next to it, and others.
const LENGTHS: [u16; 10] = [512, 511, 513, 0, 1, 2, 3, 12, 508, 1024];

/// A check word of 0, next to it, and the largest there is.
const CHECK_WORDS: [u64; 3] = [0, 1, 65534];

/// A script of writes: every kind in turn, then so many random ones; most blocks are read back.
pub fn writes(seed: u64, count: u64) -> Vec<u8> {
    let mut out = Vec::new();
    let mut emit = |random: &mut Random, record: Record| {
        record.write(&mut out);
        let block = written(&record).filter(|_| !random.once_in(3));
        if let Some((writing, bytes)) = block {
            out.extend(script(&read_back(random, writing, bytes)));
        }
    };
    Writes::new(seed, &byte_codes(), &mut emit).all(count);
    out
}

/// The same kinds of writes for the host, with these codes, and a few more; every block that is
/// written is checked.
pub fn for_host(seed: u64, count: u64, codes: &[u32], out: &mut Vec<u8>) {
    let mut emit = |_: &mut Random, record: Record| {
        record.write_for_host(out);
        if let Some((writing, bytes)) = written(&record) {
            Record::Check(writing.code, bytes).write_for_host(out);
        }
    };
    let mut writes = Writes::new(seed, codes, &mut emit);
    writes.steady();
    writes.all(count);
}

/// What a block is written from, and the block, where a record is a write that is accepted.
fn written(record: &Record) -> Option<(&Writing, Vec<u8>)> {
    let Record::Write(writing) = record else {
        return None;
    };
    let (r, bytes) = writing.answer();
    (r == 0).then_some((writing, bytes))
}

/// The host's check of a written block; the block and, on the same meter, a chunk of its samples,
/// each with what it leaves.
fn read_back(random: &mut Random, writing: &Writing, bytes: Vec<u8>) -> [Record; 7] {
    let meter = of_samples(random, writing.code as u8, writing.before);
    [
        Record::Check(writing.code, bytes.clone()),
        Record::Load(meter.clone()),
        Record::Block(bytes),
        Record::Show,
        Record::Load(meter),
        Record::Chunk(writing.samples.clone()),
        Record::Show,
    ]
}

/// Hands out writes, some of them after a check.
struct Writes<'a> {
    random: Random,
    codes: &'a [u32],
    emit: &'a mut dyn FnMut(&mut Random, Record),
}

impl<'a> Writes<'a> {
    /// Nothing handed out yet.
    fn new(
        seed: u64,
        codes: &'a [u32],
        emit: &'a mut dyn FnMut(&mut Random, Record),
    ) -> Writes<'a> {
        Writes {
            random: Random::new(seed),
            codes,
            emit,
        }
    }

    /// Every kind in turn, then so many random ones.
    fn all(&mut self, count: u64) {
        self.single_samples();
        self.numbers();
        self.lengths();
        self.longest();
        self.check_words();
        for _ in 0..count {
            if self.random.once_in(4) {
                let bytes = any_block(&mut self.random);
                self.afresh(bytes);
            } else {
                let writing = writing(&mut self.random, self.codes);
                self.write(writing);
            }
        }
    }

    /// Hands out a write.
    fn write(&mut self, writing: Writing) {
        (self.emit)(&mut self.random, Record::Write(writing));
    }

    /// A sound block, checked, and a write from its own contents.
    fn afresh(&mut self, bytes: Vec<u8>) {
        let (code, before) = (block::code(&bytes), block::before(&bytes));
        let writing = Writing::new(code, before, &block::samples(&bytes), 512);
        (self.emit)(&mut self.random, Record::Check(code, bytes));
        self.write(writing);
    }

    /// The scope's example, and samples with which the first or the second check word is 0 or
    /// 65534.
    fn single_samples(&mut self) {
        for x in [32767, -259, -260, -1058, 15591] {
            self.write(Writing::new(1, 0, &[x], 512));
        }
    }

    /// Every number of samples with every number before.
    fn numbers(&mut self) {
        for count in COUNTS {
            for before in befores(count) {
                let code = u32::from(self.random.named());
                let samples = samples(&mut self.random, count);
                self.write(Writing::new(code, before, &samples, 512));
            }
        }
    }

    /// Every code with every length, where 18 would not refuse and where it would.
    fn lengths(&mut self) {
        for &code in self.codes {
            for length in LENGTHS {
                for (before, count) in [(0, 1), (0, 0), (MOST_SAMPLES, 1), (u64::MAX, 249)] {
                    let samples = samples(&mut self.random, count);
                    self.write(Writing::new(code, before, &samples, length));
                }
            }
        }
    }

    /// The most samples and the longest buffer that a record can have.
    fn longest(&mut self) {
        for (count, length) in [(65535, 512), (248, 65535), (65535, 65535)] {
            let samples = samples(&mut self.random, count);
            self.write(Writing::new(1, 0, &samples, length));
        }
    }

    /// Blocks of two samples, of the most and of some with every pair of those check words.
    fn check_words(&mut self) {
        for first in CHECK_WORDS {
            for second in CHECK_WORDS {
                let some = self.random.between(3, 247);
                for count in [2, 248, some] {
                    let code = self.random.named();
                    let before = self.random.next() >> 17;
                    let base = sound(&mut self.random, code, before, count);
                    self.afresh(tuned(&base, (first, second)));
                }
            }
        }
    }

    /// Blocks of one value throughout, after 248 samples and with an end one below 2^48.
    fn steady(&mut self) {
        for x in [0, -1, i16::MIN, i16::MAX] {
            for count in [1, 2, 247, 248] {
                for before in [248, MOST_SAMPLES - 1 - count] {
                    let code = u32::from(self.random.named());
                    let samples = vec![x; count as usize];
                    self.write(Writing::new(code, before, &samples, 512));
                }
            }
        }
    }
}

/// Numbers before so many samples: none, at the bound and next to it, and far past it, with ends
/// that would be 0 or a little more if they were worked out in 64 bits.
fn befores(count: u64) -> [u64; 10] {
    [
        0,
        1,
        MOST_SAMPLES - count,
        MOST_SAMPLES - count + 1,
        MOST_SAMPLES - 1,
        MOST_SAMPLES,
        MOST_SAMPLES + 1,
        1 << 63,
        count.wrapping_neg(),
        u64::MAX,
    ]
}

/// A sound block: one in three with such check words.
fn any_block(random: &mut Random) -> Vec<u8> {
    let code = random.named();
    let any = random.between(1, 248);
    let count = random.pick(&[1, 2, 247, 248, any, any, any, any]);
    let before = before(random, count);
    let bytes = block::make(code, before, &samples(random, count));
    if count >= 2 && random.once_in(3) {
        let wanted = (random.pick(&CHECK_WORDS), random.pick(&CHECK_WORDS));
        tuned(&bytes, wanted)
    } else {
        bytes
    }
}

/// What to write a block from, with a named code or one of these: about half of the time what is
/// accepted.
pub fn writing(random: &mut Random, codes: &[u32]) -> Writing {
    let code = if random.once_in(8) {
        random.pick(codes)
    } else {
        u32::from(random.named())
    };
    let count = count(random);
    let before = before(random, count);
    let samples = samples(random, count);
    Writing::new(code, before, &samples, length(random))
}

/// A number of samples, mostly one that a block can carry.
fn count(random: &mut Random) -> u64 {
    match random.below(200) {
        0 => 65535,
        1..=9 => random.between(249, 5000),
        10..=59 => random.pick(&COUNTS),
        _ => random.between(1, 248),
    }
}

/// A number before so many samples, of any width, mostly one that leaves room for them.
fn before(random: &mut Random, count: u64) -> u64 {
    let bits = random.between(1, 64);
    let any = random.of_length(bits) as u64;
    match random.below(10) {
        0..=1 => random.pick(&befores(count)),
        2 => any,
        _ => any >> 17,
    }
}

/// The length of a buffer, mostly 512.
fn length(random: &mut Random) -> u16 {
    match random.below(200) {
        0 => 65535,
        1..=9 => random.below(5000) as u16,
        10..=29 => random.pick(&LENGTHS),
        _ => 512,
    }
}

/// Samples: one value throughout, noise of some loudness, or any.
fn samples(random: &mut Random, count: u64) -> Vec<i16> {
    let count = count as usize;
    match random.below(3) {
        0 => vec![random.pick(&[0, -1, i16::MIN, i16::MAX, 255, 256]); count],
        1 => noise(random, count),
        _ => (0..count).map(|_| random.next() as i16).collect(),
    }
}

//! Recordings for the report program.

use super::random::Random;
use super::script::Script;
use super::signals::signal;
use crate::block;
use crate::records::Record;
use crate::report::RATE;
use crate::setting::Setting;
use crate::speech::voice;
use std::iter;

/// The refusals that a whole block of a recording can meet.
const REFUSALS: [u32; 6] = [5, 6, 7, 8, 9, 10];

/// So many blocks, one in five refused, each number in its turn; some recordings end cut short.
pub fn recording(seed: u64, count: u64) -> Vec<u8> {
    let mut script = Script::new(seed);
    script.add(Record::open(Setting::usual(RATE.code)));
    let mut samples = samples(Random::new(script.random.next()));
    let mut turn = script.random.below(REFUSALS.len() as u64) as usize;
    let mut recording = Vec::new();
    for _ in 0..count {
        let bytes = if script.random.once_in(5) {
            turn += 1;
            refused(&mut script, REFUSALS[turn % REFUSALS.len()])
        } else {
            accepted(&mut script, &mut samples)
        };
        recording.extend(&bytes);
        script.add(Record::Block(bytes));
    }
    if script.random.once_in(3) {
        let missing = script.random.between(1, block::LENGTH as u64 - 1) as usize;
        recording.truncate(recording.len().saturating_sub(missing));
    }
    recording
}

/// Samples without end: voices one after the other, or signals of all kinds.
fn samples(mut random: Random) -> impl Iterator<Item = i16> {
    let voices = !random.once_in(3);
    let passage = move || {
        if voices {
            voice(RATE, random.next())
        } else {
            let length = random.between(1, 2000) as usize;
            signal(&mut random, RATE.I, length)
        }
    };
    iter::repeat_with(passage).flatten()
}

/// A sound block of the next samples, mostly a full one.
fn accepted(script: &mut Script, samples: &mut impl Iterator<Item = i16>) -> Vec<u8> {
    let any = script.random.between(1, block::MOST as u64) as usize;
    let count = script
        .random
        .pick(&[block::MOST, block::MOST, block::MOST, 1, any]);
    let samples: Vec<i16> = samples.take(count).collect();
    block::make(script.meter().setting.code, script.meter().n, &samples)
}

/// A whole block that the meter refuses with this number.
fn refused(script: &mut Script, r: u32) -> Vec<u8> {
    loop {
        let bytes = match r {
            7 => script.of_another_rate(),
            10 => script.misplaced(),
            _ => script.damaged(),
        };
        if bytes.len() == block::LENGTH && script.meter().block(&bytes).1 == r {
            return bytes;
        }
    }
}

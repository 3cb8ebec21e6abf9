//! Long scripts of calls on one line.

use super::bounds::bounds;
use super::filling::{last_blocks, last_chunks, two_words};
use super::meters::{of_factor, of_level, plausible, tuned, wavering};
use super::random::Random;
use super::script::Script;
use super::settings::{
    faulty_openings, opening, refused_opening, setting, MARGINS, REFUSED_MARGINS,
};
use super::signals::{around, furthest, noise, placed, signal};
use super::spacing::edges;
use super::thresholds::{approach, Target};
use super::writes::writing;
use super::{byte_codes, UNNAMED};
use crate::block;
use crate::meter::{Meter, MOST_IN_CHUNK, MOST_SAMPLES};
use crate::percent::{difference, WHOLE};
use crate::rate::{rate, RATES};
use crate::records::Record;
use crate::setting::{Opening, Setting};
use crate::thresholds::Thresholds;

/// A script of about so many records: openings at the bounds of the margin and of the list, the
/// bounds of refusal 2, then calls of all kinds; and at the end a threshold of each place met
/// exactly and just missed.
pub fn calls(seed: u64, count: u64) -> Vec<u8> {
    let mut script = Script::new(seed);
    let code = RATES[seed as usize % RATES.len()].code;
    openings(&mut script, code);
    for meter in bounds(&mut script.random, code) {
        if script.records < count {
            tried(&mut script, meter);
        }
    }
    while script.records < count {
        step(&mut script);
    }
    for target in Target::all() {
        brought(&mut script, target);
    }
    script.bytes
}

/// Openings with every margin at and past a bound, without a named code and with one, and what the
/// last leaves; then with lists at every edge, and with each choice of what is wrong.
fn openings(script: &mut Script, named: u8) {
    for margin in MARGINS.into_iter().chain(REFUSED_MARGINS) {
        for code in [script.random.pick(&UNNAMED), named] {
            let setting = setting(&mut script.random, code);
            let opening = opening(&mut script.random, Setting { margin, ..setting });
            script.add(Record::Open(opening));
        }
        script.add(Record::Show);
    }
    for list in edges(&mut script.random) {
        let thresholds = Thresholds::of(&list);
        let setting = setting(&mut script.random, named);
        script.add(Record::open(Setting {
            thresholds,
            ..setting
        }));
        script.add(Record::Show);
    }
    for opening in faulty_openings(&mut script.random, named) {
        script.add(Record::Open(opening));
        script.add(Record::Show);
    }
}

/// Hands a meter in and makes each kind of call on it.
fn tried(script: &mut Script, meter: Meter) {
    let furthest = furthest(meter.setting.offset);
    script.add(Record::Load(meter));
    script.add(Record::Report);
    script.add(Record::Chunk(Vec::new()));
    let any = script.random.sample(32768);
    let sample = script.random.pick(&[any, furthest]);
    script.add(Record::Chunk(vec![sample]));
    script.add(Record::Show);
    let bytes = script.fitting(2);
    script.add(Record::Block(bytes));
    script.add(Record::Show);
}

/// One thing of some kind; a meter that refuses everything or is full is soon replaced.
fn step(script: &mut Script) {
    let stuck = script.meter().refusal_2() || script.meter().n == MOST_SAMPLES;
    if stuck && script.random.once_in(2) {
        return open(script);
    }
    match script.random.below(88) {
        0..=1 => open(script),
        2..=21 => chunk(script),
        22..=37 => sound_block(script),
        38..=43 => refused_block(script),
        44..=53 => script.add(Record::Report),
        54..=62 => script.add(Record::Show),
        63..=65 => bursts(script),
        66 => pair(script),
        67 => two_words(script),
        68 => last_chunks(script),
        69 => last_blocks(script),
        70 => bound(script),
        71..=72 => reported(script, plausible),
        73..=74 => reported(script, tuned),
        75 => percentage_edge(script),
        76 => any_percentage(script),
        77 => reported(script, wavering),
        78..=80 => write(script),
        81..=82 => low_level(script),
        _ => small_chunks(script),
    }
}

/// The hangover of the meter, or any where its code is not named.
fn hangover(script: &Script) -> u64 {
    rate(u32::from(script.meter().setting.code)).map_or(139, |rate| rate.I)
}

/// An opening, mostly with a named code, a margin in the range and a list that loads, and what it
/// leaves.
fn open(script: &mut Script) {
    let (named, unnamed) = (script.random.named(), script.random.pick(&UNNAMED));
    let code = script.random.pick(&[named, named, unnamed]);
    let opening: Opening = if script.random.once_in(5) {
        refused_opening(&mut script.random, code)
    } else {
        let setting = setting(&mut script.random, code);
        opening(&mut script.random, setting)
    };
    script.add(Record::Open(opening));
    script.add(Record::Show);
}

/// Samples of some signal.
fn samples(script: &mut Script, length: usize) -> Vec<i16> {
    let (I, offset) = (hangover(script), script.meter().setting.offset);
    let samples = signal(&mut script.random, I, length);
    placed(&mut script.random, offset, samples)
}

/// A chunk of any length, seldom too long.
fn chunk(script: &mut Script) {
    let length = match script.random.below(40) {
        0..=2 => 0,
        3..=5 => 1,
        6..=25 => script.random.between(2, 60),
        26..=36 => script.random.between(61, 900),
        37 => script.random.between(901, 4095),
        38 => 4096,
        _ => script.random.pick(&[4097, 4097, 4098, 8192, 65535]),
    };
    let record = Record::Chunk(samples(script, length as usize));
    script.add(record);
}

/// A few chunks of a few samples each.
fn small_chunks(script: &mut Script) {
    for _ in 0..script.random.between(2, 6) {
        let length = script.random.below(5) as usize;
        let record = Record::Chunk(samples(script, length));
        script.add(record);
    }
}

/// A sound block that fits.
fn sound_block(script: &mut Script) {
    let any = script.random.between(1, 248);
    let count = script.random.pick(&[1, 248, any, any]);
    let bytes = script.fitting(count);
    script.add(Record::Block(bytes));
}

/// A block with something wrong.
fn refused_block(script: &mut Script) {
    let bytes = match script.random.below(5) {
        0 => script.misplaced(),
        1 => script.of_another_rate(),
        _ => script.damaged(),
    };
    script.add(Record::Block(bytes));
}

/// A block written, which changes no meter.
fn write(script: &mut Script) {
    let record = Record::Write(writing(&mut script.random, &byte_codes()));
    script.add(record);
    script.add(Record::Show);
}

/// Noise, then a silence that is longer than the hangover, and up to code 3 outlasts the envelope as
/// well.
fn bursts(script: &mut Script) {
    let (I, offset) = (hangover(script), script.meter().setting.offset);
    let most = I.min(MOST_IN_CHUNK as u64);
    let length = script.random.between(1, most) as usize;
    let noise = noise(&mut script.random, length);
    let burst = placed(&mut script.random, offset, noise);
    script.add(Record::Chunk(burst));
    let pause = MOST_IN_CHUNK.min(2 * I as usize);
    for _ in 0..3 {
        script.add(Record::Chunk(vec![offset; pause]));
        script.add(Record::Show);
    }
    script.add(Record::Report);
}

/// The two samples that bring Q to a threshold of the built-in list exactly, together or apart.
fn pair(script: &mut Script) {
    let setting = Setting {
        thresholds: Thresholds::BUILT_IN,
        ..setting(&mut script.random, 1)
    };
    let pair = around(setting.offset, &[9126, 11705]);
    script.add(Record::open(setting));
    if script.random.once_in(2) {
        script.add(Record::Chunk(pair));
    } else {
        script.add(Record::Chunk(vec![pair[0]]));
        script.add(Record::Show);
        script.add(Record::Chunk(vec![pair[1]]));
    }
    script.add(Record::Show);
    script.add(Record::Report);
}

/// A meter, and the samples that bring its envelope to a target, with none or a few after them.
fn brought(script: &mut Script, target: Target) {
    let code = script.random.named();
    let (meter, mut call) = approach(&mut script.random, code, target);
    script.add(Record::Load(meter));
    let more = script.random.pick(&[0, 0, 1, 3]);
    call.extend(samples(script, more));
    let record = if script.random.once_in(2) {
        Record::Chunk(call)
    } else {
        Record::Block(block::make(code, script.meter().n, &call))
    };
    script.add(record);
    script.add(Record::Show);
}

/// One of the meters at the bounds of refusal 2.
fn bound(script: &mut Script) {
    let code = script.random.named();
    let mut meters = bounds(&mut script.random, code);
    let i = script.random.below(meters.len() as u64) as usize;
    tried(script, meters.swap_remove(i));
}

/// A meter of some making, and its report.
fn reported(script: &mut Script, make: impl Fn(&mut Random, u8) -> Meter) {
    let code = script.random.named();
    let meter = make(&mut script.random, code);
    script.add(Record::Load(meter));
    script.add(Record::Report);
    script.add(Record::Show);
}

/// Reports at the least F that shows some T or a larger one, and a step to either side of it.
fn percentage_edge(script: &mut Script) {
    let any = script.random.between(1, WHOLE);
    let T = script
        .random
        .pick(&[1, 2, WHOLE - 1, WHOLE, any, any, any, any]);
    let least = difference(T).expect("T is above 0");
    for F in [least - 1, least, least + 1] {
        reported(script, |random, code| of_factor(random, code, F.min(0)));
    }
}

/// A report of a level at 0, just below or just above it, or further below.
fn low_level(script: &mut Script) {
    let any = -(script.random.between(3, 16383) as i64);
    let level = script.random.pick(&[0, 1, -1, -2, -3, any, any, any]);
    reported(script, |random, code| of_level(random, code, level));
}

/// A report at any F that a meter can have, mostly one too low for a T above 0.
fn any_percentage(script: &mut Script) {
    let F = -(script.random.between(0, 4096 * 48) as i64);
    reported(script, |random, code| of_factor(random, code, F));
}

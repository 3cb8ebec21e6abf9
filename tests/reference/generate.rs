//! Records to play and recordings to measure, the same for the same seed.

mod blocks;
mod bounds;
mod calls;
mod cuts;
mod filling;
mod lists;
mod meters;
mod pairs;
pub mod random;
mod recording;
mod script;
pub mod settings;
pub mod signals;
mod sizes;
pub mod spacing;
mod thresholds;
mod writes;

use crate::block;
use crate::rate::RATES;
use crate::records::Record;
use random::Random;

/// Codes of one byte: those that name a rate, those next to them, two that would name one by their
/// low bits, and the largest.
///
/// They are numbers, not made from the table of rates, so that a table with a row too few or too
/// many is not tried with its own codes alone.
const CODES: [u8; 11] = [0, 1, 2, 3, 4, 5, 6, 7, 12, 133, 255];

/// Those of them that name no rate.
const UNNAMED: [u8; 6] = [0, 6, 7, 12, 133, 255];

/// The same codes as numbers of 32 bits.
fn byte_codes() -> Vec<u32> {
    CODES.map(u32::from).to_vec()
}

/// The codes given to the host's check and to its writes: those of one byte, 256 and those that
/// would name a rate by their low byte, and the largest.
fn host_codes() -> Vec<u32> {
    [&byte_codes()[..], &[256, 257, 258, 259, 260, 261, u32::MAX]].concat()
}

/// Further ones, which would name a rate by their low half, or but for their highest byte or bit,
/// or with their bytes reversed.
fn wide_codes() -> Vec<u32> {
    let of = |code: u32| {
        let reversed = code.swap_bytes();
        [1 << 16 | code, reversed | code, 1 << 31 | code, reversed]
    };
    (1..=5).flat_map(of).collect()
}

/// The records or the recording of one kind; None for an unknown kind.
pub fn generate(kind: &str, seed: u64, count: u64) -> Option<Vec<u8>> {
    match kind {
        "lev" => Some(lev(seed, count)),
        "host" => Some(host(seed, count)),
        "check" => Some(check(seed, count)),
        "write" => Some(writes::writes(seed, count)),
        "calls" => Some(calls::calls(seed, count)),
        "lists" => Some(lists::list(seed, count)),
        "first" => Some(pairs::card(seed, count, 0)),
        "second" => Some(pairs::card(seed, count, 1)),
        "recording" => Some(recording::recording(seed, count)),
        _ => None,
    }
}

/// Numbers for lev: powers of two and their neighbours, the edges, the figures', random ones.
fn lev(seed: u64, count: u64) -> Vec<u8> {
    let mut numbers = vec![0];
    for k in 0..=81 {
        numbers.extend([(1 << k) - 1, 1 << k, (1 << k) + 1]);
    }
    numbers.extend((1 << 80) - 2..=(1 << 80) + 2);
    numbers.push(u128::MAX);
    numbers.extend([1, 2, 3, 5, 7, 10, (1 << 32) - 1, 1 << 78]);
    numbers.extend([
        2048,
        2500,
        3000,
        4096,
        5000,
        9999,
        10000,
        16384,
        32768,
        1275068,
        1 << 20,
        1 << 30,
        1 << 40,
    ]);
    let mut random = Random::new(seed);
    for i in 0..count {
        let length = if i % 8 == 7 {
            82 + i / 8 % 47
        } else {
            1 + i % 81
        };
        numbers.push(random.of_length(length));
    }
    let mut out = Vec::new();
    for number in numbers {
        Record::Lev(number).write(&mut out);
    }
    out
}

/// Blocks with codes of four bytes, for the host's check, sound ones with further codes, and then
/// writes with all these codes.
fn host(seed: u64, count: u64) -> Vec<u8> {
    let mut out = Vec::new();
    let mut check = |code: u32, bytes: &[u8]| {
        Record::Check(code, bytes.to_vec()).write_for_host(&mut out);
    };
    blocks::all(seed, count, &host_codes(), &mut check);
    for code in wide_codes() {
        for rate in &RATES {
            check(code, &block::make(rate.code, 0, &[1]));
        }
    }
    let codes = [host_codes(), wide_codes()].concat();
    writes::for_host(seed, count, &codes, &mut out);
    out
}

/// The same kind of blocks, as records of a check.
fn check(seed: u64, count: u64) -> Vec<u8> {
    let mut out = Vec::new();
    blocks::all(seed, count, &byte_codes(), &mut |code, bytes| {
        Record::Check(code, bytes.to_vec()).write(&mut out);
    });
    out
}

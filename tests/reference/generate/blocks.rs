//! Sound and damaged blocks.

use super::random::Random;
use super::signals::noise;
use super::CODES;
use crate::block;

/// Hands out blocks, each with a code: twice the one it is made for, then one of the others' turn.
struct Blocks<'a> {
    random: Random,
    codes: &'a [u32],
    turn: usize,
    emit: &'a mut dyn FnMut(u32, &[u8]),
}

/// Every bit, field, byte and length in turn, then as many random blocks as asked for.
pub fn all(seed: u64, count: u64, codes: &[u32], emit: &mut dyn FnMut(u32, &[u8])) {
    let mut blocks = Blocks {
        random: Random::new(seed),
        codes,
        turn: 0,
        emit,
    };
    for (own, samples) in [(1, 100), (2, 248), (3, 1), (4, 247), (5, 2)] {
        let base = sound(&mut blocks.random, own, 0, samples);
        blocks.add(own, &base);
        blocks.bits(own, &base);
        blocks.fields(own, &base);
        blocks.lengths(own, &base);
    }
    blocks.unused_bytes();
    blocks.zero_check_words();
    blocks.random_blocks(count);
}

/// A sound block of so many samples of noise.
pub fn sound(random: &mut Random, code: u8, before: u64, samples: u64) -> Vec<u8> {
    block::make(code, before, &noise(random, samples as usize))
}

/// The bytes with one byte or word set, sealed again.
fn set(base: &[u8], at: usize, value: &[u8]) -> Vec<u8> {
    let mut bytes = base.to_vec();
    bytes[at..at + value.len()].copy_from_slice(value);
    block::seal(&mut bytes);
    bytes
}

impl Blocks<'_> {
    /// Hands out a block made for a code.
    fn add(&mut self, own: u8, bytes: &[u8]) {
        let turn = self.turn;
        self.turn += 1;
        if turn % 3 == 2 {
            (self.emit)(self.codes[turn / 3 % self.codes.len()], bytes);
        } else {
            (self.emit)(u32::from(own), bytes);
        }
    }

    /// Each bit flipped, as it is and sealed again.
    fn bits(&mut self, own: u8, base: &[u8]) {
        for bit in 0..8 * block::LENGTH {
            let mut bytes = base.to_vec();
            bytes[bit / 8] ^= 1 << (bit % 8);
            self.add(own, &bytes);
            block::seal(&mut bytes);
            self.add(own, &bytes);
        }
    }

    /// Each field at its bounds, every rate code against every code.
    fn fields(&mut self, own: u8, base: &[u8]) {
        for kind in [0, 1, 2, 255] {
            self.add(own, &set(base, 0, &[kind]));
        }
        for rate in CODES {
            let bytes = set(base, 1, &[rate]);
            for &code in self.codes {
                (self.emit)(code, &bytes);
            }
        }
        for count in [0, 1, 247, 248, 249, 250, 65535u16] {
            self.add(own, &set(base, 2, &count.to_le_bytes()));
        }
        for before in [0, 1 << 48, u64::MAX] {
            self.add(own, &set(base, 4, &before.to_le_bytes()));
        }
    }

    /// Each length from 0 to 600.
    fn lengths(&mut self, own: u8, base: &[u8]) {
        for length in 0..=600 {
            let mut bytes = base.to_vec();
            bytes.resize(length, 0);
            self.add(own, &bytes);
        }
    }

    /// Each byte that can be unused set in turn, the last at 507.
    fn unused_bytes(&mut self) {
        for samples in [1, 2, 100, 246, 247] {
            let base = sound(&mut self.random, 1, 0, samples);
            for at in block::FIRST_SAMPLE + 2 * samples as usize..block::CHECK {
                let value = self.random.between(1, 255) as u8;
                self.add(1, &set(&base, at, &[value]));
            }
        }
    }

    /// Right check words of zero, and 65535 stored in their place.
    fn zero_check_words(&mut self) {
        for wanted in [(0, 1), (1, 0), (0, 0)] {
            let own = self.random.named();
            let base = sound(&mut self.random, own, 0, 248);
            let sealed = tuned(&base, wanted);
            self.add(own, &sealed);
            for places in [&[508][..], &[510], &[508, 510]] {
                let mut bytes = sealed.clone();
                for &at in places {
                    bytes[at..at + 2].fill(255);
                }
                for _ in 0..3 {
                    self.add(own, &bytes);
                }
            }
        }
    }

    /// Sound blocks and damaged ones in turn.
    fn random_blocks(&mut self, count: u64) {
        for i in 0..count {
            let own = self.random.named();
            let before = self.random.next() >> self.random.below(64);
            let samples = self.random.between(1, 248);
            let mut bytes = sound(&mut self.random, own, before, samples);
            if i % 2 == 1 {
                damage(&mut self.random, &mut bytes);
            }
            self.add(own, &bytes);
        }
    }
}

/// A sound block of two samples or more with the wanted check words, by its last two samples.
///
/// Their words weigh 1 and 1 in the sum; in the weighted one the last weighs 249 less the count of
/// samples, and the one before it 1 more.
pub fn tuned(base: &[u8], wanted: (u64, u64)) -> Vec<u8> {
    let count = block::count(base);
    let at = block::FIRST_SAMPLE + 2 * (count - 2);
    let cleared = set(base, at, &[0; 4]);
    let (sum, weighted) = block::check_words(&cleared);
    let more = (wanted.0 + 65535 - sum) % 65535;
    let more_weighted = (wanted.1 + 65535 - weighted) % 65535;
    let first = (more_weighted + (65535 - more) * (249 - count as u64)) % 65535;
    let last = (more + 65535 - first) % 65535;
    let words = [(first as u16).to_le_bytes(), (last as u16).to_le_bytes()].concat();
    set(&cleared, at, &words)
}

/// Damages a block of 512 bytes once to three times.
pub fn damage(random: &mut Random, bytes: &mut Vec<u8>) {
    for _ in 0..random.pick(&[1, 1, 1, 2, 3]) {
        if bytes.len() == block::LENGTH {
            damage_once(random, bytes);
        }
    }
}

/// One damage of some kind to a block of 512 bytes.
fn damage_once(random: &mut Random, bytes: &mut Vec<u8>) {
    let byte = random.next() as u8;
    match random.below(10) {
        0 => flip(random, bytes),
        1 => {
            flip(random, bytes);
            block::seal(bytes);
        }
        2 => *bytes = set(bytes, 0, &[byte]),
        3 => {
            let listed = random.pick(&CODES);
            let rate = random.pick(&[listed, listed, listed, byte]);
            *bytes = set(bytes, 1, &[rate]);
        }
        4 => {
            let any = random.next() as u16;
            let count = random.pick(&[0, 1, 247, 248, 249, 250, 65535, any]);
            *bytes = set(bytes, 2, &count.to_le_bytes());
        }
        5 => {
            let at = random.between(block::FIRST_SAMPLE as u64, block::CHECK as u64 - 1);
            *bytes = set(bytes, at as usize, &[byte]);
        }
        6 => full_word(random, bytes),
        7 => {
            let at = random.between(508, 511) as usize;
            bytes[at] = random.pick(&[0, 255, byte]);
        }
        8 => swap_words(random, bytes),
        _ => bytes.resize(random.below(1025) as usize, 0),
    }
}

/// Flips a bit.
fn flip(random: &mut Random, bytes: &mut [u8]) {
    let bit = random.below(8 * block::LENGTH as u64) as usize;
    bytes[bit / 8] ^= 1 << (bit % 8);
}

/// Turns a word of zero into 65535, which no check word can tell.
fn full_word(random: &mut Random, bytes: &mut [u8]) {
    let at = 2 * random.between(6, 253) as usize;
    if bytes[at..at + 2] == [0, 0] {
        bytes[at..at + 2].fill(255);
    }
}

/// Swaps two words, which only the weighted check word can tell.
fn swap_words(random: &mut Random, bytes: &mut [u8]) {
    let left = 2 * random.below(254) as usize;
    let right = 2 * random.below(254) as usize;
    bytes.swap(left, right);
    bytes.swap(left + 1, right + 1);
}

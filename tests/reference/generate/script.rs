//! A script under way: the records so far and the meter they lead to.

use super::blocks::{damage, sound};
use super::random::Random;
use super::signals::{noise, placed};
use super::CODES;
use crate::block;
use crate::meter::Meter;
use crate::records::Record;
use crate::replay::Player;

/// The script and the source of its chances.
pub struct Script {
    pub random: Random,
    pub bytes: Vec<u8>,
    pub records: u64,
    player: Player,
}

impl Script {
    /// An empty script.
    pub fn new(seed: u64) -> Script {
        Script {
            random: Random::new(seed),
            bytes: Vec::new(),
            records: 0,
            player: Player::new(),
        }
    }

    /// The meter after the records so far.
    pub fn meter(&self) -> &Meter {
        &self.player.meter
    }

    /// Adds a record.
    pub fn add(&mut self, record: Record) {
        record.write(&mut self.bytes);
        self.records += 1;
        self.player.answer(&record);
    }

    /// A sound block of noise that fits the meter.
    pub fn fitting(&mut self, samples: u64) -> Vec<u8> {
        let (setting, n) = (self.meter().setting, self.meter().n);
        let noise = noise(&mut self.random, samples as usize);
        let samples = placed(&mut self.random, setting.offset, noise);
        block::make(setting.code, n, &samples)
    }

    /// A block that fits the meter but for its samples before.
    pub fn misplaced(&mut self) -> Vec<u8> {
        let (code, n) = (self.meter().setting.code, self.meter().n);
        let any = self.random.next();
        let before = self
            .random
            .pick(&[n.wrapping_add(1), n.wrapping_sub(1), n ^ 1 << 63, any]);
        let samples = self.random.between(1, 248);
        sound(&mut self.random, code, before, samples)
    }

    /// A block that fits the meter but for its rate code.
    pub fn of_another_rate(&mut self) -> Vec<u8> {
        let (code, n) = (self.meter().setting.code, self.meter().n);
        let others: Vec<u8> = CODES.into_iter().filter(|&other| other != code).collect();
        let other = self.random.pick(&others);
        let samples = self.random.between(1, 248);
        sound(&mut self.random, other, n, samples)
    }

    /// A block that fits the meter but for its damages.
    pub fn damaged(&mut self) -> Vec<u8> {
        let samples = self.random.between(1, 248);
        let mut bytes = self.fitting(samples);
        damage(&mut self.random, &mut bytes);
        bytes
    }

    /// A chunk or a block of samples that fits the meter.
    pub fn taken(&mut self, samples: &[i16]) -> Record {
        if (1..=block::MOST).contains(&samples.len()) && self.random.once_in(2) {
            let (code, n) = (self.meter().setting.code, self.meter().n);
            Record::Block(block::make(code, n, samples))
        } else {
            Record::Chunk(samples.to_vec())
        }
    }

    /// A call to refuse.
    pub fn refused(&mut self) -> Record {
        let damaged = self.damaged();
        match self.random.below(6) {
            0 => Record::Chunk(vec![1000; self.random.between(4097, 4200) as usize]),
            1 => Record::Block(self.misplaced()),
            2 => Record::Block(self.of_another_rate()),
            _ if block::sound(&damaged) => Record::Block(self.misplaced()),
            _ => Record::Block(damaged),
        }
    }
}

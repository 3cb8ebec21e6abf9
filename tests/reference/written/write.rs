//! One write as it was answered: the clauses on it, and the kinds of writes that must occur.

use crate::answer::Clause;
use crate::block;
use crate::meter::MOST_SAMPLES;
use crate::rate::rate;
use crate::records::Writing;
use crate::replay::FILL;

/// What a block was to be written from, the number answered, and the buffer after it.
pub struct Write<'a> {
    pub writing: &'a Writing,
    pub r: u32,
    pub buffer: Vec<u8>,
}

/// A name and which writes are of that kind.
type Kind = (&'static str, fn(&Write) -> bool);

/// The kinds that must occur: each answer, at each bound and just past it; refusals that are the
/// first of several; check words at the ends of their range.
///
/// The words of a block never sum up to 0, so that a check word of 0 is that of a multiple of 65535.
pub const KINDS: [Kind; 22] = [
    ("refused with 1", |w| w.r == 1),
    ("refused with 4", |w| w.r == 4),
    ("refused with 18", |w| w.r == 18),
    ("1 where 4 and 18 apply too", |w| {
        w.r == 1 && !w.fits() && !w.possible()
    }),
    ("4 where 18 applies too", |w| w.r == 4 && !w.possible()),
    ("18 for 0 samples", |w| {
        w.r == 18 && w.count() == 0 && w.has_room()
    }),
    ("18 for 249 samples", |w| {
        w.r == 18 && w.count() == 249 && w.has_room()
    }),
    ("18 for an end at 2^48 + 1", |w| {
        w.r == 18 && w.carried() && w.end() == (1 << 48) + 1
    }),
    ("18 for an end at 2^64", |w| {
        w.r == 18 && w.carried() && w.end() == 1 << 64
    }),
    ("18 for an end past 2^64", |w| {
        w.r == 18 && w.carried() && w.end() > 1 << 64
    }),
    ("written at code 1", |w| w.r == 0 && w.writing.code == 1),
    ("written at code 2", |w| w.r == 0 && w.writing.code == 2),
    ("written at code 3", |w| w.r == 0 && w.writing.code == 3),
    ("written at code 4", |w| w.r == 0 && w.writing.code == 4),
    ("written at code 5", |w| w.r == 0 && w.writing.code == 5),
    ("written from 1 sample", |w| w.r == 0 && w.count() == 1),
    ("written from 248 samples", |w| w.r == 0 && w.count() == 248),
    ("written with an end at 2^48", |w| {
        w.r == 0 && w.end() == 1 << 48
    }),
    ("a first check word of 0", |w| w.has_check_word(508, 0)),
    ("a first check word of 65534", |w| {
        w.has_check_word(508, 65534)
    }),
    ("a second check word of 0", |w| w.has_check_word(510, 0)),
    ("a second check word of 65534", |w| {
        w.has_check_word(510, 65534)
    }),
];

impl Write<'_> {
    /// The number of samples.
    fn count(&self) -> u64 {
        self.writing.samples.len() as u64
    }

    /// Where they end.
    fn end(&self) -> u128 {
        u128::from(self.writing.before) + u128::from(self.count())
    }

    /// Whether the code is a named one: 1 does not apply.
    fn named(&self) -> bool {
        rate(self.writing.code).is_some()
    }

    /// Whether the buffer has the length of a block: 4 does not apply.
    fn fits(&self) -> bool {
        usize::from(self.writing.length) == block::LENGTH
    }

    /// Whether a block can carry so many samples.
    fn carried(&self) -> bool {
        (1..=248).contains(&self.count())
    }

    /// Whether the number before leaves room for them up to 2^48.
    fn has_room(&self) -> bool {
        self.writing.before <= MOST_SAMPLES - self.count()
    }

    /// Whether they can be in a block at that place: 18 does not apply.
    fn possible(&self) -> bool {
        self.carried() && self.has_room()
    }

    /// Whether a block was written that has this check word at a byte.
    fn has_check_word(&self, at: usize, word: u16) -> bool {
        self.r == 0 && self.buffer.get(at..at + 2) == Some(&word.to_le_bytes())
    }

    /// Every clause on the number and the buffer.
    pub fn clauses(&self) -> Vec<Clause> {
        let left = if self.r == 0 {
            self.block()
        } else {
            vec![self.untouched()]
        };
        [&self.numbers()[..], &left].concat()
    }

    /// 1, then 4, then 18: each just where it is the first to apply, and 0 where none does (the
    /// customer's request L6).
    fn numbers(&self) -> [Clause; 4] {
        let (named, fits, possible) = (self.named(), self.fits(), self.possible());
        let rows = [
            (0, "0 just where none applies", named && fits && possible),
            (1, "1 just where it applies", !named),
            (4, "4 just where it is the first", named && !fits),
            (18, "18 just where it is alone", named && fits && !possible),
        ];
        rows.map(|(r, clause, condition)| (clause, (self.r == r) == condition))
    }

    /// What was written is a sound block of that code, that number before and those samples (the
    /// customer's scope, "Sample blocks"; the customer's request L6).
    fn block(&self) -> Vec<Clause> {
        if !block::sound(&self.buffer) {
            return vec![("a sound block", false)];
        }
        let contents = contents(self.writing, &self.buffer);
        [&[("a sound block", true)][..], &contents].concat()
    }

    /// A refusal leaves the buffer untouched (the customer's request L6).
    fn untouched(&self) -> Clause {
        let before = vec![FILL; usize::from(self.writing.length)];
        ("the buffer untouched", self.buffer == before)
    }
}

/// A sound block has the contents that one is to be written from.
fn contents(writing: &Writing, bytes: &[u8]) -> [Clause; 3] {
    [
        ("the code", block::code(bytes) == writing.code),
        ("the number before", block::before(bytes) == writing.before),
        ("the samples", block::samples(bytes) == writing.samples),
    ]
}

/// Whether this is to write a sound block, its samples ending at 2^48 or below, from its contents.
pub fn is_afresh(writing: &Writing, bytes: &[u8]) -> bool {
    usize::from(writing.length) == block::LENGTH
        && block::sound(bytes)
        && contents(writing, bytes).iter().all(|&(_, holds)| holds)
        && block::before(bytes) <= MOST_SAMPLES - block::count(bytes) as u64
}

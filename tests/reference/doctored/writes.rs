//! Wrong answers to writes (the customer's request L6).

use super::broken;
use crate::block;
use crate::records::{script, Record, Writing};
use crate::replay::write_line;
use crate::tally::Tally;
use crate::written::claims;

/// The numbers of a write, each with the clause that breaks where it is given wrongly, or not given
/// where it is right.
const NUMBERS: [(u32, &str); 4] = [
    (0, "0 just where none applies"),
    (1, "1 just where it applies"),
    (4, "4 just where it is the first"),
    (18, "18 just where it is alone"),
];

/// What breaks where the buffer is wrong after a block is written, and after a refusal.
const UNSOUND: &str = "a sound block";
const TOUCHED: &str = "the buffer untouched";

/// The most samples there are, as a number, since the clauses are held to it.
const END: u64 = 1 << 48;

/// Every wrong answer.
pub fn writes(tally: &mut Tally) {
    unsound(tally);
    contents(tally);
    zero_check_word(tally);
    touched(tally);
    accepted(tally);
    refused(tally);
    lines(tally);
}

/// Checks that with these lines these clauses of the request fail, and no other.
pub fn fails(tally: &mut Tally, name: &str, records: &[Record], lines: &str, clauses: &[&str]) {
    let claims = claims(&script(records), lines).expect("no record is bad");
    tally.equal(name, &broken(&claims.tally)[..], clauses);
}

/// The same for a write, with this line.
fn breaks(tally: &mut Tally, writing: Writing, line: &str, clauses: &[&str]) {
    fails(tally, line, &[Record::Write(writing)], line, clauses);
}

/// A write to accept, with numbers that are others when their bytes change places.
pub fn to_accept() -> Writing {
    Writing::new(2, 0x0605_0403, &[32767, -2, 300], 512)
}

/// Its block with some bytes changed.
fn changed(change: &dyn Fn(&mut [u8])) -> Vec<u8> {
    let (_, mut bytes) = to_accept().answer();
    change(&mut bytes);
    bytes
}

/// The same with the check words of what was changed.
pub fn sealed(change: &dyn Fn(&mut [u8])) -> Vec<u8> {
    let mut bytes = changed(change);
    block::seal(&mut bytes);
    bytes
}

/// The right block, and ones that are not sound: check words exchanged, big-endian, left, zero;
/// the first and the last unused byte left, and all; the kind, the code, byte 3 left; a count of 0;
/// nothing written, a byte less, a byte more, no buffer.
fn unsound(tally: &mut Tally) {
    let right = changed(&|_| ());
    breaks(tally, to_accept(), &write_line(0, &right), &[]);
    let rows = [
        changed(&|b| b[508..].rotate_left(2)),
        changed(&|b| b[508..].chunks_mut(2).for_each(<[u8]>::reverse)),
        changed(&|b| b[508..].fill(165)),
        changed(&|b| b[508..].fill(0)),
        sealed(&|b| b[18] = 165),
        sealed(&|b| b[507] = 165),
        sealed(&|b| b[18..508].fill(165)),
        sealed(&|b| b[0] = 165),
        sealed(&|b| b[1] = 165),
        sealed(&|b| b[3] = 165),
        sealed(&|b| b[2] = 0),
        changed(&|b| b.fill(165)),
        right[..511].to_vec(),
        [&right[..], &[0]].concat(),
        Vec::new(),
    ];
    for bytes in rows {
        breaks(tally, to_accept(), &write_line(0, &bytes), &[UNSOUND]);
    }
}

/// Sound blocks of another code; with a number before that is one more, the end, cut to 16 bits, or
/// big-endian; with a sample big-endian or of another sign, with the samples in another order, with
/// one less, with one more, with all of them 0.
fn contents(tally: &mut Tally) {
    let less = |bytes: &mut [u8]| {
        bytes[2] = 2;
        bytes[16..18].fill(0);
    };
    let rows = [
        ("the code", sealed(&|b| b[1] = 1)),
        ("the number before", sealed(&|b| b[4] += 1)),
        ("the number before", sealed(&|b| b[4] += 3)),
        ("the number before", sealed(&|b| b[6..12].fill(0))),
        ("the number before", sealed(&|b| b[4..12].reverse())),
        ("the samples", sealed(&|b| b.swap(12, 13))),
        ("the samples", sealed(&|b| b[15] = 0x7f)),
        ("the samples", sealed(&|b| b[12..16].rotate_left(2))),
        ("the samples", sealed(&less)),
        ("the samples", sealed(&|b| b[2] = 4)),
        ("the samples", sealed(&|b| b[12..18].fill(0))),
    ];
    for (clause, bytes) in rows {
        breaks(tally, to_accept(), &write_line(0, &bytes), &[clause]);
    }
}

/// A first check word of 65535 where it is 0.
fn zero_check_word(tally: &mut Tally) {
    let writing = Writing::new(1, 0, &[-259], 512);
    let (_, mut bytes) = writing.answer();
    bytes[508..510].fill(255);
    breaks(tally, writing, &write_line(0, &bytes), &[UNSOUND]);
}

/// Right refusals with the buffer cleared, written into, or of another length.
fn touched(tally: &mut Tally) {
    let block = block::make(1, END, &[1]);
    let one_byte = [&[165; 511][..], &[164]].concat();
    let rows = [
        (Writing::new(0, 0, &[1], 512), 1, vec![0; 512]),
        (Writing::new(1, 0, &[1], 3), 4, vec![0; 3]),
        (Writing::new(1, END, &[1], 512), 18, vec![0; 512]),
        (Writing::new(1, END, &[1], 512), 18, block),
        (Writing::new(1, END, &[1], 512), 18, one_byte),
        (Writing::new(1, 0, &[1], 3), 4, vec![165; 512]),
        (Writing::new(1, 0, &[1], 3), 4, Vec::new()),
        (Writing::new(1, 0, &[1], 0), 4, vec![165]),
    ];
    for (writing, r, buffer) in rows {
        breaks(tally, writing, &write_line(r, &buffer), &[TOUCHED]);
    }
}

/// The clauses that break where one number is given for another.
pub fn exchanged(given: u32, right: u32) -> Vec<&'static str> {
    let rows = NUMBERS.into_iter();
    let breaks = rows.filter(|&(r, _)| (r == given) != (r == right));
    breaks.map(|(_, clause)| clause).collect()
}

/// Writes that are to be refused, accepted with the block they would make: with an end at 2^48 + 1,
/// at 2^64 and past it, which in 64 bits are 0 and 247; with 0 samples and with 249, also as 248;
/// with a code that is not named and with a buffer that is too long.
fn accepted(tally: &mut Tally) {
    let ones = |before, count, length| Writing::new(1, before, &vec![1; count], length);
    let own = |w: &Writing| block::make(w.code as u8, w.before, &w.samples);
    let full = own(&ones(0, 248, 512));
    let long = [&own(&ones(0, 1, 512))[..], &[165]].concat();
    let rows = [
        (ones(END, 1, 512), None, 18, None),
        (ones(u64::MAX, 1, 512), None, 18, None),
        (ones(u64::MAX, 248, 512), None, 18, None),
        (ones(0, 0, 512), None, 18, Some(UNSOUND)),
        (ones(0, 249, 512), None, 18, Some(UNSOUND)),
        (ones(0, 249, 512), Some(full), 18, Some("the samples")),
        (Writing::new(6, 0, &[1], 512), None, 1, Some(UNSOUND)),
        (ones(0, 1, 513), Some(long), 4, Some(UNSOUND)),
    ];
    for (writing, other, right, clause) in rows {
        let line = write_line(0, &other.unwrap_or(own(&writing)));
        let mut clauses = exchanged(0, right);
        clauses.extend(clause);
        breaks(tally, writing, &line, &clauses);
    }
}

/// Writes with the right number of each: any refusal that is not the right answer breaks a clause,
/// though it leaves the buffer as it was. 8 and 11 are what a block's count and a meter's end get.
fn refused(tally: &mut Tally) {
    let ones = |code, before, count, length| Writing::new(code, before, &vec![1; count], length);
    let rows = [
        (ones(1, 0, 1, 512), 0),
        (ones(2, 0, 248, 512), 0),
        (ones(3, END - 1, 1, 512), 0),
        (ones(4, 0, 2, 512), 0),
        (ones(5, 0, 247, 512), 0),
        (ones(0, 0, 1, 512), 1),
        (ones(0, 0, 1, 3), 1),
        (ones(6, 0, 1, 512), 1),
        (ones(6, 0, 0, 512), 1),
        (ones(6, u64::MAX, 249, 511), 1),
        (ones(1, 0, 1, 3), 4),
        (ones(2, 0, 0, 3), 4),
        (ones(3, u64::MAX, 249, 513), 4),
        (ones(1, 0, 0, 512), 18),
        (ones(2, 0, 249, 512), 18),
        (ones(3, END, 1, 512), 18),
        (ones(1, u64::MAX, 1, 512), 18),
    ];
    for (writing, right) in rows {
        for given in [1, 4, 8, 11, 18] {
            let line = write_line(given, &vec![165; usize::from(writing.length)]);
            breaks(tally, writing.clone(), &line, &exchanged(given, right));
        }
    }
}

/// Lines of another form, for a buffer of three bytes and for one of none.
fn lines(tally: &mut Tally) {
    let clauses = ["a number and a buffer"];
    let rows = [
        "write",
        "write ",
        "write a5a5a5",
        "write 4 a5a5a",
        "write 4 A5A5A5",
        "write 4 a5 a5 a5",
        "write 4 a5a5a5 ",
        "write +4 a5a5a5",
        "write 4 165 165 165",
        "check 4",
    ];
    for line in rows {
        breaks(tally, Writing::new(1, 0, &[1], 3), line, &clauses);
    }
    breaks(tally, Writing::new(1, 0, &[1], 0), "write 4 ", &clauses);
}

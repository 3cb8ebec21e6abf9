//! The records of the host written in C and their lines, worked out by hand.

use crate::block;
use crate::generate::generate;
use crate::host::host as answers;
use crate::records::Record;
use crate::tally::Tally;
use crate::text;

/// A check of three bytes, and a write of the scope's example into a buffer of three bytes.
const CHECK: &str = "check code=1 bytes=7...9";
const WRITE: &str = "write code=1 samples=32767 length=3";

/// Every figure.
pub fn host(tally: &mut Tally) {
    codes(tally);
    buffers(tally);
    checks(tally);
    cut(tally);
    other_kinds(tally);
    generated(tally);
}

/// The bytes of a record for the host.
fn call(record: &str) -> Vec<u8> {
    let mut bytes = Vec::new();
    for record in text::records(record).expect("a record") {
        record.write_for_host(&mut bytes);
    }
    bytes
}

/// Checks the lines of records.
fn row(tally: &mut Tally, records: &str, lines: &str) {
    let found = answers(&call(records));
    tally.equal(&format!("host, {records}"), found.as_deref(), Some(lines));
}

/// No record, both, and both with each code that names a rate, with each of its bytes changed in
/// turn, and with the codes next to them.
fn codes(tally: &mut Tally) {
    row(tally, "", "");
    for code in 1..=5 {
        both(tally, &code.to_string(), 4);
        for other in ["2^8", "2^16", "2^24"] {
            both(tally, &format!("{other}+{code}"), 1);
        }
    }
    both(tally, "0", 1);
    both(tally, "6", 1);
}

/// Checks the answer to both with a code.
fn both(tally: &mut Tally, code: &str, r: u32) {
    let records = format!("{CHECK}\n{WRITE}").replace("code=1", &format!("code={code}"));
    row(tally, &records, &format!("check {r}\nwrite {r} a5a5a5\n"));
}

/// The write with a buffer of 512 bytes and with one of none.
fn buffers(tally: &mut Tally) {
    let zeros = "00".repeat(494);
    let line = format!("write 0 010101000000000000000000ff7f{zeros}01817fff\n");
    row(tally, &WRITE.replace("length=3", "length=512"), &line);
    row(tally, &WRITE.replace("length=3", "length=0"), "write 4\n");
}

/// Checks of such a block of each rate code, and of one that names no rate, with every code.
fn checks(tally: &mut Tally) {
    for own in 1..=6 {
        let block = block::make(own, 0, &[32767]);
        for code in 0..=6 {
            let mut bytes = Vec::new();
            Record::Check(code, block.clone()).write_for_host(&mut bytes);
            let line = match code {
                0 | 6 => "check 1\n",
                _ if code == u32::from(own) => "check 0\n",
                _ => "check 7\n",
            };
            let name = format!("host, a block of {own} with code {code}");
            tally.equal(&name, answers(&bytes).as_deref(), Some(line));
        }
    }
}

/// Either record cut anywhere, alone and after a whole one.
fn cut(tally: &mut Tally) {
    for record in [CHECK, WRITE].map(call) {
        for length in 1..record.len() {
            let cut = &record[..length];
            tally.equal("host, cut", answers(cut), None);
            let after = [&call(CHECK)[..], cut].concat();
            tally.equal("host, cut later", answers(&after), None);
        }
    }
}

/// Records of every other kind.
fn other_kinds(tally: &mut Tally) {
    for kind in (0..=255).filter(|kind| ![8, 9].contains(kind)) {
        let mut other = call(WRITE);
        other[0] = kind;
        tally.equal("host, another kind", answers(&other), None);
    }
}

/// In a script that is generated the check of each block that is written comes after it.
fn generated(tally: &mut Tally) {
    let script = generate("host", 1, 0).expect("a kind of script");
    let lines = answers(&script).expect("no record is bad");
    let lines: Vec<&str> = lines.lines().collect();
    let mut pairs = lines.windows(2);
    let checked = pairs.all(|pair| !pair[0].starts_with("write 0 ") || pair[1] == "check 0");
    tally.holds("host, written and checked", checked);
}

//! Sample blocks.

use crate::meter::MOST_SAMPLES;
use crate::rate::rate;

/// The length of a block in bytes (the customer's scope, "Sample blocks").
pub const LENGTH: usize = 512;

/// The most samples that a block carries (the customer's scope, "Sample blocks").
pub const MOST: usize = 248;

/// Where the samples begin (the customer's scope, "Sample blocks").
pub const FIRST_SAMPLE: usize = 12;

/// Where the check words begin (the customer's scope, "Sample blocks").
pub const CHECK: usize = 508;

/// The two-byte number at a byte (the customer's scope, "Sample blocks").
fn word(bytes: &[u8], at: usize) -> u64 {
    u64::from(bytes[at]) + 256 * u64::from(bytes[at + 1])
}

/// The kind (the customer's scope, "Sample blocks").
fn kind(bytes: &[u8]) -> u8 {
    bytes[0]
}

/// The rate code (the customer's scope, "Sample blocks").
pub fn code(bytes: &[u8]) -> u32 {
    u32::from(bytes[1])
}

/// The count of samples (the customer's scope, "Sample blocks").
pub fn count(bytes: &[u8]) -> usize {
    word(bytes, 2) as usize
}

/// The number of samples before the block (the customer's scope, "Sample blocks").
pub fn before(bytes: &[u8]) -> u64 {
    (0..8).map(|i| u64::from(bytes[4 + i]) << (8 * i)).sum()
}

/// The two right check words of bytes 0 to 507 (the customer's scope, "Sample blocks").
pub fn check_words(bytes: &[u8]) -> (u64, u64) {
    let mut sum = 0;
    let mut weighted = 0;
    for i in 0..254 {
        let w = word(bytes, 2 * i);
        sum += w;
        weighted += (254 - i as u64) * w;
    }
    (sum % 65535, weighted % 65535)
}

/// Refusal 4: not 512 bytes long (the customer's scope, "Why a call is refused").
fn refusal_4(bytes: &[u8]) -> bool {
    bytes.len() != LENGTH
}

/// Refusal 5: a check word is not the right one (the customer's scope, "Why a call is refused").
fn refusal_5(bytes: &[u8]) -> bool {
    (word(bytes, 508), word(bytes, 510)) != check_words(bytes)
}

/// Refusal 6: the kind (the customer's scope, "Why a call is refused").
fn refusal_6(bytes: &[u8]) -> bool {
    kind(bytes) != 1
}

/// Refusal 7: the rate code is not the one wanted (the customer's scope, "Why a call is refused").
fn refusal_7(bytes: &[u8], wanted: u32) -> bool {
    code(bytes) != wanted
}

/// Refusal 8: the count is not 1 to 248 (the customer's scope, "Why a call is refused").
fn refusal_8(bytes: &[u8]) -> bool {
    count(bytes) < 1 || count(bytes) > MOST
}

/// Refusal 9: an unused byte is not zero (the customer's scope, "Why a call is refused").
fn refusal_9(bytes: &[u8]) -> bool {
    (FIRST_SAMPLE..CHECK).any(|at| at >= FIRST_SAMPLE + 2 * count(bytes) && bytes[at] != 0)
}

/// The lowest of 4 to 9 that applies, else 0 (the customer's scope, "Why a call is refused").
pub fn refusal(bytes: &[u8], wanted: u32) -> u32 {
    if refusal_4(bytes) {
        4
    } else if refusal_5(bytes) {
        5
    } else if refusal_6(bytes) {
        6
    } else if refusal_7(bytes, wanted) {
        7
    } else if refusal_8(bytes) {
        8
    } else if refusal_9(bytes) {
        9
    } else {
        0
    }
}

/// Whether a block is sound (the customer's scope, "Sample blocks").
pub fn sound(bytes: &[u8]) -> bool {
    !refusal_4(bytes)
        && !refusal_5(bytes)
        && !refusal_6(bytes)
        && !refusal_8(bytes)
        && !refusal_9(bytes)
        && rate(code(bytes)).is_some()
}

/// The part that carries the samples, empty for an unsound block (the customer's scope, "Sample blocks").
pub fn part(bytes: &[u8]) -> &[u8] {
    if sound(bytes) {
        &bytes[FIRST_SAMPLE..FIRST_SAMPLE + 2 * count(bytes)]
    } else {
        &[]
    }
}

/// The samples of that part, in order (the customer's scope, "Sample blocks").
pub fn samples(bytes: &[u8]) -> Vec<i16> {
    part(bytes)
        .chunks(2)
        .map(|pair| i16::from_le_bytes([pair[0], pair[1]]))
        .collect()
}

/// What the host written in C is told (the customer's scope, "Sample blocks").
pub fn host(given: u32, bytes: &[u8]) -> u32 {
    if rate(given).is_none() {
        1
    } else {
        refusal(bytes, given)
    }
}

/// Writes the right check words into 512 bytes (the customer's scope, "Sample blocks").
pub fn seal(bytes: &mut [u8]) {
    let (sum, weighted) = check_words(bytes);
    bytes[508..510].copy_from_slice(&(sum as u16).to_le_bytes());
    bytes[510..512].copy_from_slice(&(weighted as u16).to_le_bytes());
}

/// A sealed block of samples; of 1 to 248 it is sound (the customer's scope, "Sample blocks").
pub fn make(code: u8, before: u64, samples: &[i16]) -> Vec<u8> {
    let mut bytes = vec![0; LENGTH];
    bytes[0] = 1;
    bytes[1] = code;
    bytes[2..4].copy_from_slice(&(samples.len() as u16).to_le_bytes());
    bytes[4..12].copy_from_slice(&before.to_le_bytes());
    for (i, x) in samples.iter().enumerate() {
        let at = FIRST_SAMPLE + 2 * i;
        bytes[at..at + 2].copy_from_slice(&x.to_le_bytes());
    }
    seal(&mut bytes);
    bytes
}

/// Refusal 18: 0 samples, more than 248, or an end above 2^48 (the customer's request L6).
fn refusal_18(before: u64, count: usize) -> bool {
    let end = u128::from(before) + count as u128;
    count < 1 || count > MOST || end > u128::from(MOST_SAMPLES)
}

/// The first of 1, 4 and 18 that applies to a write, else 0 (the customer's request L6).
fn write_refusal(code: u32, before: u64, samples: &[i16], buffer: &[u8]) -> u32 {
    if rate(code).is_none() {
        1
    } else if refusal_4(buffer) {
        4
    } else if refusal_18(before, samples.len()) {
        18
    } else {
        0
    }
}

/// Fills a lent buffer with a block: 0, or the refusal, which leaves the buffer untouched (the
/// customer's request L6).
pub fn write(code: u32, before: u64, samples: &[i16], buffer: &mut [u8]) -> u32 {
    let r = write_refusal(code, before, samples, buffer);
    if r == 0 {
        buffer.copy_from_slice(&make(code as u8, before, samples));
    }
    r
}

/// Sound blocks of all the samples in order, full but for the last (the customer's scope, "Sample blocks").
pub fn pack(code: u8, samples: &[i16]) -> Vec<u8> {
    let parts = samples.chunks(MOST).enumerate();
    parts
        .flat_map(|(i, part)| make(code, (i * MOST) as u64, part))
        .collect()
}

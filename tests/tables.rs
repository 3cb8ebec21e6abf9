//! `tables FILE..` looks through programs and libraries for a table of the meter's thresholds: three
//! neighbours in a row, as c_j = 2^(j + 24) or as 2^j, in numbers of 2, 4 or 8 bytes, little-endian,
//! rising or falling, from any byte on. It says where each stands, and ends with status 1 where there
//! is one, with 2 where a file can't be read.

use std::{env, fs, process};

const THRESHOLDS: u32 = 15;
const IN_A_ROW: usize = 3;
const WIDTHS: [usize; 3] = [2, 4, 8];

/// The exponents of the first threshold: in units, and in quantizing intervals.
const FIRST: [u32; 2] = [24, 0];

/// The thresholds from 2^first on that fit a width, each as its bytes.
fn written(first: u32, width: usize) -> Vec<Vec<u8>> {
    (first..first + THRESHOLDS)
        .filter(|&exponent| (exponent as usize) < 8 * width)
        .map(|exponent| (1u64 << exponent).to_le_bytes()[..width].to_vec())
        .collect()
}

/// The bytes of every few neighbours in a row.
fn rows(numbers: &[Vec<u8>]) -> Vec<Vec<u8>> {
    numbers.windows(IN_A_ROW).map(|row| row.concat()).collect()
}

/// Where one of the rows stands.
fn places(bytes: &[u8], rows: &[Vec<u8>]) -> Vec<usize> {
    let stands = |at: &usize| rows.iter().any(|row| bytes[*at..].starts_with(row));
    (0..bytes.len()).filter(stands).collect()
}

/// A line for each place of a file at which thresholds stand in a row.
fn found(file: &str, bytes: &[u8]) -> Vec<String> {
    let mut lines = Vec::new();
    for first in FIRST {
        for width in WIDTHS {
            let rising = written(first, width);
            let falling: Vec<_> = rising.iter().rev().cloned().collect();
            for (order, numbers) in [("rising", rising), ("falling", falling)] {
                for at in places(bytes, &rows(&numbers)) {
                    lines.push(format!("{file}: from 2^{first} on, {order}, in {width} bytes each, at byte {at}"));
                }
            }
        }
    }
    lines
}

fn main() {
    let mut lines = Vec::new();
    for file in env::args().skip(1) {
        match fs::read(&file) {
            Ok(bytes) => lines.append(&mut found(&file, &bytes)),
            Err(error) => {
                eprintln!("{file}: {error}");
                process::exit(2);
            }
        }
    }
    for line in &lines {
        println!("{line}");
    }
    process::exit(i32::from(!lines.is_empty()));
}

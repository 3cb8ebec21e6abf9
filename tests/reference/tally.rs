//! Counts of checks passed and failed.

use std::fmt::Debug;

/// The checks so far.
pub struct Tally {
    passed: u64,
    failed: Vec<String>,
}

impl Tally {
    /// No checks yet.
    pub fn new() -> Tally {
        Tally {
            passed: 0,
            failed: Vec::new(),
        }
    }

    /// Counts a check that holds or not.
    pub fn holds(&mut self, name: &str, condition: bool) {
        if condition {
            self.passed += 1;
        } else {
            self.failed.push(name.to_string());
        }
    }

    /// Counts a check that holds or not, with a line for one that holds too.
    pub fn shown(&mut self, line: &str, condition: bool) {
        if condition {
            println!("{line}");
        }
        self.holds(line, condition);
    }

    /// Counts a check of a value, with both values where they differ.
    pub fn equal<T: PartialEq + Debug>(&mut self, name: &str, found: T, expected: T) {
        let name = format!("{name}: {found:?} for {expected:?}");
        self.holds(&name, found == expected);
    }

    /// The names of the checks that failed.
    pub fn failed(&self) -> &[String] {
        &self.failed
    }

    /// Prints a line for each check that failed and the counts, and tells whether none failed.
    pub fn finish(&self) -> bool {
        for name in &self.failed {
            println!("{name} fails");
        }
        println!("{} passed, {} failed", self.passed, self.failed.len());
        self.failed.is_empty()
    }
}

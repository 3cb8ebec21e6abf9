//! The calls of the line host written in C, each with its answer.

use crate::records::{Reader, Record};
use crate::replay::Player;

/// Answers each check and each write, one line each; None where a record is cut short or of
/// another kind.
pub fn host(bytes: &[u8]) -> Option<String> {
    let mut reader = Reader::of_host(bytes);
    let mut player = Player::new();
    let mut lines = String::new();
    while !reader.at_end() {
        let record = reader.record()?;
        if !matches!(record, Record::Check(..) | Record::Write(_)) {
            return None;
        }
        lines += &player.answer(&record);
        lines += "\n";
    }
    Some(lines)
}

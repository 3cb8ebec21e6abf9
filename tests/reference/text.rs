//! Records as text, and values of lines by their names.
//!
//! A line of a text is a record: its kind and its fields by name, as in `open code=1 margin=0`.
//! What is not named is the usual value, and 2 for a code. After `->` stands the answer: a number;
//! for a show the values of the meter, as for a load; for a report those that are not the meter's
//! own, where not named 0; for a write a number and the buffer's bytes; for a load nothing.
//!
//! The numbers of a field are parted by commas. A number is a sum of terms such as `2^24+1`; `N*K`
//! is N, K times over; `N...M` are the numbers from N to M, and `N..M` those by doubling. A line
//! that ends with a backslash goes on with the next, after four spaces.

use crate::block;
use crate::fields::Value;
use crate::meter::Meter;
use crate::printed;
use crate::records::{Record, Writing};
use crate::replay::{meter_line, report_line, write_line, Player};
use crate::setting::{Opening, Setting};
use std::iter::successors;

/// The code of what does not name one.
const CODE: u8 = 2;

/// A field as it is written: its name and its numbers.
type Field<'a> = (&'a str, Vec<i128>);

/// A number, or a power of one.
fn term(text: &str) -> Option<i128> {
    match text.split_once('^') {
        Some((base, power)) => base.parse::<i128>().ok()?.checked_pow(power.parse().ok()?),
        None => text.parse().ok(),
    }
}

/// A sum of terms.
fn sum(text: &str) -> Option<i128> {
    match text.rfind(['+', '-']) {
        Some(0) => Some(-term(text.strip_prefix('-')?)?),
        Some(at) if text[at..].starts_with('+') => Some(sum(&text[..at])? + term(&text[at + 1..])?),
        Some(at) => Some(sum(&text[..at])? - term(&text[at + 1..])?),
        None => term(text),
    }
}

/// One number, one of them many times over, or a row of them.
fn item(text: &str) -> Option<Vec<i128>> {
    if let Some((number, times)) = text.split_once('*') {
        return Some(vec![sum(number)?; times.parse().ok()?]);
    }
    if let Some((first, last)) = text.split_once("...") {
        return Some((sum(first)?..=sum(last)?).collect());
    }
    let Some((first, last)) = text.split_once("..") else {
        return Some(vec![sum(text)?]);
    };
    let (first, last) = (sum(first)?, sum(last)?);
    let doubled = successors(Some(first), |number| Some(2 * number));
    let doubled: Vec<i128> = doubled.take_while(|n| (1..=last).contains(n)).collect();
    (doubled.last() == Some(&last)).then_some(doubled)
}

/// All the numbers of a field.
fn numbers(text: &str) -> Option<Vec<i128>> {
    let items = text.split(',').filter(|_| !text.is_empty());
    let numbers: Option<Vec<Vec<i128>>> = items.map(item).collect();
    Some(numbers?.concat())
}

/// One field.
fn field(word: &str) -> Option<Field<'_>> {
    let (name, value) = word.split_once('=')?;
    Some((name, numbers(value)?))
}

/// The fields of a text.
fn fields(text: &str) -> Option<Vec<Field<'_>>> {
    text.split_whitespace().map(field).collect()
}

/// A value with fields as they are written.
fn with<V: Value>(mut value: V, fields: &[Field]) -> Option<V> {
    for (name, numbers) in fields {
        value.set(name, numbers)?;
    }
    Some(value)
}

/// The value of a record that has but one, of this name.
fn only<V: Value + Default>(name: &str, fields: &[Field]) -> Option<V> {
    match fields {
        [] => Some(V::default()),
        [(own, numbers)] if *own == name => V::of(numbers),
        _ => None,
    }
}

/// A meter of the usual setting that has taken nothing.
fn meter() -> Meter {
    Meter {
        setting: Setting::usual(CODE),
        ..Meter::zero()
    }
}

/// The bytes of a block: those that are written, or the sound one of some samples.
fn block(fields: &[Field]) -> Option<Vec<u8>> {
    if let [("bytes", _)] = fields {
        return only("bytes", fields);
    }
    let made = with(Writing::new(u32::from(CODE), 0, &[], 512), fields)?;
    Some(block::make(made.code as u8, made.before, &made.samples))
}

/// The record of a kind with these fields.
fn record(kind: &str, fields: &[Field]) -> Option<Record> {
    let code = u32::from(CODE);
    Some(match kind {
        "open" => Record::Open(with(Opening::from(Setting::usual(CODE)), fields)?),
        "chunk" => Record::Chunk(only("samples", fields)?),
        "block" => Record::Block(block(fields)?),
        "report" if fields.is_empty() => Record::Report,
        "load" => Record::Load(with(meter(), fields)?),
        "show" if fields.is_empty() => Record::Show,
        "lev" => Record::Lev(only("number", fields)?),
        "check" => match fields {
            [(name, own), rest @ ..] if *name == "code" => {
                Record::Check(Value::of(own)?, only("bytes", rest)?)
            }
            _ => Record::Check(code, only("bytes", fields)?),
        },
        "write" => Record::Write(with(Writing::new(code, 0, &[], 512), fields)?),
        _ => return None,
    })
}

/// The line that a record is to have, on a meter that stays as it is.
fn answer(kind: &str, record: &Record, meter_then: &Meter, text: &str) -> Option<String> {
    match record {
        Record::Load(_) => text.is_empty().then(|| kind.to_string()),
        Record::Show => Some(meter_line(&with(meter(), &fields(text)?)?)),
        Record::Report if text.contains('=') => {
            Some(report_line(&Ok(with(meter_then.totals(), &fields(text)?)?)))
        }
        Record::Write(_) => {
            let (r, buffer) = text.split_once(' ').unwrap_or((text, ""));
            Some(write_line(r.parse().ok()?, &Vec::of(&numbers(buffer)?)?))
        }
        _ => Some(format!("{kind} {text}")),
    }
}

/// The kind of a line, its record, and what stands after `->`.
fn parts(line: &str) -> Option<(&str, Record, &str)> {
    let (given, answer) = line.split_once("->").unwrap_or((line, ""));
    let (kind, rest) = given.trim().split_once(' ').unwrap_or((given.trim(), ""));
    Some((kind, record(kind, &fields(rest)?)?, answer.trim()))
}

/// Something of each line that is a record; the line where there is nothing.
fn each<T>(text: &str, mut part: impl FnMut(&str) -> Option<T>) -> Result<Vec<T>, String> {
    let text = text.replace("\\\n    ", "");
    let lines = text
        .lines()
        .filter(|line| !line.is_empty() && !line.starts_with('#'));
    lines
        .map(|line| part(line).ok_or_else(|| format!("not a record: {line}")))
        .collect()
}

/// The records of a text.
pub fn records(text: &str) -> Result<Vec<Record>, String> {
    each(text, |line| Some(parts(line)?.1))
}

/// The lines that a text has for answers.
pub fn answers(text: &str) -> Result<String, String> {
    let mut player = Player::new();
    let lines = each(text, |line| {
        let (kind, record, text) = parts(line)?;
        player.answer(&record);
        Some(answer(kind, &record, &player.meter, text)? + "\n")
    })?;
    Ok(lines.concat())
}

/// One value of a line: its answer, or a value of a meter, of a report or of the report program's
/// level. A refused report has the answer alone, and nothing for the others.
fn value(line: &str, kind: &str, name: &str) -> Option<String> {
    let numbers = match (kind, name) {
        (_, "answer") => numbers(line.split(' ').nth(1)?)?,
        ("meter", _) => printed::meter(line)?.named(name)?,
        ("level", _) => printed::level(line)?.named(name)?,
        ("report", _) => match printed::report(line)? {
            Ok(report) => report.named(name)?,
            Err(_) => Vec::new(),
        },
        _ => return None,
    };
    let words: Vec<String> = numbers.iter().map(i128::to_string).collect();
    Some(words.join(","))
}

/// Of each line of a kind that has them all, the values of these names; the numbers of one value
/// are parted by commas.
pub fn values(kind: &str, names: &[&str], lines: &str) -> Result<String, String> {
    let mut found = String::new();
    let of_kind = |line: &&str| line.split(' ').next() == Some(kind);
    for line in lines.lines().filter(of_kind) {
        let values = names.iter().map(|name| value(line, kind, name));
        let values: Option<Vec<String>> = values.collect();
        let values = values.ok_or_else(|| format!("not {} of: {line}", names.join(" ")))?;
        if values.iter().all(|value| !value.is_empty()) {
            found += &(values.join(" ") + "\n");
        }
    }
    Ok(found)
}

//! A second program of the scope's definitions, to test the first one against, with the
//! calibration of P.56 and its method B in floating point.
//!
//! The names are the document's, capitals among them.

#![allow(non_snake_case)]

#[macro_use]
mod fields;

mod answer;
mod big;
mod block;
mod cards;
mod chosen;
mod clause11;
mod codes;
mod compare;
mod crossed;
mod doctored;
mod exact;
mod figures;
mod float;
mod generate;
mod host;
mod level;
mod listed;
mod margins;
mod measurement;
mod meter;
mod noise;
mod percent;
mod printed;
mod rate;
mod records;
mod replay;
mod report;
mod setting;
mod speech;
mod tally;
mod text;
mod thresholds;
mod written;

use records::Record;
use speech::{finer, hum, vehicle};
use std::io::{self, Read, Write};
use std::num::NonZeroUsize;
use std::process::ExitCode;

/// Said of a script that cannot be played to its end.
const BAD_RECORD: &str = "the script has a bad record";

/// The commands.
const COMMANDS: &str = "replay | report | host | generate KIND SEED COUNT | records [host] | \
    answers | values KIND NAME.. | blocks CODE [K] | \
    recorded CODE | noise D SEED | figures | samples | largest | crossed | \
    chosen | codes | margins | listed | agrees SCRIPT OUTPUT | written SCRIPT OUTPUT | \
    cards SCRIPT OUTPUT SCRIPT OUTPUT | compared RECORDING OUTPUT RECORDING OUTPUT | \
    clause11 script | clause11 check OUTPUT | speech ...";

/// Everything on standard input.
fn input() -> io::Result<Vec<u8>> {
    let mut bytes = Vec::new();
    io::stdin().read_to_end(&mut bytes)?;
    Ok(bytes)
}

/// Everything to standard output.
fn output(bytes: &[u8]) -> io::Result<bool> {
    io::stdout().write_all(bytes)?;
    Ok(true)
}

/// Lines to standard output, or an error with a message where there are none.
fn lines(lines: Option<String>, message: &str) -> io::Result<bool> {
    match lines {
        Some(lines) => output(lines.as_bytes()),
        None => error(message),
    }
}

/// An error with a message.
fn error<T>(message: &str) -> io::Result<T> {
    Err(io::Error::other(message))
}

/// Text on standard input.
fn input_text() -> io::Result<String> {
    io::read_to_string(io::stdin())
}

/// What is made of a text, or an error with what is wrong with it.
fn made<T>(made: Result<T, String>) -> io::Result<T> {
    made.map_err(io::Error::other)
}

/// Writes the records of the text on standard input, each in this way.
fn records(write: fn(&Record, &mut Vec<u8>)) -> io::Result<bool> {
    let mut bytes = Vec::new();
    for record in made(text::records(&input_text()?))? {
        write(&record, &mut bytes);
    }
    output(&bytes)
}

/// Writes the records or the recording of one kind.
fn generate(kind: &str, seed: &str, count: &str) -> io::Result<bool> {
    let (Ok(seed), Ok(count)) = (seed.parse(), count.parse()) else {
        return error("SEED and COUNT are numbers");
    };
    match generate::generate(kind, seed, count) {
        Some(bytes) => output(&bytes),
        None => error("KIND is lev, host, check, write, calls, lists, first, second or recording"),
    }
}

/// Prints what was counted for a script.
fn counted(tally: Option<tally::Tally>) -> io::Result<bool> {
    match tally {
        Some(tally) => Ok(tally.finish()),
        None => error(BAD_RECORD),
    }
}

/// Prints what a check counted for a script and the lines that another program printed for it.
fn held(
    check: fn(&[u8], &str) -> Option<tally::Tally>,
    script: &str,
    printed: &str,
) -> io::Result<bool> {
    let script = std::fs::read(script)?;
    counted(check(&script, &std::fs::read_to_string(printed)?))
}

/// Prints what a check found of two cards, by a file that was given to each and the lines that
/// another program printed for it.
fn two_cards(
    check: fn([&[u8]; 2], [&str; 2]) -> Option<cards::Held>,
    [first, first_printed, second, second_printed]: [&str; 4],
) -> io::Result<bool> {
    let given = [std::fs::read(first)?, std::fs::read(second)?];
    let first_printed = std::fs::read_to_string(first_printed)?;
    let second_printed = std::fs::read_to_string(second_printed)?;
    match check([&given[0], &given[1]], [&first_printed, &second_printed]) {
        Some(held) => Ok(held.finish()),
        None => error(BAD_RECORD),
    }
}

/// The rate of a code that names one.
fn rate_of(code: &str) -> io::Result<&'static rate::Rate> {
    match code.parse().ok().and_then(rate::rate) {
        Some(rate) => Ok(rate),
        None => error("CODE is a number from 1 to 5"),
    }
}

/// The samples of a recording.
fn samples(bytes: &[u8]) -> io::Result<Vec<i16>> {
    match records::read_samples(bytes) {
        Some(samples) => Ok(samples),
        None => error("the last sample is cut short"),
    }
}

/// The seed of a voice or of noise.
fn seed_of(seed: &str) -> io::Result<u64> {
    seed.parse().or_else(|_| error("SEED is a number"))
}

/// Samples to standard output.
fn output_samples(samples: &[i16]) -> io::Result<bool> {
    let mut bytes = Vec::new();
    records::write_samples(samples, &mut bytes);
    output(&bytes)
}

/// Runs a command about speech.
fn speech(arguments: &[&str]) -> io::Result<bool> {
    match arguments {
        ["voice", code, seed] => output_samples(&speech::voice(rate_of(code)?, seed_of(seed)?)),
        ["hum", code, seed] => output_samples(&hum::line(rate_of(code)?, seed_of(seed)?).samples()),
        ["script", code] => output(&speech::script(rate_of(code)?, &samples(&input()?)?)),
        ["check", code, recording, printed] => {
            let samples = samples(&std::fs::read(recording)?)?;
            let printed = std::fs::read_to_string(printed)?;
            Ok(speech::check(rate_of(code)?, &samples, &printed).finish())
        }
        ["vehicle", "script", code, seed] => {
            output(&vehicle::script(rate_of(code)?, seed_of(seed)?))
        }
        ["finer", "script", code, seed] => output(&finer::script(rate_of(code)?, seed_of(seed)?)),
        [line @ ("hum" | "vehicle" | "finer"), "check", code, seed, printed] => {
            let check = match *line {
                "hum" => hum::heard,
                "vehicle" => vehicle::check,
                _ => finer::check,
            };
            let printed = std::fs::read_to_string(printed)?;
            Ok(check(rate_of(code)?, seed_of(seed)?, &printed).finish())
        }
        _ => error(
            "speech voice CODE SEED | speech hum CODE SEED | speech script CODE | \
             speech check CODE SAMPLES OUTPUT | speech vehicle|finer script CODE SEED | \
             speech hum|vehicle|finer check CODE SEED OUTPUT",
        ),
    }
}

/// Sound blocks of the samples on standard input, of the first and every K-th after it.
fn blocks(code: &str, every: &str) -> io::Result<bool> {
    let rate = rate_of(code)?;
    let every: NonZeroUsize = every
        .parse()
        .or_else(|_| error("K is a number from 1 on"))?;
    let samples = samples(&input()?)?.into_iter();
    let taken: Vec<i16> = samples.step_by(every.get()).collect();
    output(&block::pack(rate.code, &taken))
}

/// The samples on standard input with noise.
fn noise(most: &str, seed: &str) -> io::Result<bool> {
    let most = most
        .parse()
        .or_else(|_| error("D is a number below 65536"))?;
    let samples = samples(&input()?)?;
    output_samples(&noise::noisy(&samples, most, seed_of(seed)?))
}

/// What a command tells of a script; None where the script has a bad record.
fn told(word: &str, script: &[u8]) -> Option<String> {
    match word {
        "samples" => replay::accepted_samples(script),
        "largest" => replay::largest_size(script),
        "crossed" => crossed::crossed(script),
        "chosen" => chosen::chosen(script),
        "codes" => codes::codes(script),
        "margins" => margins::margins(script),
        "listed" => listed::listed(script),
        _ => None,
    }
}

/// Runs one command; whether nothing failed.
fn run(arguments: &[&str]) -> io::Result<bool> {
    match arguments {
        ["replay"] => output(replay::replay(&input()?).as_bytes()),
        ["report"] => output(report::report(&input()?).as_bytes()),
        ["host"] => lines(
            host::host(&input()?),
            "a record is cut short, or neither a check nor a write",
        ),
        ["generate", kind, seed, count] => generate(kind, seed, count),
        ["records"] => records(Record::write),
        ["records", "host"] => records(Record::write_for_host),
        ["answers"] => output(made(text::answers(&input_text()?))?.as_bytes()),
        ["values", kind, names @ ..] => {
            output(made(text::values(kind, names, &input_text()?))?.as_bytes())
        }
        ["blocks", code] => blocks(code, "1"),
        ["blocks", code, every] => blocks(code, every),
        ["recorded", code] => output(&measurement::recorded(rate_of(code)?, &input()?)),
        ["noise", most, seed] => noise(most, seed),
        ["figures"] => Ok(figures::figures()),
        [word @ ("samples" | "largest" | "crossed" | "chosen" | "codes" | "margins" | "listed")] => {
            lines(told(word, &input()?), BAD_RECORD)
        }
        ["agrees", script, printed] => held(compare::agrees, script, printed),
        ["written", script, printed] => held(written::written, script, printed),
        ["cards", a, b, c, d] => two_cards(cards::cards, [a, b, c, d]),
        ["compared", a, b, c, d] => two_cards(
            |recordings, printed| Some(cards::compared(recordings, printed)),
            [a, b, c, d],
        ),
        ["clause11", "script"] => output(&clause11::script()),
        ["clause11", "check", printed] => {
            Ok(clause11::check(&std::fs::read_to_string(printed)?).finish())
        }
        ["speech", arguments @ ..] => speech(arguments),
        _ => error(COMMANDS),
    }
}

/// The command line.
fn main() -> ExitCode {
    let arguments: Vec<String> = std::env::args().skip(1).collect();
    let arguments: Vec<&str> = arguments.iter().map(String::as_str).collect();
    match run(&arguments) {
        Ok(true) => ExitCode::SUCCESS,
        Ok(false) => ExitCode::FAILURE,
        Err(error) => {
            eprintln!("reference: {error}");
            ExitCode::from(2)
        }
    }
}

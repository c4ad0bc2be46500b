//! A second chip32 runner, and the trials that compare it with another one.

mod cell;
mod check_rule;
mod execute;
mod file;
mod float;
mod float_values;
mod generate;
mod generate_branches;
mod generate_calls;
mod generate_checks;
mod generate_float_stops;
mod generate_floats;
mod generate_forward;
mod generate_instructions;
mod generate_jobs;
mod generate_lines;
mod generate_profile;
mod generate_profile_stops;
mod generate_stops;
mod generate_words;
mod half;
mod job;
mod line;
mod machine;
mod profile;
mod random;
mod setup;
mod table;
#[cfg(test)]
mod tests;
#[cfg(test)]
mod tests_float;
mod trial;

use std::io::{self, Read, Write};
use std::process::ExitCode;

const USAGE: &str =
    "oracle generate SEED COUNT | floats SEED | answer | table | runjob | check-rule [L] | assemble";

fn main() -> ExitCode {
    let arguments: Vec<String> = std::env::args().skip(1).collect();
    let arguments: Vec<&str> = arguments.iter().map(String::as_str).collect();
    let done = match arguments.as_slice() {
        ["generate", seed, count] => generate(seed, count),
        ["floats", seed] => floats(seed),
        ["answer"] => answer(),
        ["table"] => table(),
        ["runjob"] => runjob(),
        ["check-rule"] => check_rule(None),
        ["check-rule", length] => check_rule(Some(length)),
        ["assemble"] => assemble(),
        _ => Err(USAGE.to_string()),
    };
    match done {
        Ok(()) => ExitCode::SUCCESS,
        Err(message) => {
            eprintln!("{message}");
            ExitCode::FAILURE
        }
    }
}

fn input() -> Result<Vec<u8>, String> {
    let mut bytes = Vec::new();
    io::stdin().read_to_end(&mut bytes).map_err(|error| error.to_string())?;
    Ok(bytes)
}

fn output(bytes: &[u8]) -> Result<(), String> {
    io::stdout().write_all(bytes).map_err(|error| error.to_string())
}

fn generate(seed: &str, count: &str) -> Result<(), String> {
    let seed = seed.parse().map_err(|_| USAGE)?;
    let count = count.parse().map_err(|_| USAGE)?;
    output(&generate::trials(seed, count))
}

fn floats(seed: &str) -> Result<(), String> {
    let seed = seed.parse().map_err(|_| USAGE)?;
    output(&generate_floats::trials(seed))
}

/// Every trial's answer, in order, with the table of what occurred.
fn answers(file: &[u8]) -> Result<(String, table::Tally), String> {
    let mut tally = table::Tally::new();
    let mut text = String::new();
    for (number, (kind, payload)) in trial::split(file)?.into_iter().enumerate() {
        text += &format!("trial {number} kind {kind}\n");
        text += &trial::answer(kind, payload, &mut tally).map_err(|error| format!("trial {number}: {error}"))?;
    }
    Ok((text, tally))
}

fn answer() -> Result<(), String> {
    let (text, _) = answers(&input()?)?;
    output(text.as_bytes())
}

fn table() -> Result<(), String> {
    let (_, tally) = answers(&input()?)?;
    let (text, missing) = tally.text();
    output(text.as_bytes())?;
    if missing.is_empty() {
        Ok(())
    } else {
        Err(format!("missing {}:\n{}", missing.len(), missing.join("\n")))
    }
}

fn runjob() -> Result<(), String> {
    let (text, _) = job::runjob(&input()?);
    output(text.as_bytes())
}

fn check_rule(length: Option<&str>) -> Result<(), String> {
    output(check_rule::text(length, &input()?).as_bytes())
}

/// The job whose cells from 0 on are those of the printed lines. It has no words, so that the host's stay.
fn assemble() -> Result<(), String> {
    let text = input()?;
    let lines = text.split_inclusive(|byte| *byte == b'\n').enumerate();
    let cells: Result<Vec<u32>, String> = lines
        .map(|(number, line)| line::read(line).map_err(|_| format!("line {} is no cell's", number + 1)))
        .collect();
    output(&[job::cell_records(&cells?), job::record(4, &[])].concat())
}

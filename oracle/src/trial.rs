//! Trials: how they are read, and the text that answers them. README.md has the format.

use crate::cell::{self, Decoded, Operands};
use crate::job;
use crate::line;
use crate::machine::{Answer, Machine, Runner, Words, NO_WORDS, PC};
use crate::profile::{self, Fault};
use crate::table::Tally;

pub const DECODE: u8 = 1;
pub const ENCODE: u8 = 2;
pub const PRINT: u8 = 3;
pub const READ: u8 = 4;
pub const LOAD: u8 = 5;
pub const CALLS: u8 = 6;
pub const RUNJOB: u8 = 7;
pub const SAVE: u8 = 8;
pub const DESCRIBED: u8 = 9;
pub const CHECK: u8 = 10;

pub const STEP: u8 = 0;
pub const RUN: u8 = 1;
pub const BACK: u8 = 2;
pub const PROFILE: u8 = 3;

pub const MOST_PAYLOAD: usize = 40_000;
pub const MOST_PRINT_ROOM: usize = 40;
pub const MOST_CELLS: usize = 16_500;
pub const MOST_JOURNAL: usize = 524_304;
pub const MOST_SAVE_ROOM: usize = 70_000;
pub const MOST_JOB: usize = 70_000;

const ROOM_FILL: u8 = 0xAA;
const CELLS_FILL: u32 = 2_863_311_530;
const FRESH_CELLS_FILL: u32 = 1_431_655_765;

/// Takes numbers off the front of bytes.
struct Input<'a> {
    bytes: &'a [u8],
}

impl<'a> Input<'a> {
    fn take(&mut self, length: usize) -> Result<&'a [u8], String> {
        if length > self.bytes.len() {
            return Err(format!("{length} bytes wanted, {} left", self.bytes.len()));
        }
        let (taken, rest) = self.bytes.split_at(length);
        self.bytes = rest;
        Ok(taken)
    }

    fn number(&mut self, length: usize) -> Result<u64, String> {
        let bytes = self.take(length)?;
        Ok(bytes.iter().rev().fold(0, |number, byte| number << 8 | *byte as u64))
    }

    fn byte(&mut self) -> Result<u8, String> {
        Ok(self.number(1)? as u8)
    }

    fn word(&mut self) -> Result<u32, String> {
        Ok(self.number(4)? as u32)
    }

    fn five_words(&mut self) -> Result<Words, String> {
        let mut words = Words::default();
        for word in &mut words {
            *word = self.word()?;
        }
        Ok(words)
    }

    /// A length that may not exceed what the format allows.
    fn length(&mut self, bytes: usize, most: usize) -> Result<usize, String> {
        let length = self.number(bytes)? as usize;
        if length > most {
            return Err(format!("length {length} is above {most}"));
        }
        Ok(length)
    }

    fn end(&self) -> Result<(), String> {
        if self.bytes.is_empty() {
            Ok(())
        } else {
            Err(format!("{} bytes too many", self.bytes.len()))
        }
    }
}

/// The trials of a file: kind and payload of each.
pub fn split(file: &[u8]) -> Result<Vec<(u8, &[u8])>, String> {
    let mut input = Input { bytes: file };
    let mut trials = Vec::new();
    while !input.bytes.is_empty() {
        let kind = input.byte()?;
        let length = input.length(4, MOST_PAYLOAD)?;
        trials.push((kind, input.take(length)?));
    }
    Ok(trials)
}

/// A polynomial over a prime field with more elements than there are words: one word that differs,
/// or two that changed places, always show.
fn digest(words: impl Iterator<Item = u32>) -> u64 {
    words.fold(0, |sum, word| (sum * 1_000_003 + word as u64 + 1) % 1_000_000_000_039)
}

pub fn digest_of(list: &[u32]) -> u64 {
    digest(list.iter().copied())
}

fn machine_text(machine: &Machine, cells: &[u32]) -> String {
    let Machine { registers, flags, mask, mode, depth, words } = machine;
    format!(
        "flags {flags} mask {mask} mode {mode} depth {depth} words {} registers {} cells {}",
        digest_of(words),
        digest_of(registers),
        digest_of(cells)
    )
}

/// The lines that answer one trial, without the line that names it.
pub fn answer(kind: u8, payload: &[u8], tally: &mut Tally) -> Result<String, String> {
    let mut input = Input { bytes: payload };
    let text = match kind {
        DECODE => decode(&mut input, tally)?,
        ENCODE => encode(&mut input, tally)?,
        PRINT => print(&mut input, tally)?,
        READ => read(&mut input, tally),
        LOAD => load(&mut input, tally)?,
        CALLS => calls(&mut input, tally)?,
        RUNJOB => runjob(&mut input, tally),
        SAVE => save(&mut input, tally)?,
        DESCRIBED => described(&mut input, tally)?,
        CHECK => check(&mut input, tally)?,
        _ => return Err(format!("kind {kind} is unknown")),
    };
    input.end()?;
    Ok(text)
}

fn decode(input: &mut Input, tally: &mut Tally) -> Result<String, String> {
    let cell = input.word()?;
    tally.decoded[cell::opcode_of(cell) as usize] += 1;
    Ok(match cell::decode(cell) {
        Decoded::Legal(opcode, Operands::Registers { n, m, l }) => format!("registers {opcode} {n} {m} {l}\n"),
        Decoded::Legal(opcode, Operands::Immediate { n, imm }) => format!("immediate {opcode} {n} {imm}\n"),
        Decoded::Reserved(cell) => format!("reserved {cell}\n"),
    })
}

fn encode(input: &mut Input, tally: &mut Tally) -> Result<String, String> {
    let opcode = input.byte()?;
    let operands = match input.byte()? {
        0 => Operands::Registers { n: input.byte()?, m: input.byte()?, l: input.byte()? },
        1 => Operands::Immediate { n: input.byte()?, imm: input.number(2)? as u16 },
        form => return Err(format!("form {form} is unknown")),
    };
    tally.encoded[opcode as usize] += 1;
    Ok(match cell::encode(opcode, operands) {
        Ok(cell) => format!("cell {cell}\n"),
        Err(number) => refused("encode", number, tally),
    })
}

fn refused(place: &'static str, number: u32, tally: &mut Tally) -> String {
    tally.refusal(place, number);
    format!("refused {number}\n")
}

fn print(input: &mut Input, tally: &mut Tally) -> Result<String, String> {
    let cell = input.word()?;
    let mut room = vec![ROOM_FILL; input.length(1, MOST_PRINT_ROOM)?];
    let mut text = match line::print(cell, &mut room) {
        Ok(length) => {
            tally.printed[cell::opcode_of(cell) as usize] += 1;
            format!("length {length}\n")
        }
        Err(number) => refused("print", number, tally),
    };
    let bytes: Vec<String> = room.iter().map(|byte| byte.to_string()).collect();
    text += &bytes.join(" ");
    text.push('\n');
    Ok(text)
}

fn read(input: &mut Input, tally: &mut Tally) -> String {
    match line::read(std::mem::take(&mut input.bytes)) {
        Ok(cell) => {
            tally.read[cell::opcode_of(cell) as usize] += 1;
            format!("cell {cell}\n")
        }
        Err(number) => refused("read", number, tally),
    }
}

/// A load's two lines, and the machine that it answers: a fresh one if it refuses.
fn load_text(job: &[u8], host: Words, cells: &mut [u32], tally: &mut Tally) -> (String, Machine) {
    let (first, machine) = match job::load(job, host, cells) {
        Ok(machine) => ("loaded".to_string(), machine),
        Err((number, offset)) => {
            tally.refusal("load", number);
            (format!("refused {number} at {offset}"), Machine::fresh())
        }
    };
    (format!("{first}\n{}\n", machine_text(&machine, cells)), machine)
}

/// A save's two lines.
fn save_text(saved: Result<usize, u32>, room: &[u8], tally: &mut Tally) -> String {
    let first = match saved {
        Ok(length) => format!("saved {length}\n"),
        Err(number) => refused("save", number, tally),
    };
    format!("{first}room {}\n", digest(room.iter().map(|byte| *byte as u32)))
}

fn load(input: &mut Input, tally: &mut Tally) -> Result<String, String> {
    let (m, room) = (input.length(4, MOST_CELLS)?, input.length(4, MOST_SAVE_ROOM)?);
    let host = input.five_words()?;
    Ok(load_and_save(std::mem::take(&mut input.bytes), host, m, room, tally))
}

/// A job whose head and tail are given, and between them as many bytes as are told: byte i of the
/// job is there the upper byte of seed + step * i, modulo 65,536.
fn described(input: &mut Input, tally: &mut Tally) -> Result<String, String> {
    let (m, room) = (input.length(4, MOST_CELLS)?, input.length(4, MOST_SAVE_ROOM)?);
    let host = input.five_words()?;
    let middle = input.length(4, MOST_JOB)?;
    let (seed, step) = (input.number(2)? as usize, input.number(2)? as usize);
    let head = input.length(2, MOST_JOB)?;
    let mut job = input.take(head)?.to_vec();
    job.extend((head..head + middle).map(|i| ((seed + step * i) >> 8) as u8));
    job.extend(std::mem::take(&mut input.bytes));
    if job.len() > MOST_JOB {
        return Err(format!("a job of {} bytes is above {MOST_JOB}", job.len()));
    }
    let text = load_and_save(&job, host, m, room, tally);
    tally.described(&job, &text);
    Ok(text)
}

/// Where the job that was saved is loaded again, the host gives other words: those in the job decide.
fn load_and_save(job: &[u8], host: Words, m: usize, room: usize, tally: &mut Tally) -> String {
    let mut cells = vec![CELLS_FILL; m];
    let mut room = vec![ROOM_FILL; room];
    let (mut text, machine) = load_text(job, host, &mut cells, tally);
    tally.job("load", job, host, &text);
    let saved = job::save(&machine, &cells, &mut room);
    text += &save_text(saved, &room, tally);
    if let Ok(length) = saved {
        let mut fresh = vec![FRESH_CELLS_FILL; cells.len()];
        text += &load_text(&room[..length], host.map(|word| !word), &mut fresh, tally).0;
    }
    text
}

/// Puts a count of settings (place and value) into a list.
fn settings(input: &mut Input, place_bytes: usize, list: &mut [u32]) -> Result<(), String> {
    for _ in 0..input.number(2)? {
        let place = input.number(place_bytes)? as usize;
        let value = input.word()?;
        *list.get_mut(place).ok_or(format!("no place {place} to set"))? = value;
    }
    Ok(())
}

/// The machine of which the payload gives settings, depth, words and registers.
fn machine(input: &mut Input) -> Result<Machine, String> {
    let (flags, mask, mode, depth) = (input.word()?, input.word()?, input.word()?, input.word()?);
    let words = input.five_words()?;
    let mut machine = Machine { registers: [0; 256], flags, mask, mode, depth, words };
    settings(input, 1, &mut machine.registers)?;
    Ok(machine)
}

fn save(input: &mut Input, tally: &mut Tally) -> Result<String, String> {
    let mut cells = vec![0; input.length(4, MOST_CELLS)?];
    let mut room = vec![ROOM_FILL; input.length(4, MOST_SAVE_ROOM)?];
    let machine = machine(input)?;
    settings(input, 4, &mut cells)?;
    let saved = job::save(&machine, &cells, &mut room);
    Ok(save_text(saved, &room, tally))
}

fn calls(input: &mut Input, tally: &mut Tally) -> Result<String, String> {
    let cells = vec![0; input.length(4, MOST_CELLS)?];
    let journal = vec![0; input.length(4, MOST_JOURNAL)?];
    let mut runner = Runner::new(machine(input)?, cells, journal);
    settings(input, 4, &mut runner.cells)?;
    settings(input, 4, &mut runner.journal)?;
    let mut text = String::new();
    for _ in 0..input.number(2)? {
        let call = input.byte()?;
        let answer = one_call(call, input, &mut runner, tally)?;
        tally.stop(call, &answer, &runner);
        text += &call_text(&answer, &runner);
    }
    tally.executed(&runner);
    Ok(text)
}

fn one_call(call: u8, input: &mut Input, runner: &mut Runner, tally: &mut Tally) -> Result<Answer, String> {
    let number = input.number(8)?;
    Ok(match call {
        STEP => runner.step(),
        RUN => runner.run(number),
        BACK => runner.back(number),
        PROFILE => {
            let length = input.word()?;
            let fault = profile::check(length, &runner.cells);
            let answer = runner.profile_run(length, number);
            tally.profile(fault, &answer);
            answer
        }
        _ => return Err(format!("call {call} is unknown")),
    })
}

fn call_text(answer: &Answer, runner: &Runner) -> String {
    let Answer { stop, value, imm, place, count } = answer;
    format!(
        "stop {stop} value {value} imm {imm} place {place} count {count} pc {} {} journal {}\n",
        runner.machine.registers[PC],
        machine_text(&runner.machine, &runner.cells),
        digest_of(&runner.journal)
    )
}

fn runjob(input: &mut Input, tally: &mut Tally) -> String {
    let job = std::mem::take(&mut input.bytes);
    let (text, runner) = job::runjob(job);
    tally.runjob(&text);
    tally.job("runjob", job, NO_WORDS, &text);
    if let Some(runner) = &runner {
        tally.executed(runner);
    }
    text
}

fn check(input: &mut Input, tally: &mut Tally) -> Result<String, String> {
    let length = input.word()?;
    let mut cells = vec![0; input.length(4, MOST_CELLS)?];
    settings(input, 4, &mut cells)?;
    let found = profile::check(length, &cells);
    tally.check(found);
    Ok(match found {
        Ok(()) => "forward only\n".to_string(),
        Err(Fault::Length) => "length\n".to_string(),
        Err(Fault::Cell(place, reason)) => format!("cell {place} {}\n", reason.word()),
    })
}

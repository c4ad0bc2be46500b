//! How often each opcode, stop, finding, refusal and limit occurs in a file of trials, how many halves become floats, and
//! what becomes of floats.

use std::collections::{BTreeMap, BTreeSet};
use std::ops::RangeInclusive;

use crate::cell::opcode_of;
use crate::execute::{branch_target, float_runs};
use crate::machine::*;
use crate::profile::Fault;

/// The calls by their kind. `runjob` makes one call of run; its refusals are counted below.
const CALLS: [&str; 5] = ["step", "run", "back", "profile", "runjob"];
const RUNJOB: usize = 4;

const STOPS: [u32; 17] = [0, 1, 2, 3, 4, 5, 6, 7, 8, 9, 10, 11, 12, 13, 60, 61, 62];

/// What the check of a rule may answer.
const FOUND: [&str; 7] = ["forward only", "length", "reserved", "float", "int", "back", "target"];

/// Every refusal that trials can bring about, by the function that refuses.
const REFUSALS: [(&str, &[u32]); 6] = [
    ("encode", &[21, 22]),
    ("print", &[31]),
    ("read", &[30]),
    ("load", &[10, 12, 41, 42, 43, 44, 45, 46, 47]),
    ("save", &[10, 12, 48]),
    ("runjob", &[10, 41, 42, 43, 44, 45, 46, 47, 50]),
];

/// What happens at the limits, most of which only large trials reach. The journals have words for more
/// entries than there may be, and the depth is that after the call. A record's first number is the
/// length that it tells, the second how much of that is there. A BZ has its cell and its target.
const LIMITS: [&str; 25] = [
    "step 0 at depth 65536",
    "step 7 at depth 65536",
    "step 11 at depth 65537",
    "run 7 at depth 65536",
    "run 11 at depth 65537",
    "profile 7 at depth 65536",
    "profile 11 at depth 65537",
    "profile 7 after 16383 steps",
    "profile 62 after 16384 steps",
    "back 0 at depth 65535",
    "back 11 at depth 65537",
    "record 65538 of 65538 loaded",
    "record 65538 of 65537 refused 44 at 0",
    "record 65542 of 65542 refused 43 at 0",
    "BZ from 0 to -32767 refused",
    "BZ from 0 to -1 refused",
    "BZ from 0 to -1 not taken",
    "BZ from 0 to 0 taken",
    "BZ from 16383 to -16384 refused",
    "BZ from 16383 to -1 refused",
    "BZ from 16383 to -1 not taken",
    "BZ from 16383 to 0 taken",
    "step 4 at PC 32766",
    "step 4 at PC 32767",
    "step 4 at PC 32768",
];

/// What happens to the host's words. A pointer is alone if the other one is 0. Of a job that is refused, the
/// kind of the record that is refused is told, and that of the record before it.
const WORDS: [&str; 22] = [
    "load from FFFF0300 alone",
    "load from FFFF0301 alone",
    "load from FFFF0302 alone",
    "load from FFFF0303 alone",
    "load from FFFF0304 alone",
    "illegal load from FFFF02FF alone",
    "illegal load from FFFF0305 alone",
    "illegal store to FFFF0300 alone",
    "illegal store to FFFF0301 alone",
    "illegal store to FFFF0302 alone",
    "illegal store to FFFF0303 alone",
    "illegal store to FFFF0304 alone",
    "load with kind 5",
    "load with kind 5 and other words of the host's",
    "load without kind 5, the host's words stay",
    "load refused 43 at kind 5",
    "load refused 46 at kind 5 after 5",
    "load refused 46 at kind 1 after 5",
    "load refused 46 at kind 2 after 5",
    "load refused 46 at kind 3 after 5",
    "runjob with kind 5",
    "runjob without kind 5",
];

/// Where halves become single floats, in the order of `Runner::widened`.
const WIDENED: [&str; 3] = ["LDLIF", "FSPLIT low", "FSPLIT high"];
const HALVES: usize = 65_536;

const FLOATS: RangeInclusive<u8> = 80..=106;

/// Whether a float that runs writes the flag: all write 32 but the tests for equality, and arithmetic the other two.
fn governs(opcode: u8, flag: u32) -> bool {
    let arithmetic = matches!(opcode, 80..=83 | 93..=96);
    arithmetic || flag == FLOAT_INVALID && matches!(opcode, 89 | 102 | 104)
}

/// Only a division is by zero, and a half is too small to take a sum or a difference past the greatest float.
fn can_raise(opcode: u8, flag: u32) -> bool {
    match flag {
        DIVIDE_BY_ZERO => matches!(opcode, 83 | 96),
        OVERFLOW => matches!(opcode, 80..=83 | 95 | 96),
        _ => governs(opcode, flag),
    }
}

/// 1 to 7 and 13 belong to going forward, 8 and 9 to going back, 60 to 62 to profile runs, which never
/// come to 3, 4, 6 or 13. A loaded job has nothing out of range, and its budget ends with its journal.
fn can_stop(call: &str, stop: u32) -> bool {
    match stop {
        0 => true,
        3 | 4 | 6 | 13 => call != "back" && call != "profile",
        1 | 2 | 5 => call != "back",
        7 => call != "back" && call != "runjob",
        8 | 9 => call == "back",
        10..=12 => call != "runjob",
        _ => call == "profile",
    }
}

pub struct Tally {
    pub decoded: [u64; 256],
    pub encoded: [u64; 256],
    pub printed: [u64; 256],
    pub read: [u64; 256],
    executed: [u64; 256],
    /// Where stop 6 met the opcode, by the rounding mode.
    unsupported: [[u64; 4]; 256],
    widened: [BTreeSet<u16>; 3],
    floats: BTreeSet<FloatStep>,
    stops: BTreeMap<(usize, u32), u64>,
    /// What checks found, made by themselves and by profile runs that came to them.
    found: [BTreeMap<&'static str, u64>; 2],
    /// Profile runs that did a step.
    profile_steps: u64,
    refusals: BTreeMap<(&'static str, u32), u64>,
    limits: BTreeMap<String, u64>,
}

impl Tally {
    pub fn new() -> Tally {
        Tally {
            decoded: [0; 256],
            encoded: [0; 256],
            printed: [0; 256],
            read: [0; 256],
            executed: [0; 256],
            unsupported: [[0; 4]; 256],
            widened: Default::default(),
            floats: BTreeSet::new(),
            stops: BTreeMap::new(),
            found: Default::default(),
            profile_steps: 0,
            refusals: BTreeMap::new(),
            limits: BTreeMap::new(),
        }
    }

    pub fn refusal(&mut self, place: &'static str, number: u32) {
        *self.refusals.entry((place, number)).or_insert(0) += 1;
    }

    pub fn stop(&mut self, call: u8, answer: &Answer, runner: &Runner) {
        self.one_stop(call as usize, answer.stop);
        let (name, pc) = (CALLS[call as usize], runner.machine.registers[PC]);
        match answer.stop {
            4 => self.limit(format!("{name} 4 at PC {pc}")),
            6 => {
                let opcode = opcode_of(runner.cells[pc as usize]);
                self.unsupported[opcode as usize][runner.machine.mode as usize] += 1;
            }
            13 => {
                let target = branch_target(pc, runner.cells[pc as usize] as u16);
                self.limit(format!("BZ from {pc} to {target} refused"));
            }
            _ => {}
        }
        if runner.journal.len() / ENTRY_WORDS > MOST_ENTRIES {
            self.limit(format!("{name} {} at depth {}", answer.stop, runner.machine.depth));
        }
    }

    fn one_stop(&mut self, call: usize, stop: u32) {
        *self.stops.entry((call, stop)).or_insert(0) += 1;
    }

    pub fn check(&mut self, found: Result<(), Fault>) {
        self.one_check(0, found);
    }

    /// Counts what the check of a profile run found, if the call came to it.
    pub fn profile(&mut self, found: Result<(), Fault>, answer: &Answer) {
        if !(10..=12).contains(&answer.stop) {
            self.one_check(1, found);
        }
        if answer.count > 0 {
            self.profile_steps += 1;
        }
        if answer.count as usize + 1 >= MOST_CELLS {
            self.limit(format!("profile {} after {} steps", answer.stop, answer.count));
        }
    }

    fn one_check(&mut self, maker: usize, found: Result<(), Fault>) {
        let name = match found {
            Ok(()) => "forward only",
            Err(Fault::Length) => "length",
            Err(Fault::Cell(_, reason)) => reason.word(),
        };
        *self.found[maker].entry(name).or_insert(0) += 1;
    }

    /// Counts the first line of the answer to a job whose first record is of cells.
    pub fn described(&mut self, job: &[u8], text: &str) {
        let said = text.lines().next().expect("an answer has a line");
        if job.len() >= 6 && job[4..6] == [1, 0] {
            let told = u32::from_le_bytes([job[0], job[1], job[2], job[3]]) as usize;
            self.limit(format!("record {told} of {} {said}", told.min(job.len() - 6)));
        }
    }

    /// Counts what became of a job's words, by the first line of the answer.
    pub fn job(&mut self, place: &'static str, job: &[u8], host: Words, text: &str) {
        let said: Vec<&str> = text.lines().next().unwrap_or("").split(' ').collect();
        if let ["refused", number, "at", offset] = said[..] {
            let (before, kind) = kinds_at(job, offset.parse().expect("an offset is a number"));
            self.limit(format!("{place} refused {number} at kind {kind}"));
            self.limit(format!("{place} refused {number} at kind {kind} after {before}"));
            return;
        }
        // The record of words stands before the last one, which is empty.
        let with = job.len() >= 32 && kinds_at(job, job.len() - 6).0 == 5;
        self.limit(format!("{place} {} kind 5", if with { "with" } else { "without" }));
        if with && job[job.len() - 26..job.len() - 6] != host.map(u32::to_le_bytes).concat() {
            self.limit(format!("{place} with kind 5 and other words of the host's"));
        }
        if !with && host != NO_WORDS {
            self.limit(format!("{place} without kind 5, the host's words stay"));
        }
    }

    fn limit(&mut self, name: String) {
        *self.limits.entry(name).or_insert(0) += 1;
    }

    /// Counts what the first line of `runjob` tells.
    pub fn runjob(&mut self, text: &str) {
        let mut words = text.split(' ');
        let first = words.next();
        let number: u32 = words.next().and_then(|word| word.parse().ok()).expect("runjob tells a number");
        match first {
            Some("exit") => self.one_stop(RUNJOB, number),
            _ => self.refusal("runjob", number),
        }
    }

    pub fn executed(&mut self, runner: &Runner) {
        for (sum, count) in self.executed.iter_mut().zip(&runner.executed) {
            *sum += count;
        }
        for (all, halves) in self.widened.iter_mut().zip(&runner.widened) {
            all.extend(halves);
        }
        self.floats.extend(&runner.floats);
        for (pc, target, taken) in &runner.branches {
            let what = if *taken { "taken" } else { "not taken" };
            self.limit(format!("BZ from {pc} to {target} {what}"));
        }
        for (load, store, legal) in &runner.transfers {
            let what = if *legal { "" } else { "illegal " };
            if *store == 0 {
                self.limit(format!("{what}load from {load:08X} alone"));
            }
            if *load == 0 {
                self.limit(format!("{what}store to {store:08X} alone"));
            }
        }
    }

    /// The table, and what is missing from it.
    pub fn text(&self) -> (String, Vec<String>) {
        let mut text = String::new();
        let mut missing = Vec::new();
        self.opcodes(&mut text, &mut missing);
        self.halves(&mut text, &mut missing);
        self.floats(&mut text, &mut missing);
        self.float_flags(&mut text, &mut missing);
        self.calls(&mut text, &mut missing);
        self.checks(&mut text, &mut missing);
        self.refused(&mut text, &mut missing);
        self.limited("limit", &LIMITS, &mut text, &mut missing);
        self.limited("words", &WORDS, &mut text, &mut missing);
        (text, missing)
    }

    fn opcodes(&self, text: &mut String, missing: &mut Vec<String>) {
        *text += "opcode decoded encoded printed read executed unsupported\n";
        for opcode in 0..256 {
            let float = FLOATS.contains(&(opcode as u8));
            let counts = [
                ("decoded", self.decoded[opcode], true),
                ("encoded", self.encoded[opcode], true),
                ("printed", self.printed[opcode], true),
                ("read", self.read[opcode], true),
                ("executed", self.executed[opcode], !float || float_runs(opcode as u8)),
                ("unsupported", self.unsupported[opcode].iter().sum(), float),
            ];
            *text += &opcode.to_string();
            for (what, count, wanted) in counts {
                *text += &format!(" {count}");
                if wanted && count == 0 {
                    missing.push(format!("opcode {opcode} {what}"));
                }
            }
            text.push('\n');
        }
    }

    fn halves(&self, text: &mut String, missing: &mut Vec<String>) {
        *text += "halves count\n";
        for (name, halves) in WIDENED.into_iter().zip(&self.widened) {
            *text += &format!("{name} {}\n", halves.len());
            if halves.len() < HALVES {
                missing.push(format!("{} halves of {name}", HALVES - halves.len()));
            }
        }
    }

    /// The pairs of operands of each float that runs, and where stop 6 met each float. One that runs does so in mode 3.
    fn floats(&self, text: &mut String, missing: &mut Vec<String>) {
        *text += "float pairs unsupported in mode 0 1 2 3\n";
        for opcode in FLOATS {
            let steps = self.floats.iter().filter(|step| step.opcode == opcode);
            let pairs: BTreeSet<(u32, u32)> = steps.map(|step| step.operands).collect();
            *text += &format!("{opcode} {}", pairs.len());
            if float_runs(opcode) && pairs.is_empty() {
                missing.push(format!("pairs of opcode {opcode}"));
            }
            for (mode, count) in (0..).zip(self.unsupported[opcode as usize]) {
                *text += &format!(" {count}");
                if count == 0 && !(float_runs(opcode) && mode == NEAREST) {
                    missing.push(format!("opcode {opcode} unsupported in mode {mode}"));
                }
            }
            text.push('\n');
        }
        *text += &format!("float steps of different operands or flags {}\n", self.floats.len());
    }

    /// How often a float that governs a flag raised it over a 0 and over a 1, and cleared it.
    fn float_flags(&self, text: &mut String, missing: &mut Vec<String>) {
        *text += "flag float raised over 0, over 1, cleared\n";
        for flag in [FLOAT_INVALID, DIVIDE_BY_ZERO, OVERFLOW] {
            for opcode in FLOATS.filter(|opcode| governs(*opcode, flag)) {
                let steps: Vec<&FloatStep> = self.floats.iter().filter(|step| step.opcode == opcode).collect();
                let count = |before: bool, raised: bool| {
                    let like = |step: &&&FloatStep| {
                        (step.before & flag != 0) == before && (step.raised & flag != 0) == raised
                    };
                    steps.iter().filter(like).count()
                };
                let counts =
                    [("raised over 0", false, true), ("raised over 1", true, true), ("cleared", true, false)];
                *text += &format!("{flag} {opcode}");
                for (what, before, raised) in counts {
                    *text += &format!(" {}", count(before, raised));
                    if count(before, raised) == 0 && (!raised || can_raise(opcode, flag)) {
                        missing.push(format!("flag {flag} {what} by opcode {opcode}"));
                    }
                }
                text.push('\n');
            }
        }
    }

    fn calls(&self, text: &mut String, missing: &mut Vec<String>) {
        *text += &format!("stop {}\n", CALLS.join(" "));
        for stop in STOPS {
            *text += &stop.to_string();
            for (call, name) in CALLS.into_iter().enumerate() {
                let count = self.stops.get(&(call, stop)).copied().unwrap_or(0);
                *text += &format!(" {count}");
                if can_stop(name, stop) && count == 0 {
                    missing.push(format!("stop {stop} of {name}"));
                }
            }
            text.push('\n');
        }
    }

    fn checks(&self, text: &mut String, missing: &mut Vec<String>) {
        *text += "found check profile\n";
        for name in FOUND {
            let counts = [0, 1].map(|maker| self.found[maker].get(name).copied().unwrap_or(0));
            *text += &format!("{name} {} {}\n", counts[0], counts[1]);
            for (count, maker) in counts.into_iter().zip(["check", "profile"]) {
                if count == 0 {
                    missing.push(format!("{name} of {maker}"));
                }
            }
        }
        *text += &format!("profile runs with a step {}\n", self.profile_steps);
        if self.profile_steps == 0 {
            missing.push("profile runs with a step".to_string());
        }
    }

    fn refused(&self, text: &mut String, missing: &mut Vec<String>) {
        *text += "refusal count\n";
        for (place, numbers) in REFUSALS {
            for number in numbers {
                let count = self.refusals.get(&(place, *number)).copied().unwrap_or(0);
                *text += &format!("{place} {number} {count}\n");
                if count == 0 {
                    missing.push(format!("refusal {number} of {place}"));
                }
            }
        }
    }

    fn limited(&self, title: &str, names: &[&str], text: &mut String, missing: &mut Vec<String>) {
        *text += &format!("{title} count\n");
        for name in names {
            let count = self.limits.get(*name).copied().unwrap_or(0);
            *text += &format!("{name} {count}\n");
            if count == 0 {
                missing.push(name.to_string());
            }
        }
    }
}

/// The kind of the record before an offset of a job, and of the record there; 0 where there is none.
fn kinds_at(job: &[u8], offset: usize) -> (u16, u16) {
    let kind_at = |at: usize| job.get(at + 4..at + 6).map_or(0, |kind| u16::from_le_bytes([kind[0], kind[1]]));
    let (mut at, mut before) = (0, 0);
    while at < offset && at + 6 <= job.len() {
        before = kind_at(at);
        at += 6 + u32::from_le_bytes([job[at], job[at + 1], job[at + 2], job[at + 3]]) as usize;
    }
    (before, kind_at(offset))
}

//! The text of `check-rule`: whether the rule in a job only goes forward.

use crate::job::{self, PROGRAM_CELLS};
use crate::line;
use crate::profile::{check, Fault, Reason};

const NO_LENGTH: &str = "refused 60: L must be 1 to 4096\n";
const NO_RULE: &str = "refused 60: the first record does not begin at cell 0\n";

/// The argument is the rule's length; without it, or with an empty one, the job's first record is the rule.
pub fn text(argument: Option<&str>, input: &[u8]) -> String {
    let mut cells = vec![0; PROGRAM_CELLS];
    if let Err(refused) = job::load_input(input, &mut cells) {
        return job::refused_text(refused);
    }
    let length = match argument.filter(|digits| !digits.is_empty()) {
        None => first_record(input).ok_or(NO_RULE),
        Some(digits) => number(digits).ok_or(NO_LENGTH),
    };
    match length.map(|length| (length, check(length, &cells))) {
        Err(refused) => refused.to_string(),
        Ok((_, Err(Fault::Length))) => NO_LENGTH.to_string(),
        Ok((length, Ok(()))) => format!("forward only: at most {length} steps\n"),
        Ok((_, Err(Fault::Cell(place, reason)))) => {
            let cell = cells[place as usize];
            format!("cell {place}: {}not allowed: {}\n", line::text(cell), sentence(reason))
        }
    }
}

/// How many cells the first record of a job that loads has, if it is of cells from 0 on.
fn first_record(job: &[u8]) -> Option<u32> {
    let (length, kind, base) = (&job[..4], &job[4..6], job.get(6..8)?);
    if kind != [1, 0] || base != [0, 0] {
        return None;
    }
    let length = u32::from_le_bytes([length[0], length[1], length[2], length[3]]);
    Some((length - 2) / 4)
}

/// A number is good exactly if it is printed so.
fn number(digits: &str) -> Option<u32> {
    let number: u32 = digits.parse().ok()?;
    if number.to_string() == digits {
        Some(number)
    } else {
        None
    }
}

fn sentence(reason: Reason) -> &'static str {
    match reason {
        Reason::Reserved => "the opcode is reserved",
        Reason::Float => "opcodes 80 to 106 are for floats",
        Reason::Int => "INT would stop the rule",
        Reason::Back => "the branch goes back",
        Reason::Target => "R255 is a target, which it may be in LDUI R255, #65535 alone",
    }
}

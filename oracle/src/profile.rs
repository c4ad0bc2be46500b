//! Rules that only go forward: the check of their cells, and the call that repeats it and then runs.

use crate::cell::{self, Form};
use crate::machine::{Answer, Runner, PC};

/// The only cell that may write R255: LDUI R255, #65535.
const THE_END: u32 = 0x04FF_FFFF;
const FURTHEST: u32 = 32_767;

/// Why a cell has no place in such a rule.
#[derive(Clone, Copy, Debug, PartialEq)]
pub enum Reason {
    Reserved,
    Float,
    Int,
    Back,
    Target,
}

impl Reason {
    pub fn word(self) -> &'static str {
        match self {
            Reason::Reserved => "reserved",
            Reason::Float => "float",
            Reason::Int => "int",
            Reason::Back => "back",
            Reason::Target => "target",
        }
    }
}

/// What the check of a rule finds fault with.
#[derive(Clone, Copy, Debug, PartialEq)]
pub enum Fault {
    Length,
    Cell(u32, Reason),
}

impl Fault {
    /// The place that stop 60 carries.
    fn place(self) -> u32 {
        match self {
            Fault::Length => 0,
            Fault::Cell(place, _) => place,
        }
    }
}

/// The registers that the journal rules call a and b, and n of every LDST, whether it loads or not.
fn targets(cell: u32) -> Vec<u8> {
    let [opcode, n, m, l] = cell.to_be_bytes();
    match opcode {
        0 => vec![n, l],
        54 | 107 => vec![m, l],
        121 | 122 => vec![],
        _ => vec![n],
    }
}

/// None for a cell that is allowed.
pub fn reason(cell: u32) -> Option<Reason> {
    let opcode = cell::opcode_of(cell);
    let imm = cell & 0xFFFF;
    if cell::form(opcode) == Form::Reserved {
        Some(Reason::Reserved)
    } else if (80..=106).contains(&opcode) {
        Some(Reason::Float)
    } else if opcode == 122 {
        Some(Reason::Int)
    } else if opcode == 121 && imm > FURTHEST {
        Some(Reason::Back)
    } else if targets(cell).contains(&(PC as u8)) && cell != THE_END {
        Some(Reason::Target)
    } else {
        None
    }
}

/// Looks at cells 0 to length - 1; the first that is not allowed decides.
pub fn check(length: u32, cells: &[u32]) -> Result<(), Fault> {
    if length == 0 || length as usize > cells.len() {
        return Err(Fault::Length);
    }
    for (place, cell) in cells[..length as usize].iter().enumerate() {
        if let Some(reason) = reason(*cell) {
            return Err(Fault::Cell(place as u32, reason));
        }
    }
    Ok(())
}

impl Runner {
    pub fn profile_run(&mut self, length: u32, budget: u64) -> Answer {
        if let Some(number) = self.unfit() {
            return Answer::stop(number, 0);
        }
        match check(length, &self.cells) {
            Err(fault) => Answer { place: fault.place(), ..Answer::stop(60, 0) },
            Ok(()) => self.forward(budget, Some(length)),
        }
    }

    /// An LDST that would store into cells 1 to length - 1, were it legal or not.
    pub fn stores_below(&self, length: u32, cell: u32) -> bool {
        let [opcode, _, m, _] = cell.to_be_bytes();
        opcode == 1 && (1..length).contains(&self.operand(m))
    }
}

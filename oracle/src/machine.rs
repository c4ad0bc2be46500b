//! The machine, its plain calls (step, run, back) and its journal.

use std::collections::BTreeSet;

pub const PC: usize = 255;
/// From here on up there is no program: a PC here has ended.
pub const END: u32 = 0xFFFF_0000;
pub const MOST_CELLS: usize = 16_384;
pub const MOST_ENTRIES: usize = 65_536;
pub const ENTRY_WORDS: usize = 8;

/// The words that the host gives at load, which LDST reads from FIRST_WORD on.
pub type Words = [u32; 5];
pub const FIRST_WORD: u32 = 0xFFFF_0300;
pub const LAST_WORD: u32 = 0xFFFF_0304;
pub const NO_WORDS: Words = [0; 5];

pub const CARRY: u32 = 1;
pub const BORROW: u32 = 2;
pub const OVERFLOW: u32 = 4;
pub const UNDERFLOW: u32 = 8;
pub const DIVIDE_BY_ZERO: u32 = 16;
pub const FLOAT_INVALID: u32 = 32;
pub const ILLEGAL: u32 = 128;
pub const TERMINATION: u32 = 256;

pub const HIGHEST_FLAGS: u32 = 511;
pub const HIGHEST_MODE: u32 = 3;
/// The rounding mode in which floats run.
pub const NEAREST: u32 = 3;

pub const USES_A: u32 = 1;
pub const USES_B: u32 = 2;
pub const STORES: u32 = 4;

const INT: u32 = 122;

#[derive(Clone, PartialEq, Debug)]
pub struct Machine {
    pub registers: [u32; 256],
    pub flags: u32,
    pub mask: u32,
    pub mode: u32,
    pub depth: u32,
    /// No call writes them.
    pub words: Words,
}

impl Machine {
    pub fn fresh() -> Machine {
        Machine { registers: [0; 256], flags: 0, mask: 0, mode: NEAREST, depth: 0, words: NO_WORDS }
    }

    pub fn settings_fit(&self) -> bool {
        self.flags <= HIGHEST_FLAGS && self.mask <= HIGHEST_FLAGS && self.mode <= HIGHEST_MODE
    }
}

pub fn cells_fit(cells: usize) -> bool {
    (1..=MOST_CELLS).contains(&cells)
}

/// What a call answers. `value` and `imm` are an INT's and 0 for every other stop; `place` is that of stop 60.
#[derive(Debug, PartialEq)]
pub struct Answer {
    pub stop: u32,
    pub value: u32,
    pub imm: u32,
    pub place: u32,
    pub count: u64,
}

impl Answer {
    pub fn stop(stop: u32, count: u64) -> Answer {
        Answer { stop, value: 0, imm: 0, place: 0, count }
    }
}

/// A machine with the cells and the journal lent to it.
pub struct Runner {
    pub machine: Machine,
    pub cells: Vec<u32>,
    pub journal: Vec<u32>,
    /// How often a step with this opcode was done; nothing depends on it.
    pub executed: [u64; 256],
    /// The halves that LDLIF, and low and high that FSPLIT, made single; nothing depends on them.
    pub widened: [BTreeSet<u16>; 3],
    /// Each BZ that was done: its cell, its target, and whether it was taken; nothing depends on them.
    pub branches: BTreeSet<(u32, i64, bool)>,
    /// Each LDST that was done: its load and store pointers, and whether it was legal; nothing depends on them.
    pub transfers: BTreeSet<(u32, u32, bool)>,
    /// Each float step that was done; nothing depends on them.
    pub floats: BTreeSet<FloatStep>,
}

/// A float step's opcode and operands, the flags that it governs as they were before, and those that it raised.
#[derive(Clone, Copy, PartialEq, Eq, PartialOrd, Ord)]
pub struct FloatStep {
    pub opcode: u8,
    pub operands: (u32, u32),
    pub before: u32,
    pub raised: u32,
}

impl Runner {
    pub fn new(machine: Machine, cells: Vec<u32>, journal: Vec<u32>) -> Runner {
        Runner {
            machine,
            cells,
            journal,
            executed: [0; 256],
            widened: Default::default(),
            branches: BTreeSet::new(),
            transfers: BTreeSet::new(),
            floats: BTreeSet::new(),
        }
    }

    fn entries(&self) -> u32 {
        MOST_ENTRIES.min(self.journal.len() / ENTRY_WORDS) as u32
    }

    /// The tests that are made once a call, before anything else.
    pub fn unfit(&self) -> Option<u32> {
        if !cells_fit(self.cells.len()) {
            Some(12)
        } else if !self.machine.settings_fit() {
            Some(10)
        } else if self.machine.depth > self.entries() {
            Some(11)
        } else {
            None
        }
    }

    pub fn step(&mut self) -> Answer {
        self.run(1)
    }

    pub fn run(&mut self, budget: u64) -> Answer {
        match self.unfit() {
            Some(number) => Answer::stop(number, 0),
            None => self.forward(budget, None),
        }
    }

    /// The steps of a run. A rule that only goes forward is given by its length.
    pub fn forward(&mut self, budget: u64, rule: Option<u32>) -> Answer {
        let mut count = 0;
        loop {
            if count == budget {
                return Answer::stop(0, count);
            }
            if let Some(number) = self.hindered(rule) {
                return Answer::stop(number, count);
            }
            let cell = self.cells[self.machine.registers[PC] as usize];
            let raised = self.execute(cell);
            count += 1;
            self.executed[(cell >> 24) as usize] += 1;

            if self.machine.registers[PC] >= END {
                self.machine.flags |= TERMINATION;
                return Answer::stop(1, count);
            }
            if cell >> 24 == INT {
                let n = (cell >> 16) as u8;
                let value = self.machine.registers[n as usize];
                return Answer { value, imm: cell & 0xFFFF, ..Answer::stop(3, count) };
            }
            if raised & self.machine.mask != 0 {
                return Answer::stop(2, count);
            }
        }
    }

    /// The stop of a step that cannot be done, in the order in which they are tested.
    fn hindered(&self, rule: Option<u32>) -> Option<u32> {
        let pc = self.machine.registers[PC];
        if pc >= END {
            return Some(1);
        }
        match rule {
            Some(length) if pc >= length => return Some(62),
            None if pc as usize >= self.cells.len() => return Some(4),
            _ => {}
        }
        if self.machine.depth == self.entries() {
            return Some(7);
        }
        let cell = self.cells[pc as usize];
        if self.cannot_run(cell) {
            return Some(6);
        }
        if self.faults(cell) {
            return Some(5);
        }
        if self.jumps_wildly(cell) {
            return Some(13);
        }
        match rule {
            Some(length) if self.stores_below(length, cell) => Some(61),
            _ => None,
        }
    }

    pub fn back(&mut self, number: u64) -> Answer {
        if let Some(number) = self.unfit() {
            return Answer::stop(number, 0);
        }
        let mut count = 0;
        loop {
            if count == number {
                return Answer::stop(0, count);
            }
            if self.machine.depth == 0 {
                return Answer::stop(8, count);
            }
            let at = (self.machine.depth as usize - 1) * ENTRY_WORDS;
            let mut entry = [0; ENTRY_WORDS];
            entry.copy_from_slice(&self.journal[at..at + ENTRY_WORDS]);
            if self.damaged(&entry) {
                return Answer::stop(9, count);
            }
            self.undo(&entry);
            count += 1;
        }
    }

    fn damaged(&self, entry: &[u32; ENTRY_WORDS]) -> bool {
        let cells = self.cells.len() as u32;
        let stores = entry[7] & STORES != 0;
        entry[0] >= cells
            || entry[1] >= 1 << 20
            || entry[2] >= 65_536
            || entry[7] > 7
            || stores && (entry[5] == 0 || entry[5] >= cells)
    }

    /// The order shows when a and b are one register, or register 255.
    fn undo(&mut self, entry: &[u32; ENTRY_WORDS]) {
        let machine = &mut self.machine;
        if entry[7] & USES_A != 0 {
            machine.registers[entry[2] as usize & 255] = entry[3];
        }
        if entry[7] & USES_B != 0 {
            machine.registers[entry[2] as usize >> 8] = entry[4];
        }
        if entry[7] & STORES != 0 {
            self.cells[entry[5] as usize] = entry[6];
        }
        machine.flags = entry[1] & 511;
        machine.mask = entry[1] >> 9 & 511;
        machine.mode = entry[1] >> 18;
        machine.registers[PC] = entry[0];
        machine.depth -= 1;
    }
}

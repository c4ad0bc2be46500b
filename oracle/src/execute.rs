//! What a single instruction does.

use std::cmp::Ordering;

use crate::cell::opcode_of;
use crate::float::{calculate, compare, Operation};
use crate::half::ex;
use crate::machine::*;

const FLAGS_CELL: u32 = 0xFFFF_0000;
const MASK_CELL: u32 = 0xFFFF_0001;
const MODE_CELL: u32 = 0xFFFF_0002;

/// The flags an instruction governs, and those among them that it writes as 1.
#[derive(Default)]
struct Written {
    governed: u32,
    raised: u32,
}

impl Written {
    fn write(&mut self, flags: u32, one: bool) {
        self.governed |= flags;
        if one {
            self.raised |= flags;
        }
    }
}

/// What a step leaves to be undone: the registers it writes and the cell it stores to.
#[derive(Default)]
struct Touched {
    a: Option<u8>,
    b: Option<u8>,
    cell: Option<u32>,
}

fn se(half: u16) -> u32 {
    half as i16 as i32 as u32
}

/// Where a BZ at PC leads. The number has a sign: below cell 0 it is below 0.
pub fn branch_target(pc: u32, imm: u16) -> i64 {
    i64::from(pc) + 1 + i64::from(imm as i16)
}

/// Opcodes 16 to 34 on two words. No result means that the register stays as it is.
fn arithmetic(opcode: u8, x: u32, y: u32, flags: u32, written: &mut Written) -> Option<u32> {
    let carry = if opcode == 17 && flags & CARRY != 0 { 1u64 } else { 0 };
    let borrow = if opcode == 19 && flags & BORROW != 0 { 1u64 } else { 0 };
    let (signed_x, signed_y) = (x as i32, y as i32);
    let result = match opcode {
        16 | 17 => {
            let sum = x as u64 + y as u64 + carry;
            written.write(CARRY | OVERFLOW, sum >= 1 << 32);
            sum as u32
        }
        18 | 19 => {
            let taken = y as u64 + borrow;
            written.write(BORROW | OVERFLOW, (x as u64) < taken);
            x.wrapping_sub(taken as u32)
        }
        20 => {
            let product = x as u64 * y as u64;
            written.write(OVERFLOW, product >= 1 << 32);
            product as u32
        }
        21..=23 => {
            written.write(DIVIDE_BY_ZERO, y == 0);
            if opcode == 22 {
                written.write(OVERFLOW, signed_x == i32::MIN && signed_y == -1);
            }
            if y == 0 {
                return None;
            }
            match opcode {
                21 => x / y,
                22 => signed_x.wrapping_div(signed_y) as u32,
                _ => x % y,
            }
        }
        24 => x & y,
        25 => x | y,
        26 => x ^ y,
        27 => !(x & y),
        28 => (x == 0 || y == 0) as u32,
        29 => {
            written.write(OVERFLOW, y > 31);
            if y > 31 {
                0
            } else {
                x << y
            }
        }
        30 => {
            written.write(UNDERFLOW, y > 31);
            if y > 31 {
                0
            } else {
                x >> y
            }
        }
        31 => {
            written.write(UNDERFLOW, y > 31);
            (signed_x >> y.min(31)) as u32
        }
        32 => (x > y) as u32,
        33 => (signed_x > signed_y) as u32,
        34 => (x == y) as u32,
        _ => unreachable!("opcode {opcode} is no arithmetic"),
    };
    Some(result)
}

/// The opcodes of 80 to 106 that run.
pub fn float_runs(opcode: u8) -> bool {
    matches!(opcode, 80..=83 | 89 | 90 | 93..=96 | 102..=104)
}

/// The operands of a float opcode, with the opcode that does the same on registers. FLTI has the immediate first.
fn float_operands(opcode: u8, [rn, rm, rl]: [u32; 3], imm: u16) -> (u8, u32, u32) {
    match opcode {
        80..=90 => (opcode, rm, rl),
        104 => (89, ex(imm), rn),
        _ => (opcode - 13, rn, ex(imm)),
    }
}

/// Opcodes 80 to 83, 89 and 90 on two floats.
fn float_result(opcode: u8, x: u32, y: u32, written: &mut Written) -> u32 {
    let operation = match opcode {
        80 => Operation::Add,
        81 => Operation::Subtract,
        82 => Operation::Multiply,
        83 => Operation::Divide,
        89 => {
            let relation = compare(x, y);
            written.write(FLOAT_INVALID, relation.is_none());
            return (relation == Some(Ordering::Greater)) as u32;
        }
        _ => return (compare(x, y) == Some(Ordering::Equal)) as u32,
    };
    let outcome = calculate(operation, x, y);
    written.write(FLOAT_INVALID, outcome.invalid);
    written.write(DIVIDE_BY_ZERO, outcome.by_zero);
    written.write(OVERFLOW, outcome.overflow);
    outcome.result
}

impl Runner {
    /// What the register will hold when the step at PC reads it.
    pub fn operand(&self, register: u8) -> u32 {
        let value = self.machine.registers[register as usize];
        if register as usize == PC {
            value + 1
        } else {
            value
        }
    }

    /// A float whose arithmetic is out, or any float in a mode that does not round to nearest.
    pub fn cannot_run(&self, cell: u32) -> bool {
        let opcode = opcode_of(cell);
        (80..=106).contains(&opcode) && !(float_runs(opcode) && self.machine.mode == NEAREST)
    }

    /// LDST at an address that is neither a cell nor special. Asked before the step is begun.
    pub fn faults(&self, cell: u32) -> bool {
        let [opcode, _, m, l] = cell.to_be_bytes();
        let outside = |register: u8| {
            let pointer = self.operand(register);
            pointer as usize >= self.cells.len() && pointer < END
        };
        opcode == 1 && (outside(m) || outside(l))
    }

    /// A BZ that is taken, to below cell 0. Asked before the step is begun.
    pub fn jumps_wildly(&self, cell: u32) -> bool {
        let [opcode, n, _, _] = cell.to_be_bytes();
        let target = branch_target(self.machine.registers[PC], cell as u16);
        opcode == 121 && self.operand(n) == 0 && target < 0
    }

    /// Does the step, writes its journal entry, and answers the flags that it wrote as 1.
    /// The caller has seen to it that the step can be done.
    pub fn execute(&mut self, cell: u32) -> u32 {
        let before = self.machine.clone();
        self.machine.registers[PC] = before.registers[PC].wrapping_add(1);
        // All operands are taken from here, however the registers are written below.
        let r = self.machine.registers;
        let [opcode, n, m, l] = cell.to_be_bytes();
        let imm = cell as u16;
        let (rn, rm, rl) = (r[n as usize], r[m as usize], r[l as usize]);

        self.note_halves(opcode, imm, rn);

        let mut written = Written::default();
        let mut touched = Touched::default();
        let mut old_cell = 0;
        match opcode {
            0 => {
                touched.a = Some(n);
                touched.b = Some(l);
                self.machine.registers[l as usize] = rn;
                self.machine.registers[n as usize] = rm;
            }
            1 => {
                let illegal = illegal_load(rl) || illegal_store(rm, rn);
                self.transfers.insert((rl, rm, !illegal));
                if illegal {
                    written.write(ILLEGAL, true);
                } else {
                    let loaded = match rl {
                        0 => None,
                        FLAGS_CELL => Some(before.flags),
                        MASK_CELL => Some(before.mask),
                        MODE_CELL => Some(before.mode),
                        FIRST_WORD..=LAST_WORD => Some(before.words[(rl - FIRST_WORD) as usize]),
                        address => Some(self.cells[address as usize]),
                    };
                    match rm {
                        0 => {}
                        MASK_CELL => self.machine.mask = rn,
                        MODE_CELL => self.machine.mode = rn,
                        address => {
                            touched.cell = Some(address);
                            old_cell = self.cells[address as usize];
                            self.cells[address as usize] = rn;
                        }
                    }
                    if let Some(value) = loaded {
                        touched.a = Some(n);
                        self.machine.registers[n as usize] = value;
                    }
                }
            }
            3..=7 | 16..=53 => {
                touched.a = Some(n);
                let flags = before.flags;
                let result = match opcode {
                    3 => Some(rn & 0xFFFF_0000 | imm as u32),
                    4 => Some(rn & 0x0000_FFFF | (imm as u32) << 16),
                    5 => Some(imm as u32),
                    6 => Some(se(imm)),
                    7 => Some(ex(imm)),
                    16..=34 => arithmetic(opcode, rm, rl, flags, &mut written),
                    35..=45 => arithmetic(opcode - 19, rn, se(imm), flags, &mut written),
                    46..=51 => arithmetic(opcode - 17, rn, se(imm), flags, &mut written),
                    52 => Some((se(imm) > rn) as u32),
                    _ => Some((se(imm) as i32 > rn as i32) as u32),
                };
                if let Some(value) = result {
                    self.machine.registers[n as usize] = value;
                }
            }
            _ if float_runs(opcode) => {
                touched.a = Some(n);
                let (operation, x, y) = float_operands(opcode, [rn, rm, rl], imm);
                self.machine.registers[n as usize] = float_result(operation, x, y, &mut written);
                let (before, raised) = (before.flags & written.governed, written.raised);
                self.floats.insert(FloatStep { opcode, operands: (x, y), before, raised });
            }
            54 | 107 => {
                touched.a = Some(m);
                touched.b = Some(l);
                let widen = if opcode == 54 { se } else { ex };
                self.machine.registers[m as usize] = widen(rn as u16);
                self.machine.registers[l as usize] = widen((rn >> 16) as u16);
            }
            121 => {
                let (pc, taken) = (before.registers[PC], rn == 0);
                let target = branch_target(pc, imm);
                self.branches.insert((pc, target, taken));
                if taken {
                    self.machine.registers[PC] = target as u32;
                }
            }
            122 => {}
            _ => written.write(ILLEGAL, true),
        }
        self.machine.flags = self.machine.flags & !written.governed | written.raised;
        self.note(&before, &touched, old_cell);
        written.raised
    }

    fn note_halves(&mut self, opcode: u8, imm: u16, rn: u32) {
        if opcode == 7 {
            self.widened[0].insert(imm);
        }
        if opcode == 107 {
            self.widened[1].insert(rn as u16);
            self.widened[2].insert((rn >> 16) as u16);
        }
    }

    fn note(&mut self, before: &Machine, touched: &Touched, old_cell: u32) {
        let a = touched.a.unwrap_or(0) as usize;
        let b = touched.b.unwrap_or(0) as usize;
        let mut entry = [0; ENTRY_WORDS];
        entry[0] = before.registers[PC];
        entry[1] = before.flags | before.mask << 9 | before.mode << 18;
        entry[2] = (a + 256 * b) as u32;
        if touched.a.is_some() {
            entry[3] = before.registers[a];
            entry[7] |= USES_A;
        }
        if touched.b.is_some() {
            entry[4] = before.registers[b];
            entry[7] |= USES_B;
        }
        if let Some(address) = touched.cell {
            entry[5] = address;
            entry[6] = old_cell;
            entry[7] |= STORES;
        }
        let at = before.depth as usize * ENTRY_WORDS;
        self.journal[at..at + ENTRY_WORDS].copy_from_slice(&entry);
        self.machine.depth += 1;
    }
}

fn illegal_load(load: u32) -> bool {
    load > MODE_CELL && !(FIRST_WORD..=LAST_WORD).contains(&load)
}

/// Of what is above memory only the mask and the mode can be written.
fn illegal_store(store: u32, value: u32) -> bool {
    store > MODE_CELL
        || store == FLAGS_CELL
        || store == MASK_CELL && value > HIGHEST_FLAGS
        || store == MODE_CELL && value > HIGHEST_MODE
}

//! Trials of floats by what a step with them does: modes, stops and traps, R255, and rules that only go forward.

use crate::cell::{form, with_immediate, with_registers, Form};
use crate::execute::float_runs;
use crate::file::Trials;
use crate::float::{INFINITY, NAN, SIGN};
use crate::float_values::{single, GREATEST, ONE};
use crate::generate_floats::{ON_IMMEDIATES, ON_REGISTERS};
use crate::generate_forward::{NEXT, THE_END};
use crate::generate_jobs::{cells, end, runjob, settings};
use crate::machine::NEAREST;
use crate::random::Random;
use crate::setup::{Setup, LONG};
use crate::trial::{BACK, RUN, STEP};

const MODE_CELL: u32 = 0xFFFF_0002;
const FLAGS: [u32; 3] = [0, 511, 0x1CB];

pub fn edges(random: &mut Random, trials: &mut Trials) {
    modes(random, trials);
    modes_that_change(random, trials);
    full_journals(random, trials);
    traps(random, trials);
    same_registers(random, trials);
    pc_as_operand(trials);
    pc_as_target(random, trials);
    rules(random, trials);
    jobs(trials);
}

fn opcodes() -> impl Iterator<Item = u8> {
    ON_REGISTERS.into_iter().chain(ON_IMMEDIATES)
}

/// The opcode with R1, R2 and R3, or with R1 and 1.5.
fn usual_cell(opcode: u8) -> u32 {
    match form(opcode) {
        Form::Immediate => with_immediate(opcode, 1, 0x3E00),
        _ => with_registers(opcode, 1, 2, 3),
    }
}

fn operands(random: &mut Random) -> Vec<(u8, u32)> {
    vec![(1, single(random)), (2, single(random)), (3, single(random))]
}

/// Every opcode of 80 to 106 in every mode, after a step; then once more, and back.
fn modes(random: &mut Random, trials: &mut Trials) {
    for opcode in 80..=106 {
        for mode in 0..=3 {
            let mut setup = Setup::new(3, 24);
            (setup.flags, setup.mode) = (random.pick(&FLAGS), mode);
            setup.registers = operands(random);
            setup.place(0, &[with_immediate(35, 4, 1), usual_cell(opcode)]);
            setup.calls = vec![(RUN, 2)];
            if mode == NEAREST {
                setup.calls.push((BACK, 1));
            }
            setup.add_to(trials);
        }
    }
}

/// A float before and behind a step that writes the mode, from 3 to another one or back to it.
fn modes_that_change(random: &mut Random, trials: &mut Trials) {
    for opcode in opcodes() {
        for to_nearest in [false, true] {
            let other = random.below(3) as u32;
            let (before, after) = if to_nearest { (other, NEAREST) } else { (NEAREST, other) };
            let mut setup = Setup::new(8, 80);
            setup.mode = before;
            setup.registers = operands(random);
            setup.registers.extend([(4, after), (5, MODE_CELL)]);
            setup.place(0, &[with_registers(1, 4, 5, 5), usual_cell(opcode), with_registers(1, 4, 5, 0)]);
            setup.place(3, &[usual_cell(opcode)]);
            setup.calls = vec![(RUN, 4), (BACK, 1), (RUN, 2), (BACK, LONG)];
            setup.add_to(trials);
        }
    }
}

/// No entry is left: that comes before the cell, whether it could run or not.
fn full_journals(random: &mut Random, trials: &mut Trials) {
    for opcode in 80..=106 {
        let mut setup = Setup::new(2, 8 * random.pick(&[0, 1, 2]) + random.below(8) as u32);
        setup.depth = setup.room / 8;
        setup.mode =
            if float_runs(opcode) { random.pick(&[NEAREST, NEAREST, 0, 1]) } else { random.below(4) as u32 };
        setup.place(0, &[usual_cell(opcode)]);
        setup.calls = vec![(random.pick(&[STEP, RUN]), 1)];
        setup.add_to(trials);
    }
}

/// Operands for each outcome: a plain one, NaN from either operand and from infinities and zeros, by zero, overflow.
const SINGLE_CASES: [(u32, u32); 7] = [
    (ONE, ONE),
    (NAN, ONE),
    (ONE, 0xFFC0_0001),
    (INFINITY, INFINITY | SIGN),
    (ONE, SIGN),
    (GREATEST, GREATEST),
    (GREATEST | SIGN, 1),
];
const HALF_CASES: [(u32, u16); 7] = [
    (ONE, 0x3C00),
    (NAN, 0x3C00),
    (ONE, 0x7C01),
    (INFINITY, 0xFC00),
    (ONE, 0x8000),
    (GREATEST, 0x7BFF),
    (GREATEST | SIGN, 1),
];

/// One float after the other, with each flag in the mask alone, and with all the others; each call goes on behind the
/// trap of the last.
fn traps(random: &mut Random, trials: &mut Trials) {
    for opcode in opcodes() {
        for mask in [32, 16, 4, 511 - 52] {
            let mut setup = Setup::new(8, 80);
            (setup.mask, setup.flags) = (mask, random.pick(&FLAGS));
            for (at, ((x, y), (first, imm))) in (0..).zip(SINGLE_CASES.into_iter().zip(HALF_CASES)) {
                let result = 20 + at as u8;
                if form(opcode) == Form::Immediate {
                    setup.registers.push((result, first));
                    setup.place(at, &[with_immediate(opcode, result, imm)]);
                } else {
                    let (m, l) = (1 + at as u8, 11 + at as u8);
                    setup.registers.extend([(m, x), (l, y)]);
                    setup.place(at, &[with_registers(opcode, result, m, l)]);
                }
            }
            setup.calls = vec![(RUN, LONG); 5];
            setup.add_to(trials);
        }
    }
}

/// Coincidences of the three registers.
fn same_registers(random: &mut Random, trials: &mut Trials) {
    for opcode in ON_REGISTERS {
        let mut setup = Setup::new(8, 80);
        setup.flags = random.pick(&FLAGS);
        setup.registers =
            vec![(1, ONE), (2, 0x4040_0000), (3, 0x3DCC_CCCD), (4, single(random)), (5, single(random))];
        let places = [(1, 1, 2), (2, 3, 2), (4, 3, 3), (3, 3, 3), (5, 4, 5), (5, 5, 5)];
        setup.place(0, &places.map(|(n, m, l)| with_registers(opcode, n, m, l)));
        setup.calls = vec![(RUN, LONG), (BACK, 3)];
        setup.add_to(trials);
    }
}

/// R255 as first operand, as second and as both, beside 0, 1, and as many of the least float as PC, PC+1 and PC+2.
fn pc_as_operand(trials: &mut Trials) {
    for opcode in ON_REGISTERS {
        let mut setup = Setup::new(40, 320);
        setup.registers.push((2, ONE));
        let mut program = vec![with_registers(opcode, 20, 255, 255)];
        for other in [0, 2] {
            let result = 20 + program.len() as u8;
            program.extend([
                with_registers(opcode, result, 255, other),
                with_registers(opcode, result + 1, other, 255),
            ]);
        }
        for beside in 0..3 {
            for second in [false, true] {
                let at = program.len() as u8;
                setup.registers.push((60 + at, at as u32 + beside));
                let (m, l) = if second { (60 + at, 255) } else { (255, 60 + at) };
                program.push(with_registers(opcode, 20 + at, m, l));
            }
        }
        setup.place(0, &program);
        setup.calls = vec![(RUN, program.len() as u64), (BACK, 4)];
        setup.add_to(trials);
    }
}

/// R255 as target alone, and as target and operand: a result is where the run goes on, as a whole number.
fn pc_as_target(random: &mut Random, trials: &mut Trials) {
    let mut add = |at: u32, cell: u32| {
        let mut setup = Setup::new(12, 80);
        setup.registers = vec![(2, random.pick(&[0, 1, 2, SIGN, ONE])), (3, random.pick(&[1, 2, ONE, ONE]))];
        setup.flags = random.pick(&FLAGS);
        setup.place(0, &[NEXT; 12]);
        setup.place(at, &[cell]);
        setup.pc(at);
        setup.calls = vec![(STEP, 0), (RUN, 2), (BACK, LONG)];
        setup.add_to(trials);
    };
    for at in [0, 3] {
        for opcode in ON_REGISTERS {
            for (m, l) in [(2, 3), (255, 3), (2, 255), (255, 255)] {
                add(at, with_registers(opcode, 255, m, l));
            }
        }
        for opcode in ON_IMMEDIATES {
            // 0, the half 2, the least half, a NaN.
            for imm in [0, 0x4000, 0x8001, 0x7C01] {
                add(at, with_immediate(opcode, 255, imm));
            }
        }
    }
}

/// A rule with a float is refused though the float runs; a float just behind the rule counts for nothing.
fn rules(random: &mut Random, trials: &mut Trials) {
    for opcode in opcodes() {
        let mut setup = Setup::new(4, 80);
        setup.mode = random.pick(&[NEAREST, NEAREST, 0]);
        setup.registers = operands(random);
        setup.place(0, &[NEXT, usual_cell(opcode), THE_END]);
        setup.profile(3, LONG);
        setup.profile(1, LONG);
        setup.calls.push((STEP, 0));
        setup.profile(2, 0);
        setup.calls.push((BACK, LONG));
        setup.profile(1, 1);
        setup.add_to(trials);
    }
}

/// Jobs with floats: 13.7 in steps of 0.5, with the settings of a fresh machine and with those that a job gives.
fn jobs(trials: &mut Trials) {
    let rule = [
        with_immediate(3, 1, 0x3333),
        with_immediate(4, 1, 0x415B),
        with_immediate(4, 2, 0x4B00),
        with_immediate(96, 1, 0x3800),
        with_registers(80, 1, 1, 2),
        with_registers(81, 1, 1, 2),
        with_immediate(95, 1, 0x3800),
        with_immediate(104, 2, 0x4200),
        with_immediate(96, 3, 0),
        THE_END,
    ];
    runjob(&[cells(0, &rule), end()].concat(), trials);
    for (mask, mode) in [(0, 3), (32, 3), (16, 3), (0, 0), (0, 1), (0, 2)] {
        runjob(&[cells(0, &rule), settings(0, mask, mode), end()].concat(), trials);
    }
}

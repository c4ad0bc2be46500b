//! Trials of calls that go through the instructions one by one.

use crate::cell::{form, with_immediate, with_registers, Form};
use crate::file::Trials;
use crate::random::Random;
use crate::setup::{Setup, LONG};
use crate::trial::{BACK, RUN, STEP};

const OPERANDS: [u32; 11] =
    [0, 1, 2, 31, 32, 0x10000, 0x7FFF_FFFF, 0x8000_0000, 0x8000_0001, 0xFFFF_FFFE, 0xFFFF_FFFF];

const IMMEDIATES: [u16; 11] = [0, 1, 2, 31, 32, 33, 0x7FFF, 0x8000, 0x8001, 0xFFFE, 0xFFFF];

/// Programs of the tables below put their results from here on, one register each.
const RESULTS: u8 = 100;

pub fn edges(random: &mut Random, trials: &mut Trials) {
    pairs(random, trials);
    halves(random, trials);
    transfers(random, trials);
    pc_everywhere(random, trials);
    reserved(trials);
    every_half(trials);
}

/// Every arithmetic opcode on every pair of interesting operands. The journal keeps the flags
/// between the steps, so that one run shows them all.
fn pairs(random: &mut Random, trials: &mut Trials) {
    for opcode in 16..=53 {
        let immediate = form(opcode) == Form::Immediate;
        let mut setup = Setup::new(200, 8 * 130);
        let mut program = Vec::new();
        for (x, first) in OPERANDS.into_iter().enumerate() {
            setup.registers.push((x as u8, first));
            for (y, imm) in IMMEDIATES.into_iter().enumerate() {
                let result = RESULTS + program.len() as u8;
                if immediate {
                    setup.registers.push((result, first));
                    program.push(with_immediate(opcode, result, imm));
                } else {
                    program.push(with_registers(opcode, result, x as u8, y as u8));
                }
            }
        }
        setup.place(0, &program);
        setup.flags = random.pick(&[0, 511, 0x1F8, 3]);
        setup.calls = vec![(RUN, program.len() as u64)];
        setup.add_to(trials);
        // Which flags are kept shows best where all were 0, or all were 1.
        for flags in [0, 511] {
            let mut setup = Setup::new(4, 8);
            setup.flags = flags;
            setup.registers = vec![(1, random.word()), (2, random.word()), (3, random.word())];
            let imm = random.immediate();
            let cell = if immediate { with_immediate(opcode, 1, imm) } else { with_registers(opcode, 1, 2, 3) };
            setup.place(0, &[cell]);
            setup.calls = vec![(STEP, 0), (BACK, 1)];
            setup.add_to(trials);
        }
    }
}

/// Instructions on 16-bit halves, and copies, with every coincidence of their registers.
fn halves(random: &mut Random, trials: &mut Trials) {
    for imm in [0, 1, 0x3FF, 0x400, 0x3C00, 0x3FFF, 0x4000, 0x7C00, 0x7FFF, 0x8000, 0xB5B9, 0xC000, 0xFC00, 0xFFFF]
    {
        let mut setup = Setup::new(40, 200);
        setup.flags = random.pick(&[0, 511]);
        let value = (imm as u32) << 16 | random.immediate() as u32;
        setup.registers.extend([
            (1, random.bits()),
            (2, random.bits()),
            (6, value),
            (7, value),
            (8, value),
            (9, value),
            (10, value),
        ]);
        let mut program: Vec<u32> = (3..=7).map(|opcode| with_immediate(opcode, opcode - 2, imm)).collect();
        for opcode in [54, 107] {
            program.extend([with_registers(opcode, 6, opcode, opcode + 1), with_registers(opcode, 7, 7, 11)]);
            program.extend([
                with_registers(opcode, 8, 12, 8),
                with_registers(opcode, 9, 13, 13),
                with_registers(opcode, 10, 10, 10),
            ]);
        }
        setup.place(0, &program);
        setup.calls = vec![(RUN, program.len() as u64), (BACK, random.below(20))];
        setup.add_to(trials);
    }
    for (n, m, l) in [(1, 2, 3), (1, 1, 2), (1, 2, 1), (1, 2, 2), (1, 1, 1)] {
        let mut setup = Setup::new(3, 16);
        setup.registers = vec![(1, random.bits()), (2, random.bits()), (3, random.bits())];
        setup.place(0, &[with_registers(0, n, m, l)]);
        setup.litter(random);
        setup.calls = vec![(STEP, 0), (BACK, 2)];
        setup.add_to(trials);
    }
}

/// All 65,536 halves through LDLIF, and through FSPLIT into both its registers, in four parts each.
/// A rule goes through a part by itself; the journal keeps what each of its rounds made.
fn every_half(trials: &mut Trials) {
    const PART: u32 = 16_384;
    for part in 0..4 {
        let first = with_immediate(7, 1, (part * PART) as u16);
        // LDLIF R1 in cell 1; R2 is its cell, which gains 1 and is stored again; back to cell 1.
        let rule = [first, with_immediate(35, 2, 1), with_registers(1, 2, 3, 0), with_immediate(121, 0, 0xFFFC)];
        loops(trials, 1, &rule, vec![(2, first), (3, 1)], PART);

        // FSPLIT R1 to R2 and R3; R1 gains R4, whose halves are odd, so that each meets all halves.
        let step = 0x9E37_0001_u32;
        let rule = [with_registers(107, 1, 2, 3), with_registers(16, 1, 1, 4), with_immediate(121, 0, 0xFFFD)];
        loops(trials, 0, &rule, vec![(1, step.wrapping_mul(part * PART)), (4, step)], PART);
    }
}

/// A rule that is a loop, from its cell on, run for so many rounds.
fn loops(trials: &mut Trials, at: u32, rule: &[u32], registers: Vec<(u8, u32)>, rounds: u32) {
    let steps = rounds * rule.len() as u32;
    let mut setup = Setup::new(8, 8 * steps);
    setup.registers = registers;
    setup.pc(at);
    setup.place(at, rule);
    setup.calls = vec![(RUN, steps as u64)];
    setup.add_to(trials);
}

/// LDST with every pair of pointers where something changes.
fn transfers(random: &mut Random, trials: &mut Trials) {
    let m = 9;
    let pointers = [0, 1, m - 1, m, 0xFFFE_FFFF, 0xFFFF_0000, 0xFFFF_0001, 0xFFFF_0002, 0xFFFF_0003, 0xFFFF_FFFF];
    for load in pointers {
        for store in pointers {
            let values = match store {
                0xFFFF_0001 => vec![random.pick(&[0, 511]), random.pick(&[512, 0x8000_0001])],
                0xFFFF_0002 => vec![random.pick(&[0, 3]), random.pick(&[4, 0x8000_0001])],
                _ => vec![random.bits()],
            };
            for value in values {
                let mut setup = Setup::new(m, 16);
                setup.flags = random.bits() & 511;
                setup.mask = random.bits() & 511;
                setup.mode = random.below(4) as u32;
                setup.registers = vec![(1, value), (2, store), (3, load)];
                setup.place(0, &[with_registers(1, 1, 2, 3), random.bits()]);
                setup.place(m - 1, &[random.bits()]);
                if random.chance(20) {
                    setup.litter(random);
                }
                setup.calls = vec![(random.pick(&[STEP, RUN]), 1), (BACK, 1)];
                setup.calls.truncate(1 + random.below(2) as usize);
                setup.add_to(trials);
            }
        }
    }
    // One value after the other into mask and mode, each on either side of its limit.
    for (address, values) in [(0xFFFF_0001, [0, 511, 512, 256, 513]), (0xFFFF_0002, [0, 3, 4, 2, 0xFFFF_FFFF])] {
        for value in values {
            let mut setup = Setup::new(5, 100);
            setup.registers = vec![(1, value), (2, address), (4, 0x1FF)];
            setup.place(0, &[with_registers(1, 1, 2, 2), with_registers(1, 1, 2, 5), with_registers(1, 4, 5, 2)]);
            setup.calls = vec![(RUN, LONG), (BACK, 2), (STEP, 0)];
            setup.add_to(trials);
        }
    }
}

/// Every instruction with R255 at every place and at all of them. The other operands are such
/// that every opcode shows, at PC 0 or at PC 1, whether R255 was read as PC or as PC+1.
fn pc_everywhere(random: &mut Random, trials: &mut Trials) {
    let mut add = |at: u32, cell: u32, others: [u32; 2]| {
        let mut setup = Setup::new(random.pick(&[6, 10, 16_384]), 17);
        setup.registers = vec![(1, random.word()), (2, others[0]), (3, others[1])];
        setup.pc(at);
        setup.place(at, &[cell, random.bits()]);
        setup.calls = vec![(STEP, 0), (BACK, 1)];
        setup.calls.truncate(1 + random.chance(25) as usize);
        setup.add_to(trials);
    };
    for opcode in (0..=79).chain(107..=122) {
        match form(opcode) {
            Form::Reserved => {}
            Form::Immediate => {
                for (at, imm) in [(0, 1), (0, 0xFFFE), (1, 0), (1, 1), (1, 2)] {
                    add(at, with_immediate(opcode, 255, imm), [0, 0]);
                }
            }
            Form::Registers => {
                for pattern in 1..8 {
                    let place = |bit: u8, other: u8| if pattern & bit != 0 { 255 } else { other };
                    let cell = with_registers(opcode, place(1, 1), place(2, 2), place(4, 3));
                    add(0, cell, [0xFFFF_FFFE, 0xFFFF_FFFE]);
                    add(1, cell, [2, 1]);
                }
                // A division by zero keeps PC+1.
                add(1, with_registers(opcode, 255, 2, 3), [2, 0]);
            }
        }
    }
}

/// One program of all reserved opcodes.
fn reserved(trials: &mut Trials) {
    let opcodes: Vec<u8> = (0..=255).filter(|opcode| form(*opcode) == Form::Reserved).collect();
    let program: Vec<u32> = opcodes.iter().map(|opcode| with_registers(*opcode, 1, 2, 255)).collect();
    let mut setup = Setup::new(200, 8 * 180);
    setup.place(0, &program);
    setup.calls = vec![(RUN, LONG), (BACK, 100)];
    setup.add_to(trials);
}

//! Floats by whole numbers held against the host's own, known results and flags, and what a step with them does.

use std::cmp::Ordering;
use std::hint::black_box;

use crate::cell::{form, with_immediate, with_registers, Form};
use crate::execute::float_runs;
use crate::float::{calculate, compare, Operation, Outcome, INFINITY, NAN};
use crate::float_values::*;
use crate::half::ex;
use crate::machine::{Answer, Machine, Runner, NEAREST, PC};
use crate::profile::{check, Fault, Reason};
use crate::random::Random;

const OPERATIONS: [Operation; 4] = [Operation::Add, Operation::Subtract, Operation::Multiply, Operation::Divide];
const MINUS: u32 = 0x8000_0000;

/// What the host's floats give, with the flags by what the operands and the result are.
fn by_host(operation: Operation, x: u32, y: u32) -> Outcome {
    let (x, y) = (black_box(f32::from_bits(x)), black_box(f32::from_bits(y)));
    let value = match operation {
        Operation::Add => x + y,
        Operation::Subtract => x - y,
        Operation::Multiply => x * y,
        Operation::Divide => x / y,
    };
    let by_zero = operation == Operation::Divide && y == 0.0;
    Outcome {
        result: if value.is_nan() { NAN } else { value.to_bits() },
        invalid: value.is_nan(),
        by_zero: by_zero && x.is_finite() && x != 0.0,
        overflow: x.is_finite() && y.is_finite() && value.is_infinite() && !by_zero,
    }
}

fn agrees_with_host(x: u32, y: u32) {
    for operation in OPERATIONS {
        assert_eq!(calculate(operation, x, y), by_host(operation, x, y), "{operation:?} {x:08X} {y:08X}");
    }
    assert_eq!(compare(x, y), f32::from_bits(x).partial_cmp(&f32::from_bits(y)), "{x:08X} {y:08X}");
}

#[test]
fn all_pairs_of_special_floats() {
    for x in singles() {
        for y in singles() {
            agrees_with_host(x, y);
        }
        for y in halves() {
            agrees_with_host(x, ex(y));
            agrees_with_host(ex(y), x);
        }
    }
}

#[test]
fn pairs_between_floats_and_at_their_ends() {
    for (x, y) in [sums_between(), products_between(), results_beside_the_middle(), ends()].concat() {
        for sign in [0, MINUS] {
            agrees_with_host(x, y ^ sign);
            agrees_with_host(y ^ sign, x);
        }
    }
}

#[test]
fn random_pairs() {
    let mut random = Random::new(6);
    for _ in 0..400_000 {
        let (x, y) = pair(&mut random);
        agrees_with_host(x, y);
    }
    for _ in 0..100_000 {
        agrees_with_host(single(&mut random), ex(half(&mut random)));
    }
}

/// There are as many as there should be, and none of them is in the middle: the host's longer floats tell.
#[test]
fn results_that_are_beside_the_middle() {
    let mut counts = [0; 2];
    for (x, y) in results_beside_the_middle() {
        let (x, y) = (f64::from(f32::from_bits(x)), f64::from(f32::from_bits(y)));
        for (kind, value) in [x * y, x / y].into_iter().enumerate() {
            let last_bit = f64::from(f32::from_bits((value as f32).to_bits() + 1) - value as f32);
            let from_middle = (((value - f64::from(value as f32)) / last_bit).abs() - 0.5).abs();
            counts[kind] += (from_middle < 1e-6 && from_middle > 0.0) as usize;
        }
    }
    assert!(counts.iter().all(|count| *count > 8), "{counts:?}");
}

/// About every subnormal result of few bits, each by products and quotients that fall between and beside.
#[test]
fn results_near_zero() {
    for x in 0..600 {
        for y in
            [0x3F00_0000, 0x3E80_0000, 0x3F40_0000, 0x3F20_0000, 0x3D80_0000, 0x4000_0000, 0x4080_0000, 0x40A0_0000]
        {
            for beside in [y - 1, y, y + 1] {
                agrees_with_host(x, beside);
                agrees_with_host(x | MINUS, beside);
            }
        }
    }
}

/// The random pairs are of every sort that matters: they cancel, are subnormal, infinite, rounded and exact.
#[test]
fn random_pairs_are_mixed() {
    let mut random = Random::new(1);
    let mut counts = [0; 5];
    for _ in 0..10_000 {
        let (x, y) = pair(&mut random);
        let (sum, product) = (calculate(Operation::Add, x, y), calculate(Operation::Multiply, x, y));
        let quotient = calculate(Operation::Divide, x, y);
        let magnitude = |outcome: &Outcome| outcome.result & !MINUS;
        let least_normal = 0x80_0000;
        counts[0] += (magnitude(&sum) != 0 && magnitude(&sum) + (8 << 23) < x & !MINUS) as u32;
        counts[1] += (1..least_normal).contains(&magnitude(&product)) as u32;
        counts[2] += (1..least_normal).contains(&magnitude(&quotient)) as u32;
        counts[3] += product.overflow as u32;
        counts[4] += quotient.overflow as u32;
    }
    assert!(counts.iter().all(|count| *count > 100), "{counts:?}");
}

/// One step at PC 0 of a machine whose registers 1 to 3 are given.
fn one_step(cell: u32, registers: [u32; 3], flags: u32, mode: u32) -> (Answer, Machine) {
    let mut machine = Machine { flags, mode, ..Machine::fresh() };
    machine.registers[1..4].copy_from_slice(&registers);
    let mut runner = Runner::new(machine, vec![cell, 0, 0], vec![0; 8]);
    let answer = runner.step();
    (answer, runner.machine)
}

/// R1 and the flags after `R1 = R2 op R3` that starts with these flags.
fn on_registers(opcode: u8, x: u32, y: u32, flags: u32) -> (u32, u32) {
    let (answer, machine) = one_step(with_registers(opcode, 1, 2, 3), [9, x, y], flags, NEAREST);
    assert_eq!(answer, Answer::stop(0, 1));
    (machine.registers[1], machine.flags)
}

fn on_immediate(opcode: u8, x: u32, imm: u16, flags: u32) -> (u32, u32) {
    let (answer, machine) = one_step(with_immediate(opcode, 1, imm), [x, 9, 9], flags, NEAREST);
    assert_eq!(answer, Answer::stop(0, 1));
    (machine.registers[1], machine.flags)
}

/// Result and flags of an operation of which nothing was set before; what was set before and is not governed stays.
fn gives(opcode: u8, x: u32, y: u32, result: u32, flags: u32) {
    assert_eq!(on_registers(opcode, x, y, 0), (result, flags), "{opcode} {x:08X} {y:08X}");
    assert_eq!(on_registers(opcode, x, y, 511), (result, 511 - 52 + flags), "{opcode} {x:08X} {y:08X}");
}

#[test]
fn flags_of_arithmetic() {
    let least = 1;
    gives(80, ONE, ONE, 0x4000_0000, 0);
    gives(80, GREATEST, GREATEST, INFINITY, 4);
    gives(80, INFINITY, INFINITY, INFINITY, 0);
    gives(80, INFINITY, INFINITY | MINUS, NAN, 32);
    gives(80, MINUS, MINUS, MINUS, 0);
    gives(80, MINUS, 0, 0, 0);
    gives(81, ONE, ONE, 0, 0);
    gives(81, INFINITY, INFINITY, NAN, 32);
    gives(81, GREATEST | MINUS, GREATEST, INFINITY | MINUS, 4);
    gives(82, GREATEST, 0xC000_0000, INFINITY | MINUS, 4);
    gives(82, INFINITY, 0, NAN, 32);
    gives(82, INFINITY, GREATEST | MINUS, INFINITY | MINUS, 0);
    gives(82, least, 0x3F00_0000, 0, 0);
    gives(82, least | MINUS, 0x3F00_0000, MINUS, 0);
    gives(83, ONE, MINUS, INFINITY | MINUS, 16);
    gives(83, least, 0, INFINITY, 16);
    gives(83, 0, 0, NAN, 32);
    gives(83, 0, MINUS, NAN, 32);
    gives(83, INFINITY, 0, INFINITY, 0);
    gives(83, INFINITY, MINUS, INFINITY | MINUS, 0);
    gives(83, INFINITY, INFINITY, NAN, 32);
    gives(83, NAN, 0, NAN, 32);
    gives(83, ONE, INFINITY | MINUS, MINUS, 0);
    gives(83, GREATEST, least, INFINITY, 4);
    for opcode in 80..=83 {
        for nan in [0x7F80_0001, 0x7FFF_FFFF, 0xFF80_0001, 0xFFC0_0000, 0xFFFF_FFFF] {
            gives(opcode, nan, ONE, NAN, 32);
            gives(opcode, INFINITY, nan, NAN, 32);
        }
    }
}

/// FGT writes 32, FEQ nothing; a NaN is neither greater nor equal, and both zeros are equal.
#[test]
fn comparisons() {
    for (x, y, greater, equal, invalid) in [
        (ONE, 0, 1, 0, 0),
        (0, ONE, 0, 0, 0),
        (ONE, ONE, 0, 1, 0),
        (0, MINUS, 0, 1, 0),
        (MINUS, 0, 0, 1, 0),
        (ONE | MINUS, 0x4000_0000 | MINUS, 1, 0, 0),
        (1, MINUS | 1, 1, 0, 0),
        (INFINITY, GREATEST, 1, 0, 0),
        (INFINITY, INFINITY, 0, 1, 0),
        (NAN, NAN, 0, 0, 32),
        (NAN, ONE, 0, 0, 32),
        (ONE, 0xFF80_0001, 0, 0, 32),
    ] {
        for flags in [0, 511] {
            assert_eq!(on_registers(89, x, y, flags), (greater, flags & !32 | invalid));
            assert_eq!(on_registers(90, x, y, flags), (equal, flags));
        }
    }
}

/// An immediate form does what its other form does with R1 and ex(imm); FLTI has them the other way round.
#[test]
fn immediate_forms() {
    for x in singles() {
        for imm in halves() {
            for flags in [0, 511] {
                for (opcode, other) in [(93, 80), (94, 81), (95, 82), (96, 83), (102, 89), (103, 90)] {
                    assert_eq!(on_immediate(opcode, x, imm, flags), on_registers(other, x, ex(imm), flags));
                }
                assert_eq!(on_immediate(104, x, imm, flags), on_registers(89, ex(imm), x, flags));
            }
        }
    }
    assert_eq!(on_immediate(93, ONE, 0x3C00, 0), (0x4000_0000, 0));
    assert_eq!(on_immediate(94, ONE, 0x4000, 0), (0xBF80_0000, 0));
    assert_eq!(on_immediate(96, ONE, 0x4200, 0), (0x3EAA_AAAB, 0));
    assert_eq!([on_immediate(102, ONE, 0x4000, 0).0, on_immediate(104, ONE, 0x4000, 0).0], [0, 1]);
    assert_eq!([on_immediate(102, ONE, 0, 0).0, on_immediate(104, ONE, 0, 0).0], [1, 0]);
}

fn float_cell(opcode: u8, n: u8) -> u32 {
    match form(opcode) {
        Form::Immediate => with_immediate(opcode, n, 0x3C00),
        _ => with_registers(opcode, n, 2, 3),
    }
}

/// Thirteen opcodes run, in mode 3 alone; a step that is refused changes nothing.
#[test]
fn modes() {
    let mut done = 0;
    for opcode in 80..=106 {
        for mode in 0..=3 {
            let (answer, machine) = one_step(float_cell(opcode, 1), [ONE, ONE, ONE], 511, mode);
            if answer == Answer::stop(0, 1) {
                assert!(mode == 3 && float_runs(opcode));
                done += 1;
            } else {
                assert_eq!(answer, Answer::stop(6, 0));
                let mut before = Machine { flags: 511, mode, ..Machine::fresh() };
                before.registers[1..4].copy_from_slice(&[ONE; 3]);
                assert_eq!(machine, before);
            }
        }
    }
    assert_eq!(done, 13);
}

/// A full journal comes before a float that cannot run, and before one that can.
#[test]
fn what_comes_before_a_float() {
    for opcode in 80..=106 {
        for mode in 0..=3 {
            let machine = Machine { mode, depth: 1, ..Machine::fresh() };
            let mut runner = Runner::new(machine, vec![float_cell(opcode, 1); 2], vec![0; 8]);
            assert_eq!(runner.run(1), Answer::stop(7, 0));
            assert_eq!(runner.run(0), Answer::stop(0, 0));
        }
    }
}

/// A flag that is written as 1 traps, over a 1 too; one that was 1 and is written as 0 does not.
#[test]
fn traps() {
    let stop = |opcode: u8, x: u32, y: u32, flags: u32, mask: u32| {
        let mut machine = Machine { flags, mask, ..Machine::fresh() };
        machine.registers[2..4].copy_from_slice(&[x, y]);
        Runner::new(machine, vec![with_registers(opcode, 1, 2, 3), 0], vec![0; 8]).step().stop
    };
    for flags in [0, 511] {
        assert_eq!([32, 16, 4].map(|mask| stop(83, 0, 0, flags, mask)), [2, 0, 0]);
        assert_eq!([32, 16, 4].map(|mask| stop(83, ONE, 0, flags, mask)), [0, 2, 0]);
        assert_eq!([32, 16, 4].map(|mask| stop(83, GREATEST, 1, flags, mask)), [0, 0, 2]);
        assert_eq!([32, 16, 4].map(|mask| stop(89, NAN, 0, flags, mask)), [2, 0, 0]);
        assert_eq!([32, 511].map(|mask| stop(90, NAN, 0, flags, mask)), [0, 0]);
        assert_eq!(stop(80, ONE, ONE, flags, 511), 0);
    }
}

/// R255 reads as PC+1, which as a float is that many of the least ones; as a target it is where the run goes on.
#[test]
fn floats_and_pc() {
    let mut machine = Machine::fresh();
    machine.registers[1] = 2;
    machine.registers[PC] = 3;
    let cells = [&[0, 0, 0], &[with_registers(80, 255, 1, 255)][..], &[0; 3]].concat();
    let mut runner = Runner::new(machine.clone(), cells, vec![0; 16]);
    assert_eq!(runner.step(), Answer::stop(0, 1));
    assert_eq!(runner.machine.registers[PC], 6);
    assert_eq!(runner.journal[..8], [3, 3 << 18, 255, 3, 0, 0, 0, 1]);
    assert_eq!(runner.back(1), Answer::stop(0, 1));
    assert_eq!(runner.machine, machine);
    let (answer, machine) = one_step(with_registers(90, 255, 2, 3), [0, ONE, ONE], 0, NEAREST);
    assert_eq!((answer, machine.registers[PC]), (Answer::stop(0, 1), 1));
    let (answer, machine) = one_step(with_registers(83, 255, 2, 2), [0, 0, 0], 0, NEAREST);
    assert_eq!((answer, machine.registers[PC], machine.flags), (Answer::stop(0, 1), NAN, 32));
}

/// The mode counts as it is when the float comes up, and going back restores it.
#[test]
fn the_mode_before_the_step() {
    let mut machine = Machine::fresh();
    machine.registers[1..4].copy_from_slice(&[2, 0xFFFF_0002, ONE]);
    let cells = vec![with_registers(1, 1, 2, 0), with_registers(80, 4, 3, 3), with_registers(80, 4, 3, 3)];
    let mut runner = Runner::new(machine.clone(), cells, vec![0; 80]);
    assert_eq!(runner.run(9), Answer::stop(6, 1));
    assert_eq!(runner.back(1), Answer::stop(0, 1));
    assert_eq!(runner.machine, machine);
    runner.machine.registers[PC] = 1;
    assert_eq!(runner.run(2), Answer::stop(0, 2));
    assert_eq!(runner.machine.registers[4], 0x4000_0000);
}

#[test]
fn rules_that_only_go_forward_have_no_floats() {
    for opcode in 80..=106 {
        let cells = vec![0, float_cell(opcode, 1), 0];
        assert_eq!(check(3, &cells), Err(Fault::Cell(1, Reason::Float)));
        let mut runner = Runner::new(Machine::fresh(), cells, vec![0; 80]);
        assert_eq!(runner.profile_run(3, 1), Answer { place: 1, ..Answer::stop(60, 0) });
    }
}

#[test]
fn greater_is_an_order() {
    let mut finite: Vec<u32> = singles().into_iter().filter(|bits| compare(*bits, 0).is_some()).collect();
    finite.sort_by(|x, y| compare(*x, *y).unwrap());
    for (at, x) in finite.iter().enumerate() {
        for y in &finite[at..] {
            assert_ne!(compare(*x, *y), Some(Ordering::Greater));
        }
    }
}

//! Trials of floats by their operands: all pairs of those where something changes, pairs that are rounded, random ones.
//! A trial is a rule that goes through lists of operands; the journal keeps each result, and the flags after each step.

use crate::cell::{with_immediate, with_registers};
use crate::file::Trials;
use crate::float_values::*;
use crate::generate_forward::THE_END;
use crate::random::Random;
use crate::setup::{Setup, LONG};
use crate::trial::{BACK, RUN};

pub const ON_REGISTERS: [u8; 6] = [80, 81, 82, 83, 89, 90];
pub const ON_IMMEDIATES: [u8; 7] = [93, 94, 95, 96, 102, 103, 104];

/// What `oracle floats` makes: pairs of singles, each for six opcodes, and of a single and a half, each for seven.
const PAIRS: usize = 60_000;
const PAIRS_WITH_HALF: usize = 40_000;
/// As many as a payload has room for, and a journal.
const PAIRS_OF_A_TRIAL: usize = 2_400;
const PAIRS_WITH_HALF_OF_A_TRIAL: usize = 1_600;

/// The registers of the rules: 0, the operands, their pointers, where the second list begins and ends, something to
/// write to, and the first of those for results.
const ZERO: u8 = 0;
const X: u8 = 1;
const Y: u8 = 2;
const X_POINTER: u8 = 3;
const Y_POINTER: u8 = 4;
const Y_BEGIN: u8 = 5;
const Y_END: u8 = 6;
const SCRATCH: u8 = 7;
const RESULT: u8 = 10;

/// Where the cells between loading the operands and going on begin.
const BODY: u32 = 2;

/// 0 + 0, which clears flags 32, 16 and 4.
const CLEAR: u32 = with_registers(80, SCRATCH, ZERO, ZERO);

/// 0 / 0, a whole number by 0, and a shift by 32 places, which raise 32, 16 and 4 one by one.
const RAISE: [u32; 3] = [
    with_registers(83, SCRATCH, ZERO, ZERO),
    with_registers(21, SCRATCH, SCRATCH, ZERO),
    with_immediate(46, SCRATCH, 32),
];

pub fn edges(random: &mut Random, trials: &mut Trials) {
    all_pairs_of_registers(trials);
    all_pairs_with_halves(trials);
    for pairs in [sums_between(), products_between(), results_beside_the_middle(), ends()] {
        on_registers(&pairs, trials);
    }
    for _ in 0..6 {
        let pairs: Vec<(u32, u32)> = (0..100).map(|_| pair(random)).collect();
        on_registers(&pairs, trials);
    }
    for _ in 0..4 {
        let pairs: Vec<(u32, u32)> = (0..100).map(|_| (single(random), half(random) as u32)).collect();
        on_immediates(&pairs, trials);
    }
}

/// The trials of `oracle floats`.
pub fn trials(seed: u64) -> Vec<u8> {
    let mut random = Random::new(seed);
    let mut trials = Trials::new(usize::MAX);
    for _ in 0..PAIRS / PAIRS_OF_A_TRIAL {
        let pairs: Vec<(u32, u32)> = (0..PAIRS_OF_A_TRIAL).map(|_| pair(&mut random)).collect();
        on_registers(&pairs, &mut trials);
    }
    for _ in 0..PAIRS_WITH_HALF / PAIRS_WITH_HALF_OF_A_TRIAL {
        let pairs: Vec<(u32, u32)> =
            (0..PAIRS_WITH_HALF_OF_A_TRIAL).map(|_| (single(&mut random), half(&mut random) as u32)).collect();
        on_immediates(&pairs, &mut trials);
    }
    trials.into_bytes()
}

fn load(register: u8, pointer: u8) -> u32 {
    with_registers(1, register, ZERO, pointer)
}

fn store(register: u8, pointer: u8) -> u32 {
    with_registers(1, register, pointer, ZERO)
}

fn copy(to: u8, from: u8) -> u32 {
    with_registers(0, to, from, to)
}

fn next(pointer: u8) -> u32 {
    with_immediate(35, pointer, 1)
}

/// Two cells more: back to the target unless the two registers are equal.
fn go_back(program: &mut Vec<u32>, x: u8, y: u8, target: u32) {
    program.push(with_registers(34, SCRATCH, x, y));
    let behind = program.len() as u32 + 1;
    program.push(with_immediate(121, SCRATCH, target.wrapping_sub(behind) as u16));
}

/// The rule with its two lists behind it, the second behind the first, and room for so many steps.
fn with_lists(program: &[u32], first: &[u32], second: &[u32], steps: usize) -> Setup {
    let begin = program.len() as u32;
    let middle = begin + first.len() as u32;
    let end = middle + second.len() as u32;
    let mut setup = Setup::new(end, 8 * steps as u32);
    setup.place(0, program);
    setup.place(begin, first);
    setup.place(middle, second);
    setup.registers = vec![(X_POINTER, begin), (Y_POINTER, middle), (Y_BEGIN, middle), (Y_END, end)];
    setup.calls = vec![(RUN, LONG)];
    setup
}

/// The body on every pair of one of the first list and one of the second.
fn all_pairs(first: &[u32], second: &[u32], body: &[u32]) -> Setup {
    let mut program = vec![load(X, X_POINTER), load(Y, Y_POINTER)];
    program.extend(body);
    program.push(next(Y_POINTER));
    go_back(&mut program, Y_POINTER, Y_END, 1);
    program.extend([copy(Y_POINTER, Y_BEGIN), next(X_POINTER)]);
    go_back(&mut program, X_POINTER, Y_BEGIN, 0);
    program.push(THE_END);
    let steps = first.len() * (second.len() * (body.len() + 4) + 5) + 1;
    with_lists(&program, first, second, steps)
}

/// The body on every pair of a list.
fn each_pair(pairs: &[(u32, u32)], body: &[u32]) -> Setup {
    let mut program = vec![load(X, X_POINTER), load(Y, Y_POINTER)];
    program.extend(body);
    program.extend([next(X_POINTER), next(Y_POINTER)]);
    go_back(&mut program, Y_POINTER, Y_END, 0);
    program.push(THE_END);
    let (first, second): (Vec<u32>, Vec<u32>) = pairs.iter().copied().unzip();
    with_lists(&program, &first, &second, pairs.len() * (body.len() + 6) + 1)
}

/// Half of the first operands meet a machine with no flag set, the others one with all of them; the first half is
/// taken back again. Each operation is done twice, with its flags at 0 and at 1.
fn add_in_halves(first: &[u32], trials: &mut Trials, made: impl Fn(&[u32]) -> Setup) {
    let (some, others) = first.split_at(first.len() / 2);
    let mut setup = made(some);
    setup.calls.push((BACK, LONG));
    setup.add_to(trials);
    let mut setup = made(others);
    setup.flags = 511;
    setup.add_to(trials);
}

fn all_pairs_of_registers(trials: &mut Trials) {
    for opcode in ON_REGISTERS {
        let [clear, set] = [0, 1].map(|result| with_registers(opcode, RESULT + result, X, Y));
        let body = [&[CLEAR, clear], &RAISE[..], &[set]].concat();
        add_in_halves(&singles(), trials, |first| all_pairs(first, &singles(), &body));
    }
}

/// The second list is of cells, each of which the rule puts in its own way, at two places.
fn all_pairs_with_halves(trials: &mut Trials) {
    let places = [8, 9];
    let body = [store(Y, places[0]), store(Y, places[1]), CLEAR, copy(RESULT, X), 0];
    let again = [copy(RESULT, X), 0];
    let body = [&body, &RAISE[..], &again].concat();
    for opcode in ON_IMMEDIATES {
        let cells: Vec<u32> = halves().into_iter().map(|imm| with_immediate(opcode, RESULT, imm)).collect();
        add_in_halves(&singles(), trials, |first| {
            let mut setup = all_pairs(first, &cells, &body);
            setup.registers.extend([(places[0], BODY + 4), (places[1], BODY + 9)]);
            setup
        });
    }
}

/// All six opcodes on pairs of singles.
fn on_registers(pairs: &[(u32, u32)], trials: &mut Trials) {
    let results = RESULT..;
    let body: Vec<u32> = ON_REGISTERS
        .into_iter()
        .zip(results)
        .map(|(opcode, result)| with_registers(opcode, result, X, Y))
        .collect();
    each_pair(pairs, &body).add_to(trials);
}

/// All seven opcodes on pairs of a single and a half. For each the rule adds the half to the opcode's cell and puts
/// that in its own way.
fn on_immediates(pairs: &[(u32, u32)], trials: &mut Trials) {
    let (cells, places) = (30, 40);
    let mut body = Vec::new();
    let mut registers = Vec::new();
    for (at, opcode) in (0..).zip(ON_IMMEDIATES) {
        registers
            .extend([(cells + at, with_immediate(opcode, RESULT, 0)), (places + at, BODY + body.len() as u32 + 3)]);
        body.extend([with_registers(16, SCRATCH, cells + at, Y), store(SCRATCH, places + at), copy(RESULT, X), 0]);
    }
    let mut setup = each_pair(pairs, &body);
    setup.registers.extend(registers);
    setup.add_to(trials);
}

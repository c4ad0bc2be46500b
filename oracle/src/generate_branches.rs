//! Trials of BZ: the edges of the cells, and the jump below cell 0, which is refused.

use std::collections::BTreeSet;

use crate::cell::{with_immediate, with_registers};
use crate::execute::branch_target;
use crate::file::Trials;
use crate::generate_forward::NEXT;
use crate::machine::MOST_CELLS;
use crate::random::Random;
use crate::setup::{Setup, LONG};
use crate::trial::{BACK, RUN, STEP};

const M: u32 = MOST_CELLS as u32;

pub fn edges(random: &mut Random, trials: &mut Trials) {
    targets(random, trials);
    out_of_cells(random, trials);
    after_steps(random, trials);
    in_rules(trials);
}

fn branch(n: u8, imm: u16) -> u32 {
    with_immediate(121, n, imm)
}

/// Flags and mask before the call: none, 256, or all.
fn settings(setup: &mut Setup, random: &mut Random) {
    setup.flags = random.pick(&[0, 256, 511]);
    setup.mask = random.pick(&[0, 256, 511]);
}

/// The immediates at which something changes for a BZ at PC: those that lead to either side of cell 0 and of the
/// last cell, and the extreme ones.
fn immediates(pc: u32) -> BTreeSet<u16> {
    let edges = [-1, 0, 1, i64::from(M) - 1, i64::from(M)];
    let leads = |imm: &u16| edges.contains(&branch_target(pc, *imm));
    let extremes = [0, 0x7FFF, 0x8000, 0xFFFE, 0xFFFF];
    (0..=0xFFFF).filter(leads).chain(extremes).collect()
}

/// From the first cells and from the last, taken and not; then the same call again, or the next step, and back.
fn targets(random: &mut Random, trials: &mut Trials) {
    for pc in [0, 1, 2, M - 2, M - 1] {
        for imm in immediates(pc) {
            for (n, value) in [(1, 0), (1, 1), (1, 0x8000_0000), (255, 0)] {
                let mut setup = Setup::new(M, 24);
                settings(&mut setup, random);
                setup.registers = vec![(n, value)];
                setup.pc(pc);
                setup.place(pc, &[branch(n, imm)]);
                setup.calls = vec![(STEP, 0), (RUN, random.pick(&[1, 2])), (BACK, 1)];
                setup.add_to(trials);
            }
        }
    }
}

/// PC where there is no cell. The branch is in the cell of PC modulo M, which must not be looked at.
fn out_of_cells(random: &mut Random, trials: &mut Trials) {
    for pc in [32_766, 32_767, 32_768, 0xFFFF_0000, 0xFFFF_FFFF] {
        for imm in [0x8000, 0xFFFE, 0xFFFF] {
            for value in [0, 1] {
                let mut setup = Setup::new(M, 24);
                settings(&mut setup, random);
                setup.registers = vec![(1, value)];
                setup.pc(pc);
                setup.place(pc % M, &[branch(1, imm)]);
                setup.calls = vec![(STEP, 0), (RUN, LONG)];
                setup.add_to(trials);
            }
        }
    }
}

/// A jump below cell 0 after steps that write a register, a cell and two registers. The budget ends before it, at it
/// and behind it, the journal before it and behind it; then the steps are done again and undone.
fn after_steps(random: &mut Random, trials: &mut Trials) {
    let steps = [NEXT, with_registers(1, 1, 2, 0), with_registers(54, 1, 3, 4)];
    for done in 0..=3 {
        for budget in [done, done + 1, LONG] {
            for words in [8 * done as u32, 80] {
                let pc = done as u32;
                let mut setup = Setup::new(8, words);
                settings(&mut setup, random);
                setup.registers = vec![(1, random.bits() >> 1), (2, 7)];
                setup.place(0, &steps);
                setup.place(pc, &[branch(0, random.pick(&[0x8000, 0xFFFE - pc as u16]))]);
                setup.litter(random);
                setup.calls = vec![(RUN, budget), (STEP, 0), (BACK, 1), (RUN, LONG), (BACK, LONG)];
                setup.add_to(trials);
            }
        }
    }
}

/// With such a branch at its end a rule is refused by the check, taken or not; without it the rule runs.
fn in_rules(trials: &mut Trials) {
    for length in 0..=3 {
        for value in [0, 1] {
            let mut setup = Setup::new(4, 80);
            setup.registers = vec![(2, value)];
            setup.place(0, &[NEXT; 4]);
            setup.place(length, &[branch(2, 0x8000)]);
            setup.profile(length + 1, LONG);
            setup.calls.push((RUN, LONG));
            setup.profile(length + 1, 1);
            setup.profile(length, 1);
            setup.calls.push((BACK, 1));
            setup.profile(length, LONG);
            setup.add_to(trials);
        }
    }
}

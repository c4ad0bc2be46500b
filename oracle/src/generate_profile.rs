//! Trials of profile runs that go through the check and the start of a call.

use crate::cell::{form, with_immediate, with_registers, Form};
use crate::file::Trials;
use crate::generate_forward::{BAD, NEXT, THE_END};
use crate::profile::reason;
use crate::random::Random;
use crate::setup::{Setup, LONG};
use crate::trial::{BACK, RUN, STEP};

pub fn edges(random: &mut Random, trials: &mut Trials) {
    allowed_opcodes(random, trials);
    odd_cells(random, trials);
    transfers_with_pc(trials);
    bad_places(random, trials);
    lengths(trials);
    once_a_call(random, trials);
    cells_changed_between(random, trials);
    lengths_changed_between(trials);
}

/// The opcode with registers that are not R255.
fn usual_cell(opcode: u8) -> u32 {
    match form(opcode) {
        Form::Immediate => with_immediate(opcode, 1, 1),
        _ => with_registers(opcode, 1, 2, 3),
    }
}

/// Every opcode that is allowed, run as the first cell of a rule that then ends, and undone.
fn allowed_opcodes(random: &mut Random, trials: &mut Trials) {
    for cell in (0..=255).map(usual_cell).filter(|cell| reason(*cell).is_none()) {
        let mut setup = Setup::new(8, 24);
        setup.flags = random.pick(&[0, 511, 3]);
        setup.registers = vec![(1, random.word()), (2, 5), (3, 6)];
        setup.place(0, &[cell, NEXT, THE_END]);
        setup.place(5, &[random.bits(), random.bits()]);
        setup.profile(3, random.pick(&[1, 2, 3, LONG]));
        setup.calls.push((BACK, random.pick(&[1, 2, 3])));
        setup.add_to(trials);
    }
}

/// Every legal opcode with R255 in the place of n, those with other targets with R255 there, and opcodes that
/// are never allowed.
fn odd_cells(random: &mut Random, trials: &mut Trials) {
    let mut add = |cell: u32| {
        let mut setup = Setup::new(4, 24);
        setup.place(0, &[NEXT, cell, THE_END]);
        setup.profile(3, random.pick(&[0, 1, 2, 3]));
        setup.add_to(trials);
    };
    for opcode in (0..=79).chain(107..=255).filter(|opcode| form(*opcode) != Form::Reserved) {
        add(with_immediate(opcode, 255, 2));
    }
    for opcode in [0, 1, 54, 107] {
        add(with_registers(opcode, 1, 255, 3));
        add(with_registers(opcode, 1, 2, 255));
    }
    for imm in [0x7FFF, 0x8000, 0xFFFE, 0xFFFF] {
        add(with_immediate(4, 255, imm));
        add(with_immediate(121, 255, imm));
    }
    add(with_immediate(3, 255, 0xFFFF));
    // Either side of each row of opcodes that are not allowed.
    for opcode in [2, 8, 15, 55, 79, 80, 92, 93, 106, 108, 120, 123, 255] {
        add(with_registers(opcode, 1, 2, 3));
    }
}

/// LDST with R255 as n is refused, whether it would load, store, both or neither; PC is at it or behind it.
fn transfers_with_pc(trials: &mut Trials) {
    for (store, load) in [(0, 0), (4, 0), (0, 4), (4, 5), (0, 0xFFFF_0003), (1, 0), (6, 0)] {
        for pc in [0, 1] {
            let mut setup = Setup::new(6, 24);
            setup.registers = vec![(2, store), (3, load), (255, pc)];
            setup.place(0, &[with_registers(1, 255, 2, 3), NEXT, THE_END]);
            setup.profile(3, 1);
            setup.add_to(trials);
        }
    }
}

/// Each bad cell at the first place, in the middle, at the last, and just behind the rule. The plain
/// call after it tells whether anything was done, or the place kept.
fn bad_places(random: &mut Random, trials: &mut Trials) {
    for bad in BAD {
        for place in [0, 2, 3, 4] {
            let mut setup = Setup::new(6, 80);
            setup.place(0, &[NEXT; 4]);
            setup.place(place, &[bad]);
            setup.profile(4, random.pick(&[0, 1, LONG]));
            setup.calls.push(random.pick(&[(STEP, 0), (RUN, 0), (BACK, 1)]));
            setup.add_to(trials);
        }
    }
    // Two of them, of which the first counts, from a PC behind both.
    for (first, second) in [(0, 4), (4, 0), (1, 3), (3, 2)] {
        let mut setup = Setup::new(6, 80);
        setup.place(1, &[BAD[first], NEXT, BAD[second]]);
        setup.pc(4);
        setup.profile(6, 1);
        setup.profile(1, 1);
        setup.add_to(trials);
    }
}

/// Lengths on either side of 1 and of M, with several budgets.
fn lengths(trials: &mut Trials) {
    for m in [1, 5, 16_384] {
        for length in [0, 1, m - 1, m, m + 1, m + 0x1_0000, 0x8000_0001, 0xFFFF_FFFF] {
            let mut setup = Setup::new(m, 80);
            setup.place(0, &[NEXT; 5]);
            setup.profile(length, 0);
            setup.profile(length, if m > 5 { 5 } else { LONG });
            setup.add_to(trials);
        }
    }
}

/// Bad cells, settings and depths together with bad lengths and a bad cell, and with nothing else wrong.
fn once_a_call(random: &mut Random, trials: &mut Trials) {
    for (flags, mask, mode) in [(511, 511, 3), (512, 0, 3), (0, 512, 3), (0, 0, 4)] {
        for (m, depth) in [(4, 2), (0, 0), (16_385, 3), (4, 3)] {
            for (length, place) in [(3, 3), (0, 0), (m + 1, 1), (3, 2)] {
                let mut setup = Setup::new(m, 16);
                (setup.flags, setup.mask, setup.mode, setup.depth) = (flags, mask, mode, depth);
                setup.place(place, &[random.pick(&BAD)]);
                setup.profile(length, random.pick(&[0, 1]));
                setup.add_to(trials);
            }
        }
    }
}

/// A plain step puts a bad cell into the rule, and a profile run of a shorter rule does so too: the
/// next call finds it there, and after a step back it does not.
fn cells_changed_between(random: &mut Random, trials: &mut Trials) {
    for bad in BAD {
        let mut setup = Setup::new(random.pick(&[4, 9]), 80);
        setup.registers = vec![(1, bad), (2, 2)];
        setup.place(0, &[with_registers(1, 1, 2, 3), NEXT, NEXT, THE_END]);
        setup.profile(4, 0);
        setup.calls.push((STEP, 0));
        setup.profile(4, 0);
        setup.profile(2, 1);
        setup.calls.push((BACK, 2));
        setup.profile(4, LONG);
        setup.profile(2, LONG);
        setup.profile(3, LONG);
        setup.calls.push((BACK, 1));
        setup.calls.push((BACK, 1));
        setup.add_to(trials);
    }
    // A good cell in the place of a bad one.
    let mut setup = Setup::new(4, 80);
    setup.registers = vec![(1, THE_END), (2, 2)];
    setup.place(0, &[with_registers(1, 1, 2, 3), NEXT, BAD[0]]);
    setup.profile(3, 1);
    setup.calls.push((STEP, 0));
    setup.profile(3, LONG);
    setup.calls.push((BACK, 3));
    setup.profile(3, 1);
    setup.add_to(trials);
}

/// Rules of several lengths over the same cells, with plain calls and steps back between them.
fn lengths_changed_between(trials: &mut Trials) {
    for (m, words) in [(6, 80), (9, 80), (9, 32)] {
        let mut setup = Setup::new(m, words);
        setup.place(0, &[NEXT; 6]);
        setup.profile(2, LONG);
        setup.profile(4, 1);
        setup.profile(2, LONG);
        setup.profile(3, 0);
        setup.calls.push((STEP, 0));
        setup.profile(6, LONG);
        setup.calls.push((BACK, 3));
        setup.profile(6, 2);
        setup.calls.push((RUN, 1));
        setup.calls.push((BACK, LONG));
        setup.profile(6, LONG);
        setup.add_to(trials);
    }
}

//! Trials of profile runs that go through the stops before and after a step.

use crate::cell::{with_immediate, with_registers};
use crate::file::Trials;
use crate::generate_forward::{BAD, NEXT, THE_END};
use crate::random::Random;
use crate::setup::{Setup, LONG};
use crate::trial::{BACK, MOST_JOURNAL, RUN, STEP};

/// LDST R1, R2, R3: R2 is the pointer of the store, R3 that of the load.
const TRANSFER: u32 = 0x0101_0203;

pub fn edges(random: &mut Random, trials: &mut Trials) {
    budgets(trials);
    traps(random, trials);
    branches(trials);
    starts(random, trials);
    stores(random, trials);
    stores_beside_pc(trials);
    depths(random, trials);
    longest(trials);
    most_entries(trials);
}

/// Rules that end, that run out of their cells, and that branch to the end, behind it and far away.
fn budgets(trials: &mut Trials) {
    let branch = |imm| with_immediate(121, 0, imm);
    let rules = [
        (5, [NEXT, NEXT, THE_END]),
        (5, [NEXT, NEXT, NEXT]),
        (3, [NEXT, NEXT, NEXT]),
        (5, [branch(1), NEXT, THE_END]),
        (5, [branch(2), NEXT, THE_END]),
        (5, [NEXT, branch(32_767), THE_END]),
    ];
    for (m, rule) in rules {
        for budget in [0, 1, 2, 3, 4, u64::MAX] {
            let mut setup = Setup::new(m, 80);
            setup.place(0, &rule);
            setup.profile(3, budget);
            setup.profile(3, u64::MAX);
            setup.calls.push((BACK, budget));
            setup.add_to(trials);
        }
    }
}

/// Steps of a rule that raise a flag, or end, with the flag in the mask and without.
fn traps(random: &mut Random, trials: &mut Trials) {
    for cell in [with_immediate(35, 1, 1), with_immediate(41, 1, 0), TRANSFER, THE_END] {
        for mask in [0, 4, 16, 128, 256, 511] {
            let mut setup = Setup::new(5, 80);
            (setup.mask, setup.flags) = (mask, random.pick(&[0, 0, 511]));
            setup.registers = vec![(1, 0xFFFF_FFFF), (2, 0xFFFF_0000)];
            setup.place(0, &[cell, NEXT]);
            setup.profile(2, random.pick(&[1, 2, LONG]));
            setup.add_to(trials);
        }
    }
}

/// Branches from the first and the last cell of a rule of four, taken and not.
fn branches(trials: &mut Trials) {
    for at in [0, 3] {
        for imm in [0, 1, 2, 3, 4, 32_767] {
            let mut setup = Setup::new(6, 24);
            setup.registers = vec![(255, at)];
            setup.place(0, &[NEXT; 6]);
            setup.place(at, &[with_immediate(121, if imm == 4 { 255 } else { 0 }, imm)]);
            setup.profile(4, 2);
            setup.calls.push((BACK, 1));
            setup.add_to(trials);
        }
    }
}

/// PC at the edges of the rule, of the cells and of the end, with a journal that has room and with a full one.
fn starts(random: &mut Random, trials: &mut Trials) {
    for pc in [0, 2, 3, 4, 5, 6, 7, 0xFFFE_FFFF, 0xFFFF_0000, 0xFFFF_0001, 0xFFFF_FFFF] {
        for depth in [0, 1] {
            let mut setup = Setup::new(6, 8);
            setup.pc(pc);
            setup.depth = depth;
            setup.flags = random.pick(&[0, 1, 255]);
            setup.place(0, &[NEXT; 6]);
            // What is behind the rule is not looked at.
            setup.place(3, &[random.pick(&BAD)]);
            setup.profile(3, random.pick(&[1, LONG]));
            setup.profile(3, 0);
            setup.add_to(trials);
        }
    }
    for pc in [0, 1, 2, 0xFFFF_0000] {
        let mut setup = Setup::new(2, 80);
        setup.pc(pc);
        setup.place(0, &[NEXT, random.pick(&[NEXT, BAD[1]])]);
        setup.profile(1, 2);
        setup.calls.push((RUN, 1));
        setup.add_to(trials);
    }
}

/// LDST in a rule of four cells, with every pair of pointers where something changes.
fn stores(random: &mut Random, trials: &mut Trials) {
    let (length, m) = (4, 9);
    let inside = [0, 1, length - 1, length, m - 1, m, 0xFFFE_FFFF];
    let specials = [0xFFFF_0000, 0xFFFF_0001, 0xFFFF_0002, 0xFFFF_0003, 0xFFFF_FFFF];
    for store in inside.into_iter().chain(specials) {
        for load in [0, 1, length, m, 0xFFFE_FFFF, 0xFFFF_0001, 0xFFFF_0003, 0xFFFF_FFFF] {
            let values = match store {
                0xFFFF_0001 => vec![random.pick(&[0, 511]), 512],
                0xFFFF_0002 => vec![random.pick(&[0, 3]), 4],
                _ => vec![random.pick(&[0, 1, BAD[0], BAD[3], NEXT])],
            };
            for value in values {
                let at = random.below(length as u64) as u32;
                let mut setup = Setup::new(m, 24);
                setup.registers = vec![(1, value), (2, store), (3, load)];
                setup.mask = random.pick(&[0, 0, 128, 511]);
                setup.pc(at);
                setup.place(at, &[TRANSFER]);
                setup.place(m - 1, &[random.bits()]);
                setup.profile(length, 1);
                setup.calls.push((random.pick(&[STEP, BACK]), 1));
                setup.add_to(trials);
            }
        }
    }
}

/// LDST that stores, or loads, or both, at the cell behind its own, in rules of one, two and three cells.
fn stores_beside_pc(trials: &mut Trials) {
    for (m, length) in [(1, 1), (2, 1), (3, 3), (4, 3)] {
        for at in 0..length {
            for cell in [with_registers(1, 1, 255, 0), with_registers(1, 1, 0, 255), with_registers(1, 1, 255, 255)]
            {
                let mut setup = Setup::new(m, 24);
                setup.registers = vec![(1, BAD[2])];
                setup.pc(at);
                setup.place(at, &[cell]);
                setup.profile(length, 1);
                setup.add_to(trials);
            }
        }
    }
}

/// Depths around the number of entries. What a step would meet, a store into the rule, a fault or both, counts
/// only where a step can be noted; where PC is counts before.
fn depths(random: &mut Random, trials: &mut Trials) {
    for words in [0, 8, 23] {
        let entries: u32 = words / 8;
        for depth in [entries.wrapping_sub(1), entries, entries + 1] {
            for (pc, store, load) in [(0, 4, 0), (0, 1, 0), (0, 5, 0), (0, 2, 5), (3, 1, 0), (5, 1, 0)] {
                let mut setup = Setup::new(5, words);
                setup.depth = depth;
                setup.registers = vec![(2, store), (3, load), (255, pc)];
                setup.place(0, &[TRANSFER]);
                setup.profile(3, random.pick(&[1, LONG]));
                setup.profile(3, 0);
                setup.calls.truncate(1 + random.below(2) as usize);
                setup.add_to(trials);
            }
        }
    }
}

/// The longest rule that there is, all of whose cells are 0, with as many entries as it has steps, one fewer
/// and one more.
fn longest(trials: &mut Trials) {
    for entries in [16_383, 16_384, 16_385] {
        let mut setup = Setup::new(16_384, 8 * entries);
        setup.registers = vec![(0, 7)];
        setup.profile(16_384, LONG);
        setup.profile(16_383, 1);
        setup.calls.push((BACK, 1));
        setup.profile(16_383, 1);
        setup.calls.push((BACK, LONG));
        setup.add_to(trials);
    }
}

/// Depths around the most entries that there are.
fn most_entries(trials: &mut Trials) {
    for depth in [65_535, 65_536, 65_537] {
        let mut setup = Setup::new(9, MOST_JOURNAL as u32);
        setup.depth = depth;
        setup.place(0, &[NEXT; 3]);
        setup.profile(3, LONG);
        setup.calls.push((BACK, 1));
        setup.add_to(trials);
    }
}

//! Trials of calls that go through the stops one by one.

use crate::cell::{with_immediate, with_registers};
use crate::file::Trials;
use crate::generate_calls::{entries, write_entry, LONG_JOURNAL};
use crate::random::Random;
use crate::setup::{Setup, LONG};
use crate::trial::{BACK, MOST_JOURNAL, RUN, STEP};

pub fn edges(random: &mut Random, trials: &mut Trials) {
    unsupported(random, trials);
    out_of_range(random, trials);
    depths(random, trials);
    sizes(random, trials);
    traps(random, trials);
    damages(random, trials);
    long(trials);
    most_entries(random, trials);
    all_entries(trials);
}

/// Each float opcode in a mode in which it does not run, met after as many steps as come before it.
fn unsupported(random: &mut Random, trials: &mut Trials) {
    for opcode in 80..=106 {
        let at = random.below(3) as u32;
        let mut setup = Setup::new(3, 8 * at + random.pick(&[8, 9, 80]));
        setup.mode = random.below(3) as u32;
        setup.place(0, &[with_immediate(35, 1, 0xFFFF); 3]);
        setup.place(at, &[with_immediate(opcode, 255, random.immediate())]);
        setup.calls = vec![(RUN, LONG), (STEP, 0)];
        setup.calls.truncate(1 + random.below(2) as usize);
        setup.add_to(trials);
    }
}

/// Each setting on either side of its limit, alone and together with a bad M or depth.
fn out_of_range(random: &mut Random, trials: &mut Trials) {
    for (flags, mask, mode) in [
        (511, 511, 3),
        (512, 0, 3),
        (0, 512, 3),
        (0, 0, 4),
        (0xFFFF_FFFF, 0, 0),
        (0, 0x8000_0000, 0),
        (0, 0, 0x8000_0000),
    ] {
        for (m, depth) in [(4, 0), (0, 0), (16_385, 3), (4, 3), (4, 2)] {
            let mut setup = Setup::new(m, 16);
            (setup.flags, setup.mask, setup.mode, setup.depth) = (flags, mask, mode, depth);
            setup.place(0, &[with_immediate(35, 1, random.immediate())]);
            setup.calls = vec![(STEP, 0), (RUN, 0), (BACK, 0)];
            setup.add_to(trials);
        }
    }
}

/// Depths around the number of entries. What a step would meet, a float, a fault, a jump below cell 0,
/// the end or no cell, must count only where a step can be noted.
fn depths(random: &mut Random, trials: &mut Trials) {
    for words in [0, 7, 8, 15, 16, 17, 23, 24, 80] {
        let entries: u32 = words / 8;
        for depth in [entries.wrapping_sub(1), entries, entries + 1] {
            for cell in [
                with_immediate(35, 1, 5),
                with_immediate(84, 1, 5),
                with_registers(1, 1, 2, 3),
                with_immediate(121, 1, 0xFFFE),
            ] {
                let mut setup = Setup::new(4, words);
                setup.depth = depth;
                setup.place(0, &[cell]);
                setup.registers =
                    vec![(2, random.pick(&[4, 4, 0])), (255, random.pick(&[0, 0, 0, 4, 0xFFFF_0000]))];
                setup.calls = vec![(random.pick(&[STEP, RUN]), 1), (BACK, 2), (RUN, 0), (BACK, 0)];
                setup.calls.truncate(if depth > entries { 4 } else { 2 });
                setup.add_to(trials);
            }
        }
    }
}

/// PC on either side of the last cell and of the end, for each number of cells that matters.
fn sizes(random: &mut Random, trials: &mut Trials) {
    for m in [0, 1, 2, 16_383, 16_384, 16_385, 16_500] {
        for pc in [0, m.max(1) - 1, m, m + 1, 0xFFFE_FFFF, 0xFFFF_0000, 0xFFFF_FFFF] {
            let mut setup = Setup::new(m, 24);
            setup.pc(pc);
            setup.flags = random.pick(&[0, 256]);
            setup.place(pc, &[random.pick(&[with_immediate(35, 255, 0xFFFE), with_immediate(35, 1, 1)])]);
            setup.calls = vec![(random.pick(&[STEP, RUN]), LONG), (random.pick(&[STEP, RUN]), 0), (BACK, 1)];
            setup.add_to(trials);
        }
    }
}

/// Steps that raise each flag there is to raise, over a 0 and over a 1, with and without it in the mask.
fn traps(random: &mut Random, trials: &mut Trials) {
    let steps = [
        with_immediate(35, 1, 1),
        with_immediate(37, 2, 1),
        with_immediate(39, 1, 2),
        with_immediate(46, 1, 32),
        with_immediate(47, 1, 0xFFFF),
        with_immediate(48, 1, 32),
        with_immediate(40, 1, 0),
        with_immediate(41, 1, 0),
        with_immediate(42, 1, 0),
        with_registers(22, 1, 3, 1),
        with_registers(1, 1, 1, 1),
        with_registers(200, 0, 0, 0),
        with_immediate(3, 255, 9),
        with_immediate(37, 255, 2),
        with_immediate(35, 2, 1),
        with_immediate(122, 255, 7),
    ];
    for step in steps {
        for mask in [1, 2, 4, 8, 16, 128, 256, 0] {
            let mut setup = Setup::new(20, 80);
            setup.registers = vec![(1, 0xFFFF_FFFF), (3, 0x8000_0000)];
            setup.mask = if random.chance(20) { 511 ^ mask } else { mask };
            setup.flags = random.pick(&[0, 511, mask, 511 ^ mask]);
            setup.place(0, &[step, with_immediate(35, 4, 0)]);
            setup.calls = vec![(random.pick(&[STEP, RUN]), 2), (RUN, random.pick(&[0, 1, 3]))];
            setup.calls.truncate(1 + random.below(2) as usize);
            setup.add_to(trials);
        }
    }
}

/// Each damage, and none, in the last of a few entries.
fn damages(random: &mut Random, trials: &mut Trials) {
    for damage in 0..6 {
        for _ in 0..6 {
            let mut setup = entries(random);
            setup.journal.clear();
            let last = setup.depth - 1;
            for entry in 0..setup.depth {
                write_entry(&mut setup, entry, if entry == last { damage } else { 0 }, random);
            }
            setup.add_to(trials);
        }
    }
}

/// The most cells, and a long journal.
fn long(trials: &mut Trials) {
    for words in [LONG_JOURNAL, LONG_JOURNAL - 1] {
        let mut setup = Setup::new(16_384, words);
        setup.place(
            16_380,
            &[
                with_registers(17, 1, 1, 2),
                with_registers(1, 1, 3, 0),
                with_immediate(37, 3, 1),
                with_immediate(121, 0, 0xFFFC),
            ],
        );
        setup.registers = vec![(1, 1), (2, 0x9E37_79B9), (3, 16_379), (255, 16_380)];
        setup.calls = vec![(RUN, 1_000), (RUN, LONG), (BACK, 5_000), (RUN, 4_000), (BACK, LONG)];
        setup.add_to(trials);
    }
}

/// A loop of three cells that adds, stores and goes back.
fn endless(m: u32, words: u32) -> Setup {
    let mut setup = Setup::new(m, words);
    setup.place(0, &[with_registers(17, 1, 1, 2), with_registers(1, 1, 3, 0), with_immediate(121, 0, 0xFFFD)]);
    setup.registers = vec![(1, 1), (2, 0x9E37_79B9), (3, m - 1)];
    setup
}

/// Depths around the most entries that there are: journals with words for one fewer, for all of
/// them, and for one and two more, which are never used.
fn most_entries(random: &mut Random, trials: &mut Trials) {
    for words in [524_287, 524_288, 524_295, 524_296, MOST_JOURNAL as u32] {
        for depth in [65_535, 65_536, 65_537] {
            let mut setup = endless(9, words);
            setup.depth = depth;
            setup.litter(random);
            setup.calls = vec![(STEP, 0), (RUN, LONG), (BACK, 1)];
            setup.add_to(trials);
        }
    }
}

/// Journals that a run fills from the first entry to the last, and back.
fn all_entries(trials: &mut Trials) {
    for words in [524_288, MOST_JOURNAL as u32] {
        let mut setup = endless(100, words);
        setup.calls = vec![(RUN, LONG), (STEP, 0), (BACK, LONG)];
        setup.add_to(trials);
    }
}

//! Trials of calls at random: programs of every sort, odd machines, journals put together by hand.

use crate::cell::{with_immediate, with_registers};
use crate::file::Trials;
use crate::float_values::{half, single};
use crate::generate_floats::{ON_IMMEDIATES, ON_REGISTERS};
use crate::machine::{ENTRY_WORDS, PC};
use crate::random::Random;
use crate::setup::{Setup, LONG};
use crate::trial::{BACK, RUN, STEP};

/// Words of a journal that is long, but soon told.
pub const LONG_JOURNAL: u32 = 70_000;

/// Registers with a part of their own in programs: pointers, a special address, and nothing.
pub const POINTER: u8 = 9;
pub const SPECIAL: u8 = 10;
pub const EDGE: u8 = 11;
const NOTHING: u8 = 12;

pub fn random(random: &mut Random, trials: &mut Trials) {
    let mut setup = match random.below(100) {
        0..=54 => mixture(random),
        55..=64 => changes_itself(random),
        65..=72 => fills_journal(random),
        73..=87 => anything(random),
        _ => entries(random),
    };
    setup.words = random.words();
    setup.add_to(trials);
}

/// One cell of a program. Most are harmless, so that programs get somewhere.
pub fn instruction(random: &mut Random) -> u32 {
    // PC is seldom written, since that is most often the end of the program.
    let n = if random.chance(98) { random.below(13) as u8 } else { random.register() };
    let (m, l) = (random.register(), random.register());
    let imm = random.immediate();
    match random.below(100) {
        0..=30 => with_registers(16 + random.below(19) as u8, n, m, l),
        31..=34 => with_registers(random.pick(&ON_REGISTERS), n, m, l),
        35..=38 => with_immediate(random.pick(&ON_IMMEDIATES), n, half(random)),
        39..=58 => with_immediate(35 + random.below(19) as u8, n, imm),
        59 | 60 => ending(random),
        61..=74 => with_registers(1, n, pointer(random), pointer(random)),
        75..=79 => with_immediate(3 + random.below(5) as u8, n, imm),
        80..=83 => with_registers(0, n, m, l),
        84 | 85 => with_registers(54, n, m, l),
        86 | 87 => with_registers(107, n, m, l),
        88..=93 => {
            let n = if random.chance(50) { NOTHING } else { n };
            with_immediate(121, n, random.pick(&[0, 1, 2, 3, 0xFFFF, 0xFFFE, 0xFFFC, 0xFFF0, 0xFFE0, imm]))
        }
        94 | 95 => with_immediate(122, random.register(), imm),
        96 | 97 => with_registers(random.pick(&[2, 8, 15, 55, 79, 108, 120, 123, 255]), n, m, l),
        98 => with_registers(80 + random.below(27) as u8, n, m, l),
        _ => random.bits(),
    }
}

/// A cell that ends a program: R255 gets the end, a special address, or a number below zero that wraps round.
fn ending(random: &mut Random) -> u32 {
    random.pick(&[
        with_immediate(4, 255, 0xFFFF),
        with_immediate(6, 255, 0x8000),
        with_immediate(37, 255, 0x7FFF),
        with_registers(0, 255, SPECIAL, NOTHING),
        with_registers(18, 255, NOTHING, 255),
    ])
}

fn pointer(random: &mut Random) -> u8 {
    match random.below(20) {
        0..=5 => POINTER,
        6..=11 => NOTHING,
        12..=15 => SPECIAL,
        16 => EDGE,
        17 => PC as u8,
        _ => random.register(),
    }
}

fn pointers(setup: &mut Setup, random: &mut Random) {
    let m = setup.m;
    let inside = if m > 1 { 1 + random.below(m.min(30) as u64 - 1) as u32 } else { 0 };
    let special = random.special();
    let edge = random.pick(&[m.saturating_sub(1), m.saturating_sub(1), 1, m, 0xFFFE_FFFF]);
    setup.registers.extend([(POINTER, inside), (SPECIAL, special), (EDGE, edge)]);
}

/// Forward and backward by turns, most of the time: a call that stopped would only stop again.
fn calls(random: &mut Random) -> Vec<(u8, u64)> {
    let forward = [0, 1, 2, 3, 5, 8, 20, 60, LONG, LONG, LONG, LONG, u64::MAX];
    let backward = [0, 1, 1, 2, 3, 5, 8, 100, LONG, u64::MAX];
    let mut ahead = random.chance(85);
    let mut calls = Vec::new();
    for _ in 0..1 + random.below(4) {
        calls.push(match (ahead, random.below(4)) {
            (true, 0) => (STEP, random.below(3)),
            (true, _) => (RUN, random.pick(&forward)),
            (false, _) => (BACK, random.pick(&backward)),
        });
        ahead ^= random.chance(80);
    }
    calls
}

/// A random program in a machine like one that was loaded, at either end of the cells.
fn mixture(random: &mut Random) -> Setup {
    let m = random.pick(&[1, 2, 3, 8, 20, 20, 40, 40, 64, 64, 200, 4_096, 16_384]);
    let words = 8 * random.pick(&[1, 4, 20, 60, 60, 100, 100, 200]) + random.below(8) as u32;
    let mut setup = Setup::new(m, words);
    for register in 0..POINTER {
        if random.chance(75) {
            let value = if random.chance(60) { random.word() } else { single(random) };
            setup.registers.push((register, value));
        }
    }
    if random.chance(40) {
        // Something to store that will run when the program reaches it.
        setup.registers.push((random.below(8) as u8, instruction(random)));
    }
    pointers(&mut setup, random);
    let length = m.min(3 + random.below(20) as u32);
    let at = if random.chance(75) { 0 } else { m - length };
    let program: Vec<u32> = (0..length).map(|_| instruction(random)).collect();
    setup.place(at, &program);
    if at > 0 {
        setup.pc(at);
    }
    let bits = random.bits() & 511;
    setup.flags = random.pick(&[0, 0, 511, 3, 0x1FC, bits]);
    setup.mask = random.pick(&[0, 0, 0, 1, 2, 4, 8, 16, 32, 128, 128, 0x1FB, 511]);
    setup.mode = random.pick(&[3, 3, 3, 3, 3, 0, 1, 2]);
    if random.chance(20) {
        setup.litter(random);
    }
    setup.calls = calls(random);
    setup
}

/// A loop that loads one of its own cells, changes it and stores it again.
fn changes_itself(random: &mut Random) -> Setup {
    let mut setup = Setup::new(random.pick(&[12, 40, 16_384]), 8 * random.pick(&[30, 100, 300]));
    let at = random.below(4) as u32;
    let (any_change, any_start) = (random.bits(), instruction(random));
    let change = random.pick(&[1, 0xFFFF_FFFF, 0x0001_0000, 0x0100_0000, 0x0100_0000, 0x0501_0101, any_change]);
    let start =
        random.pick(&[with_immediate(3, 1, 0), with_registers(16, 3, 4, 5), with_immediate(35, 3, 2), any_start]);
    // The changed cell is the one after the store, or any other of the loop, the store's own included.
    let target = at + random.pick(&[3, 3, 3, 0, 1, 2, 4]);
    let exchange = random.chance(40);
    setup.place(
        at,
        &[
            with_registers(1, 7, NOTHING, 6),
            with_registers(random.pick(&[16, 16, 18, 26]), 7, 7, 8),
            with_registers(1, 7, 6, if exchange { 6 } else { NOTHING }),
            start,
            with_immediate(121, NOTHING, 0xFFFB),
        ],
    );
    setup.registers.extend([(6, target), (8, change), (4, random.word()), (5, random.word())]);
    setup.pc(at);
    setup.mask = random.pick(&[0, 0, 0, 128, 4]);
    setup.calls =
        vec![(RUN, random.pick(&[LONG, 7, 33])), (BACK, random.pick(&[1, 4, 50])), (RUN, LONG), (BACK, LONG)];
    setup.calls.truncate(1 + random.below(4) as usize);
    setup
}

/// A loop that has more steps than the journal has entries.
fn fills_journal(random: &mut Random) -> Setup {
    let entries = random.pick(&[0, 1, 2, 3, 5, 30, 400]);
    let mut setup = Setup::new(random.pick(&[4, 9, 100]), 8 * entries + random.below(8) as u32);
    let body = random.pick(&[
        with_immediate(39, 1, 31),
        with_immediate(35, 1, 0xFFFF),
        with_registers(0, 1, 2, 3),
        with_registers(17, 1, 1, 2),
    ]);
    setup.place(0, &[body, with_registers(1, 1, 4, NOTHING), with_immediate(121, NOTHING, 0xFFFD)]);
    setup.registers.extend([(1, random.word()), (2, random.word()), (4, random.pick(&[0, 3, 0xFFFF_0000]))]);
    setup.depth = if random.chance(30) { random.below(entries as u64 + 1) as u32 } else { 0 };
    setup.flags = random.bits() & 511;
    setup.calls = vec![(RUN, LONG), (STEP, 1)];
    setup.calls.extend(calls(random));
    setup
}

/// A machine with anything in its settings, depth and PC; about half of it in order.
fn anything(random: &mut Random) -> Setup {
    let m = random.pick(&[0, 1, 1, 2, 2, 3, 10, 10, 10, 16_383, 16_384, 16_385, 16_500]);
    let words = random.pick(&[0, 7, 8, 9, 15, 16, 17, 24, 80, 80, LONG_JOURNAL - 1, LONG_JOURNAL]);
    let entries = words / 8;
    let mut setup = Setup::new(m, words);
    let below_m = random.below(m.max(1) as u64) as u32;
    let pc = random.pick(&[
        0,
        1,
        below_m,
        m.wrapping_sub(1),
        m.wrapping_sub(1),
        m,
        m + 1,
        0xFFFE_FFFF,
        0xFFFF_0000,
        0xFFFF_FFFF,
    ]);
    setup.pc(pc);
    for address in [0, 1, m.wrapping_sub(1)] {
        setup.place(address, &[instruction(random)]);
    }
    if pc < m {
        setup.place(pc, &[instruction(random), instruction(random)]);
    }
    pointers(&mut setup, random);
    setup.registers.push((random.register(), random.word()));
    setup.depth = random.pick(&[
        0,
        0,
        0,
        1,
        entries.wrapping_sub(1),
        entries,
        entries,
        entries + 1,
        0x8000_0000,
        0xFFFF_FFFF,
    ]);
    let (flags, mask) = (random.bits() & 511, random.bits() & 511);
    setup.flags = random.pick(&[0, 0, 0, 0, 511, 511, 512, 0xFFFF_FFFF, flags]);
    setup.mask = random.pick(&[0, 0, 0, 0, 511, 128, 512, 0x8000_0000, mask]);
    setup.mode = random.pick(&[0, 1, 2, 3, 3, 3, 3, 4, 256, 0xFFFF_FFFF]);
    setup.calls = calls(random);
    setup
}

/// A journal put together by hand, with each word at its limits and often one beyond.
pub fn entries(random: &mut Random) -> Setup {
    let m = random.pick(&[1, 2, 3, 10, 200, 16_384]);
    let count = 1 + random.below(3) as u32;
    let mut setup = Setup::new(m, 8 * count + random.below(20) as u32);
    setup.depth = count;
    setup.registers.push((random.register(), random.word()));
    for entry in 0..count {
        let damage = if random.chance(25) { 1 + random.below(5) } else { 0 };
        write_entry(&mut setup, entry, damage, random);
    }
    setup.calls = vec![(BACK, random.pick(&[1, 1, 2, count as u64, count as u64 + 1, LONG]))];
    setup.calls.extend(calls(random));
    setup.calls.truncate(3);
    setup
}

/// Damage 0 is none; 1 to 5 put word 0, 1, 2, 7 or the stored address out of range.
pub fn write_entry(setup: &mut Setup, entry: u32, damage: u64, random: &mut Random) {
    let m = setup.m;
    let one = |random: &mut Random, good: &[u32], bad: &[u32], number| {
        random.pick(if damage == number { bad } else { good })
    };
    let inside = random.below(m as u64) as u32;
    let bits = random.bits();
    let mut words = [0; ENTRY_WORDS];
    words[0] = one(random, &[0, m - 1, inside], &[m, m, m + 1, 0xFFFE_FFFF, 0xFFFF_FFFF], 1);
    words[1] = one(
        random,
        &[0, 0xF_FFFF, 511, 512, 1 << 18, bits & 0xF_FFFF],
        &[1 << 20, 1 << 20, 0x8000_0000, bits | 1 << 20],
        2,
    );
    words[2] =
        one(random, &[0, 65_535, 255, 0xFF00, 0x0101, 0x0302, bits & 0xFFFF], &[65_536, 65_536, bits | 0x10000], 3);
    words[3] = random.word();
    words[4] = random.word();
    let used = random.below(8) as u32;
    words[7] = one(random, &[used], &[8, 8, 8 | used, 16, 0x8000_0000 | used], 4);
    words[6] = random.word();
    words[5] = random.pick(&[0, m, 1, 0xFFFF_0001, 0xFFFF_FFFF]);
    if damage == 5 {
        words[7] |= 4;
        words[5] = random.pick(&[0, 0, m, m, m + 1, 0xFFFF_0001, 0xFFFF_FFFF]);
    } else if words[7] & 4 != 0 {
        if m > 1 {
            words[5] = random.pick(&[1, m - 1, inside.max(1)]);
        } else {
            words[7] &= !4;
        }
    }
    for (at, word) in words.into_iter().enumerate() {
        if word != 0 {
            setup.journal.push((entry * 8 + at as u32, word));
        }
    }
}

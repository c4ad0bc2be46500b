//! Trials of profile runs at random: rules most of which only go forward, called again and again.

use crate::cell::{with_immediate, with_registers};
use crate::file::Trials;
use crate::generate_calls::{instruction, EDGE, POINTER, SPECIAL};
use crate::profile::reason;
use crate::random::Random;
use crate::setup::{Setup, LONG};
use crate::trial::{BACK, RUN, STEP};

/// ADDI R1, #1, which is allowed, and LDUI R255, #65535, which ends a rule.
pub const NEXT: u32 = 0x2301_0001;
pub const THE_END: u32 = 0x04FF_FFFF;

/// A cell for each reason why one is not allowed: CELL, FADD, INT, BZ back, ADD into R255.
pub const BAD: [u32; 5] = [0x0201_0203, 0x5001_0203, 0x7A01_0007, 0x7901_FFFE, 0x10FF_0102];

/// A cell of a rule that only goes forward. Some end the rule, and some leave others out.
pub fn forward_cell(random: &mut Random) -> u32 {
    loop {
        let cell = match random.below(100) {
            0..=2 => THE_END,
            3..=9 => with_immediate(121, random.register(), random.pick(&[0, 0, 1, 1, 2, 3, 7, 32_767])),
            _ => instruction(random),
        };
        if reason(cell).is_none() {
            return cell;
        }
    }
}

/// A cell that is not allowed.
pub fn bad_cell(random: &mut Random) -> u32 {
    let (n, m, l, imm) = (random.register(), random.register(), random.register(), random.immediate());
    loop {
        let cell = match random.below(8) {
            0 => random.bits(),
            1 => with_registers(80 + random.below(27) as u8, n, m, l),
            2 => with_immediate(122, n, imm),
            3 => with_immediate(121, n, random.pick(&[32_768, 32_769, 65_533, 65_535])),
            4 => with_immediate(4, 255, random.immediate()),
            5 => with_immediate(random.below(56) as u8, 255, random.immediate()),
            6 => with_registers(random.pick(&[0, 54, 107]), 255, 255, l),
            _ => with_registers(random.pick(&[0, 1, 54, 107]), n, m, 255),
        };
        if reason(cell).is_some() {
            return cell;
        }
    }
}

pub fn random(random: &mut Random, trials: &mut Trials) {
    let length = 1 + random.below(20) as u32;
    let m = length + random.pick(&[0, 0, 1, 2, 10, 10, 10, 30, 16_364]);
    let words = 8 * random.pick(&[1, 4, 20, 60, 60, 60, 60, 60]) + random.below(8) as u32;
    let mut setup = Setup::new(m, words);
    setup.words = random.words();
    for register in 0..POINTER {
        if random.chance(75) {
            setup.registers.push((register, random.word()));
        }
    }
    pointers(&mut setup, length, random);
    place_rule(&mut setup, length, random);
    let bits = random.bits() & 511;
    setup.flags = random.pick(&[0, 0, 511, 3, bits]);
    setup.mask = random.pick(&[0, 0, 0, 0, 0, 0, 4, 16, 128, 511]);
    setup.mode = random.below(4) as u32;
    if random.chance(10) {
        setup.pc(random.pick(&[length - 1, length, length / 2, m - 1, m, 0xFFFE_FFFF, 0xFFFF_0000]));
    }
    if random.chance(15) {
        setup.litter(random);
    }
    add_calls(&mut setup, length, random);
    setup.add_to(trials);
}

/// One pointer most often behind the rule and now and then into it, a special one, and one at an edge.
fn pointers(setup: &mut Setup, length: u32, random: &mut Random) {
    let m = setup.m;
    let room = (m - length).min(20);
    let behind = if room > 0 { length + random.below(room as u64) as u32 } else { 0 };
    let within = random.below(length as u64) as u32;
    let special = random.special();
    let edge = random.pick(&[0, 1, length - 1, length, m - 1, m]);
    let pointer = if random.chance(85) { behind } else { within };
    setup.registers.extend([(POINTER, pointer), (SPECIAL, special), (EDGE, edge)]);
}

/// The rule, sometimes with a bad cell, and now and then anything behind it.
fn place_rule(setup: &mut Setup, length: u32, random: &mut Random) {
    let rule: Vec<u32> = (0..length).map(|_| forward_cell(random)).collect();
    setup.place(0, &rule);
    if random.chance(10) {
        setup.place(random.below(length as u64) as u32, &[bad_cell(random)]);
    }
    if random.chance(40) {
        setup.place(length, &[instruction(random), instruction(random), bad_cell(random)]);
    }
}

/// Profile runs of the rule, now and then of a little more or less, and plain calls; and steps back by turns,
/// since a call that stopped would only stop again.
fn add_calls(setup: &mut Setup, length: u32, random: &mut Random) {
    let mut ahead = random.chance(95);
    for _ in 0..1 + random.below(4) {
        match (ahead, random.below(20)) {
            (false, _) => setup.calls.push((BACK, random.pick(&[0, 1, 2, 5, LONG, LONG]))),
            (true, 0) => setup.calls.push((STEP, 0)),
            (true, 1) => setup.calls.push((RUN, random.pick(&[0, 1, 2, 5, LONG]))),
            (true, 2..=5) => {
                let (m, any) = (setup.m, random.word());
                let other = random.pick(&[length - 1, length - 1, length + 1, 1 + length / 2, m, m + 1, any]);
                setup.profile(other, random.pick(&[0, 1, 3, LONG, LONG]));
            }
            (true, 6..=9) => setup.profile(length, random.below(length as u64 + 2)),
            (true, _) => setup.profile(length, random.pick(&[LONG, LONG, u64::MAX, length as u64])),
        }
        ahead ^= random.chance(75);
    }
}

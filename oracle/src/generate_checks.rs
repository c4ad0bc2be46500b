//! Trials of the check of rules that only go forward, without a machine.

use crate::cell::{form, with_immediate, with_registers, Form};
use crate::file::Trials;
use crate::generate_forward::{bad_cell, forward_cell, BAD, NEXT};
use crate::random::Random;
use crate::setup::places;
use crate::trial::{CHECK, MOST_CELLS};

pub fn edges(random: &mut Random, trials: &mut Trials) {
    opcodes(random, trials);
    immediates(trials);
    transfers(trials);
    bad_places(trials);
    pairs(trials);
    lengths(trials);
    large(trials);
}

fn check(length: u32, m: u32, settings: &[(u32, u32)], trials: &mut Trials) {
    let mut payload = length.to_le_bytes().to_vec();
    payload.extend(m.to_le_bytes());
    payload.extend(places(settings));
    trials.add(CHECK, &payload);
}

/// One cell of interest in the middle of a rule.
fn check_cell(cell: u32, trials: &mut Trials) {
    check(3, 4, &[(0, NEXT), (1, cell), (2, NEXT)], trials);
}

/// Every opcode without R255, and with it at each place and at all of them.
fn opcodes(random: &mut Random, trials: &mut Trials) {
    for opcode in 0..=255 {
        match form(opcode) {
            Form::Registers => {
                for (n, m, l) in [(1, 2, 3), (255, 2, 3), (1, 255, 3), (1, 2, 255), (255, 255, 255)] {
                    check_cell(with_registers(opcode, n, m, l), trials);
                }
            }
            Form::Immediate => {
                for (n, imm) in [(1, 2), (1, 0xFFFF), (255, 0), (255, 0x7FFF), (255, 0xFFFF)] {
                    check_cell(with_immediate(opcode, n, imm), trials);
                }
            }
            Form::Reserved => check_cell(with_immediate(opcode, random.register(), random.immediate()), trials),
        }
    }
}

/// Branches around the furthest that goes forward, and writes of R255 around the one that is allowed.
fn immediates(trials: &mut Trials) {
    for n in [0, 1, 254, 255] {
        for imm in [0, 1, 32_766, 32_767, 32_768, 32_769, 65_534, 65_535] {
            check_cell(with_immediate(121, n, imm), trials);
        }
    }
    for imm in [0, 1, 255, 0x7FFF, 0x8000, 0xFEFF, 0xFF00, 0xFFFE, 0xFFFF] {
        for n in [254, 255] {
            check_cell(with_immediate(4, n, imm), trials);
        }
    }
    for opcode in [2, 3, 5, 6, 7, 8] {
        check_cell(with_immediate(opcode, 255, 65_535), trials);
    }
}

/// LDST with R255 as n, with pointers and with R0 in their place, and R255 as a pointer.
fn transfers(trials: &mut Trials) {
    for n in [1, 254, 255] {
        for (m, l) in [(0, 0), (2, 0), (0, 3), (2, 2), (255, 0), (0, 255), (255, 255)] {
            check_cell(with_registers(1, n, m, l), trials);
        }
    }
}

/// Each bad cell at the first place, in the middle, at the last, and behind the rule.
fn bad_places(trials: &mut Trials) {
    for bad in BAD {
        for place in [0, 1, 2, 5, 6, 7, 8] {
            check(7, 9, &[(3, NEXT), (place, bad)], trials);
        }
        check(7, 7, &[(6, bad)], trials);
        check(1, 2, &[(0, bad)], trials);
        check(1, 2, &[(1, bad)], trials);
    }
}

/// Two bad cells: the first decides, whatever is wrong with it. Of two settings of a cell the later one stands.
fn pairs(trials: &mut Trials) {
    for first in BAD {
        for second in BAD {
            check(6, 6, &[(4, second), (2, first)], trials);
        }
        check(6, 6, &[(2, first), (2, NEXT)], trials);
        check(6, 6, &[(2, NEXT), (2, first)], trials);
    }
}

/// Lengths on either side of 1 and of M, with nothing bad, all bad, and a bad last cell.
fn lengths(trials: &mut Trials) {
    for m in [0, 1, 2, 5] {
        for length in [0, 1, 2, 4, 5, 6, 65_536, 65_537, 0x8000_0001, 0xFFFF_FFFF] {
            check(length, m, &[], trials);
            if m > 0 {
                check(length, m, &[(m - 1, BAD[4])], trials);
            }
        }
    }
}

/// The longest rules, and more cells than a machine may have.
fn large(trials: &mut Trials) {
    for m in [16_383, 16_384, 16_385, MOST_CELLS as u32] {
        for length in [m - 1, m, m + 1] {
            check(length, m, &[], trials);
            check(length, m, &[(m - 2, BAD[0]), (m - 1, BAD[3])], trials);
            check(length, m, &[(m - 1, BAD[2])], trials);
        }
    }
}

/// A rule that is most often good, judged at its length or about there.
pub fn random(random: &mut Random, trials: &mut Trials) {
    let written = 1 + random.below(12) as u32;
    let m = written + random.pick(&[0, 0, 1, 2, 30]);
    let mut settings: Vec<(u32, u32)> = (0..written).map(|place| (place, forward_cell(random))).collect();
    for _ in 0..random.pick(&[0, 0, 1, 1, 2]) {
        settings.push((random.below(written as u64) as u32, bad_cell(random)));
    }
    if random.chance(20) {
        settings.push((random.below(m as u64) as u32, random.bits()));
    }
    let any = random.word();
    let length = random.pick(&[written, written, written, written - 1, written + 1, m, m, m + 1, any]);
    check(length, m, &settings, trials);
}

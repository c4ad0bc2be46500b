//! Trials of cells that are exported as Intel HEX, and imported again.

use crate::file::Trials;
use crate::hex;
use crate::machine::MOST_CELLS;
use crate::random::Random;
use crate::setup::places;
use crate::trial::{EXPORT, MOST_HEX_ROOM};

const ALL: u32 = MOST_CELLS as u32;

/// The cells of a trial: cells first to end - 1 hold seed + step * i, and the settings come on top.
#[derive(Clone)]
struct Content {
    m: u32,
    seed: u32,
    step: u32,
    first: u32,
    end: u32,
    settings: Vec<(u32, u32)>,
}

pub fn edges(random: &mut Random, trials: &mut Trials) {
    sizes(trials);
    short(trials);
    single_bytes(trials);
    values(trials);
    groups(random, trials);
    large(random, trials);
}

impl Content {
    /// Cells of which only the settings are not 0.
    fn new(m: u32, settings: &[(u32, u32)]) -> Content {
        Content { m, seed: 0, step: 0, first: 0, end: 0, settings: settings.to_vec() }
    }

    fn length(&self) -> u32 {
        let mut cells = vec![0; self.m as usize];
        for i in self.first..self.end.min(self.m) {
            cells[i as usize] = self.seed.wrapping_add(self.step.wrapping_mul(i));
        }
        for (address, value) in &self.settings {
            cells[*address as usize] = *value;
        }
        hex::exported(&cells).len() as u32
    }

    fn add_to(&self, room: u32, trials: &mut Trials) {
        let numbers = [self.m, room, self.seed, self.step, self.first, self.end];
        let mut payload: Vec<u8> = numbers.into_iter().flat_map(u32::to_le_bytes).collect();
        payload.extend(places(&self.settings));
        trials.add(EXPORT, &payload);
    }

    /// Rooms that are as long as the text, and one byte shorter.
    fn add_twice_to(&self, trials: &mut Trials) {
        self.add_to(self.length(), trials);
        self.add_to(self.length() - 1, trials);
    }
}

/// No cells, too many, the least and the most, with no room, with some and with much.
fn sizes(trials: &mut Trials) {
    for m in [0, 1, 3, 4, 5, 8, ALL - 1, ALL, ALL + 1, 16_500] {
        for room in [0, 11, 12, 13] {
            Content::new(m, &[]).add_to(room, trials);
        }
        if m > 0 {
            let last = Content::new(m, &[(m - 1, 0x0102_0304)]);
            last.add_to(0, trials);
            last.add_twice_to(trials);
            last.add_to(MOST_HEX_ROOM as u32, trials);
        }
    }
}

/// Few cells, so that the last group is shorter: each of them alone not 0, and all.
fn short(trials: &mut Trials) {
    for m in [1, 2, 3, 5, 6, 7] {
        for address in 0..m {
            let content = Content::new(m, &[(address, 0x8000_0001)]);
            content.add_to(content.length(), trials);
        }
        Content { seed: 0x0A1B_2C3D, step: 0x1111_1111, end: m, ..Content::new(m, &[]) }.add_twice_to(trials);
    }
}

/// Each byte of a group alone, in the first, the second or the last group.
fn single_bytes(trials: &mut Trials) {
    for place in 0..16 {
        let cell = (4 * (place % 3) + place / 4, 0xA5 << (8 * (place % 4)));
        let content = Content::new(12, &[cell]);
        content.add_to(content.length(), trials);
    }
}

/// Digits at the ends of their ranges, every byte's value, and data that makes the checksum 0 and others.
fn values(trials: &mut Trials) {
    for value in
        [0x0000_000F, 0x0000_00F0, 0x0000_00FF, 0x0F0F_0F0F, 0xF0F0_F0F0, 0xFFFF_FFFF, 0x9A9A_9A9A, 0x00FF_00FF]
    {
        let content = Content { seed: value, end: 7, ..Content::new(7, &[]) };
        content.add_to(content.length(), trials);
    }
    let every_byte = Content { seed: 0x0302_0100, step: 0x0404_0404, end: 64, ..Content::new(64, &[]) };
    every_byte.add_twice_to(trials);
    // A group of four bytes at address 0: with 252 its sum is 256.
    for value in [251, 252, 253, 0xFC00_0000, 0x3F3F_3F3F] {
        let content = Content::new(1, &[(0, value)]);
        content.add_to(20 + content.length(), trials);
    }
    let zeros_inside = Content::new(12, &[(0, 1), (3, 1), (5, 0x0100_0000), (8, 7), (10, 7)]);
    zeros_inside.add_twice_to(trials);
}

/// Groups at addresses where a digit changes, alone and beside each other; gaps between them.
fn groups(random: &mut Random, trials: &mut Trials) {
    for address in [0x00F0, 0x0100, 0x0FF0, 0x1000, 0x7FF0, 0x8000, 0x9FF0, 0xA000, 0xFFE0, 0xFFF0] {
        let cell = address / 4 + random.below(4) as u32;
        let content = Content::new(ALL, &[(cell, random.bits() | 1)]);
        content.add_to(content.length(), trials);
    }
    let ends = Content::new(ALL, &[(0, 1), (ALL - 1, 0x8000_0000)]);
    ends.add_twice_to(trials);
    let gaps: Vec<(u32, u32)> = (0..40).map(|at| (at * at * 10 + at % 4, random.bits())).collect();
    Content::new(ALL, &gaps).add_twice_to(trials);
    // Cells that were set and are 0 again.
    Content::new(8, &[(1, 5), (5, 6), (1, 0)]).add_twice_to(trials);
}

/// The whole memory, and all but a part at its front or its end.
fn large(random: &mut Random, trials: &mut Trials) {
    let step = random.bits() | 1;
    for (m, first, end) in
        [(ALL, 0, ALL), (ALL - 1, 0, ALL), (ALL - 3, 0, 16_500), (ALL, 1, ALL - 1), (ALL, 5_000, 9_000)]
    {
        let content = Content { seed: 1, step, first, end, ..Content::new(m, &[]) };
        content.add_twice_to(trials);
    }
    let whole = Content { seed: 0xFFFF_FFFF, end: 0xFFFF_FFFF, ..Content::new(ALL, &[]) };
    whole.add_to(MOST_HEX_ROOM as u32, trials);
    // Lengths that are enough, or too little, modulo 65,536 alone.
    for room in [49_164, 65_536, 114_700, 131_072] {
        whole.add_to(room, trials);
        Content::new(5, &[]).add_to(room, trials);
    }
    // Nothing, since the end comes before the front.
    Content { seed: 1, first: 7, end: 6, ..Content::new(ALL, &[]) }.add_to(12, trials);
}

pub fn random(random: &mut Random, trials: &mut Trials) {
    let m = random.pick(&[0, 1, 2, 3, 4, 5, 8, 40, 40, 300, 300, 16_383, 16_384, 16_385]);
    let first = random.below(m as u64 + 1) as u32;
    let end = first + random.pick(&[0, 0, 1, 5, 30, 400]);
    let count = if m == 0 { 0 } else { random.below(8) };
    let value = |random: &mut Random| if random.chance(20) { 0 } else { random.word() };
    let settings = (0..count).map(|_| (random.below(m as u64) as u32, value(random))).collect();
    let content = Content { m, seed: random.bits(), step: random.word(), first, end, settings };
    let length = content.length();
    let room = match random.below(10) {
        0..=4 => length,
        5 | 6 => length - 1,
        7 => random.below(length as u64) as u32,
        _ => length + random.below(60) as u32,
    };
    content.add_to(room, trials);
}

//! Seeded numbers for the generator, leaning towards those where rules change.

use crate::machine::{Words, NO_WORDS};

pub struct Random {
    state: u64,
}

const WORDS: [u32; 28] = [
    0,
    1,
    2,
    3,
    4,
    31,
    32,
    33,
    255,
    511,
    512,
    0x7FFF,
    0x8000,
    0xFFFF,
    0x10000,
    0x7FFF_FFFF,
    0x8000_0000,
    0x8000_0001,
    0xFFFE_FFFF,
    0xFFFF_0000,
    0xFFFF_0001,
    0xFFFF_0002,
    0xFFFF_0300,
    0xFFFF_0304,
    0xFFFF_7FFF,
    0xFFFF_8000,
    0xFFFF_FFFE,
    0xFFFF_FFFF,
];

const IMMEDIATES: [u16; 15] = [0, 1, 2, 3, 16, 31, 32, 33, 0x7FFF, 0x8000, 0x8001, 0xFFFC, 0xFFFD, 0xFFFE, 0xFFFF];

impl Random {
    pub fn new(seed: u64) -> Random {
        Random { state: seed }
    }

    /// splitmix64
    pub fn next(&mut self) -> u64 {
        self.state = self.state.wrapping_add(0x9E37_79B9_7F4A_7C15);
        let mut z = self.state;
        z = (z ^ (z >> 30)).wrapping_mul(0xBF58_476D_1CE4_E5B9);
        z = (z ^ (z >> 27)).wrapping_mul(0x94D0_49BB_1331_11EB);
        z ^ (z >> 31)
    }

    pub fn below(&mut self, bound: u64) -> u64 {
        self.next() % bound
    }

    pub fn chance(&mut self, percent: u64) -> bool {
        self.below(100) < percent
    }

    pub fn pick<T: Copy>(&mut self, list: &[T]) -> T {
        list[self.below(list.len() as u64) as usize]
    }

    pub fn bits(&mut self) -> u32 {
        self.next() as u32
    }

    pub fn word(&mut self) -> u32 {
        match self.below(10) {
            0..=4 => self.pick(&WORDS),
            5 | 6 => self.below(64) as u32,
            7 => (self.below(16) as u32).wrapping_neg(),
            _ => self.bits(),
        }
    }

    /// The words that a host gives; now and then they are zeros.
    pub fn words(&mut self) -> Words {
        if self.chance(20) {
            return NO_WORDS;
        }
        NO_WORDS.map(|_| self.word())
    }

    /// An address above memory: the settings, the host's words, and what lies beside them.
    pub fn special(&mut self) -> u32 {
        0xFFFF_0000 + self.pick(&[0, 1, 1, 2, 2, 3, 0x2FF, 0x300, 0x301, 0x302, 0x303, 0x304, 0x305, 0xFFFF])
    }

    pub fn immediate(&mut self) -> u16 {
        match self.below(10) {
            0..=4 => self.pick(&IMMEDIATES),
            5 | 6 => self.below(40) as u16,
            _ => self.bits() as u16,
        }
    }

    /// Few registers, so that instructions meet each other's results; now and then PC or any other.
    pub fn register(&mut self) -> u8 {
        match self.below(100) {
            0..=91 => self.below(13) as u8,
            92..=95 => 255,
            _ => self.bits() as u8,
        }
    }
}

//! A trial of calls or of a save under construction: the machine, cells and journal before, and the calls; or the room's length.

use crate::file::Trials;
use crate::machine::{Words, ENTRY_WORDS, PC};
use crate::random::Random;
use crate::trial::{CALLS, PROFILE, SAVE};

/// More steps than any call can do.
pub const LONG: u64 = 1 << 40;

/// The words of a machine unless a trial has others. No two are the same, so that each call shows if they stay.
const GIVEN: Words = [2_025, 11, 16, 0x8000_0000, 0xFFFF_FFFF];

pub struct Setup {
    pub m: u32,
    /// The journal's words, or the room's bytes.
    pub room: u32,
    pub flags: u32,
    pub mask: u32,
    pub mode: u32,
    pub depth: u32,
    pub words: Words,
    pub registers: Vec<(u8, u32)>,
    pub cells: Vec<(u32, u32)>,
    pub journal: Vec<(u32, u32)>,
    pub calls: Vec<(u8, u64)>,
    /// The lengths of the rules that the profile runs among the calls name, in their order.
    pub rules: Vec<u32>,
}

/// A count and settings of places.
pub fn places(list: &[(u32, u32)]) -> Vec<u8> {
    let mut bytes = (list.len() as u16).to_le_bytes().to_vec();
    for (place, value) in list {
        bytes.extend(place.to_le_bytes());
        bytes.extend(value.to_le_bytes());
    }
    bytes
}

impl Setup {
    /// A machine before its first call, fresh but for the words that the host gave.
    pub fn new(m: u32, room: u32) -> Setup {
        Setup {
            m,
            room,
            flags: 0,
            mask: 0,
            mode: 3,
            depth: 0,
            words: GIVEN,
            registers: Vec::new(),
            cells: Vec::new(),
            journal: Vec::new(),
            calls: Vec::new(),
            rules: Vec::new(),
        }
    }

    /// Sets the cells from this address on, as far as there are any.
    pub fn place(&mut self, at: u32, content: &[u32]) {
        for (address, cell) in (at..self.m).zip(content) {
            self.cells.push((address, *cell));
        }
    }

    pub fn pc(&mut self, pc: u32) {
        self.registers.push((PC as u8, pc));
    }

    /// One more call: a profile run over cells 0 to length - 1.
    pub fn profile(&mut self, length: u32, budget: u64) {
        self.calls.push((PROFILE, budget));
        self.rules.push(length);
    }

    /// Leaves something in the words that steps will write, and in those that they will not.
    pub fn litter(&mut self, random: &mut Random) {
        let from = self.depth.saturating_mul(ENTRY_WORDS as u32);
        for word in from..self.room.min(from.saturating_add(20)) {
            self.journal.push((word, random.bits()));
        }
    }

    /// The machine and its cells, as payloads begin.
    fn state(&self) -> Vec<u8> {
        let mut payload = Vec::new();
        let numbers = [self.m, self.room, self.flags, self.mask, self.mode, self.depth];
        for word in numbers.into_iter().chain(self.words) {
            payload.extend(word.to_le_bytes());
        }
        payload.extend((self.registers.len() as u16).to_le_bytes());
        for (register, value) in &self.registers {
            payload.push(*register);
            payload.extend(value.to_le_bytes());
        }
        payload.extend(places(&self.cells));
        payload
    }

    pub fn add_saving_to(&self, trials: &mut Trials) {
        trials.add(SAVE, &self.state());
    }

    pub fn add_to(&self, trials: &mut Trials) {
        let mut payload = self.state();
        payload.extend(places(&self.journal));
        payload.extend((self.calls.len() as u16).to_le_bytes());
        let mut rules = self.rules.iter();
        for (call, number) in &self.calls {
            payload.push(*call);
            payload.extend(number.to_le_bytes());
            if *call == PROFILE {
                payload.extend(rules.next().expect("each profile run has its rule").to_le_bytes());
            }
        }
        trials.add(CALLS, &payload);
    }
}

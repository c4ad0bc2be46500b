//! Trials of the host's words: LDST where they are, and jobs with a record of kind 5 and without.

use crate::cell::{with_immediate, with_registers};
use crate::file::Trials;
use crate::generate_forward::{NEXT, THE_END};
use crate::generate_jobs::{cells, end, load, load_any_room, odd, register, runjob, settings};
use crate::job::{saved, words_record};
use crate::machine::{Machine, Words, FIRST_WORD, LAST_WORD, NO_WORDS};
use crate::random::Random;
use crate::setup::{Setup, LONG};
use crate::trial::{BACK, RUN, STEP};

const M: u32 = 9;

/// LDST R1, R2, R3: R2 is the pointer of the store, R3 that of the load.
const TRANSFER: u32 = 0x0101_0203;

/// Words of which no two are the same; 0, the sign bit, all bits and an end of PC stand at several places.
const MANY: [Words; 4] = [
    [0, 0xFFFF_FFFF, 0x8000_0000, 0x0102_0304, 7],
    [0x7FFF_FFFF, 0, 0xFFFF_0304, 511, 0x8000_0000],
    [0xFFFF_FFFF, 0x8000_0000, 3, 0, 0xFFFF_0000],
    [5, 0x1020_3040, 0xFFFF_FFFE, 0xFFFF_0301, 0],
];

/// Either side of the settings and of the words; the last three agree with a word's address in a part of it.
const ADDRESSES: [u32; 17] = [
    0xFFFF_0000,
    0xFFFF_0001,
    0xFFFF_0002,
    0xFFFF_0003,
    0xFFFF_02FF,
    0xFFFF_0300,
    0xFFFF_0301,
    0xFFFF_0302,
    0xFFFF_0303,
    0xFFFF_0304,
    0xFFFF_0305,
    0xFFFF_0306,
    0xFFFF_0400,
    0xFFFF_FFFF,
    0xFFFF_1300,
    0xFFFF_8302,
    0xFFFE_0304,
];

pub fn edges(random: &mut Random, trials: &mut Trials) {
    loads(random, trials);
    loads_into_pc(random, trials);
    stores(random, trials);
    both(random, trials);
    in_memory(random, trials);
    programs(random, trials);
    rules(random, trials);
    for job in jobs() {
        load_any_room(M, &job, random, trials);
    }
    hosts(trials);
    running_jobs(trials);
    saves(random, trials);
}

/// A machine with such words, and flags and a mask that have a part in an illegal step.
fn with_words(words: Words, random: &mut Random) -> Setup {
    let mut setup = Setup::new(M, 24);
    setup.words = words;
    setup.flags = random.pick(&[0, 128, 511]);
    setup.mask = random.pick(&[0, 128, 511]);
    setup.mode = random.below(4) as u32;
    setup
}

/// A step, back, and forward again.
fn there_and_back(random: &mut Random) -> Vec<(u8, u64)> {
    vec![(STEP, 0), (BACK, 1), (RUN, random.pick(&[1, 2, LONG]))]
}

/// Each address into a register of its own, and into the pointer's.
fn loads(random: &mut Random, trials: &mut Trials) {
    for address in ADDRESSES {
        for n in [1, 3] {
            let mut setup = with_words(random.pick(&MANY), random);
            setup.registers = vec![(1, random.bits()), (3, address)];
            setup.place(0, &[with_registers(1, n, 0, 3)]);
            setup.calls = there_and_back(random);
            setup.add_to(trials);
        }
    }
}

/// Each word into R255: to a cell, to where there is none, and to the end.
fn loads_into_pc(random: &mut Random, trials: &mut Trials) {
    for address in FIRST_WORD..=LAST_WORD {
        for value in [M - 1, M, 0xFFFF_0000, 0xFFFF_FFFF] {
            let mut setup = with_words(random.pick(&MANY), random);
            setup.words[(address - FIRST_WORD) as usize] = value;
            setup.registers = vec![(3, address)];
            setup.pc(4);
            setup.place(4, &[with_registers(1, 255, 0, 3)]);
            setup.calls = there_and_back(random);
            setup.add_to(trials);
        }
    }
}

/// At each address of a word the word itself, at others a value that may fit, and everywhere the pointer.
fn stores(random: &mut Random, trials: &mut Trials) {
    for address in ADDRESSES {
        for n in [1, 2] {
            let mut setup = with_words(random.pick(&MANY), random);
            let word = setup.words.get(address.wrapping_sub(FIRST_WORD) as usize);
            let value = word.copied().unwrap_or(random.pick(&[0, 3, 511, 512]));
            setup.registers = vec![(1, value), (2, address)];
            setup.place(0, &[with_registers(1, n, 2, 0)]);
            setup.calls = there_and_back(random);
            setup.add_to(trials);
        }
    }
}

/// A load and a store at once. If one pointer is illegal neither is done, and a fault comes before that.
fn both(random: &mut Random, trials: &mut Trials) {
    let loads = [0, 4, M, 0xFFFF_0001, 0xFFFF_02FF, 0xFFFF_0300, 0xFFFF_0303, 0xFFFF_0304, 0xFFFF_0305];
    let stores = [4, M, 0xFFFE_FFFF, 0xFFFF_0001, 0xFFFF_0002, 0xFFFF_0300, 0xFFFF_0304, 0xFFFF_0305];
    for load in loads {
        for store in stores {
            let mut setup = with_words(random.pick(&MANY), random);
            let value = match store {
                0xFFFF_0001 => random.pick(&[0, 511, 511, 512]),
                0xFFFF_0002 => random.pick(&[0, 1, 3, 4]),
                _ => random.bits(),
            };
            setup.registers = vec![(1, value), (2, store), (3, load)];
            setup.place(0, &[TRANSFER]);
            setup.place(4, &[random.bits()]);
            setup.calls = there_and_back(random);
            setup.add_to(trials);
        }
    }
}

/// Cells whose addresses end like those of the words.
fn in_memory(random: &mut Random, trials: &mut Trials) {
    for address in [0x02FF, 0x0300, 0x0304, 0x0305] {
        let mut setup = with_words(random.pick(&MANY), random);
        setup.m = 0x0305;
        setup.registers = vec![(1, random.bits()), (2, address), (3, address)];
        setup.place(0, &[TRANSFER]);
        setup.place(0x02FF, &[1, 2, 3, 4, 5, 6]);
        setup.calls = there_and_back(random);
        setup.add_to(trials);
    }
}

/// Loads six addresses by a pointer in R9 that rises, into registers and from there into cells.
fn reader() -> Vec<u32> {
    let mut program = Vec::new();
    for n in 1..=6 {
        program.extend([
            with_registers(1, n, 0, 9),
            with_registers(1, n, 8, 0),
            with_immediate(35, 9, 1),
            with_immediate(35, 8, 1),
        ]);
    }
    program.push(THE_END);
    program
}

/// Several calls, each of which gets the words that the last one left.
fn programs(random: &mut Random, trials: &mut Trials) {
    for words in MANY.into_iter().chain([NO_WORDS]) {
        for first in [0xFFFF_02FF, 0xFFFF_0300] {
            let program = reader();
            let length = program.len() as u32;
            let mut setup = Setup::new(40, 8 * random.pick(&[20, 30]));
            setup.words = words;
            setup.mask = random.pick(&[0, 128]);
            setup.registers = vec![(8, length), (9, first)];
            setup.place(0, &program);
            setup.litter(random);
            setup.calls = vec![(RUN, 5), (STEP, 0)];
            setup.profile(length, random.pick(&[7, LONG]));
            setup.calls.extend([(BACK, random.pick(&[4, 9])), (RUN, LONG), (RUN, LONG), (BACK, LONG)]);
            setup.profile(length, LONG);
            setup.add_to(trials);
        }
    }
}

/// LDST in a rule of three cells: a store into the rule is refused whatever the load is, if it does not fault.
fn rules(random: &mut Random, trials: &mut Trials) {
    for load in [0, 0xFFFF_02FF, 0xFFFF_0300, 0xFFFF_0304, 0xFFFF_0305, M] {
        for store in [0, 1, 3, M, 0xFFFF_0001, 0xFFFF_0300, 0xFFFF_0304] {
            let mut setup = with_words(random.pick(&MANY), random);
            setup.registers = vec![(1, random.pick(&[0, 511])), (2, store), (3, load)];
            setup.place(0, &[TRANSFER, NEXT, THE_END]);
            setup.profile(3, 1);
            setup.calls.push((BACK, 1));
            setup.profile(3, LONG);
            setup.add_to(trials);
        }
    }
}

/// Records of kind 5 in every place, of every length, twice and cut; what is judged first where two would do.
fn jobs() -> Vec<Vec<u8>> {
    let (words, others) = (words_record(MANY[0]), words_record(MANY[1]));
    let mut jobs = Vec::new();
    let mut add = |records: &[Vec<u8>]| jobs.push(records.concat());
    add(&[end()]);
    for many in MANY.into_iter().chain([NO_WORDS]) {
        add(&[words_record(many), end()]);
    }
    add(&[cells(0, &[1]), register(1, 2), settings(3, 4, 2), words.clone(), end()]);
    add(&[cells(0, &[1]), register(1, 2), settings(3, 4, 2), end()]);
    for tail in [vec![], vec![0; 5], end(), [end(), vec![0]].concat(), others.clone()] {
        add(&[words.clone(), tail.clone()]);
        add(&[end(), words.clone(), tail]);
    }
    // What may not stand behind it, and what is wrong with that besides.
    let behind = [
        cells(0, &[1]),
        cells(M, &[1]),
        register(1, 2),
        settings(0, 0, 3),
        settings(512, 0, 3),
        odd(20, 5, 19),
        odd(16, 5, 16),
        odd(20, 6, 20),
        odd(5, 3, 4),
        odd(4, 2, 4),
        odd(4, 1, 4),
        odd(1, 4, 1),
    ];
    for record in behind {
        add(&[words.clone(), record.clone(), end()]);
        add(&[settings(0, 0, 3), words.clone(), record]);
    }
    for record in [cells(M, &[1]), settings(512, 0, 3)] {
        add(&[record, words.clone(), end()]);
    }
    for length in [0, 4, 5, 16, 19, 21, 24, 40, 65_538, 65_556, 0x0100_0014, 0x8000_0014, 0xFFFF_FFFF] {
        add(&[odd(length, 5, 20), end()]);
    }
    for there in [0, 1, 16, 19] {
        add(&[odd(20, 5, there)]);
        add(&[odd(21, 5, there)]);
    }
    for kind in [0, 6, 0x0105, 0x0500, 0xFF05] {
        add(&[odd(20, kind, 20), end()]);
    }
    jobs
}

/// The host's words with a job that has the same, others, none, or is refused, and with M in range and out of it.
fn hosts(trials: &mut Trials) {
    for host in [MANY[0], MANY[2], NO_WORDS] {
        for m in [0, 1, 16_384, 16_385] {
            for job in [end(), [words_record(MANY[0]), end()].concat(), words_record(MANY[0])] {
                load(m, 70_000, host, &job, trials);
            }
        }
    }
}

/// What `runjob` prints shows the words: those of the job, or zeros.
fn running_jobs(trials: &mut Trials) {
    let program = cells(0, &reader());
    for first in [0xFFFF_02FF, 0xFFFF_0300] {
        let pointers = [register(8, 100), register(9, first)].concat();
        runjob(&[program.clone(), pointers.clone(), end()].concat(), trials);
        for words in MANY {
            runjob(&[program.clone(), pointers.clone(), words_record(words), end()].concat(), trials);
        }
    }
}

/// Rooms that are just enough and just too short, zeros as words included; then what is refused before that.
fn saves(random: &mut Random, trials: &mut Trials) {
    for words in [MANY[0], MANY[3], NO_WORDS] {
        for m in [1, 16_384] {
            for (flags, mode) in [(0, 3), (1, 3), (0, 2)] {
                let machine = Machine { flags, mode, words, ..Machine::fresh() };
                let content = [random.pick(&[0, 7])];
                let length = saved(&machine, &content).len() as u32;
                for room in [length - 1, length] {
                    let mut setup = Setup { flags, mode, words, ..Setup::new(m, room) };
                    setup.place(0, &content);
                    setup.add_saving_to(trials);
                }
            }
        }
    }
    for (m, mode) in [(0, 3), (0, 4), (16_385, 3), (16_385, 4), (1, 4), (16_384, 4)] {
        for room in [31, 100] {
            Setup { mode, ..Setup::new(m, room) }.add_saving_to(trials);
        }
    }
}

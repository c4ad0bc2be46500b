//! Trials of job files: loaded, saved and loaded again, or run by `runjob`.

use crate::cell::{with_immediate, with_registers};
use crate::file::Trials;
use crate::generate_calls::instruction;
use crate::job::{self, record, words_record};
use crate::machine::{Machine, Words};
use crate::random::Random;
use crate::setup::Setup;
use crate::trial::{DESCRIBED, LOAD, MOST_SAVE_ROOM, RUNJOB};

const RUNJOB_CELLS: u32 = 4_096;

pub fn cells(base: u32, cells: &[u32]) -> Vec<u8> {
    let mut payload = (base as u16).to_le_bytes().to_vec();
    for cell in cells {
        payload.extend(cell.to_le_bytes());
    }
    record(1, &payload)
}

pub fn register(number: u8, value: u32) -> Vec<u8> {
    let mut payload = vec![number];
    payload.extend(value.to_le_bytes());
    record(2, &payload)
}

pub fn settings(flags: u16, mask: u16, mode: u8) -> Vec<u8> {
    let mut payload = flags.to_le_bytes().to_vec();
    payload.extend(mask.to_le_bytes());
    payload.push(mode);
    record(3, &payload)
}

pub fn end() -> Vec<u8> {
    record(4, &[])
}

/// A record whose head may tell a length that is not the payload's.
pub fn odd(length: u32, kind: u16, payload: usize) -> Vec<u8> {
    let mut bytes = length.to_le_bytes().to_vec();
    bytes.extend(kind.to_le_bytes());
    bytes.resize(bytes.len() + payload, 0);
    bytes
}

pub fn edges(random: &mut Random, trials: &mut Trials) {
    // No cells, too many cells, and the least and the most that are allowed.
    for m in [0, 1, 2, 16_383, 16_384, 16_385, 16_500] {
        load(m, 70_000, random.words(), &end(), trials);
        load(m, 70_000, random.words(), b"", trials);
    }
    // The refused load leaves full cells behind: the longest record that there is.
    for room in [65_575, 65_576, 65_577] {
        load(16_384, room, random.words(), b"", trials);
    }
    for room in 30..35 {
        load(3, room, random.words(), &end(), trials);
    }
    for m in [1, 2, 5, 4_096, 16_384] {
        for over in [0, 1] {
            let last = [cells(m - 1 + over, &[7]), end()].concat();
            load(m, 70_000, random.words(), &last, trials);
            let both = [cells(0, &[7]), cells(m - 1, &vec![9; 1 + over as usize]), end()].concat();
            load(m, 70_000, random.words(), &both, trials);
        }
    }
    for job in odd_jobs().into_iter().chain(running_jobs()) {
        load_any_room(RUNJOB_CELLS, &job, random, trials);
        runjob(&job, trials);
    }
    // Every place at which a job can be cut.
    let whole =
        [cells(1, &[5, 6]), register(3, 4), settings(1, 2, 3), words_record([6, 7, 8, 9, 10]), end()].concat();
    for length in 0..whole.len() {
        load(8, 100, random.words(), &whole[..length], trials);
    }
    big(trials);
    longest(random, trials);
    behind_longest(random, trials);
    saves(trials);
}

/// Machines that no load makes: settings out of range, a depth, and what of them is judged first.
fn saves(trials: &mut Trials) {
    for (flags, mask, mode, depth) in [
        (0, 0, 3, 0),
        (511, 511, 0, 0),
        (512, 0, 3, 0),
        (0, 512, 3, 0),
        (0, 0, 4, 0),
        (65_536, 0, 3, 0),
        (0, 65_536, 3, 0),
        (0, 0, 256, 0),
        (0, 0, 259, 0),
        (0, 0, 3, 1),
        (1, 2, 3, 65_536),
        (0, 0, 3, 0xFFFF_FFFF),
    ] {
        for m in [0, 3, 16_384, 16_385] {
            for room in [0, 5, 6, 200] {
                let mut setup = Setup { flags, mask, mode, depth, ..Setup::new(m, room) };
                setup.registers.extend([(0, 1), (255, 2)]);
                setup.place(1, &[7]);
                setup.add_saving_to(trials);
            }
        }
    }
    // Runs at the first and at the last cell, one cell apart, and of all cells.
    for content in
        [[1, 0, 1, 0, 1], [0, 1, 0, 1, 0], [1, 1, 0, 1, 1], [1, 1, 1, 1, 1], [0, 0, 0, 0, 0], [0, 0, 0, 0, 9]]
    {
        for m in 1..6 {
            let mut setup = Setup::new(m, 90);
            setup.place(0, &content);
            setup.add_saving_to(trials);
        }
    }
    let mut full = Setup::new(40, 3_000);
    full.registers.extend((0..=255).map(|register| (register, 1 << (register % 32))));
    full.add_saving_to(trials);
}

/// A machine of any kind, with room for what is saved of it or about as much.
fn random_save(random: &mut Random, trials: &mut Trials) {
    let m = random.pick(&[1, 2, 3, 8, 40, 300, 16_384, 16_384, 16_385]);
    let mut setup = Setup::new(m, 0);
    setup.words = random.words();
    let odd = random.chance(20);
    setup.flags = if odd { random.word() } else { random.pick(&[0, 0, 1, 256, 511]) };
    setup.mask = if random.chance(50) { 0 } else { random.pick(&[1, 4, 128, 511, 512]) };
    setup.mode = random.pick(&[0, 1, 2, 3, 3, 3, 3, 4]);
    setup.depth = random.pick(&[0, 0, 1, 7, 65_537, 0xFFFF_FFFF]);
    for _ in 0..random.below(12) {
        setup.registers.push((random.register(), random.word()));
    }
    for _ in 0..random.below(6) {
        let at = random.below(m as u64) as u32;
        let content: Vec<u32> = (0..random.below(6)).map(|_| random.word()).collect();
        setup.place(at, &content);
    }
    let mut content = vec![0; m as usize];
    let mut machine = Machine::fresh();
    (machine.flags, machine.mask, machine.mode) = (setup.flags, setup.mask, setup.mode);
    setup.registers.iter().for_each(|(register, value)| machine.registers[*register as usize] = *value);
    setup.cells.iter().for_each(|(place, value)| content[*place as usize] = *value);
    setup.room = about(job::saved(&machine, &content).len() as u32, random);
    setup.add_saving_to(trials);
}

/// Each refusal where it begins, and what is judged first where two would do.
fn odd_jobs() -> Vec<Vec<u8>> {
    let many = RUNJOB_CELLS;
    let mut jobs = Vec::new();
    let mut add = |records: &[Vec<u8>]| jobs.push(records.concat());
    for length in
        [0, 2, 3, 4, 5, 6, 7, 8, 9, 10, 11, 14, 65_534, 65_537, 65_538, 65_539, 65_542, 0x8000_0002, 0xFFFF_FFFE]
    {
        add(&[odd(length, 1, 10), end()]);
    }
    for kind in [2, 3] {
        for length in [0, 4, 5, 6, 65_541, 0x0100_0005, 0xFFFF_FFFF] {
            add(&[odd(length, kind, 5), end()]);
        }
    }
    for kind in [0, 5, 6, 255, 256, 257, 258, 260, 1_024, 65_535] {
        add(&[odd(0, kind, 0), end()]);
        add(&[odd(5, kind, 3)]);
    }
    for length in [1, 6, 256, 65_536, 0x8000_0000] {
        add(&[odd(length, 4, 6)]);
    }
    for tail in 1..8 {
        add(&[end(), vec![0; tail]]);
    }
    add(&[end(), end()]);
    for (base, count) in [(0, 3), (1, 2), (2, 1), (3, 1), (4, 1), (2, 8_000), (0, 8_000), (3, 5_000)] {
        add(&[cells(0, &[1, 0, 3]), cells(base, &vec![8; count.min(4)]), end()]);
        add(&[cells(0, &[1, 0, 3]), odd(2 + 4 * count as u32, 1, 0)]);
    }
    // Before the previous end and past the cells: order is judged first.
    add(&[cells(many - 1, &[1]), cells(many - 2, &[1, 2, 3]), end()]);
    add(&[register(1, 1), cells(many, &[1]), end()]);
    add(&[settings(0, 0, 3), settings(512, 0, 3), end()]);
    add(&[cells(65_535, &[1]), end()]);
    add(&[cells(many, &[0]), end()]);
    for (first, second) in [(0, 0), (0, 1), (1, 0), (7, 7), (254, 255), (255, 255), (255, 0), (255, 254)] {
        add(&[register(first, 5), register(second, 0x8000_0001), end()]);
    }
    for (flags, mask, mode) in [
        (511, 511, 3),
        (512, 0, 0),
        (0, 512, 0),
        (0, 0, 4),
        (0x8000, 0, 3),
        (0, 65_535, 3),
        (0, 0, 255),
        (0, 0, 3),
        (0, 0, 0),
        (256, 0, 3),
        (0, 1, 3),
        (0, 0, 2),
        (512, 512, 4),
    ] {
        add(&[settings(flags, mask, mode), end()]);
    }
    let parts = [cells(2, &[5]), register(1, 0), settings(1, 0, 3), words_record([1, 2, 3, 4, 5])];
    for first in 0..4 {
        for second in 0..4 {
            add(&[parts[first].clone(), parts[second].clone(), end()]);
            add(&[parts[first].clone(), parts[second].clone()]);
            add(&[parts[first].clone(), parts[second][..7].to_vec()]);
        }
    }
    jobs
}

/// The job that the rules print, which ends, and one for each other stop that a job can come to.
fn running_jobs() -> Vec<Vec<u8>> {
    let run = |program: &[u32], others: &[Vec<u8>]| [cells(0, program), others.concat(), end()].concat();
    let add = with_immediate(35, 3, 0xFFFF);
    vec![
        run(&[with_immediate(5, 1, 7), with_immediate(37, 1, 2), with_immediate(4, 255, 0xFFFF)], &[]),
        run(&[add, with_immediate(121, 0, 0xFFFE)], &[]),
        run(&[add, add, add], &[register(3, 1), settings(0, 4, 3)]),
        run(&[add, with_immediate(122, 3, 9), add], &[]),
        run(&[add], &[register(255, RUNJOB_CELLS - 1)]),
        run(&[add], &[register(255, RUNJOB_CELLS)]),
        run(&[add, with_registers(1, 3, 9, 0)], &[register(9, RUNJOB_CELLS)]),
        run(&[add, with_registers(1, 3, 9, 0)], &[register(9, RUNJOB_CELLS - 1)]),
        run(&[add, with_immediate(80, 1, 1)], &[]),
        run(&[add, with_immediate(121, 0, 0xFFFD)], &[]),
    ]
}

/// Jobs around `runjob`'s limit of 32,768 bytes.
fn big(trials: &mut Trials) {
    // 2,045 records over 4,095 cells, two registers and the end make 32,768 bytes.
    let mut job = Vec::new();
    let mut base = 0;
    for number in 0..2_045 {
        let count = if number < 2_044 { 2 } else { 7 };
        let content: Vec<u32> =
            (0..count).map(|at| with_immediate(35, (base + at) as u8 % 5, base as u16)).collect();
        job.extend(cells(base, &content));
        base += count;
    }
    job.extend([register(0, 1), register(200, 2), end()].concat());
    assert_eq!(job.len(), 32_768);
    runjob(&job, trials);
    job.push(0);
    runjob(&job, trials);
    runjob(&[0; 32_768], trials);
    runjob(&[0; 33_000], trials);
}

/// Jobs whose first record is the longest that may be, or about as long.
fn longest(random: &mut Random, trials: &mut Trials) {
    for room in [65_575, 65_576, 65_577] {
        long(16_384, room, (65_538, 0), 65_536, &end(), random, trials);
    }
    // Too few cells, too many, and a base that is too high or just not.
    for (m, length, base) in [(16_383, 65_538, 0), (16_385, 65_538, 0), (16_384, 65_538, 1), (16_384, 65_534, 1)] {
        long(m, 70_000, (length, base), length - 2, &end(), random, trials);
    }
    // Lengths that no record has.
    for length in [65_537, 65_539, 65_540, 65_541, 65_542] {
        long(16_384, 70_000, (length, 0), length - 2, &end(), random, trials);
    }
    // Payloads cut by one byte, and by all but the base.
    for middle in [65_535, 0] {
        long(16_384, 70_000, (65_538, 0), middle, b"", random, trials);
    }
    let zeros = [odd(65_538, 1, 0), vec![0, 0]].concat();
    describe((16_384, 70_000), random.words(), &zeros, 65_536, (0, 0), &end(), trials);
}

/// What follows so long a record: if refused, then with its offset.
fn behind_longest(random: &mut Random, trials: &mut Trials) {
    let tails = [
        [register(3, 4), settings(1, 2, 3), end()].concat(),
        [register(3, 4), settings(1, 2, 3), words_record([5, 4, 3, 2, 1]), end()].concat(),
        vec![],
        vec![0; 5],
        odd(0, 5, 0),
        odd(0, 6, 0),
        odd(4, 2, 4),
        register(3, 4)[..10].to_vec(),
        cells(0, &[1]),
        settings(512, 0, 3),
        [end(), vec![0]].concat(),
    ];
    for tail in tails {
        long(16_384, 70_000, (65_538, 0), 65_536, &tail, random, trials);
    }
    // A second record at, before and past the end of the first.
    for base in [16_383, 16_382, 16_384] {
        long(16_384, 70_000, (65_534, 0), 65_532, &[cells(base, &[7]), end()].concat(), random, trials);
    }
}

pub fn random(random: &mut Random, trials: &mut Trials) {
    if random.chance(15) {
        return random_save(random, trials);
    }
    let run = random.chance(45);
    let m = if run {
        RUNJOB_CELLS
    } else {
        random.pick(&[0, 1, 2, 3, 8, 40, 40, 300, 300, 4_096, 16_384, 16_384, 16_385])
    };
    let mut records = valid(m.max(1), random);
    let damage = if random.chance(if run { 25 } else { 60 }) { 1 + random.below(2) } else { 0 };
    for _ in 0..damage {
        damage_records(&mut records, m, random);
    }
    let mut job = records.concat();
    if damage > 0 && random.chance(25) {
        damage_bytes(&mut job, random);
    }
    if run {
        runjob(&job, trials)
    } else {
        load_any_room(m, &job, random, trials)
    }
}

/// A program, perhaps more cells, registers, settings and words: a job without a fault.
fn valid(m: u32, random: &mut Random) -> Vec<Vec<u8>> {
    let mut records = Vec::new();
    let mut base = 0;
    while base < m && records.len() < 4 && random.chance(85) {
        // At, after or close to the last one's end, or up against the end of the cells.
        base += random.pick(&[0, 0, 0, 1, 2, 9]).min(m as u64 - base as u64 - 1) as u32;
        let count = (1 + random.below(12) as u32).min(m - base);
        if random.chance(10) {
            base = m - count;
        }
        let content: Vec<u32> =
            (0..count).map(|_| if random.chance(10) { 0 } else { instruction(random) }).collect();
        records.push(cells(base, &content));
        base += count;
    }
    let mut next = random.below(8);
    while next < 256 && random.chance(80) {
        records.push(register(next as u8, random.word()));
        next += 1 + random.below(6);
    }
    if next <= 255 && random.chance(15) {
        records.push(register(255, random.below(m as u64 + 2) as u32));
    }
    if random.chance(40) {
        let flags = random.pick(&[0, 1, 2, 256, 511, 7]);
        let mask = random.pick(&[0, 0, 4, 128, 16, 511]);
        records.push(settings(flags, mask, random.below(4) as u8));
    }
    if random.chance(50) {
        records.push(words_record(random.words()));
    }
    records.push(end());
    records
}

fn damage_records(records: &mut Vec<Vec<u8>>, m: u32, random: &mut Random) {
    if records.is_empty() {
        return;
    }
    let at = random.below(records.len() as u64) as usize;
    let other = random.below(records.len() as u64) as usize;
    match random.below(10) {
        0 => {
            let length = random.pick(&[0, 1, 4, 5, 6, 7, 10, 19, 20, 24, 65_538, 65_542, 0xFFFF_FFFF, 0x1_0005]);
            records[at][..4].copy_from_slice(&u32::to_le_bytes(length));
        }
        1 => records[at][4] = random.pick(&[0, 1, 2, 3, 4, 5, 6, 255]),
        2 => records[at][5] = 1,
        3 => records.swap(at, other),
        4 => records.insert(other, records[at].clone()),
        5 => drop(records.remove(at)),
        6 => records.insert(at, settings(random.word() as u16, random.word() as u16, random.word() as u8)),
        7 => records.insert(at, words_record(random.words())),
        8 => {
            let base = random.pick(&[m.saturating_sub(2), m.saturating_sub(1), m, m + 1, 0, 65_535]);
            records.insert(at, cells(base, &[3, 4]));
        }
        _ => records.insert(at, register(random.pick(&[0, 1, 5, 20, 255]), random.word())),
    }
}

fn damage_bytes(job: &mut Vec<u8>, random: &mut Random) {
    if job.is_empty() {
        return;
    }
    let at = random.below(job.len() as u64) as usize;
    match random.below(5) {
        0 => job.truncate(at),
        1 => job[at] = random.bits() as u8,
        2 => drop(job.remove(at)),
        3 => job.insert(at, random.below(6) as u8),
        _ => job.resize(job.len() + 1 + at % 9, random.below(6) as u8),
    }
}

pub fn runjob(job: &[u8], trials: &mut Trials) {
    trials.add(RUNJOB, job);
}

/// How payloads of loads begin: M, the room's length and the host's words.
fn host_words((m, room): (u32, u32), host: Words) -> Vec<u8> {
    [m, room].into_iter().chain(host).flat_map(u32::to_le_bytes).collect()
}

pub fn load(m: u32, room: u32, host: Words, job: &[u8], trials: &mut Trials) {
    let mut payload = host_words((m, room), host);
    payload.extend(job);
    trials.add(LOAD, &payload);
}

/// A job that begins with a record of cells: the length and the base that it tells, and how many
/// bytes of cells there are.
fn long(
    m: u32,
    room: u32,
    (length, base): (u32, u16),
    bytes: u32,
    tail: &[u8],
    random: &mut Random,
    trials: &mut Trials,
) {
    let head = [odd(length, 1, 0), base.to_le_bytes().to_vec()].concat();
    let seed = (random.bits() as u16, 256 + random.below(60_000) as u16);
    describe((m, room), random.words(), &head, bytes, seed, tail, trials);
}

/// A job of a head, a middle of as many bytes as is told, made from a seed and a step, and a tail.
fn describe(
    sizes: (u32, u32),
    host: Words,
    head: &[u8],
    middle: u32,
    (seed, step): (u16, u16),
    tail: &[u8],
    trials: &mut Trials,
) {
    let mut payload = host_words(sizes, host);
    payload.extend(middle.to_le_bytes());
    for number in [seed, step, head.len() as u16] {
        payload.extend(number.to_le_bytes());
    }
    payload.extend(head);
    payload.extend(tail);
    trials.add(DESCRIBED, &payload);
}

/// A room's length: most often just enough for what will be saved, or just too little.
fn about(length: u32, random: &mut Random) -> u32 {
    let room = match random.below(10) {
        0..=3 => length,
        4 | 5 => length - 1,
        6 => random.below(length as u64) as u32,
        _ => length + random.below(40) as u32,
    };
    room.min(MOST_SAVE_ROOM as u32)
}

pub fn load_any_room(m: u32, job: &[u8], random: &mut Random, trials: &mut Trials) {
    let host = random.words();
    let mut content = vec![1; m as usize];
    let machine = job::load(job, host, &mut content).unwrap_or(Machine::fresh());
    let length = job::saved(&machine, &content).len() as u32;
    load(m, about(length, random), host, job, trials);
}

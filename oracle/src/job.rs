//! Job files: loading, saving, and the text of `runjob`.

use crate::machine::{
    cells_fit, Answer, Machine, Runner, Words, ENTRY_WORDS, HIGHEST_FLAGS, HIGHEST_MODE, NO_WORDS, PC,
};

const HEAD: usize = 6;
/// The kinds of records in the order that they keep.
const ORDER: [u32; 5] = [1, 2, 3, 5, 4];
const MOST_INPUT: usize = 32_768;
/// The cells of `runjob` and of `check-rule`.
pub const PROGRAM_CELLS: usize = 4_096;
const RUNJOB_STEPS: usize = 400;

/// A refusal's number and the offset it speaks of.
pub type Refused = (u32, usize);

fn u16_at(bytes: &[u8], at: usize) -> u32 {
    u16::from_le_bytes([bytes[at], bytes[at + 1]]) as u32
}

fn u32_at(bytes: &[u8], at: usize) -> u32 {
    u32::from_le_bytes([bytes[at], bytes[at + 1], bytes[at + 2], bytes[at + 3]])
}

fn length_fits(kind: u32, length: u32) -> bool {
    match kind {
        1 => (6..=65_538).contains(&length) && length % 4 == 2,
        2 | 3 => length == 5,
        5 => length == 20,
        _ => length == 0,
    }
}

/// The machine the job describes; the host's words are its words unless the job has others. The cells are
/// written only when the whole job is known to be good, so the new content is made beside them.
pub fn load(job: &[u8], host: Words, cells: &mut [u32]) -> Result<Machine, Refused> {
    if !cells_fit(cells.len()) {
        return Err((12, 0));
    }
    let mut machine = Machine { words: host, ..Machine::fresh() };
    let mut content = vec![0; cells.len()];
    let mut last_rank = 0;
    let mut next_base = 0;
    let mut next_register = 0;
    let mut offset = 0;
    loop {
        let refuse = |number| Err((number, offset));
        let left = &job[offset..];
        if left.len() < HEAD {
            return refuse(41);
        }
        let length = u32_at(left, 0);
        let kind = u16_at(left, 4);
        let Some(rank) = ORDER.iter().position(|known| *known == kind) else {
            return refuse(42);
        };
        if !length_fits(kind, length) {
            return refuse(43);
        }
        let length = length as usize;
        if left.len() - HEAD < length {
            return refuse(44);
        }
        let payload = &left[HEAD..HEAD + length];
        // Records of kinds 3 and 5 have none of their kind behind them.
        if rank < last_rank || rank == last_rank && (kind == 3 || kind == 5) {
            return refuse(46);
        }
        match kind {
            1 => {
                let base = u16_at(payload, 0) as usize;
                let end = base + (length - 2) / 4;
                if base < next_base {
                    return refuse(46);
                }
                if end > cells.len() {
                    return refuse(45);
                }
                for (at, cell) in content[base..end].iter_mut().enumerate() {
                    *cell = u32_at(payload, 2 + 4 * at);
                }
                next_base = end;
            }
            2 => {
                let register = payload[0] as usize;
                if register < next_register {
                    return refuse(46);
                }
                machine.registers[register] = u32_at(payload, 1);
                next_register = register + 1;
            }
            3 => {
                machine.flags = u16_at(payload, 0);
                machine.mask = u16_at(payload, 2);
                machine.mode = payload[4] as u32;
                if machine.flags > HIGHEST_FLAGS || machine.mask > HIGHEST_FLAGS || machine.mode > HIGHEST_MODE {
                    return refuse(10);
                }
            }
            5 => machine.words = std::array::from_fn(|word| u32_at(payload, 4 * word)),
            _ => {
                let end = offset + HEAD;
                if end < job.len() {
                    return Err((47, end));
                }
                cells.copy_from_slice(&content);
                return Ok(machine);
            }
        }
        last_rank = rank;
        offset += HEAD + length;
    }
}

pub fn record(kind: u16, payload: &[u8]) -> Vec<u8> {
    let mut bytes = (payload.len() as u32).to_le_bytes().to_vec();
    bytes.extend(kind.to_le_bytes());
    bytes.extend(payload);
    bytes
}

/// A record for each maximal run of cells that are not 0.
pub fn cell_records(cells: &[u32]) -> Vec<u8> {
    let mut records = Vec::new();
    let mut address = 0;
    while address < cells.len() {
        if cells[address] == 0 {
            address += 1;
            continue;
        }
        let mut payload = (address as u16).to_le_bytes().to_vec();
        while address < cells.len() && cells[address] != 0 {
            payload.extend(cells[address].to_le_bytes());
            address += 1;
        }
        records.extend(record(1, &payload));
    }
    records
}

pub fn words_record(words: Words) -> Vec<u8> {
    record(5, &words.map(u32::to_le_bytes).concat())
}

/// The job that `save` writes for this machine and these cells.
pub fn saved(machine: &Machine, cells: &[u32]) -> Vec<u8> {
    let mut job = cell_records(cells);
    for (register, value) in machine.registers.iter().enumerate() {
        if *value != 0 {
            let mut payload = vec![register as u8];
            payload.extend(value.to_le_bytes());
            job.extend(record(2, &payload));
        }
    }
    if (machine.flags, machine.mask, machine.mode) != (0, 0, 3) {
        let mut payload = (machine.flags as u16).to_le_bytes().to_vec();
        payload.extend((machine.mask as u16).to_le_bytes());
        payload.push(machine.mode as u8);
        job.extend(record(3, &payload));
    }
    job.extend(words_record(machine.words));
    job.extend(record(4, &[]));
    job
}

/// Writes the job at the room's start and answers its length.
pub fn save(machine: &Machine, cells: &[u32], room: &mut [u8]) -> Result<usize, u32> {
    if !cells_fit(cells.len()) {
        return Err(12);
    }
    if !machine.settings_fit() {
        return Err(10);
    }
    let job = saved(machine, cells);
    if room.len() < job.len() {
        return Err(48);
    }
    room[..job.len()].copy_from_slice(&job);
    Ok(job.len())
}

/// Loads what a program reads from its standard input; such a host gives zeros.
pub fn load_input(input: &[u8], cells: &mut [u32]) -> Result<Machine, Refused> {
    if input.len() > MOST_INPUT {
        return Err((50, MOST_INPUT));
    }
    load(input, NO_WORDS, cells)
}

pub fn refused_text((number, offset): Refused) -> String {
    format!("refused {number} at {offset}\n")
}

/// The text that `runjob` prints, and the runner as it stopped, if it was started.
pub fn runjob(input: &[u8]) -> (String, Option<Runner>) {
    let mut cells = vec![0; PROGRAM_CELLS];
    match load_input(input, &mut cells) {
        Err(refused) => (refused_text(refused), None),
        Ok(machine) => {
            let mut runner = Runner::new(machine, cells, vec![0; RUNJOB_STEPS * ENTRY_WORDS]);
            let answer = runner.run(RUNJOB_STEPS as u64);
            (report(&answer, &runner.machine), Some(runner))
        }
    }
}

fn report(answer: &Answer, machine: &Machine) -> String {
    let (stop, count) = (answer.stop, answer.count);
    let mut text = format!("exit {stop} steps {count} pc {} flags {}\n", machine.registers[PC], machine.flags);
    for (register, value) in machine.registers[..PC].iter().enumerate() {
        if *value != 0 {
            text += &format!("R{register} {value}\n");
        }
    }
    text
}

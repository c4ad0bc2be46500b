//! Trials of single cells: decoded, encoded, printed, read.

use crate::cell::{form, with_immediate, with_registers, Form};
use crate::file::Trials;
use crate::line;
use crate::random::Random;
use crate::trial::{DECODE, ENCODE, MOST_PRINT_ROOM, PRINT, READ};

/// Lines at the limits of what may be printed, most of them just outside.
const LINES: [&str; 52] = [
    "",
    "\n",
    " ",
    " \n",
    "CELL\n",
    "CELL \n",
    "CELL 33554432\n",
    "CELL 33554432",
    "CELL 33554432\n\n",
    "CELL 33554432\r\n",
    "CELL 033554432\n",
    "CELL +33554432\n",
    "CELL  33554432\n",
    "CELL 33554432 \n",
    "CELL #33554432\n",
    "CELL R33554432\n",
    "cell 33554432\n",
    "CELL 33554431\n",
    "CELL 0\n",
    "CELL 16777216\n",
    "CELL 50331647\n",
    "CELL 50331648\n",
    "CELL 4294967295\n",
    "CELL 4294967296\n",
    "CELL 4328521728\n",
    "CELL 18446744073743106048\n",
    "CELL 2066677760\n",
    "CELL 2063597568\n",
    "CELL 2046820353\n",
    "ADD R1, R2, R3\n",
    "ADD R1, R2, R256\n",
    "ADD R256, R2, R3\n",
    "ADD R1,R2, R3\n",
    "ADD R1, R2 , R3\n",
    "ADD R1, R2, #3\n",
    "ADD R1, R2\n",
    "ADD R1, R2, R3, R4\n",
    "ADD R1, R02, R3\n",
    "ADD R1, R00, R3\n",
    "ADD R1, R, R3\n",
    "ADDI R5, #65533\n",
    "ADDI R5, #65536\n",
    "ADDI R5, #-1\n",
    "ADDI R5, 65533\n",
    "ADDI R5, R3\n",
    "ADDI R5, #4294967297\n",
    "ADDI R261, #1\n",
    "BEZ R1, #0\n",
    "BZ R1, #0\n",
    "BZ R1 #0\n",
    "NANDI R1, #2\n",
    "FSPLIT R255, R255, R255\n",
];

pub fn edges(random: &mut Random, trials: &mut Trials) {
    for opcode in 0..=255 {
        let cell = with_immediate(opcode, random.bits() as u8, random.bits() as u16);
        decode(cell, trials);
        encode(opcode, false, random, trials);
        encode(opcode, true, random, trials);
        let length = line::text(cell).len();
        print(cell, length, trials);
        print(cell, length - 1, trials);
        trials.add(READ, line::text(cell).as_bytes());
        if form(opcode) != Form::Reserved {
            trials.add(READ, format!("CELL {cell}\n").as_bytes());
        }
    }
    for cell in [0, 0x00FF_FFFF, 0x0100_0000, 0x02FF_FFFF, 0x7AFF_FFFF, 0x7B00_0000, 0xFFFF_FFFF, 0x6BFF_FFFF] {
        decode(cell, trials);
        for room in [0, 1, 23, 24, 25, MOST_PRINT_ROOM] {
            print(cell, room, trials);
        }
    }
    for line in LINES {
        trials.add(READ, line.as_bytes());
    }
    // Bytes that are no text, a byte above ASCII inside a line, and a number of many digits.
    trials.add(READ, &[0xFF, 0xFE, 0x00]);
    trials.add(READ, b"ADD R1, R2, R\xB33\n");
    trials.add(READ, b"ADD\0R1, R2, R3\n");
    let long = format!("CELL {}\n", "7".repeat(300));
    trials.add(READ, long.as_bytes());
}

pub fn random(random: &mut Random, trials: &mut Trials) {
    let cell = random_cell(random);
    match random.below(20) {
        0 => decode(cell, trials),
        1 => encode(random.bits() as u8, random.chance(25), random, trials),
        2 | 3 => {
            let length = line::text(cell).len() as u64;
            let room = match random.below(4) {
                0 => random.below(MOST_PRINT_ROOM as u64 + 1),
                other => length - 2 + other,
            };
            print(cell, room as usize, trials);
        }
        4..=7 => trials.add(READ, line::text(cell).as_bytes()),
        _ => {
            let line = damaged_line(cell, random);
            trials.add(READ, &line);
        }
    }
}

/// Legal opcodes more often than their share, and operands at their limits.
fn random_cell(random: &mut Random) -> u32 {
    let opcode = match random.below(4) {
        0 => random.bits() as u8,
        1 => random.pick(&[
            0, 1, 2, 3, 7, 8, 15, 16, 34, 35, 53, 54, 55, 79, 80, 92, 93, 106, 107, 108, 120, 121, 122, 123,
        ]),
        2 => 16 + random.below(39) as u8,
        _ => 80 + random.below(28) as u8,
    };
    let n = random.pick(&[0, 1, 9, 10, 99, 100, 254, 255]);
    if random.chance(50) {
        with_immediate(opcode, n, random.immediate())
    } else {
        with_registers(opcode, n, random.bits() as u8, random.bits() as u8)
    }
}

fn decode(cell: u32, trials: &mut Trials) {
    trials.add(DECODE, &cell.to_le_bytes());
}

fn encode(opcode: u8, wrong: bool, random: &mut Random, trials: &mut Trials) {
    let immediate = (form(opcode) == Form::Immediate) != wrong;
    let operands = random.bits().to_le_bytes();
    trials.add(ENCODE, &[opcode, immediate as u8, operands[0], operands[1], operands[2]]);
}

fn print(cell: u32, room: usize, trials: &mut Trials) {
    let mut payload = cell.to_le_bytes().to_vec();
    payload.push(room as u8);
    trials.add(PRINT, &payload);
}

fn damaged_line(cell: u32, random: &mut Random) -> Vec<u8> {
    let text = line::text(cell);
    let mut bytes = text.clone().into_bytes();
    let at = random.below(bytes.len() as u64) as usize;
    match random.below(17) {
        0 => drop(bytes.pop()),
        1 => bytes.push(random.pick(b"\n\0 1R")),
        2 => bytes.insert(bytes.len() - 1, b'\r'),
        3 => bytes = text.to_lowercase().into_bytes(),
        4 => bytes.insert(first_digit(&bytes, at), b'0'),
        5 => bytes = format!("CELL {cell}\n").into_bytes(),
        6 => bytes.insert(at, b' '),
        7 => bytes = text.replacen(' ', "", 1 + at % 2).into_bytes(),
        8 => bytes.truncate(at),
        9 => bytes[at] = random.bits() as u8,
        10 => drop(bytes.remove(at)),
        11 => bytes.insert(at, bytes[at]),
        12 => bytes.insert(bytes.len() - 1, b'0' + random.below(10) as u8),
        13 => bytes = text.replace('#', "R").into_bytes(),
        14 => bytes[at] = bytes[at].wrapping_add(random.pick(&[1, 0xFF, 0x20, 0xE0, 0x80])),
        15 => bytes = grown_number(&text, random),
        // The operands of one line behind the name of another.
        _ => {
            let other = line::name(random.bits() as u8).unwrap_or("CELL");
            let operands = text.split_once(' ').map_or("", |(_, operands)| operands);
            bytes = format!("{other} {operands}").into_bytes();
        }
    }
    bytes
}

/// The last number with a power of two added: the same to a reader that lets numbers wrap.
fn grown_number(text: &str, random: &mut Random) -> Vec<u8> {
    let line = text.trim_end();
    let digits = line.trim_end_matches(|letter: char| letter.is_ascii_digit());
    let number: u128 = line[digits.len()..].parse().expect("every line ends with a number");
    let added = 1u128 << random.pick(&[8, 16, 32, 64]);
    format!("{digits}{}\n", number + added).into_bytes()
}

/// Where the first number at `at` or later begins; the line's first byte if there is none.
fn first_digit(bytes: &[u8], at: usize) -> usize {
    let begins = |place: &usize| bytes[*place].is_ascii_digit() && !bytes[place.saturating_sub(1)].is_ascii_digit();
    (at..bytes.len()).find(begins).unwrap_or(0)
}

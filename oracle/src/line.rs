//! One cell as one line of text.

use crate::cell::{self, Decoded, Form, Operands};

pub const NOT_A_LINE: u32 = 30;
pub const ROOM_TOO_SHORT: u32 = 31;

const NAMES: [(u8, &[&str]); 5] = [
    (0, &["CPSWP", "LDST"]),
    (3, &["LDLI", "LDUI", "LDLIZ", "LDLISE", "LDLIF"]),
    (
        16,
        &[
            "ADD", "ADC", "SUB", "SBB", "MUL", "UDIV", "SDIV", "MOD", "AND", "OR", "XOR", "NAND", "LNAND", "LSH",
            "URSH", "SRSH", "UGT", "SGT", "EQ", "ADDI", "ADCI", "SUBI", "SBBI", "MULI", "UDIVI", "SDIVI", "MODI",
            "ANDI", "ORI", "XORI", "LSHI", "URSHI", "SRSHI", "UGTI", "SGTI", "EQI", "ULTI", "SLTI", "SPLIT",
        ],
    ),
    (
        80,
        &[
            "FADD", "FSUB", "FMUL", "FDIV", "FMOD", "FEXP", "FLOG", "FSIN", "FASIN", "FGT", "FEQ", "I2F", "F2I",
            "FADDI", "FSUBI", "FMULI", "FDIVI", "FMODI", "FEXPI", "FLOGI", "FSINI", "FASINI", "FGTI", "FEQI",
            "FLTI", "II2F", "IF2I", "FSPLIT",
        ],
    ),
    (121, &["BZ", "INT"]),
];

pub fn name(opcode: u8) -> Option<&'static str> {
    for (first, names) in NAMES {
        if opcode >= first && ((opcode - first) as usize) < names.len() {
            return Some(names[(opcode - first) as usize]);
        }
    }
    None
}

/// The cell's line, its LF included.
pub fn text(cell: u32) -> String {
    match cell::decode(cell) {
        Decoded::Reserved(cell) => format!("CELL {cell}\n"),
        Decoded::Legal(opcode, operands) => {
            let name = name(opcode).expect("every legal opcode has a name");
            match operands {
                Operands::Registers { n, m, l } => format!("{name} R{n}, R{m}, R{l}\n"),
                Operands::Immediate { n, imm } => format!("{name} R{n}, #{imm}\n"),
            }
        }
    }
}

/// Writes the line at the room's start and answers its length.
pub fn print(cell: u32, room: &mut [u8]) -> Result<usize, u32> {
    let line = text(cell);
    if room.len() < line.len() {
        return Err(ROOM_TOO_SHORT);
    }
    room[..line.len()].copy_from_slice(line.as_bytes());
    Ok(line.len())
}

/// A line is good exactly if some cell prints so. A lenient reading finds the only cell that
/// could; printing that one settles zeros, blanks, signs and whatever else may be odd.
pub fn read(input: &[u8]) -> Result<u32, u32> {
    match guess(input) {
        Some(cell) if text(cell).as_bytes() == input => Ok(cell),
        _ => Err(NOT_A_LINE),
    }
}

fn guess(input: &[u8]) -> Option<u32> {
    let (mnemonic, rest) = std::str::from_utf8(input).ok()?.trim_end().split_once(' ')?;
    if mnemonic == "CELL" {
        return rest.parse().ok();
    }
    let opcode = (0..=255).find(|&opcode| name(opcode) == Some(mnemonic))?;
    let numbers: Vec<&str> = rest.split(", ").map(|field| field.trim_start_matches(['R', '#'])).collect();
    match (cell::form(opcode), numbers.as_slice()) {
        (Form::Registers, [n, m, l]) => {
            Some(cell::with_registers(opcode, n.parse().ok()?, m.parse().ok()?, l.parse().ok()?))
        }
        (Form::Immediate, [n, imm]) => Some(cell::with_immediate(opcode, n.parse().ok()?, imm.parse().ok()?)),
        _ => None,
    }
}

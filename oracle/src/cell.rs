//! A 32-bit cell taken apart as an instruction, and put together again.

/// What follows the opcode: three registers, one register and 16 bits, or nothing that is known.
#[derive(Clone, Copy, Debug, PartialEq)]
pub enum Form {
    Registers,
    Immediate,
    Reserved,
}

#[derive(Clone, Copy, Debug, PartialEq)]
pub enum Operands {
    Registers { n: u8, m: u8, l: u8 },
    Immediate { n: u8, imm: u16 },
}

#[derive(Debug, PartialEq)]
pub enum Decoded {
    Legal(u8, Operands),
    Reserved(u32),
}

pub const RESERVED_OPCODE: u32 = 21;
pub const OTHER_FORM: u32 = 22;

pub fn form(opcode: u8) -> Form {
    match opcode {
        0 | 1 | 16..=34 | 54 | 80..=92 | 107 => Form::Registers,
        3..=7 | 35..=53 | 93..=106 | 121 | 122 => Form::Immediate,
        _ => Form::Reserved,
    }
}

pub fn opcode_of(cell: u32) -> u8 {
    (cell >> 24) as u8
}

pub fn decode(cell: u32) -> Decoded {
    let [opcode, n, m, l] = cell.to_be_bytes();
    match form(opcode) {
        Form::Registers => Decoded::Legal(opcode, Operands::Registers { n, m, l }),
        Form::Immediate => Decoded::Legal(opcode, Operands::Immediate { n, imm: cell as u16 }),
        Form::Reserved => Decoded::Reserved(cell),
    }
}

/// The cell, or the refusal. A reserved opcode is refused as such whatever its operands are.
pub fn encode(opcode: u8, operands: Operands) -> Result<u32, u32> {
    match (form(opcode), operands) {
        (Form::Reserved, _) => Err(RESERVED_OPCODE),
        (Form::Registers, Operands::Registers { n, m, l }) => Ok(with_registers(opcode, n, m, l)),
        (Form::Immediate, Operands::Immediate { n, imm }) => Ok(with_immediate(opcode, n, imm)),
        _ => Err(OTHER_FORM),
    }
}

/// These two put bits together without a look at the opcode: programs under trial hold odd cells too.
pub const fn with_registers(opcode: u8, n: u8, m: u8, l: u8) -> u32 {
    u32::from_be_bytes([opcode, n, m, l])
}

pub const fn with_immediate(opcode: u8, n: u8, imm: u16) -> u32 {
    (opcode as u32) << 24 | (n as u32) << 16 | imm as u32
}

//! Intel HEX: a text read into the cells, and the cells written as such a text.

use crate::job::Refused;
use crate::machine::cells_fit;

pub const DATA: u8 = 0;
pub const END: u8 = 1;
/// The bytes before the data: the count, two of the address, the type. Behind the data stands the checksum.
const HEAD: usize = 4;
/// Four cells are a group of 16 bytes.
const GROUP_CELLS: usize = 4;
const DIGITS: &[u8; 16] = b"0123456789ABCDEF";

/// Reads a text into the cells; a refusal tells its line. The cells are written only when the whole text is known
/// to be good, so the bytes that it names are kept beside them.
pub fn import(text: &[u8], cells: &mut [u32]) -> Result<(), Refused> {
    if !cells_fit(cells.len()) {
        return Err((12, 0));
    }
    let mut named = vec![None; 4 * cells.len()];
    let mut ended = false;
    let mut number = 0;
    for line in text.split_inclusive(|byte| *byte == b'\n') {
        number += 1;
        if ended {
            return Err((75, number));
        }
        ended = read(line, &mut named).map_err(|refusal| (refusal, number))?;
    }
    if !ended {
        return Err((74, number + 1));
    }
    for (cell, bytes) in cells.iter_mut().zip(named.chunks(4)) {
        *cell = bytes.iter().rev().fold(0, |value, byte| value << 8 | u32::from(byte.unwrap_or(0)));
    }
    Ok(())
}

/// Notes what a line names, and answers whether it is the end record.
fn read(line: &[u8], named: &mut [Option<u8>]) -> Result<bool, u32> {
    let record = record(line).ok_or(70u32)?;
    if sum(&record) != 0 {
        return Err(71);
    }
    let address = usize::from(record[1]) * 256 + usize::from(record[2]);
    let data = &record[HEAD..record.len() - 1];
    match record[3] {
        DATA => name(address, data, named).map(|()| false),
        END if data.is_empty() => Ok(true),
        _ => Err(72),
    }
}

/// The bytes of a line that is a colon, as many pairs of digits as the first one tells, and LF.
fn record(line: &[u8]) -> Option<Vec<u8>> {
    let digits = line.strip_prefix(b":")?.strip_suffix(b"\n")?;
    if digits.len() % 2 != 0 {
        return None;
    }
    let pairs = digits.chunks(2).map(|pair| Some(digit(pair[0])? * 16 + digit(pair[1])?));
    let record = pairs.collect::<Option<Vec<u8>>>()?;
    let count = usize::from(*record.first()?);
    if record.len() == HEAD + count + 1 {
        Some(record)
    } else {
        None
    }
}

fn digit(character: u8) -> Option<u8> {
    match character {
        b'0'..=b'9' => Some(character - b'0'),
        b'A'..=b'F' => Some(character - b'A' + 10),
        b'a'..=b'f' => Some(character - b'a' + 10),
        _ => None,
    }
}

/// With its checksum a record's bytes have the sum 0.
fn sum(bytes: &[u8]) -> u8 {
    bytes.iter().fold(0, |sum, byte| sum.wrapping_add(*byte))
}

/// Notes the data of a record. One without data names nothing, whatever its address.
fn name(address: usize, data: &[u8], named: &mut [Option<u8>]) -> Result<(), u32> {
    if data.is_empty() {
        return Ok(());
    }
    let places = named.get_mut(address..address + data.len()).ok_or(72u32)?;
    if places.iter().any(|place| place.is_some()) {
        return Err(73);
    }
    for (place, byte) in places.iter_mut().zip(data) {
        *place = Some(*byte);
    }
    Ok(())
}

/// Writes the text at the room's start and answers its length.
pub fn export(cells: &[u32], room: &mut [u8]) -> Result<usize, u32> {
    if !cells_fit(cells.len()) {
        return Err(12);
    }
    let text = exported(cells);
    if room.len() < text.len() {
        return Err(48);
    }
    room[..text.len()].copy_from_slice(&text);
    Ok(text.len())
}

/// A record for each group that is not all zero, and the end record. The last group may have fewer cells.
pub fn exported(cells: &[u32]) -> Vec<u8> {
    let mut text = Vec::new();
    for (number, group) in cells.chunks(GROUP_CELLS).enumerate() {
        if group.iter().any(|cell| *cell != 0) {
            let data: Vec<u8> = group.iter().flat_map(|cell| cell.to_le_bytes()).collect();
            text.extend(line((4 * GROUP_CELLS * number) as u16, DATA, &data));
        }
    }
    text.extend(line(0, END, &[]));
    text
}

/// The line of a record, with its checksum.
pub fn line(address: u16, kind: u8, data: &[u8]) -> Vec<u8> {
    let [high, low] = address.to_be_bytes();
    let mut record = vec![data.len() as u8, high, low, kind];
    record.extend(data);
    record.push(sum(&record).wrapping_neg());
    line_of(&record)
}

/// The line of these bytes, whatever they are.
pub fn line_of(record: &[u8]) -> Vec<u8> {
    let mut line = vec![b':'];
    for byte in record {
        line.extend([DIGITS[usize::from(byte / 16)], DIGITS[usize::from(byte % 16)]]);
    }
    line.push(b'\n');
    line
}

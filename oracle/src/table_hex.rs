//! What is counted of imports and exports, by name. It looks at the texts and cells for itself.

use crate::hex;
use crate::job::Refused;
use crate::machine::MOST_CELLS;

/// What happens to imports. A line that is refused is told by its flaw, and by what would be refused without it;
/// a digit that is none, by its byte.
pub const IMPORTS: [&str; 102] = [
    "import 12 with M 0, the text good",
    "import 12 with M 0, the text bad",
    "import 12 with M 16385, the text good",
    "import 12 with M 16385, the text bad",
    "import 70 empty line",
    "import 70 empty line at line 1",
    "import 70 CR LF",
    "import 70 no LF",
    "import 70 no colon",
    "import 70 odd digits",
    "import 70 no digits",
    "import 70 too few digits",
    "import 70 too many digits",
    "import 70 digit 00",
    "import 70 digit 0D",
    "import 70 digit 20",
    "import 70 digit 2F",
    "import 70 digit 3A",
    "import 70 digit 40",
    "import 70 digit 47",
    "import 70 digit 60",
    "import 70 digit 67",
    "import 70 digit 80",
    "import 70 digit B0",
    "import 71 sum 1",
    "import 71 sum 128",
    "import 71 sum 255",
    "import 71 end record",
    "import 72 type 02",
    "import 72 type 03",
    "import 72 type 04",
    "import 72 type 05",
    "import 72 type 06",
    "import 72 type 10",
    "import 72 type 80",
    "import 72 type FF",
    "import 72 end record of 1 data bytes",
    "import 72 end record of 255 data bytes",
    "import 72 with M 1, bytes past the cells 1 of 1",
    "import 72 with M 1, bytes past the cells 1 of 2",
    "import 72 with M 3, bytes past the cells 1 of 1",
    "import 72 with M 3, bytes past the cells 1 of 2",
    "import 72 with M 5, bytes past the cells 1 of 1",
    "import 72 with M 5, bytes past the cells 1 of 2",
    "import 72 with M 16384, bytes past the cells 1 of 2",
    "import 72 with M 16384, bytes past the cells 254 of 255",
    "import 73 bytes twice 1, from the left",
    "import 73 bytes twice 1, from the right",
    "import 73 bytes twice 1, inside",
    "import 73 bytes twice 1, the whole",
    "import 73 bytes twice 4, the whole",
    "import 73 bytes twice 4, around",
    "import 73 the same values",
    "import 74 at line 1",
    "import 74 at line 2",
    "import 75 at line 2",
    "import 75 data record",
    "import 75 end record",
    "import 75 empty line",
    "import 75 no LF",
    "import 75 no record",
    "import 70 above line 1000",
    "import 71 above line 1000",
    "import 72 above line 1000",
    "import 73 above line 1000",
    "import 74 above line 1000",
    "import 75 above line 1000",
    "import flaws 71 72",
    "import flaws 71 73",
    "import flaws 72 73",
    "import flaws 71 72 73",
    "import 70, then 71",
    "import 70, then 72",
    "import 70, then 73",
    "import 71, then 70",
    "import 71, then 72",
    "import 71, then 73",
    "import 72, then 70",
    "import 72, then 71",
    "import 72, then 73",
    "import 73, then 70",
    "import 73, then 71",
    "import 73, then 72",
    "import of 2000 lines",
    "import of lowercase digits",
    "import of mixed case",
    "import of record of 0 bytes",
    "import of record of 0 bytes past the cells",
    "import of record of 1 bytes",
    "import of record of 16 bytes",
    "import of record of 254 bytes",
    "import of record of 255 bytes",
    "import of 1 bytes at 65535",
    "import of 0 bytes at 65535",
    "import of last byte of M 1",
    "import of last byte of M 3",
    "import of last byte of M 5",
    "import of last byte of M 16384",
    "import of falling addresses",
    "import of end record with an address",
    "import of end record without an address",
    "import of nothing but the end record",
];

/// What happens to exports. A group's length is in bytes, and so are the places of its bytes.
pub const EXPORTS: [&str; 26] = [
    "export 12 with M 0",
    "export 12 with M 16385",
    "export 12 with room 0",
    "export 48 with room 0",
    "export 48 by one byte",
    "export into just enough room",
    "export into more room",
    "export of all zeros",
    "export of whole memory",
    "export of M 1, last group of 4",
    "export of M 3, last group of 12",
    "export of M 5, last group of 4",
    "export of M 4, last group of 16",
    "export of M 8, last group of 16",
    "export of M 16384, last group of 16",
    "export of M 1, last group of zeros",
    "export of M 3, last group of zeros",
    "export of M 5, last group of zeros",
    "export of M 16384, last group of zeros",
    "export of group with byte 0 alone",
    "export of group with byte 3 alone",
    "export of group with byte 4 alone",
    "export of group with byte 15 alone",
    "export of group with zeros inside",
    "export of checksum 00",
    "export of checksum FF",
];

/// A line that has a record's characters and length.
struct Record {
    kind: u8,
    address: usize,
    data: Vec<u8>,
    sum: u8,
}

impl Record {
    fn new(line: &[u8]) -> Option<Record> {
        let digits = std::str::from_utf8(line).ok()?.strip_prefix(':')?.strip_suffix('\n')?;
        if digits.len() < 10 || digits.len() % 2 != 0 || !digits.bytes().all(|digit| digit.is_ascii_hexdigit()) {
            return None;
        }
        let byte = |at: usize| u8::from_str_radix(&digits[at..at + 2], 16).expect("digits are hexadecimal");
        let bytes: Vec<u8> = (0..digits.len()).step_by(2).map(byte).collect();
        if bytes.len() != bytes[0] as usize + 5 {
            return None;
        }
        let sum = bytes.iter().map(|byte| *byte as usize).sum::<usize>() as u8;
        let address = bytes[1] as usize * 256 + bytes[2] as usize;
        Some(Record { kind: bytes[3], address, data: bytes[4..bytes.len() - 1].to_vec(), sum })
    }

    fn end(&self) -> usize {
        self.address + self.data.len()
    }

    /// How many bytes of data lie past the cells.
    fn past(&self, m: usize) -> usize {
        self.end().saturating_sub(self.address.max(4 * m))
    }

    fn is_refused_72(&self, m: usize) -> bool {
        match self.kind {
            hex::DATA => self.past(m) > 0,
            hex::END => !self.data.is_empty(),
            _ => true,
        }
    }

    /// How many bytes of data the other one has too.
    fn twice(&self, other: &Record) -> usize {
        self.end().min(other.end()).saturating_sub(self.address.max(other.address))
    }
}

fn lines(text: &[u8]) -> Vec<&[u8]> {
    text.split_inclusive(|byte| *byte == b'\n').collect()
}

/// The names of what an import shows.
pub fn of_import(text: &[u8], m: usize, done: Result<(), Refused>) -> Vec<String> {
    let names = match done {
        Ok(()) => of_imported(&lines(text), m),
        Err((12, _)) => {
            let good = hex::import(text, &mut vec![0; MOST_CELLS]).is_ok();
            vec![format!("12 with M {m}, the text {}", if good { "good" } else { "bad" })]
        }
        Err((number, at)) => of_refused(&lines(text), m, number, at),
    };
    names.into_iter().map(|name| format!("import {name}")).collect()
}

fn of_refused(lines: &[&[u8]], m: usize, number: u32, at: usize) -> Vec<String> {
    let mut names = vec![format!("{number} at line {at}")];
    if at > 1_000 {
        names.push(format!("{number} above line 1000"));
    }
    if number == 74 {
        return names;
    }
    let (before, line, behind) = (&lines[..at - 1], lines[at - 1], &lines[at..]);
    if let Err((other, _)) = hex::import(&[before.concat(), behind.concat()].concat(), &mut vec![0; m]) {
        names.push(format!("{number}, then {other}"));
    }
    match (number, Record::new(line)) {
        (75, record) => names.push(format!("75 {}", what(line, record))),
        (70, _) => {
            names.push(format!("70 {}", no_record(line)));
            names.push(format!("70 {} at line {at}", no_record(line)));
        }
        (_, Some(record)) => {
            let before: Vec<Record> = before.iter().filter_map(|line| Record::new(line)).collect();
            names.extend(of_record(number, &record, &before, m));
        }
        _ => {}
    }
    names
}

/// What a line behind the end record is.
fn what(line: &[u8], record: Option<Record>) -> &'static str {
    match record {
        Some(record) if record.kind == hex::DATA => "data record",
        Some(_) => "end record",
        None if line == b"\n" => "empty line",
        None if !line.ends_with(b"\n") => "no LF",
        None => "no record",
    }
}

/// Why a line is no record.
fn no_record(line: &[u8]) -> String {
    let Some(line) = line.strip_suffix(b"\n") else {
        return "no LF".to_string();
    };
    match (line, line.strip_prefix(b":")) {
        (b"", _) => "empty line".to_string(),
        (_, None) => "no colon".to_string(),
        (_, Some(b"")) => "no digits".to_string(),
        (_, Some([digits @ .., b'\r'])) if digits.iter().all(u8::is_ascii_hexdigit) => "CR LF".to_string(),
        (_, Some(digits)) => no_digits(digits),
    }
}

fn no_digits(digits: &[u8]) -> String {
    if let Some(byte) = digits.iter().find(|digit| !digit.is_ascii_hexdigit()) {
        return format!("digit {byte:02X}");
    }
    if digits.len() % 2 != 0 {
        return "odd digits".to_string();
    }
    let text = std::str::from_utf8(&digits[..2]).expect("digits are ASCII");
    let count = usize::from_str_radix(text, 16).expect("digits are hexadecimal");
    format!("too {} digits", if digits.len() < 2 * count + 10 { "few" } else { "many" })
}

/// What a record that is refused shows, with those before it.
fn of_record(number: u32, record: &Record, before: &[Record], m: usize) -> Vec<String> {
    let other = before.iter().find(|other| other.kind == hex::DATA && other.twice(record) > 0);
    let (kind, length) = (record.kind, record.data.len());
    let flaws =
        [(71, record.sum != 0), (72, record.is_refused_72(m)), (73, other.is_some() && record.kind == hex::DATA)];
    let flaws: Vec<String> =
        flaws.into_iter().filter(|(_, flawed)| *flawed).map(|(flaw, _)| flaw.to_string()).collect();
    let mut names = vec![format!("flaws {}", flaws.join(" "))];
    match (number, other) {
        (71, _) => {
            names.push(format!("71 sum {}", record.sum));
            if kind == hex::END {
                names.push("71 end record".to_string());
            }
        }
        (72, _) => names.push(match kind {
            hex::DATA => format!("72 with M {m}, bytes past the cells {} of {length}", record.past(m)),
            hex::END => format!("72 end record of {length} data bytes"),
            _ => format!("72 type {kind:02X}"),
        }),
        (73, Some(other)) => {
            names.push(format!("73 bytes twice {}, {}", record.twice(other), place(record, other)));
            if record.address == other.address && record.data == other.data {
                names.push("73 the same values".to_string());
            }
        }
        _ => {}
    }
    names
}

/// How a record lies to another one with which it shares a byte.
fn place(record: &Record, other: &Record) -> &'static str {
    let (from_front, to_end) = (record.address <= other.address, record.end() >= other.end());
    match (from_front, to_end) {
        (true, true) if (record.address, record.end()) == (other.address, other.end()) => "the whole",
        (true, true) => "around",
        (true, false) => "from the left",
        (false, true) => "from the right",
        (false, false) => "inside",
    }
}

fn of_imported(lines: &[&[u8]], m: usize) -> Vec<String> {
    let mut names = Vec::new();
    if lines.len() >= 2_000 {
        names.push("of 2000 lines".to_string());
    }
    if lines.len() == 1 {
        names.push("of nothing but the end record".to_string());
    }
    let mut last = 0;
    for (line, record) in lines.iter().filter_map(|line| Some((line, Record::new(line)?))) {
        if line.iter().any(u8::is_ascii_lowercase) {
            let mixed = line.iter().any(u8::is_ascii_uppercase);
            names.push(format!("of {}", if mixed { "mixed case" } else { "lowercase digits" }));
        }
        names.extend(of_good(&record, m));
        if record.kind == hex::DATA && record.address < last {
            names.push("of falling addresses".to_string());
        }
        last = record.address;
    }
    names
}

fn of_good(record: &Record, m: usize) -> Vec<String> {
    let (address, length) = (record.address, record.data.len());
    if record.kind == hex::END {
        let with = if address > 0 { "with" } else { "without" };
        return vec![format!("of end record {with} an address")];
    }
    let mut names = vec![format!("of record of {length} bytes")];
    if address == 65_535 {
        names.push(format!("of {length} bytes at 65535"));
    }
    if length == 0 && address > 4 * m {
        names.push("of record of 0 bytes past the cells".to_string());
    }
    if length > 0 && record.end() == 4 * m {
        names.push(format!("of last byte of M {m}"));
    }
    names
}

/// The names of what an export shows.
pub fn of_export(cells: &[u32], room: usize, done: Result<usize, u32>) -> Vec<String> {
    let names = match done {
        Ok(length) => of_exported(cells, room, length),
        Err(12) => vec![format!("12 with M {}", cells.len()), format!("12 with room {room}")],
        Err(number) => {
            let mut names = vec![format!("{number} with room {room}")];
            if room + 1 == hex::exported(cells).len() {
                names.push(format!("{number} by one byte"));
            }
            names
        }
    };
    names.into_iter().map(|name| format!("export {name}")).collect()
}

fn of_exported(cells: &[u32], room: usize, length: usize) -> Vec<String> {
    let bytes: Vec<u8> = cells.iter().flat_map(|cell| cell.to_le_bytes()).collect();
    let groups: Vec<&[u8]> = bytes.chunks(16).collect();
    let empty = |group: &[u8]| group.iter().all(|byte| *byte == 0);
    let mut names = vec![format!("into {} room", if room == length { "just enough" } else { "more" })];
    if empty(&bytes) {
        names.push("of all zeros".to_string());
    }
    if cells.len() == MOST_CELLS && groups.iter().all(|group| !empty(group)) {
        names.push("of whole memory".to_string());
    }
    let last = groups[groups.len() - 1];
    let form = if empty(last) { "zeros".to_string() } else { last.len().to_string() };
    names.push(format!("of M {}, last group of {form}", cells.len()));
    for (number, group) in groups.into_iter().enumerate().filter(|(_, group)| !empty(group)) {
        names.extend(of_group(16 * number, group));
    }
    names
}

fn of_group(address: usize, group: &[u8]) -> Vec<String> {
    let places: Vec<usize> = (0..group.len()).filter(|place| group[*place] != 0).collect();
    let sum: usize = group.iter().map(|byte| *byte as usize).sum();
    let checksum = (group.len() + address / 256 + address + sum).wrapping_neg() as u8;
    let mut names = vec![format!("of checksum {checksum:02X}")];
    if let [place] = places[..] {
        names.push(format!("of group with byte {place} alone"));
    }
    if places[places.len() - 1] - places[0] >= places.len() {
        names.push("of group with zeros inside".to_string());
    }
    names
}

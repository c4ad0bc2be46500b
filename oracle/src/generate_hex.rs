//! Trials of Intel HEX texts that are imported: records and lines at their limits, and every flaw.

use crate::file::Trials;
use crate::generate_hex_flaws;
use crate::hex::{line, line_of, DATA, END};
use crate::random::Random;
use crate::trial::IMPORT;

/// The cells of trials in which their number is of no interest.
pub const M: u32 = 8;

/// What is no digit, at the edges of the digits and elsewhere, and ends of lines.
const CHARACTERS: [u8; 16] =
    [0x00, b'\n', b'\r', b' ', b'+', b'/', b':', b'@', b'G', b'`', b'g', b'x', 0x80, 0xB0, 0xC1, 0xFF];

pub fn edges(random: &mut Random, trials: &mut Trials) {
    sizes(trials);
    characters(trials);
    left_out_or_doubled(trials);
    counts(trials);
    addresses(trials);
    places(trials);
    cases(trials);
    generate_hex_flaws::edges(trials);
    orders(random, trials);
    many(trials);
    high_lines(trials);
}

pub fn import(m: u32, text: &[u8], trials: &mut Trials) {
    let mut payload = m.to_le_bytes().to_vec();
    payload.extend(text);
    trials.add(IMPORT, &payload);
}

/// These lines, and the end record behind them.
pub fn import_lines(m: u32, lines: &[Vec<u8>], trials: &mut Trials) {
    import(m, &[lines.concat(), end()].concat(), trials);
}

pub fn end() -> Vec<u8> {
    line(0, END, &[])
}

/// So many bytes, of which no two of 256 are the same.
pub fn bytes(count: usize) -> Vec<u8> {
    (0..count).map(|at| (7 * at + 1) as u8).collect()
}

pub fn data(address: u32, count: usize) -> Vec<u8> {
    line(address as u16, DATA, &bytes(count))
}

/// A line whose checksum is right, and whose count may not be.
pub fn with_count(count: u8, address: u16, kind: u8, data: &[u8]) -> Vec<u8> {
    let [high, low] = address.to_be_bytes();
    let mut record = vec![count, high, low, kind];
    record.extend(data);
    let sum = record.iter().fold(0u8, |sum, byte| sum.wrapping_add(*byte));
    record.push(sum.wrapping_neg());
    line_of(&record)
}

/// A line with another sum.
pub fn with_sum(sum: u8, address: u16, kind: u8, data: &[u8]) -> Vec<u8> {
    let [high, low] = address.to_be_bytes();
    let mut record = vec![data.len() as u8, high, low, kind];
    record.extend(data);
    let without = record.iter().fold(0u8, |sum, byte| sum.wrapping_add(*byte));
    record.push(sum.wrapping_sub(without));
    line_of(&record)
}

/// No cells, too many, the least and the most, each with texts that are good and bad.
fn sizes(trials: &mut Trials) {
    let texts = [
        end(),
        [data(0, 4), end()].concat(),
        vec![],
        b"\n".to_vec(),
        [with_sum(1, 0, DATA, &[5]), end()].concat(),
        [line(0, 4, &[0, 0]), end()].concat(),
        [data(0, 1), data(0, 1), end()].concat(),
        data(0, 4),
        [end(), end()].concat(),
    ];
    for m in [0, 1, 16_384, 16_385, 16_500] {
        for text in &texts {
            import(m, text, trials);
        }
    }
}

/// Each character of a record replaced, LF and the colon too.
fn characters(trials: &mut Trials) {
    let record = line(2, DATA, &[0xFA]);
    for place in 0..record.len() {
        for character in CHARACTERS {
            let mut wrong = record.clone();
            wrong[place] = character;
            import_lines(M, &[data(8, 2), wrong], trials);
        }
    }
}

/// Each character of a record left out, and doubled; of a data record and of the end record.
fn left_out_or_doubled(trials: &mut Trials) {
    for (record, behind) in [(line(2, DATA, &[0xFA]), end()), (end(), vec![])] {
        for place in 0..record.len() {
            let mut without = record.clone();
            without.remove(place);
            import(M, &[data(8, 2), without, behind.clone()].concat(), trials);
            let mut doubled = record.clone();
            doubled.insert(place, record[place]);
            import(M, &[data(8, 2), doubled, behind.clone()].concat(), trials);
        }
    }
}

/// Counts of data bytes up to the most, and those that do not fit by one; the last two are right modulo 256.
fn counts(trials: &mut Trials) {
    for count in [0, 1, 2, 15, 16, 17, 127, 128, 253, 254, 255] {
        import_lines(64, &[data(0, count)], trials);
        for told in [count as u8 + u8::from(count < 255), (count as u8).saturating_sub(1)] {
            if usize::from(told) != count {
                import_lines(64, &[with_count(told, 0, DATA, &bytes(count))], trials);
            }
        }
    }
    for count in [256, 257] {
        import_lines(128, &[with_count(count as u8, 0, DATA, &bytes(count))], trials);
    }
    // Two bytes where there must be five, and up to the end record's five.
    for count in 1..=5 {
        import_lines(M, &[line_of(&[0, 0, 0, 0, 0][..count])], trials);
        import(M, &line_of(&[0, 0, 0, 1, 0xFF][..count]), trials);
    }
}

/// Records whose last byte is the last of the cells, one before it and one past it; and from the end on.
fn addresses(trials: &mut Trials) {
    for m in [1, 3, 5, 16_384] {
        for count in [0, 1, 2, 255] {
            for last in [4 * m - 1, 4 * m, 4 * m + 1] {
                if last >= count && last - count <= 65_535 {
                    import_lines(m, &[data(last - count, count as usize)], trials);
                }
            }
        }
        for address in [4 * m, 0x8000, 65_534, 65_535] {
            for count in [0, 1, 2, 255] {
                if address <= 65_535 {
                    import_lines(m, &[data(0, 1), data(address, count)], trials);
                }
            }
        }
    }
    // Each bit of an address, and the order of its bytes.
    let bits: Vec<Vec<u8>> = (0..16).map(|bit| line(1 << bit, DATA, &[bit + 1])).collect();
    import_lines(16_384, &bits, trials);
    for address in [0x0102, 0x0201, 0x0300] {
        import_lines(192, &[data(address, 3)], trials);
    }
}

/// Bytes at each of the four places in a cell, and on into the next one.
fn places(trials: &mut Trials) {
    for address in 0..=4 {
        for count in 1..=5 {
            import_lines(3, &[data(address, count)], trials);
        }
    }
    let one_by_one: Vec<Vec<u8>> = (0..12).map(|place| line(place, DATA, &[0xF0 - place as u8])).collect();
    import_lines(3, &one_by_one, trials);
}

/// Every byte's digits in both cases, and mixed; lowercase in one part of a line alone.
fn cases(trials: &mut Trials) {
    let text = [data(0, 255), data(255, 1), end()].concat();
    let every_other = |first: usize| {
        let small = |(at, byte): (usize, &u8)| if at % 2 == first { byte.to_ascii_lowercase() } else { *byte };
        text.iter().enumerate().map(small).collect::<Vec<u8>>()
    };
    for text in [text.clone(), text.to_ascii_lowercase(), every_other(0), every_other(1)] {
        import(64, &text, trials);
    }
    let record = line(0xABC, DATA, &[0xDE; 11]);
    for place in 1..record.len() {
        let mut small = record.clone();
        small[place].make_ascii_lowercase();
        if small != record {
            import_lines(1_024, &[small], trials);
        }
    }
    import(M, b":00000001ff\n", trials);
    import(M, b":00000001fF\n", trials);
}

/// Records in rising, in falling and in any order; names that leave gaps.
fn orders(random: &mut Random, trials: &mut Trials) {
    let mut lines: Vec<Vec<u8>> = (0..64).map(|at| line(4 * at, DATA, &random.bits().to_le_bytes())).collect();
    import_lines(64, &lines, trials);
    lines.reverse();
    import_lines(64, &lines, trials);
    for _ in 0..4 {
        shuffle(&mut lines, random);
        import_lines(64, &lines, trials);
        import_lines(64, &lines[..20], trials);
    }
    let pieces: Vec<Vec<u8>> = (0..30).map(|at| data(7 * at, 1 + at as usize % 6)).collect();
    import_lines(64, &pieces, trials);
}

pub fn shuffle<T>(list: &mut [T], random: &mut Random) {
    for at in (1..list.len()).rev() {
        list.swap(at, random.below(at as u64 + 1) as usize);
    }
}

/// 2,000 lines and more: a byte in each, in rising and falling order, and records without data.
fn many(trials: &mut Trials) {
    let mut lines: Vec<Vec<u8>> = (0..2_000).map(|at| line(at, DATA, &[at as u8])).collect();
    import_lines(500, &lines, trials);
    import_lines(499, &lines, trials);
    lines.reverse();
    import_lines(500, &lines, trials);
    import_lines(M, &vec![data(65_535, 0); 3_300], trials);
}

/// Refusals at lines whose numbers are large.
fn high_lines(trials: &mut Trials) {
    for before in [254, 255, 256, 1_100, 2_500] {
        let first = [data(0, 4), data(0, 0).repeat(before - 1)].concat();
        let bad = [
            b"\n".to_vec(),
            with_sum(255, 8, DATA, &[1]),
            line(0, 5, &[0; 4]),
            data(3, 1),
            vec![],
            [end(), end()].concat(),
        ];
        for last in if before > 2_000 { &bad[4..] } else { &bad[..] } {
            import(M, &[first.clone(), last.clone()].concat(), trials);
        }
    }
}

pub fn random(random: &mut Random, trials: &mut Trials) {
    let m = random.pick(&[0, 1, 2, 3, 4, 5, 8, 8, 40, 40, 300, 300, 16_384, 16_384, 16_385]);
    let mut lines = valid(m.max(1), random);
    for _ in 0..random.pick(&[0, 0, 1, 1, 2]) {
        damage_lines(&mut lines, m, random);
    }
    let mut text = lines.concat();
    if random.chance(25) && !text.is_empty() {
        damage_bytes(&mut text, random);
    }
    import(m, &text, trials);
}

/// Records that share no byte, most often not in order, with digits in any case; and the end record.
fn valid(m: u32, random: &mut Random) -> Vec<Vec<u8>> {
    let mut lines = Vec::new();
    let mut address = random.pick(&[0, 0, 1, 5]);
    while address < 4 * m && lines.len() < 12 && random.chance(90) {
        let most = random.pick(&[0, 1, 2, 4, 16, 16, 40, 255]).min(4 * m - address);
        let values: Vec<u8> = (0..most).map(|_| if random.chance(20) { 0 } else { random.bits() as u8 }).collect();
        lines.push(line(address as u16, DATA, &values));
        address += most + random.pick(&[0, 0, 0, 1, 3, 100, 5_000]);
    }
    if random.chance(60) {
        shuffle(&mut lines, random);
    }
    let address = if random.chance(80) { 0 } else { random.bits() as u16 };
    lines.push(line(address, END, &[]));
    for line in &mut lines {
        match random.below(5) {
            0 => line.make_ascii_lowercase(),
            1 => line[random.below(9) as usize..].make_ascii_lowercase(),
            _ => {}
        }
    }
    lines
}

fn damage_lines(lines: &mut Vec<Vec<u8>>, m: u32, random: &mut Random) {
    if lines.is_empty() {
        return;
    }
    let at = random.below(lines.len() as u64) as usize;
    let other = random.below(lines.len() as u64) as usize;
    let address = random.pick(&[0, 1, 2, 7, 4 * m.max(1) - 1, 4 * m, 65_535]);
    match random.below(11) {
        0 => lines.swap(at, other),
        1 => lines.insert(other, lines[at].clone()),
        2 => drop(lines.remove(at)),
        3 => lines.insert(at, data(address, random.pick(&[0, 1, 2, 3]))),
        4 => lines.insert(at, line(address as u16, random.pick(&[1, 2, 3, 4, 5, 6, 255]), &bytes(at % 5))),
        5 => lines.insert(at, with_sum(random.bits() as u8, address as u16, DATA, &bytes(other % 5))),
        6 => lines.insert(at, with_count(random.pick(&[0, 1, 2, 4, 255]), address as u16, DATA, &bytes(2))),
        7 => lines.insert(at, random.pick(&["\n", ":\n", " \n", "\r\n", ":00\n", ";\n"]).as_bytes().to_vec()),
        8 => drop(lines[at].pop()),
        9 => lines.insert(at, end()),
        _ => {
            let place = lines[at].len() - 1;
            lines[at].insert(place, random.pick(b"\r 0\0"));
        }
    }
}

fn damage_bytes(text: &mut Vec<u8>, random: &mut Random) {
    let at = random.below(text.len() as u64) as usize;
    match random.below(6) {
        0 => text.truncate(at),
        1 => text[at] = random.bits() as u8,
        2 => text[at] = random.pick(&CHARACTERS),
        3 => text[at] = random.pick(b"0123456789ABCDEFabcdef"),
        4 => drop(text.remove(at)),
        _ => text.insert(at, text[at]),
    }
}

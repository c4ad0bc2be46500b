//! Trials of Intel HEX texts by what is wrong with their lines: ends of lines, overlaps, types, end records, and several flaws.

use crate::file::Trials;
use crate::generate_hex::{bytes, data, end, import, import_lines, with_count, with_sum, M};
use crate::hex::{line, DATA, END};

pub fn edges(trials: &mut Trials) {
    line_ends(trials);
    blank_lines(trials);
    checksums(trials);
    overlaps(trials);
    overlaps_of_many(trials);
    types(trials);
    ends(trials);
    behind_the_end(trials);
    two_bad_lines(trials);
    two_flaws(trials);
}

/// CR, no LF, and other characters about the end of a line and before its front.
fn line_ends(trials: &mut Trials) {
    let (first, last) = (":01000000AA55", ":00000001FF");
    for (before, between, behind) in [
        ("", "\n", "\n"),
        ("", "\n", ""),
        ("", "\r\n", "\r\n"),
        ("", "\r\n", "\n"),
        ("", "\n", "\r\n"),
        ("", "\n", "\r"),
        ("", "\r", "\r"),
        ("", "\n\r", "\n\r"),
        ("", " \n", "\n"),
        ("", "\n", " \n"),
        ("", "\n", "\t\n"),
        ("", "\n", "\0\n"),
        ("", "", "\n"),
        ("", "\n ", "\n"),
        (" ", "\n", "\n"),
        ("\u{FEFF}", "\n", "\n"),
        ("00", "\n", "\n"),
        (":", "\n", "\n"),
        ("", "\n:", "\n"),
        ("; a line of another kind\n", "\n", "\n"),
        ("", "\u{B}", "\n"),
        ("", "\u{85}", "\n"),
        ("", "\n", "\u{C}\n"),
        ("", "\n", "\n\0"),
    ] {
        import(M, format!("{before}{first}{between}{last}{behind}").as_bytes(), trials);
    }
    for text in ["", ":", "\r", "\0", ":0", ":00000001FF", ":01000000AA55", ":01000000AA55\n", ":00000001F"] {
        import(M, text.as_bytes(), trials);
    }
}

/// Empty lines at the front, between, before the end record and behind it, and nothing else.
fn blank_lines(trials: &mut Trials) {
    for blank in ["\n", "\r\n", " \n", "\0\n", ":\n"] {
        for place in 0..=3 {
            let mut lines = [data(0, 4), data(8, 4), end()].map(|line| String::from_utf8(line).unwrap()).to_vec();
            lines.insert(place, blank.to_string());
            import(M, lines.concat().as_bytes(), trials);
        }
        import(M, blank.as_bytes(), trials);
    }
    import(M, b"\n\n", trials);
}

/// Sums of a record that is good but for them, of data and of the end.
fn checksums(trials: &mut Trials) {
    for sum in [0, 1, 2, 0x0F, 0x10, 0x7F, 0x80, 0x81, 0xF0, 0xFE, 0xFF] {
        import_lines(M, &[data(4, 4), with_sum(sum, 8, DATA, &[1, 2])], trials);
        import(M, &[data(4, 4), with_sum(sum, 0, END, &[])].concat(), trials);
    }
    // The checksum 0, and data that only a sum above 255, with all its carries, takes to it.
    for values in [vec![0xFF], vec![0xFE, 0], vec![0x7F, 0x7F], vec![0xFF; 16], vec![0; 16]] {
        import_lines(M, &[line(0, DATA, &values)], trials);
    }
}

/// Every way that a record can lie to one of four bytes, before it and behind it in the text.
fn overlaps(trials: &mut Trials) {
    for address in 6..=13 {
        for count in [0, 1, 2, 4, 6] {
            import_lines(M, &[data(8, 4), data(address, count)], trials);
            import_lines(M, &[data(address, count), data(8, 4)], trials);
        }
    }
    // The same value again, and zeros.
    for values in [vec![7], vec![0], vec![0, 0, 0, 0], vec![255; 5]] {
        import_lines(M, &[line(3, DATA, &values), line(3, DATA, &values)], trials);
    }
    import_lines(M, &[line(3, DATA, &[0]), line(3, DATA, &[9])], trials);
    import_lines(M, &[line(3, DATA, &[9]), line(3, DATA, &[0])], trials);
}

/// A byte of any record before, by the first and the last byte of long ones, and at the end of the cells.
fn overlaps_of_many(trials: &mut Trials) {
    let parts = [data(0, 4), data(9, 1), data(4, 4), data(20, 12)];
    for address in 0..32 {
        import_lines(M, &[parts.concat(), data(address, 1)], trials);
    }
    for address in 4 * M - 6..=4 * M {
        import_lines(M, &[data(4 * M - 2, 2), data(address, 4)], trials);
    }
    for (first, second) in [(0, 254), (254, 0), (0, 255), (255, 0)] {
        import_lines(128, &[data(first, 255), data(second, 255)], trials);
    }
    import_lines(16_384, &[data(65_535, 1), data(0, 1), data(65_535, 1)], trials);
    import_lines(16_384, &[data(65_535, 1), data(65_534, 2)], trials);
    import_lines(16_384, &[data(0, 1), data(65_535, 1), data(65_281, 255)], trials);
}

/// Types with data that would fit, none, and such as other records of the format have.
fn types(trials: &mut Trials) {
    for kind in (0..=6).chain([0x0A, 0x0F, 0x10, 0x11, 0x20, 0x80, 0x81, 0xFE, 0xFF]) {
        for count in [0, 2, 4] {
            import_lines(M, &[data(0, 4), line(8, kind, &bytes(count))], trials);
        }
    }
    for text in
        [":020000021000EC", ":0400000300003800C1", ":020000040000FA", ":02000004FFFFFC", ":04000005000000CD2A"]
    {
        import_lines(M, &[format!("{text}\n").into_bytes()], trials);
        import_lines(M, &[data(0, 4), format!("{text}\n").into_bytes()], trials);
    }
}

/// End records with any address, with data, first and last, and none.
fn ends(trials: &mut Trials) {
    for address in [0, 1, 0x1234, 4 * M - 1, 4 * M, 0x8000, 65_535] {
        import(M, &line(address as u16, END, &[]), trials);
        import(M, &[data(0, 4), line(address as u16, END, &[])].concat(), trials);
        import(M, &[data(0, 4), line(address as u16, END, &[0])].concat(), trials);
    }
    for count in [1, 2, 16, 255] {
        import(64, &line(0, END, &bytes(count)), trials);
        import_lines(64, &[line(0, END, &bytes(count))], trials);
    }
    for count in 1..=4 {
        import(M, &data(0, 0).repeat(count), trials);
        import(M, &(0..count as u32).map(|at| data(4 * at, 4)).collect::<Vec<_>>().concat(), trials);
    }
}

/// Lines behind the end record, good ones and bad ones, finished and not.
fn behind_the_end(trials: &mut Trials) {
    let behind = [
        data(8, 4),
        data(0, 4),
        data(4 * M, 1),
        data(0, 0),
        end(),
        b"\n".to_vec(),
        b"\r\n".to_vec(),
        b"\r".to_vec(),
        b" ".to_vec(),
        b"\0".to_vec(),
        b"\x1A".to_vec(),
        b":".to_vec(),
        b":00000001FF".to_vec(),
        b":0100000".to_vec(),
        b"G\n".to_vec(),
        with_sum(1, 8, DATA, &[1]),
        line(0, 4, &[0, 0]),
        line(0, END, &[1]),
        b"\n\n".to_vec(),
        [data(8, 4), end()].concat(),
        [b"\n".to_vec(), data(8, 4)].concat(),
    ];
    for last in behind {
        import(M, &[end(), last.clone()].concat(), trials);
        import(M, &[data(0, 4), data(4, 1), end(), last].concat(), trials);
    }
}

/// Lines that are bad behind four bytes at 0, one for each reason.
fn bad_lines() -> [Vec<u8>; 6] {
    [
        b":00G\n".to_vec(),
        with_count(3, 8, DATA, &bytes(2)),
        with_sum(1, 8, DATA, &[1]),
        line(8, 2, &[0, 0]),
        data(4 * M - 1, 2),
        data(3, 2),
    ]
}

/// The first of two bad lines decides, also with a good one between them; so it does over a missing end record and
/// over lines behind it.
fn two_bad_lines(trials: &mut Trials) {
    for first in bad_lines() {
        for second in bad_lines() {
            import_lines(M, &[data(0, 4), first.clone(), second], trials);
        }
        import(M, &[data(0, 4), first.clone(), data(16, 2)].concat(), trials);
        import(M, &[data(0, 4), first.clone()].concat(), trials);
        import(M, &[data(0, 4), end(), first.clone()].concat(), trials);
        import(M, &[data(0, 4), data(12, 1), first, data(16, 2), b"\n".to_vec(), end(), end()].concat(), trials);
    }
}

/// A line with any of the flaws 70, 71, 72 and 73 together, and with none.
fn two_flaws(trials: &mut Trials) {
    for twice in [false, true] {
        for (kind, past) in [(DATA, false), (DATA, true), (2, false), (END, false)] {
            for sum in [0, 1] {
                let from = if past { 4 * M - 2 } else { 4 * M - 4 };
                let named = data(if twice { from } else { 0 }, 1);
                let record = with_sum(sum, from as u16, kind, &bytes(4));
                for line in [record.clone(), no_record(&record, 0), no_record(&record, 1), no_record(&record, 2)] {
                    import_lines(M, &[named.clone(), line], trials);
                }
                import(M, &[named, record[..record.len() - 1].to_vec()].concat(), trials);
            }
        }
    }
}

/// The line with CR, without its last digit, or without the last byte.
fn no_record(line: &[u8], flaw: usize) -> Vec<u8> {
    let line = &line[..line.len() - 1];
    match flaw {
        0 => [line, b"\r\n"].concat(),
        1 => [&line[..line.len() - 1], b"\n"].concat(),
        _ => [&line[..line.len() - 2], b"\n"].concat(),
    }
}

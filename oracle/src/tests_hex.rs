//! Intel HEX: texts that are known, each refusal with its line, exports by hand, and the jobs made of texts.

use crate::hex::{export, exported, import};
use crate::image;
use crate::job::{record, Refused};
use crate::random::Random;

/// The example that descriptions of the format print.
const KNOWN: &str = "\
:10010000214601360121470136007EFE09D2190140
:100110002146017E17C20001FF5F16002148011928
:10012000194E79234623965778239EDA3F01B2CAA7
:100130003F0156702B5E712B722B732146013421C7
:00000001FF
";

const END: &str = ":00000001FF\n";

/// What becomes of M cells that held 9.
fn imported(m: usize, text: &str) -> (Result<(), Refused>, Vec<u32>) {
    let mut cells = vec![9; m];
    (import(text.as_bytes(), &mut cells), cells)
}

/// The cells of a text that is good with the end record behind it.
fn good(m: usize, lines: &str) -> Vec<u32> {
    let (done, cells) = imported(m, &format!("{lines}{END}"));
    assert_eq!(done, Ok(()), "{lines}");
    cells
}

/// A text that is refused, and leaves the cells as they were.
fn refused(m: usize, text: &str, number: u32, line: usize) {
    assert_eq!(imported(m, text), (Err((number, line)), vec![9; m]), "{text}");
}

fn text_of(cells: &[u32]) -> String {
    let mut room = vec![170; 200_000];
    let length = export(cells, &mut room).unwrap();
    assert!(room[length..].iter().all(|byte| *byte == 170));
    String::from_utf8(room[..length].to_vec()).unwrap()
}

#[test]
fn known_text() {
    let (done, cells) = imported(80, KNOWN);
    assert_eq!(done, Ok(()));
    assert_eq!(cells[..64], [0; 64]);
    assert_eq!(cells[64..68], [0x3601_4621, 0x0147_2101, 0xFE7E_0036, 0x0119_D209]);
    assert_eq!(cells[76..], [0x7056_013F, 0x2B71_5E2B, 0x2173_2B72, 0x2134_0146]);
    assert_eq!(text_of(&cells), KNOWN);
    assert_eq!(imported(80, &KNOWN.to_lowercase()), (Ok(()), cells));
    refused(79, KNOWN, 72, 4);
    refused(63, KNOWN, 72, 1);
    refused(80, &KNOWN.replace("\n", "\r\n"), 70, 1);
}

/// A known record of 11 bytes, `address gap`, which a group of 12 has with a zero behind it.
#[test]
fn record_of_text() {
    let line = ":0B0010006164647265737320676170A7\n";
    let cells = [0, 0, 0, 0, 0x7264_6461, 0x2073_7365, 0x0070_6167];
    assert_eq!(good(7, line), cells);
    refused(6, &format!("{line}{END}"), 72, 1);
    assert_eq!(text_of(&cells), format!(":0C001000616464726573732067617000A6\n{END}"));
}

/// Records of the format that the request leaves out.
#[test]
fn known_records_of_other_types() {
    for line in [":020000021200EA", ":0400000300003800C1", ":020000040800F2", ":04000005000000CD2A"] {
        refused(80, &format!("{line}\n{END}"), 72, 1);
        refused(80, &format!(":0000000000\n{line}\n{KNOWN}"), 72, 2);
    }
}

#[test]
fn bytes_of_cells() {
    assert_eq!(good(2, ""), [0, 0]);
    assert_eq!(good(2, ":0100000055AA\n"), [0x0000_0055, 0]);
    assert_eq!(good(2, ":0100010055A9\n"), [0x0000_5500, 0]);
    assert_eq!(good(2, ":0100020055A8\n"), [0x0055_0000, 0]);
    assert_eq!(good(2, ":0100030055A7\n"), [0x5500_0000, 0]);
    assert_eq!(good(2, ":020003001122C8\n"), [0x1100_0000, 0x22]);
    assert_eq!(good(2, ":0100070055A3\n:0100000011EE\n"), [0x11, 0x5500_0000]);
    assert_eq!(good(2, ":02000000aBcD86\n"), [0xCDAB, 0]);
    // A record of 0 bytes names nothing, wherever it is.
    assert_eq!(good(1, ":00FFFF0002\n:0000000000\n:0100000055AA\n"), [0x55]);
    assert_eq!(imported(1, ":01000000FF00\n:00ABCD0187\n"), (Ok(()), vec![0xFF]));
}

#[test]
fn last_byte_of_the_cells() {
    let last = ":01FFFF0055AC\n";
    let (done, cells) = imported(16_384, &format!("{last}{END}"));
    assert_eq!((done, cells[0], cells[16_383]), (Ok(()), 0, 0x5500_0000));
    refused(16_383, &format!("{last}{END}"), 72, 1);
    refused(16_384, &format!(":02FFFF00556646\n{last}{END}"), 71, 1);
    refused(16_384, &format!(":02FFFF00556645\n{END}"), 72, 1);
    assert_eq!(good(3, ":01000B00AB49\n"), [0, 0, 0xAB00_0000]);
    refused(3, &format!(":01000C00AB48\n{END}"), 72, 1);
    refused(3, &format!(":02000B00ABCD7B\n{END}"), 72, 1);
}

#[test]
fn longest_record() {
    // 255 bytes of 1: the sum is 255 + 255, so that the checksum is 2.
    let cells = good(64, &format!(":FF000000{}02\n", "01".repeat(255)));
    assert_eq!(cells[..63], [0x0101_0101; 63]);
    assert_eq!(cells[63], 0x0001_0101);
    refused(64, &format!(":FF000000{}02\n{END}", "01".repeat(254)), 70, 1);
    refused(64, &format!(":FF000000{}02\n{END}", "01".repeat(256)), 70, 1);
    refused(64, &format!(":00000000{}00\n{END}", "01".repeat(256)), 70, 1);
}

#[test]
fn refusals_of_sizes() {
    for text in [END, "", "\n", ":0100000055AB\n"] {
        refused(0, text, 12, 0);
        refused(16_385, text, 12, 0);
    }
    assert_eq!(export(&[], &mut [0; 20]), Err(12));
    assert_eq!(export(&vec![0; 16_385], &mut []), Err(12));
}

const NO_RECORDS: [&str; 30] = [
    "\n",
    "\r\n",
    " \n",
    ":\n",
    ":0\n",
    ":00\n",
    ":00000000\n",
    ":000000000\n",
    ":00000000000\n",
    ":000000000000\n",
    ":0100000000\n",
    ":0100000055A\n",
    ":0100000055AAA\n",
    ":0100000055AA00\n",
    ":0200000055AA\n",
    ":0000000055AB\n",
    "0100000055AA\n",
    " :0100000055AA\n",
    ":0100000055AA \n",
    ":0100000055AA\r\n",
    ":010000005GAA\n",
    ":010000005/AA\n",
    ":010000005:AA\n",
    ":010000005@AA\n",
    ":010000005`AA\n",
    ":010000005gAA\n",
    ":01000000+5AA\n",
    "::100000055AA\n",
    ";0100000055AA\n",
    ":0100000055AA:00000001FF\n",
];

#[test]
fn lines_that_are_no_records() {
    for line in NO_RECORDS {
        refused(8, &format!("{line}{END}"), 70, 1);
        refused(8, &format!(":0100000055AA\n:0100010055A9\n{line}{END}"), 70, 3);
    }
    for text in [":", ":00000001FF", ":0100000055AA", "G"] {
        refused(8, text, 70, 1);
        refused(8, &format!(":0100000055AA\n{text}"), 70, 2);
    }
}

#[test]
fn other_refusals_of_lines() {
    for (line, number) in [
        (":0100000055AB\n", 71),
        (":0100000055A9\n", 71),
        (":0100000155AA\n", 71),
        (":00000001FE\n", 71),
        (":0000000100\n", 71),
        (":0100000155A9\n", 72),
        (":00000002FE\n", 72),
        (":000000FF01\n", 72),
        (":010020005A85\n", 72),
        (":01001F005A86\n", 73),
        (":02001F005A5A2B\n", 72),
        (":02001F005A5A2C\n", 71),
        (":02001E005A5A2C\n", 73),
        (":01001F005A87\n", 71),
    ] {
        refused(8, &format!(":01001F005A86\n{line}{END}"), number, 2);
    }
}

#[test]
fn bytes_named_twice() {
    let first = ":0400040001020304EE\n";
    for line in [":0100040001FA", ":0100070004F4", ":02000300AABB96", ":02000700AABB92", ":0400040001020304EE"] {
        refused(8, &format!("{first}{line}\n{END}"), 73, 2);
    }
    assert_eq!(good(8, &format!("{first}:0100030005F7\n:0100080006F1\n"))[..3], [0x0500_0000, 0x0403_0201, 6]);
    refused(8, &format!(":0100030000FC\n{first}:0100030000FC\n{END}"), 73, 3);
}

#[test]
fn the_end_record_and_lines_behind_it() {
    refused(8, "", 74, 1);
    refused(8, ":0100000055AA\n", 74, 2);
    refused(8, ":0100000055AA\n:0100010055A9\n", 74, 3);
    for behind in ["\n", "\r\n", " ", ":", "G\n", END, ":00000001FF", ":0100000055AA\n", ":0100000055AB\n"] {
        refused(8, &format!("{END}{behind}"), 75, 2);
        refused(8, &format!(":0100000055AA\n{END}{behind}{END}"), 75, 3);
    }
    refused(8, &format!("\n{END}\n"), 70, 1);
    refused(8, ":0100000055AA\n:0100000055AA\n\n", 73, 2);
}

#[test]
fn small_exports() {
    assert_eq!(text_of(&[0]), END);
    assert_eq!(text_of(&[0; 16_384]), END);
    assert_eq!(text_of(&[1]), format!(":0400000001000000FB\n{END}"));
    assert_eq!(text_of(&[0, 0, 0, 0, 0xFF00_0000]), format!(":04001000000000FFED\n{END}"));
    assert_eq!(text_of(&[0, 0, 0xABCD]), format!(":0C0000000000000000000000CDAB00007C\n{END}"));
    let group = ":100000000000000000000000000000004433221146\n";
    assert_eq!(text_of(&[0, 0, 0, 0x1122_3344]), format!("{group}{END}"));
    assert_eq!(text_of(&[0, 0, 0, 0x1122_3344, 0, 0]), format!("{group}{END}"));
    let mut cells = [0; 16_384];
    cells[16_383] = 0x8000_0000;
    assert_eq!(text_of(&cells), format!(":10FFF0000000000000000000000000000000008081\n{END}"));
}

#[test]
fn room_for_exports() {
    let mut room = [170; 32];
    assert_eq!(export(&[1], &mut room[..31]), Err(48));
    assert_eq!(export(&[1], &mut []), Err(48));
    assert_eq!(export(&[0], &mut room[..11]), Err(48));
    assert_eq!(room, [170; 32]);
    assert_eq!(export(&[1], &mut room), Ok(32));
    assert_eq!(room[20..], *END.as_bytes());
    assert_eq!(export(&[0], &mut room[..12]), Ok(12));
    // 4,096 records of 44 characters, and 12 for the end.
    assert_eq!(exported(&[7; 16_384]).len(), 180_236);
}

#[test]
fn exports_come_back() {
    let mut random = Random::new(7);
    for m in (1..40).chain([16_381, 16_384]) {
        let cells: Vec<u32> = (0..m).map(|_| if random.chance(70) { 0 } else { random.word() }).collect();
        let mut again = vec![9; m];
        assert_eq!(import(&exported(&cells), &mut again), Ok(()));
        assert_eq!(again, cells);
    }
}

#[test]
fn jobs_of_texts() {
    let made = [record(1, &[0, 0, 0, 0, 0, 0x55]), record(4, &[])].concat();
    assert_eq!(image::import_hex(format!(":0100030055A7\n{END}").as_bytes()), Ok(made.clone()));
    let text = format!(":10000000000000550000000000000000000000009B\n{END}");
    assert_eq!(image::export_hex(&made), Ok(text.into_bytes()));
    let bytes = image::cells(&made).unwrap();
    assert_eq!((bytes.len(), &bytes[..5]), (65_536, &[0, 0, 0, 0x55, 0][..]));
    assert_eq!(image::job(&bytes), Ok(made));
    assert!(image::job(&bytes[1..]).is_err());
    assert_eq!(image::import_hex(b""), Err((74, 1)));
    assert_eq!(image::export_hex(b""), Err((41, 0)));
    assert_eq!(image::import_hex(&vec![b'\n'; 524_288]), Err((70, 1)));
    assert_eq!(image::import_hex(&vec![b'\n'; 524_289]), Err((50, 0)));
    assert_eq!(image::export_hex(&vec![0; 262_144]), Err((42, 0)));
    assert_eq!(image::export_hex(&vec![0; 262_145]), Err((50, 262_144)));
}

#[test]
fn random_images() {
    for seed in 0..30 {
        let bytes = image::random(seed);
        assert_eq!((bytes.len(), bytes.iter().all(|byte| *byte == 0)), (65_536, false));
        let job = image::job(&bytes).unwrap();
        assert_eq!(image::import_hex(&image::export_hex(&job).unwrap()), Ok(job.clone()));
        assert_eq!(image::cells(&job), Ok(bytes));
    }
}

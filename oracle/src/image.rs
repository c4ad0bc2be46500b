//! Images: the bytes of all cells that a machine may have, as Intel HEX, as a job, and at random.

use crate::hex;
use crate::job::{self, Refused};
use crate::machine::{MOST_CELLS, NO_WORDS};
use crate::random::Random;

const MOST_HEX: usize = 524_288;
const MOST_JOB: usize = 262_144;
const IMAGE: usize = 4 * MOST_CELLS;

/// The job that has the cells of the text and nothing else.
pub fn import_hex(text: &[u8]) -> Result<Vec<u8>, Refused> {
    if text.len() > MOST_HEX {
        return Err((50, 0));
    }
    let mut cells = vec![0; MOST_CELLS];
    hex::import(text, &mut cells)?;
    Ok(job::cells_alone(&cells))
}

pub fn export_hex(job: &[u8]) -> Result<Vec<u8>, Refused> {
    Ok(hex::exported(&loaded(job)?))
}

/// The cells of a job as an image.
pub fn cells(job: &[u8]) -> Result<Vec<u8>, Refused> {
    Ok(loaded(job)?.into_iter().flat_map(u32::to_le_bytes).collect())
}

fn loaded(job: &[u8]) -> Result<Vec<u32>, Refused> {
    if job.len() > MOST_JOB {
        return Err((50, MOST_JOB));
    }
    let mut cells = vec![0; MOST_CELLS];
    job::load(job, NO_WORDS, &mut cells)?;
    Ok(cells)
}

/// The job that has the cells of an image and nothing else.
pub fn job(image: &[u8]) -> Result<Vec<u8>, String> {
    if image.len() != IMAGE {
        return Err(format!("an image has {IMAGE} bytes, this one {}", image.len()));
    }
    let cells: Vec<u32> = image.chunks(4).map(|b| u32::from_le_bytes([b[0], b[1], b[2], b[3]])).collect();
    Ok(job::cells_alone(&cells))
}

/// By the seed dense, or with long gaps of zeros, or with a part at the front alone; never all zeros.
pub fn random(seed: u64) -> Vec<u8> {
    let mut random = Random::new(seed);
    let mut image: Vec<u8> = (0..IMAGE).map(|_| random.bits() as u8).collect();
    match seed % 3 {
        0 => {}
        1 => gaps(&mut image, &mut random),
        _ => image[1 + random.below(IMAGE as u64) as usize..].fill(0),
    }
    image[0] |= u8::from(seed % 3 == 2);
    image
}

/// Zeros from place to place, on either side of short pieces that stay.
fn gaps(image: &mut [u8], random: &mut Random) {
    let mut place = 0;
    while place < image.len() {
        let gap = random.pick(&[1, 3, 4, 15, 16, 17, 40, 300, 5_000]) + random.below(9) as usize;
        let end = image.len().min(place + gap);
        image[place..end].fill(0);
        place = end + 1 + random.below(60) as usize;
    }
}

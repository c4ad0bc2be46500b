//! Makes a file of trials from a seed: the edges of every rule first, then a random mixture.

use crate::file::Trials;
use crate::generate_branches;
use crate::generate_calls;
use crate::generate_checks;
use crate::generate_float_stops;
use crate::generate_floats;
use crate::generate_forward;
use crate::generate_instructions;
use crate::generate_jobs;
use crate::generate_lines;
use crate::generate_profile;
use crate::generate_profile_stops;
use crate::generate_stops;
use crate::generate_words;
use crate::random::Random;

pub fn trials(seed: u64, count: usize) -> Vec<u8> {
    let mut random = Random::new(seed);
    let mut trials = Trials::new(count);
    generate_lines::edges(&mut random, &mut trials);
    generate_jobs::edges(&mut random, &mut trials);
    generate_instructions::edges(&mut random, &mut trials);
    generate_stops::edges(&mut random, &mut trials);
    generate_branches::edges(&mut random, &mut trials);
    generate_checks::edges(&mut random, &mut trials);
    generate_profile::edges(&mut random, &mut trials);
    generate_profile_stops::edges(&mut random, &mut trials);
    generate_words::edges(&mut random, &mut trials);
    generate_floats::edges(&mut random, &mut trials);
    generate_float_stops::edges(&mut random, &mut trials);
    while !trials.is_full() {
        match random.below(100) {
            0..=24 => generate_lines::random(&mut random, &mut trials),
            25..=49 => generate_jobs::random(&mut random, &mut trials),
            50..=79 => generate_calls::random(&mut random, &mut trials),
            80..=84 => generate_checks::random(&mut random, &mut trials),
            _ => generate_forward::random(&mut random, &mut trials),
        }
    }
    trials.into_bytes()
}

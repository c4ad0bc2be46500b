//! Half floats (binary16): what one is worth, and the single float (binary32) that is worth as much.

/// What every half that is no number becomes.
const NAN: u32 = 0x7FC0_0000;

/// The least half above zero is the first of so many in 1.
const LEAST_IN_ONE: f64 = 16_777_216.0;

/// Each half has its value, exactly, in 64 bits, and 32 are enough for it: no conversion rounds.
pub fn ex(half: u16) -> u32 {
    let (exponent, fraction) = (half / 1024 % 32, half % 1024);
    let magnitude = match (exponent, fraction) {
        (31, 0) => f64::INFINITY,
        (31, _) => return NAN,
        (0, _) => f64::from(fraction) / LEAST_IN_ONE,
        _ => f64::from(1024 + fraction) * f64::from(1u32 << (exponent - 1)) / LEAST_IN_ONE,
    };
    let value = if half < 32_768 { magnitude } else { -magnitude };
    (value as f32).to_bits()
}

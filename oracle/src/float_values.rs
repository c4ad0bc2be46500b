//! Floats for trials and tests: those where something changes, pairs whose results fall between two floats or at the
//! ends, and random ones.

use crate::float::SIGN;
use crate::half::ex;
use crate::random::Random;

pub const ONE: u32 = 0x3F80_0000;
pub const GREATEST: u32 = 0x7F7F_FFFF;
const ONE_FIELD: u32 = 127;
const GREATEST_FIELD: u32 = 254;

/// Zero, subnormals, the least normals, numbers about 1, 2^23 and 2^24, the greatest ones, infinity, and four NaNs.
const MAGNITUDES: [u32; 37] = [
    0x0000_0000,
    0x0000_0001,
    0x0000_0002,
    0x0000_0003,
    0x0040_0000,
    0x007F_FFFE,
    0x007F_FFFF,
    0x0080_0000,
    0x0080_0001,
    0x00FF_FFFF,
    0x0100_0000,
    0x1F80_0000,
    0x3380_0000,
    0x3400_0000,
    0x3DCC_CCCD,
    0x3F7F_FFFF,
    0x3F80_0000,
    0x3F80_0001,
    0x3FC0_0000,
    0x4000_0000,
    0x4040_0000,
    0x477F_E000,
    0x4AFF_FFFF,
    0x4B00_0000,
    0x4B00_0001,
    0x4B7F_FFFF,
    0x4B80_0000,
    0x4B80_0001,
    0x5F80_0000,
    0x7EFF_FFFF,
    0x7F00_0000,
    0x7F7F_FFFE,
    0x7F7F_FFFF,
    0x7F80_0000,
    0x7F80_0001,
    0x7FC0_0000,
    0x7FFF_FFFF,
];

/// The same among halves.
const HALF_MAGNITUDES: [u16; 20] = [
    0x0000, 0x0001, 0x0003, 0x0200, 0x03FF, 0x0400, 0x0401, 0x2E66, 0x3555, 0x3800, 0x3BFF, 0x3C00, 0x3C01, 0x3E00,
    0x4000, 0x6400, 0x7BFF, 0x7C00, 0x7C01, 0x7FFF,
];

/// Every magnitude with both signs.
pub fn singles() -> Vec<u32> {
    MAGNITUDES.iter().flat_map(|magnitude| [*magnitude, magnitude | SIGN]).collect()
}

pub fn halves() -> Vec<u16> {
    HALF_MAGNITUDES.iter().flat_map(|magnitude| [*magnitude, magnitude | 0x8000]).collect()
}

/// A positive float of an exponent field and the 23 bits that are written.
fn float(field: u32, fraction: u32) -> u32 {
    field << 23 | fraction
}

/// A last bit that is even or odd, and bits that a carry goes through.
const FRACTIONS: [u32; 6] = [0, 1, 2, 3, 0x7F_FFFE, 0x7F_FFFF];

/// Sums and differences that fall exactly between two floats, or just beside: half of x's last bit, or one bit more
/// or less, is added and taken away. With the greatest x they fall between it and infinity.
pub fn sums_between() -> Vec<(u32, u32)> {
    let mut pairs = Vec::new();
    for field in [25, 26, ONE_FIELD, GREATEST_FIELD - 1, GREATEST_FIELD] {
        for fraction in FRACTIONS {
            let half = float(field - 24, 0);
            // A quarter is half of the last bit below a power of two.
            for other in [half - 1, half, half + 1, half - (1 << 22)] {
                pairs.push((float(field, fraction), other));
                pairs.push((float(field, fraction) | SIGN, other));
            }
        }
    }
    pairs
}

/// Products and quotients that fall exactly between two floats, or just beside. Three times an odd number may have 25
/// bits, one more than a float; subnormals have fewer. A quotient that is no subnormal never falls exactly between.
pub fn products_between() -> Vec<(u32, u32)> {
    let mut pairs = Vec::new();
    for odd in [5_592_407, 5_592_409, 5_592_411, 8_388_609, 8_388_611, 11_184_807, 11_184_809] {
        let fraction = if odd < 1 << 23 { odd * 2 } else { odd } % (1 << 23);
        pairs.extend([ONE_FIELD, 2, 200].map(|field| (float(field, fraction), 0x3FC0_0000)));
    }
    let small =
        [1, 2, 3, 5, 7, 0x7F_FFFE, 0x7F_FFFF, 0x80_0000, 0x80_0001, 0x80_0003, 0xFF_FFFF, 0x100_0001, 0x100_0003];
    for x in small {
        // A half and its neighbours, a quarter, three quarters; 2 and its neighbours, 4, 4/3.
        for y in [0x3EFF_FFFF, 0x3F00_0000, 0x3F00_0001, 0x3E80_0000, 0x3F40_0000] {
            pairs.push((x, y));
        }
        for y in [0x3FFF_FFFF, 0x4000_0000, 0x4000_0001, 0x4080_0000, 0x3FAA_AAAB] {
            pairs.push((x | SIGN, y));
        }
    }
    pairs
}

/// A whole number of at most 24 bits as a float.
fn of_whole(whole: u64) -> u32 {
    let length = 64 - whole.leading_zeros();
    float(ONE_FIELD + length - 1, (whole << (24 - length)) as u32 % (1 << 23))
}

/// Odd numbers of 24 bits that are not much alike.
fn odd_numbers() -> impl Iterator<Item = u64> {
    (0..12).map(|i| (1 << 23) + (i * 0x9E37_79B9 % (1 << 23) | 1))
}

/// Products and quotients of whole numbers that are as near to the middle of two floats as they can be, on either side
/// of it, without being there: one in the last place of all, or one left over by the division.
pub fn results_beside_the_middle() -> Vec<(u32, u32)> {
    let mut pairs = Vec::new();
    for odd in odd_numbers() {
        for rest in [(1 << 23) - 1, (1 << 23) + 1] {
            let other = (1 << 23..1 << 24).find(|other| odd * other % (1 << 24) == rest && odd * other >= 1 << 47);
            pairs.extend(other.map(|other| (of_whole(odd), of_whole(other))));
        }
        // The dividend times 2^shift leaves 1 over, or lacks 1, and the quotient of that is odd and has 25 bits.
        let mut inverse = 1;
        for shift in 1..40 {
            inverse = if inverse % 2 == 0 { inverse } else { inverse + odd } / 2;
            for (dividend, left_over) in [(inverse, 1), (odd - inverse, -1)] {
                let quotient = (((dividend as i128) << shift) - left_over) / odd as i128;
                if quotient % 2 == 1 && (1 << 24..1 << 25).contains(&quotient) {
                    pairs.push((of_whole(dividend), of_whole(odd)));
                }
            }
        }
    }
    pairs
}

/// Results about the least float, where subnormals end, and about the greatest float.
pub fn ends() -> Vec<(u32, u32)> {
    let mut pairs = Vec::new();
    for fraction in FRACTIONS {
        // 2^-75 * 2^-75, 2^-63 * 2^-63, 2^64 * 2^64, and one exponent less.
        for (first, second) in [(52, 52), (52, 53), (64, 64), (64, 63), (191, 191), (191, 190)] {
            pairs.push((float(first, fraction), float(second, 0)));
            pairs.push((float(first, fraction), float(second, 0x7F_FFFF) | SIGN));
        }
        // The same as quotients.
        for (first, second) in [(52, 202), (52, 201), (64, 190), (64, 191), (191, 63), (191, 62)] {
            pairs.push((float(first, fraction), float(second, 0)));
            pairs.push((float(first, 0) | SIGN, float(second, fraction)));
        }
        pairs.push((GREATEST, float(ONE_FIELD, fraction)));
        pairs.push((float(GREATEST_FIELD, fraction), 0x3F7F_FFFF));
        pairs.push((float(GREATEST_FIELD - 1, fraction), float(GREATEST_FIELD - 1, 0x7F_FFFF - fraction)));
    }
    pairs
}

/// A float as programs meet them: special, subnormal, about 1, few bits, a half's value, or any bits.
pub fn single(random: &mut Random) -> u32 {
    let bits = random.bits();
    match random.below(10) {
        0..=2 => random.pick(&MAGNITUDES) | bits & SIGN,
        3 => bits & (SIGN | 0x7F_FFFF),
        4 | 5 => float(ONE_FIELD - 8 + random.below(32) as u32, bits >> 9) | bits << 31,
        6 => float(ONE_FIELD - 30 + random.below(60) as u32, bits >> 9 & 0x7F_F000) | bits << 31,
        7 => ex(bits as u16),
        _ => bits,
    }
}

pub fn half(random: &mut Random) -> u16 {
    match random.below(4) {
        0 => random.pick(&HALF_MAGNITUDES) | random.bits() as u16 & 0x8000,
        1 => 0x3000 + random.below(0x2000) as u16 | random.bits() as u16 & 0x8000,
        _ => random.bits() as u16,
    }
}

/// A float with any sign and fraction whose exponent field is this one, or the nearest that there is.
fn with_field(field: i64, random: &mut Random) -> u32 {
    let bits = random.bits();
    float(field.clamp(0, i64::from(GREATEST_FIELD)) as u32, bits >> 9) | bits << 31
}

/// Two floats of which one operation or another does something of note.
pub fn pair(random: &mut Random) -> (u32, u32) {
    let bits = random.bits();
    let field = 1 + random.below(u64::from(GREATEST_FIELD)) as i64;
    let x = with_field(field, random);
    let near = random.below(60) as i64 - 30;
    // How far a result is below the least normal; at 26 nothing of it is left.
    let below = random.below(26) as i64 - 2;
    let one = i64::from(ONE_FIELD);
    let y = match random.below(12) {
        0 | 1 => return (single(random), single(random)),
        // The sum has bits of both.
        2 | 3 => with_field(field + near, random),
        // Almost nothing is left of the sum or the difference.
        4 => (x ^ bits & SIGN).wrapping_add(random.below(9) as u32).wrapping_sub(4),
        // The product is subnormal, or about the greatest float.
        5 => with_field(one + 1 - below.min(4) - field, random),
        6 => with_field(one + 1 - below - field, random),
        7 => with_field(3 * one - 1 - field + near.signum(), random),
        // The quotient is.
        8 => with_field(field + one - 1 + below, random),
        9 => with_field(field - one + near.signum(), random),
        // Few bits each, so that the product often falls exactly between two floats.
        10 => return (x & 0xFFFF_F800, with_field(field + near, random) & 0xFFFF_F000),
        _ => random.bits(),
    };
    (x, y)
}

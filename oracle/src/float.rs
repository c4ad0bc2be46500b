//! Single floats (binary32) by whole numbers alone: an operation's exact value is rounded once, to nearest, ties to even.

use std::cmp::Ordering;

/// The only NaN that an operation gives.
pub const NAN: u32 = 0x7FC0_0000;
pub const INFINITY: u32 = 0x7F80_0000;
pub const SIGN: u32 = 0x8000_0000;

/// How many bits a float keeps, how many of them stand in its word, and the power of 2 that the least float is.
const KEPT_BITS: i32 = 24;
const WRITTEN_BITS: u32 = 23;
const LEAST_POWER: i32 = -149;

/// How many bits below the higher operand a sum goes, and how many below a whole number a quotient goes. Both are far
/// more than a rounding needs; what lies lower still is kept as one bit that says whether there is anything.
const SUM_BITS: i32 = 40;
const QUOTIENT_BITS: i32 = 64;

#[derive(Clone, Copy, Debug, PartialEq)]
pub enum Operation {
    Add,
    Subtract,
    Multiply,
    Divide,
}

/// The float that an operation gives, and whether each of its flags is raised.
#[derive(Debug, PartialEq)]
pub struct Outcome {
    pub result: u32,
    pub invalid: bool,
    pub by_zero: bool,
    pub overflow: bool,
}

/// A finite float is a whole number of 2^power. The sign stands beside it, since a zero has one too.
struct Finite {
    negative: bool,
    whole: u128,
    power: i32,
}

fn magnitude(bits: u32) -> u32 {
    bits & !SIGN
}

pub fn is_nan(bits: u32) -> bool {
    magnitude(bits) > INFINITY
}

fn is_infinite(bits: u32) -> bool {
    magnitude(bits) == INFINITY
}

fn is_finite(bits: u32) -> bool {
    magnitude(bits) < INFINITY
}

fn is_zero(bits: u32) -> bool {
    magnitude(bits) == 0
}

fn with_sign(negative: bool, magnitude: u32) -> u32 {
    if negative {
        magnitude | SIGN
    } else {
        magnitude
    }
}

/// The magnitude with the sign that a product or a quotient of the two has.
fn with_signs_of(x: u32, y: u32, magnitude: u32) -> u32 {
    with_sign((x ^ y) & SIGN != 0, magnitude)
}

fn unpack(bits: u32) -> Finite {
    let negative = bits & SIGN != 0;
    let exponent = (magnitude(bits) >> WRITTEN_BITS) as i32;
    let written = u128::from(bits) % (1 << WRITTEN_BITS);
    match exponent {
        0 => Finite { negative, whole: written, power: LEAST_POWER },
        _ => Finite { negative, whole: written + (1 << WRITTEN_BITS), power: LEAST_POWER + exponent - 1 },
    }
}

/// The float nearest to whole * 2^power; of two that are as near, the one whose last bit is 0.
fn nearest(whole: u128, power: i32) -> u32 {
    if whole == 0 {
        return 0;
    }
    let length = (u128::BITS - whole.leading_zeros()) as i32;
    let last_power = (power + length - KEPT_BITS).max(LEAST_POWER);
    let dropped = last_power - power;
    let kept = if dropped <= 0 {
        whole << -dropped
    } else if dropped > length {
        0
    } else {
        let (kept, rest, half) = (whole >> dropped, whole % (1 << dropped), 1 << (dropped - 1));
        kept + u128::from(rest > half || rest == half && kept % 2 == 1)
    };
    // A bit that is carried out of the kept ones raises the exponent, past the greatest one to infinity.
    let float = ((last_power - LEAST_POWER) as u128) * (1 << WRITTEN_BITS) + kept;
    float.min(u128::from(INFINITY)) as u32
}

fn finite_sum(x: Finite, y: Finite) -> u32 {
    let (high, low) = if x.power >= y.power { (&x, &y) } else { (&y, &x) };
    let distance = high.power - low.power;
    let below = if distance > SUM_BITS { low.whole.min(1) } else { low.whole };
    let distance = distance.min(SUM_BITS);
    let with_sign_of = |float: &Finite, whole: u128| if float.negative { -(whole as i128) } else { whole as i128 };
    let total = with_sign_of(high, high.whole << distance) + with_sign_of(low, below);
    let negative = if total == 0 { x.negative && y.negative } else { total < 0 };
    with_sign(negative, nearest(total.unsigned_abs(), high.power - distance))
}

fn sum(x: u32, y: u32) -> u32 {
    match (is_infinite(x), is_infinite(y)) {
        (true, true) if x != y => NAN,
        (true, _) => x,
        (_, true) => y,
        _ => finite_sum(unpack(x), unpack(y)),
    }
}

fn product(x: u32, y: u32) -> u32 {
    if is_finite(x) && is_finite(y) {
        let (first, second) = (unpack(x), unpack(y));
        with_signs_of(x, y, nearest(first.whole * second.whole, first.power + second.power))
    } else if is_zero(x) || is_zero(y) {
        NAN
    } else {
        with_signs_of(x, y, INFINITY)
    }
}

fn quotient(x: u32, y: u32) -> u32 {
    match (is_infinite(x), is_infinite(y)) {
        (true, true) => NAN,
        (true, _) => with_signs_of(x, y, INFINITY),
        (_, true) => with_signs_of(x, y, 0),
        _ if is_zero(y) && is_zero(x) => NAN,
        _ if is_zero(y) => with_signs_of(x, y, INFINITY),
        _ => {
            let (first, second) = (unpack(x), unpack(y));
            let dividend = first.whole << QUOTIENT_BITS;
            let left_over = u128::from(dividend % second.whole != 0);
            let power = first.power - second.power - QUOTIENT_BITS;
            with_signs_of(x, y, nearest(dividend / second.whole | left_over, power))
        }
    }
}

pub fn calculate(operation: Operation, x: u32, y: u32) -> Outcome {
    let result = match operation {
        _ if is_nan(x) || is_nan(y) => NAN,
        Operation::Add => sum(x, y),
        Operation::Subtract => sum(x, y ^ SIGN),
        Operation::Multiply => product(x, y),
        Operation::Divide => quotient(x, y),
    };
    let divides_by_zero = operation == Operation::Divide && is_zero(y);
    Outcome {
        result,
        invalid: is_nan(result),
        by_zero: divides_by_zero && is_finite(x) && !is_zero(x),
        overflow: is_finite(x) && is_finite(y) && !divides_by_zero && is_infinite(result),
    }
}

/// Floats lie as their magnitudes do, and below zero the other way round; both zeros are one place.
fn place(bits: u32) -> i64 {
    let distance = i64::from(magnitude(bits));
    if bits & SIGN != 0 {
        -distance
    } else {
        distance
    }
}

/// None if there is a NaN.
pub fn compare(x: u32, y: u32) -> Option<Ordering> {
    if is_nan(x) || is_nan(y) {
        None
    } else {
        Some(place(x).cmp(&place(y)))
    }
}

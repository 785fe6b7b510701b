//! Numbers modulo p, all below p.

pub const P: u64 = 0xFFFF_FFFF_0000_0001;

/// 2^64 modulo p.
const EPSILON: u64 = 0xFFFF_FFFF;

#[inline(always)]
pub fn add(a: u64, b: u64) -> u64 {
    let (difference, below) = a.overflowing_sub(P - b);
    if below {
        difference.wrapping_add(P)
    } else {
        difference
    }
}

/// With 2^64 = 2^32 - 1 and 2^96 = -1, a product is low - top + middle * (2^32 - 1), where top and middle are 32 bits each.
#[inline(always)]
pub fn mul(a: u64, b: u64) -> u64 {
    let product = a as u128 * b as u128;
    let low = product as u64;
    let high = (product >> 64) as u64;
    let (top, middle) = (high >> 32, high & EPSILON);

    let (difference, below) = low.overflowing_sub(top);
    let difference = if below {
        difference.wrapping_sub(EPSILON)
    } else {
        difference
    };
    let (sum, above) = difference.overflowing_add(middle * EPSILON);
    let sum = if above {
        sum.wrapping_add(EPSILON)
    } else {
        sum
    };
    if sum >= P {
        sum - P
    } else {
        sum
    }
}

#[inline(always)]
pub fn complement(a: u64) -> u64 {
    P - 1 - a
}

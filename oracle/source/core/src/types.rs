//! Stand for the field types that the source takes from plonky2.

use std::ops::{Add, Mul, Sub};

const ORDER: u64 = 0xFFFF_FFFF_0000_0001;

pub trait Field: Sized {
    const NEG_ONE: Self;
    fn from_canonical_u64(number: u64) -> Self;
}

pub trait PrimeField64: Field {
    fn to_canonical_u64(&self) -> u64;
}

/// A number below the order.
#[derive(Debug, Clone, Copy, PartialEq, Eq)]
pub struct GoldilocksField(u64);

impl GoldilocksField {
    /// `number` is below twice the order.
    fn reduced_once(number: u128) -> GoldilocksField {
        let order = ORDER as u128;
        let reduced = if number < order {
            number
        } else {
            number - order
        };
        GoldilocksField(reduced as u64)
    }
}

impl Field for GoldilocksField {
    const NEG_ONE: Self = GoldilocksField(ORDER - 1);

    // The caller promises a number below the order. What the real field makes of another is not in the five files;
    // here it is the remainder.
    fn from_canonical_u64(number: u64) -> Self {
        Self::reduced_once(number as u128)
    }
}

impl PrimeField64 for GoldilocksField {
    fn to_canonical_u64(&self) -> u64 {
        self.0
    }
}

impl Add for GoldilocksField {
    type Output = Self;

    fn add(self, other: Self) -> Self {
        Self::reduced_once(self.0 as u128 + other.0 as u128)
    }
}

impl Sub for GoldilocksField {
    type Output = Self;

    fn sub(self, other: Self) -> Self {
        Self::reduced_once(self.0 as u128 + (ORDER - other.0) as u128)
    }
}

impl Mul for GoldilocksField {
    type Output = Self;

    fn mul(self, other: Self) -> Self {
        let product = self.0 as u128 * other.0 as u128;
        GoldilocksField((product % ORDER as u128) as u64)
    }
}

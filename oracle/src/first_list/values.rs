//! Numbers that tell machines apart.

use model::numbers::{HEAP_END, P, STACK_END};

use crate::splitmix::SplitMix64;

pub const U32_MAX: u64 = u32::MAX as u64;

/// Around every limit that document 01 names.
pub const LIMITS: [u64; 22] = [
    0,
    1,
    2,
    U32_MAX - 1,
    U32_MAX,
    U32_MAX + 1,
    U32_MAX + 2,
    STACK_END - 2,
    STACK_END - 1,
    STACK_END,
    STACK_END + 1,
    HEAP_END - 2,
    HEAP_END - 1,
    HEAP_END,
    HEAP_END + 1,
    P - 2,
    P - 1,
    P,
    P + 1,
    u64::MAX - 4,
    u64::MAX - 1,
    u64::MAX,
];

/// Mostly small, so that programs go on for some steps.
pub fn any(random: &mut SplitMix64) -> u64 {
    match random.below(20) {
        0..=9 => random.below(16),
        10..=12 => random.below(2),
        13..=14 => random.below(U32_MAX),
        15..=16 => random.pick(&LIMITS),
        17..=18 => random.below(P),
        _ => random.draw(),
    }
}

/// A number that a cell may hold.
pub fn storable(random: &mut SplitMix64) -> u64 {
    any(random).min(P)
}

//! The league's unit, by distances.

use std::cmp::Ordering;

/// Of the thousands below and above clk the nearer one, where both are as near the even one; counted in thousands.
pub fn kilosteps(clk: u64) -> u64 {
    let below = clk / 1000;
    let above = below + 1;
    let to_below = clk - below * 1000;
    let to_above = u128::from(above) * 1000 - u128::from(clk);
    match u128::from(to_below).cmp(&to_above) {
        Ordering::Less => below,
        Ordering::Greater => above,
        Ordering::Equal if below.is_multiple_of(2) => below,
        Ordering::Equal => above,
    }
}

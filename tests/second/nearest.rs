//! The nearest single, found by search: no conversion from double to single is asked of the machine.

use std::cmp::Ordering;

/// The single nearest to a double that is a number; of two equally near the even one, and above the
/// largest that one.
pub fn nearest(double: u64) -> u32 {
    let sign = (double >> 63 << 31) as u32;
    let value = f64::from_bits(double).abs();
    let of = |single: u32| f32::from_bits(single) as f64;
    let largest = f32::MAX.to_bits();
    // `low` is never above the value, and `high`, if it is a number, is.
    let (mut low, mut high) = (0, largest + 1);
    while high - low > 1 {
        let middle = low + (high - low) / 2;
        if of(middle) <= value {
            low = middle;
        } else {
            high = middle;
        }
    }
    let up = match (value - of(low)).partial_cmp(&(of(high) - value)) {
        _ if low == largest => 0,
        Some(Ordering::Greater) => 1,
        Some(Ordering::Equal) => low % 2,
        _ => 0,
    };
    sign | (low + up)
}

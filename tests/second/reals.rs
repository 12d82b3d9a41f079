//! Singles and doubles as their bits, by the machine's own conversions, mended where the rules differ.

/// The bits of a single that lie below its sign.
const SINGLE: u32 = u32::MAX >> 1;
/// By how many bits a double's fraction is longer than a single's.
const LONGER: u32 = 29;

pub fn is_nan(double: u64) -> bool {
    f64::from_bits(double).is_nan()
}

/// The single that is stored for a double that is a number: never an infinity.
pub fn narrowed(double: u64) -> u32 {
    let value = f64::from_bits(double);
    let largest = f32::MAX;
    let single = match value.abs() > largest as f64 {
        true => largest.copysign(value as f32),
        false => value as f32,
    };
    single.to_bits()
}

/// The double that a single is read as; a NaN keeps its sign and every bit of its payload.
pub fn widened(single: u32) -> u64 {
    let value = f32::from_bits(single);
    if !value.is_nan() {
        return (value as f64).to_bits();
    }
    let sign = ((single & !SINGLE) as u64) << 32;
    let payload = (single & SINGLE) - f32::INFINITY.to_bits();
    sign | f64::INFINITY.to_bits() | (payload as u64) << LONGER
}

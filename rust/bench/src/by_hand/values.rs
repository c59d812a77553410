//! Packed decimal: two digits a byte, and a sign in the last half byte.

/// The most bytes of a packed number.
pub const LONGEST: u8 = 16;

/// The number, if these bytes are one.
pub fn number(bytes: &[u8]) -> Option<i128> {
    let (&last, front) = bytes.split_last()?;
    let mut digits: i128 = 0;
    for &byte in front {
        if byte >> 4 > 9 || byte & 15 > 9 {
            return None;
        }
        digits = 100 * digits + i128::from(10 * (byte >> 4) + (byte & 15));
    }
    if last >> 4 > 9 {
        return None;
    }
    digits = 10 * digits + i128::from(last >> 4);
    match last & 15 {
        0..=9 => None,
        0xB | 0xD => Some(-digits),
        _ => Some(digits),
    }
}

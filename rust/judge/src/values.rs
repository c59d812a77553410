//! Values: what the bytes of a key or a field stand for (R86 to R88).

/// How a key or a field is to be read.
#[derive(Clone, Copy, PartialEq, Eq, Debug)]
pub enum ValueType {
    Bytes,
    Packed,
}

/// A value, so that two of one value type compare as the rules have it.
#[derive(Clone, Copy, PartialEq, Eq, PartialOrd, Ord, Debug)]
pub enum Value<'a> {
    Bytes(&'a [u8]),
    Number(i128),
}

impl ValueType {
    /// The value of these bytes; `None` for a packed one that is no number.
    pub fn value_of(self, bytes: &[u8]) -> Option<Value<'_>> {
        match self {
            ValueType::Bytes => Some(Value::Bytes(bytes)),
            ValueType::Packed => packed(bytes).map(Value::Number),
        }
    }
}

/// The number that packed bytes stand for, if they do: the last half byte is the sign, all before it are digits.
/// Either zero comes out as 0.
fn packed(bytes: &[u8]) -> Option<i128> {
    let mut halves: Vec<u8> = bytes
        .iter()
        .flat_map(|byte| [byte >> 4, byte & 15])
        .collect();
    let sign = match halves.pop()? {
        0xA | 0xC | 0xE | 0xF => 1,
        0xB | 0xD => -1,
        _ => return None,
    };
    let append = |number: i128, &half: &u8| (half <= 9).then_some(10 * number + i128::from(half));
    Some(sign * halves.iter().try_fold(0, append)?)
}

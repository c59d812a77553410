//! The blocks as a COBOL program has them, and the block of the result.

use judge::Status;

/// What stands behind the fronts; nothing there may change.
const MARK: u8 = 0xA5;
static MARKS: [u8; 495_625] = [MARK; 495_625];

/// A block with a slice in its front, as much of it as there is room for: a slice without room is longer than any that
/// is right, and so is the whole block then.
pub struct Block<const N: usize> {
    pub bytes: Box<[u8; N]>,
    front: usize,
}

impl<const N: usize> Block<N> {
    pub fn of(slice: &[u8]) -> Block<N> {
        let front = slice.len().min(N);
        let mut bytes = vec![MARK; N].into_boxed_slice();
        bytes[..front].copy_from_slice(&slice[..front]);
        let bytes = bytes.try_into().expect("it was made N bytes long");
        Block { bytes, front }
    }

    /// The front back to where it came from, with nothing behind it changed.
    pub fn back_to(&self, slice: &mut [u8]) {
        let (front, behind) = self.bytes.split_at(self.front);
        assert!(behind == &MARKS[..behind.len()], "written behind the front");
        slice[..self.front].copy_from_slice(front);
    }

    /// The same of a block that is only read.
    pub fn stayed(&self, slice: &[u8]) {
        let mut after = slice.to_vec();
        self.back_to(&mut after);
        assert!(after == slice, "written where it may only be read");
    }
}

/// The number of a call, and the lengths of catalogue, table, the lists, and area or out.
pub fn ask(number: u8, lengths: [usize; 5]) -> [u8; 21] {
    let mut ask = [number; 21];
    for (place, length) in ask[1..].chunks_exact_mut(4).zip(lengths) {
        let length = u32::try_from(length).expect("four bytes hold it");
        place.copy_from_slice(&length.to_be_bytes());
    }
    ask
}

/// What the block of the result holds before a call must not matter.
pub const UNTOLD: [u8; 8] = [0x55; 8];

/// The number that the block of the result stands for. The letters are those of the status, two spaces for blank.
pub fn result(told: [u8; 8]) -> u64 {
    let status = Status::of_number(told[2]).expect("a status of the table");
    let letters = match status {
        Status::Blank => "  ",
        other => other.letters(),
    };
    assert_eq!(&told[..2], letters.as_bytes(), "{told:?}");
    let above = u64::from(u16::from_be_bytes([told[6], told[7]]));
    let low = u32::from_le_bytes([told[2], told[3], told[4], told[5]]);
    above << 32 | u64::from(low)
}

pub fn status_alone(told: [u8; 8]) -> u8 {
    u8::try_from(result(told)).expect("all but the status is 0")
}

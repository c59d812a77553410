//! The data of the benchmark: units of eight steps of four tries each, in cells of 24 bytes.

pub const UNIT: u8 = 1;
pub const STEP: u8 = 2;
pub const TRY: u8 = 3;

pub const LENGTH: usize = 23;
pub const CELL: usize = LENGTH + 1;

const STEPS: usize = 8;
const TRIES: usize = 4;

/// Cells that are free behind the segments, so that the largest sample fills 4,096 cells.
const FREE: usize = 37;

/// Types (parent, L, kind, key start, key length) and fields (type, start, length).
const TYPES: [[u8; 5]; 3] = [
    [0, LENGTH as u8, 1, 1, 2],
    [1, LENGTH as u8, 1, 1, 2],
    [2, LENGTH as u8, 0, 0, 0],
];
const FIELDS: [[u8; 3]; 4] = [[1, 1, 2], [2, 1, 2], [3, 1, 1], [1, 3, 1]];

pub const UNIT_KEY: u8 = 1;
pub const STEP_KEY: u8 = 2;
pub const VERDICT: u8 = 3;
pub const STATE: u8 = 4;

/// One segment, with the keys above it as the peers want them.
#[derive(Clone)]
pub struct Segment {
    pub type_code: u8,
    pub unit: [u8; 2],
    pub step: [u8; 2],
    /// Which of its step's tries a try is. Only the peers ask for it.
    #[cfg_attr(not(any(lmdb, sqlite)), allow(dead_code))]
    pub turn: u8,
    pub data: [u8; LENGTH],
}

pub struct Sample {
    pub catalogue: Vec<u8>,
    pub table: Vec<u8>,
    pub segments: Vec<Segment>,
    /// Unit and step keys that are there, in an order without a pattern.
    pub probes: Vec<([u8; 2], [u8; 2])>,
}

impl Sample {
    pub fn new(count: usize) -> Sample {
        let mut segments: Vec<Segment> = hierarchy().take(count).collect();
        for (cell, segment) in segments.iter_mut().enumerate() {
            segment.data[LENGTH - 2..].copy_from_slice(&(cell as u16).to_be_bytes());
        }
        Sample {
            catalogue: catalogue(),
            table: table(&segments),
            probes: probes(&segments),
            segments,
        }
    }

    /// A try that is not there yet: its data, and the turn it would have in the first step.
    pub fn newcomer(&self) -> Segment {
        let mut segment = try_of(*b"00", *b"00", TRIES as u8);
        segment.data[0] = b'Z';
        segment
    }

    /// How many bytes lie behind the place of the newcomer.
    pub fn tail(&self) -> usize {
        (self.segments.len() - self.newcomer_cell()) * CELL
    }

    /// The cell that the newcomer gets: behind the tries of the first step.
    pub fn newcomer_cell(&self) -> usize {
        2 + TRIES
    }
}

/// The number that each segment carries at the end of its data: its cell.
pub fn serial(data: &[u8]) -> u64 {
    u64::from(data[LENGTH - 2]) << 8 | u64::from(data[LENGTH - 1])
}

fn hierarchy() -> impl Iterator<Item = Segment> {
    (0..99).flat_map(|unit| {
        let steps = (0..STEPS).flat_map(move |step| {
            let tries = (0..TRIES).map(move |turn| try_of(key(unit), key(step), turn as u8));
            std::iter::once(step_of(key(unit), key(step))).chain(tries)
        });
        std::iter::once(unit_of(unit)).chain(steps)
    })
}

/// Every other unit is in state A.
fn unit_of(number: usize) -> Segment {
    let mut data = [b'.'; LENGTH];
    data[..2].copy_from_slice(&key(number));
    data[2] = if number.is_multiple_of(2) { b'A' } else { b'B' };
    Segment {
        type_code: UNIT,
        unit: key(number),
        step: [0; 2],
        turn: 0,
        data,
    }
}

fn step_of(unit: [u8; 2], step: [u8; 2]) -> Segment {
    let mut data = [b'.'; LENGTH];
    data[..2].copy_from_slice(&step);
    Segment {
        type_code: STEP,
        unit,
        step,
        turn: 0,
        data,
    }
}

/// Every other try has passed.
fn try_of(unit: [u8; 2], step: [u8; 2], turn: u8) -> Segment {
    let mut data = [b'.'; LENGTH];
    data[0] = if turn.is_multiple_of(2) { b'P' } else { b'T' };
    data[1] = b'0' + turn;
    Segment {
        type_code: TRY,
        unit,
        step,
        turn,
        data,
    }
}

fn key(number: usize) -> [u8; 2] {
    [b'0' + (number / 10) as u8, b'0' + (number % 10) as u8]
}

fn catalogue() -> Vec<u8> {
    let mut block = b"HDC\x00\x01".to_vec();
    block.extend([TYPES.len() as u8, FIELDS.len() as u8, 0]);
    for entry in TYPES {
        block.extend(entry);
        block.extend([0; 3]);
    }
    for entry in FIELDS {
        block.extend(entry);
        block.push(0);
    }
    block
}

fn table(segments: &[Segment]) -> Vec<u8> {
    let mut block = b"HDT\x00\x01".to_vec();
    block.push(CELL as u8);
    block.extend((segments.len() as u16).to_be_bytes());
    for segment in segments {
        block.push(segment.type_code);
        block.extend(segment.data);
    }
    block.resize(block.len() + FREE * CELL, 0);
    block
}

fn probes(segments: &[Segment]) -> Vec<([u8; 2], [u8; 2])> {
    let steps: Vec<&Segment> = segments
        .iter()
        .filter(|segment| segment.type_code == STEP)
        .collect();
    (0..64)
        .map(|turn| steps[turn * 7919 % steps.len()])
        .map(|step| (step.unit, step.step))
        .collect()
}

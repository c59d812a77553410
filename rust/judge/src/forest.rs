//! The table as what it stands for: a forest of segments.

use super::catalogue::{Catalogue, KeyKind, TypeCode};
use super::values::Value;

/// The way from the top to a segment: which root, which of its children, and so on. Paths compare in
/// hierarchic order, a segment before everything beneath it. The empty path is the top itself.
pub type Path = Vec<usize>;

/// A segment, with its children in hierarchic order: groups of twins, in ascending type code.
#[derive(Debug)]
pub struct Segment<'a> {
    pub type_code: TypeCode,
    pub data: &'a [u8],
    pub children: Vec<Segment<'a>>,
}

impl<'a> Segment<'a> {
    pub fn new(type_code: TypeCode, data: &'a [u8]) -> Segment<'a> {
        Segment {
            type_code,
            data,
            children: Vec::new(),
        }
    }

    /// The size of its run: itself and all beneath it.
    pub fn size(&self) -> usize {
        1 + self.children.iter().map(Segment::size).sum::<usize>()
    }

    /// The key's value; `None` for a packed key that is no number. Without a key it is the value of no bytes.
    pub fn key(&self, catalogue: &Catalogue) -> Option<Value<'a>> {
        let segment_type = catalogue.of(self.type_code);
        let bytes = &self.data[segment_type.key.clone()];
        segment_type.key_value.value_of(bytes)
    }
}

#[derive(Debug)]
pub struct Forest<'a> {
    roots: Vec<Segment<'a>>,
    /// M, the number of cells there are, used or free.
    capacity: usize,
}

const MARK: &[u8] = b"HDT\x00\x01";
const HEADER: usize = 8;
const MOST_CELLS: usize = 4096;

/// M for a slice of that length, if any M fits.
pub fn capacity_of(catalogue: &Catalogue, slice_length: usize) -> Option<usize> {
    let cells = slice_length.checked_sub(HEADER)?;
    let capacity = cells / catalogue.cell_size();
    (cells % catalogue.cell_size() == 0 && capacity <= MOST_CELLS).then_some(capacity)
}

impl<'a> Forest<'a> {
    /// The forest without segments, in M cells.
    pub fn empty(capacity: usize) -> Forest<'a> {
        Forest {
            roots: Vec::new(),
            capacity,
        }
    }

    /// Reads a table; `None` for a bad table (R10 to R17).
    pub fn read(catalogue: &Catalogue, table: &'a [u8]) -> Option<Forest<'a>> {
        let cell_size = catalogue.cell_size();
        let capacity = capacity_of(catalogue, table.len())?;
        let (header, cells) = table.split_at(HEADER);
        let count = usize::from(u16::from_be_bytes([header[6], header[7]]));
        let sound =
            header.starts_with(MARK) && usize::from(header[5]) == cell_size && count <= capacity;
        if !sound {
            return None;
        }
        let (used, free) = cells.split_at(count * cell_size);
        let mut forest = Forest::empty(capacity);
        for cell in used.chunks(cell_size) {
            forest.hang(catalogue, read_cell(catalogue, cell)?)?;
        }
        all_zero(free).then_some(forest)
    }

    /// Hangs the next cell of the listing on the last branch of the forest. In a parent-first listing the
    /// parent of a new cell can only be the last segment of its level, so there is no other place to try.
    fn hang(&mut self, catalogue: &Catalogue, segment: Segment<'a>) -> Option<()> {
        let lineage = &catalogue.of(segment.type_code).lineage;
        let mut row = &mut self.roots;
        for &above in &lineage[..lineage.len() - 1] {
            let open = row.last_mut()?;
            if open.type_code != above {
                return None;
            }
            row = &mut open.children;
        }
        let fits = row
            .last()
            .is_none_or(|last| may_follow(catalogue, last, &segment));
        fits.then(|| row.push(segment))
    }

    /// The table's bytes: header, the parent-first listing, and zeros.
    pub fn write(&self, catalogue: &Catalogue) -> Vec<u8> {
        let cell_size = catalogue.cell_size();
        let mut table = Vec::with_capacity(HEADER + self.capacity * cell_size);
        table.extend_from_slice(MARK);
        table.push(cell_size as u8);
        table.extend_from_slice(&(self.count() as u16).to_be_bytes());
        write_row(&self.roots, cell_size, &mut table);
        table.resize(HEADER + self.capacity * cell_size, 0);
        table
    }

    /// n, the number of segments.
    pub fn count(&self) -> usize {
        self.roots.iter().map(Segment::size).sum()
    }

    pub fn is_full(&self) -> bool {
        self.count() == self.capacity
    }

    /// The children of the segment at `path`, or the roots.
    pub fn row(&self, path: &[usize]) -> &[Segment<'a>] {
        path.iter()
            .fold(&self.roots, |row, &index| &row[index].children)
    }

    fn row_mut(&mut self, path: &[usize]) -> &mut Vec<Segment<'a>> {
        path.iter()
            .fold(&mut self.roots, |row, &index| &mut row[index].children)
    }

    /// The segment at a path that is known to lead to one.
    pub fn segment(&self, path: &[usize]) -> &Segment<'a> {
        let (last, above) = path.split_last().expect("the top is no segment");
        &self.row(above)[*last]
    }

    /// The segments from the root down to the one at `path`.
    pub fn branch(&self, path: &[usize]) -> Vec<&Segment<'a>> {
        let mut row = &self.roots;
        let mut branch = Vec::with_capacity(path.len());
        for &index in path {
            branch.push(&row[index]);
            row = &row[index].children;
        }
        branch
    }

    /// The first segment of all.
    pub fn first(&self) -> Option<Path> {
        (!self.roots.is_empty()).then(|| vec![0])
    }

    /// The segment that follows in hierarchic order: the first child, or what follows the run.
    pub fn next(&self, path: &[usize]) -> Option<Path> {
        if self.segment(path).children.is_empty() {
            return self.after_run(path);
        }
        let mut below = path.to_vec();
        below.push(0);
        Some(below)
    }

    /// The first segment behind the run of the one at `path`: its next brother, or that of the nearest
    /// ancestor that has one.
    pub fn after_run(&self, path: &[usize]) -> Option<Path> {
        let mut path = path.to_vec();
        while let Some(index) = path.pop() {
            if index + 1 < self.row(&path).len() {
                path.push(index + 1);
                return Some(path);
            }
        }
        None
    }

    /// The cell number of the segment at `path`: how many stand before it.
    pub fn cell_of(&self, path: &[usize]) -> usize {
        let mut row = &self.roots;
        let mut before = 0;
        for (depth, &index) in path.iter().enumerate() {
            before += row[..index].iter().map(Segment::size).sum::<usize>();
            before += usize::from(depth > 0);
            row = &row[index].children;
        }
        before
    }

    /// The segment with that cell number, if it is below n.
    pub fn path_of(&self, cell: usize) -> Option<Path> {
        let mut path = Path::new();
        let mut before = cell;
        let mut row = &self.roots;
        loop {
            let mut index = 0;
            while row.get(index)?.size() <= before {
                before -= row[index].size();
                index += 1;
            }
            path.push(index);
            if before == 0 {
                return Some(path);
            }
            before -= 1;
            row = &row[index].children;
        }
    }

    /// Whether a twin beneath `parent` has the key of `segment`, and the key is unique.
    pub fn has_rival(
        &self,
        catalogue: &Catalogue,
        parent: &[usize],
        segment: &Segment<'a>,
    ) -> bool {
        catalogue.of(segment.type_code).kind == KeyKind::Unique
            && self.row(parent).iter().any(|twin| {
                twin.type_code == segment.type_code && twin.key(catalogue) == segment.key(catalogue)
            })
    }

    /// Puts a segment among its twins and says where it went: before the first that must stand behind it.
    pub fn insert(
        &mut self,
        catalogue: &Catalogue,
        parent: &[usize],
        segment: Segment<'a>,
    ) -> Path {
        let row = self.row_mut(parent);
        let index = row
            .iter()
            .position(|other| stands_behind(catalogue, other, &segment))
            .unwrap_or(row.len());
        row.insert(index, segment);
        let mut path = parent.to_vec();
        path.push(index);
        path
    }

    /// Puts other data into the segment at `path`.
    pub fn replace(&mut self, path: &[usize], data: &'a [u8]) {
        let (&last, above) = path.split_last().expect("the top is no segment");
        self.row_mut(above)[last].data = data;
    }

    /// Takes out the segment at `path` with all beneath it.
    pub fn remove(&mut self, path: &[usize]) -> Segment<'a> {
        let (&last, above) = path.split_last().expect("the top is no segment");
        self.row_mut(above).remove(last)
    }

    /// What now stands first at or behind `path`, where a segment was taken out.
    pub fn at_or_after(&self, path: &[usize]) -> Option<Path> {
        let (&last, above) = path.split_last().expect("the top is no segment");
        if last < self.row(above).len() {
            Some(path.to_vec())
        } else {
            self.after_run(above)
        }
    }
}

/// A cell: its type code, L data bytes with a key that has a value, and zeros to C.
fn read_cell<'a>(catalogue: &Catalogue, cell: &'a [u8]) -> Option<Segment<'a>> {
    let (&type_code, rest) = cell.split_first()?;
    let (data, padding) = rest.split_at(catalogue.segment_type(type_code)?.length);
    let segment = Segment::new(type_code, data);
    segment.key(catalogue)?;
    all_zero(padding).then_some(segment)
}

fn all_zero(bytes: &[u8]) -> bool {
    bytes.iter().all(|&byte| byte == 0)
}

/// Whether `next` may stand right after `last` under one parent: groups ascend by code, twins by key.
fn may_follow(catalogue: &Catalogue, last: &Segment, next: &Segment) -> bool {
    if last.type_code != next.type_code {
        return last.type_code < next.type_code;
    }
    let (lesser, greater) = (last.key(catalogue), next.key(catalogue));
    match catalogue.of(next.type_code).kind {
        KeyKind::None => true,
        KeyKind::Unique => lesser < greater,
        KeyKind::Multiple => lesser <= greater,
    }
}

/// Whether `other` belongs behind a new segment: a higher code, or a twin with a greater key. Without a key
/// no twin is behind, so the new one goes last.
fn stands_behind(catalogue: &Catalogue, other: &Segment, new: &Segment) -> bool {
    if other.type_code != new.type_code {
        return other.type_code > new.type_code;
    }
    catalogue.of(new.type_code).kind != KeyKind::None && other.key(catalogue) > new.key(catalogue)
}

fn write_row(row: &[Segment], cell_size: usize, table: &mut Vec<u8>) {
    for segment in row {
        let end = table.len() + cell_size;
        table.push(segment.type_code);
        table.extend_from_slice(segment.data);
        table.resize(end, 0);
        write_row(&segment.children, cell_size, table);
    }
}

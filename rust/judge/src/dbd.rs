//! DBD statements (R73 to R84): a text as statements, a catalogue and its names out of it, and back.

use super::catalogue::Catalogue;
use super::values::ValueType;
use std::collections::HashMap;

/// The first fault of a text: its number, and the line that it stands in.
#[derive(Clone, Copy, PartialEq, Eq, Debug)]
pub struct Fault {
    pub kind: u8,
    pub line: u64,
}

const STATEMENT: u8 = 1;
const NAME: u8 = 2;
const PARENT: u8 = 3;
const RULE: u8 = 20;

/// A catalogue block and its list of names.
#[derive(Clone, PartialEq, Eq, Debug)]
pub struct Pair {
    pub catalogue: Vec<u8>,
    pub names: Vec<u8>,
}

struct Segment {
    name: String,
    parent: usize,
    level: usize,
    length: u64,
    key: Option<(u8, u64, u64)>,
}

struct Field {
    name: String,
    owner: usize,
    start: u64,
    length: u64,
}

/// What the lines so far have said.
#[derive(Default)]
struct Draft {
    base: Option<String>,
    segments: Vec<Segment>,
    fields: Vec<Field>,
}

/// R73: reads a whole text.
pub fn read(text: &[u8]) -> Result<Pair, Fault> {
    let mut draft = Draft::default();
    let mut lines: Vec<&[u8]> = text.split(|&byte| byte == b'\n').collect();
    if lines.last().is_some_and(|last| last.is_empty()) {
        lines.pop();
    }
    let mut line = 1;
    for each in lines {
        draft.take(each).map_err(|kind| Fault { kind, line })?;
        line += 1;
    }
    if draft.segments.is_empty() {
        return Err(Fault {
            kind: STATEMENT,
            line,
        });
    }
    Ok(draft.pair())
}

/// R74: the words and signs of a line; `None` for a byte that is in no statement.
fn words(line: &[u8]) -> Option<Vec<&str>> {
    let text = std::str::from_utf8(line).ok()?;
    let mut found = Vec::new();
    let mut rest = text.trim_start_matches(BLANKS);
    while let Some(first) = rest.chars().next() {
        let long = match first {
            '=' | ',' | '(' | ')' => 1,
            _ => rest
                .find(|c: char| !c.is_ascii_alphanumeric())
                .unwrap_or(rest.len()),
        };
        if long == 0 {
            return None;
        }
        let (word, behind) = rest.split_at(long);
        found.push(word);
        rest = behind.trim_start_matches(BLANKS);
    }
    Some(found)
}

const BLANKS: [char; 3] = [' ', '\t', '\r'];

/// R75: a name.
fn name(word: &str) -> Option<String> {
    let first = word.bytes().next()?;
    let right = first.is_ascii_alphabetic()
        && word.len() <= 8
        && word.bytes().all(|byte| byte.is_ascii_alphanumeric());
    right.then(|| word.to_string())
}

/// R75: a number; what is too great for 64 bits is as great as they allow, which no rule lets pass.
fn number(word: &str) -> Option<u64> {
    let digits = !word.is_empty() && word.bytes().all(|byte| byte.is_ascii_digit());
    digits.then(|| word.parse().unwrap_or(u64::MAX / 4))
}

impl Draft {
    /// One line more, or the number of its first fault.
    fn take(&mut self, line: &[u8]) -> Result<(), u8> {
        let words = words(line).ok_or(STATEMENT)?;
        match words.as_slice() {
            [] => Ok(()),
            ["DBD", "NAME", "=", base] => self.take_base(name(base).ok_or(STATEMENT)?),
            ["SEGM", "NAME", "=", own, ",", "PARENT", "=", parent, ",", "BYTES", "=", length] => {
                let own = name(own).ok_or(STATEMENT)?;
                let above = match *parent {
                    "0" => None,
                    named => Some(name(named).ok_or(STATEMENT)?),
                };
                self.take_segment(own, above, number(length).ok_or(STATEMENT)?)
            }
            ["FIELD", "NAME", "=", "(", own, ",", "SEQ", ",", unique, ")", rest @ ..] => {
                let kind = match *unique {
                    "U" => 1,
                    "M" => 2,
                    _ => return Err(STATEMENT),
                };
                self.take_field(own, Some(kind), rest)
            }
            ["FIELD", "NAME", "=", own, rest @ ..] => self.take_field(own, None, rest),
            _ => Err(STATEMENT),
        }
    }

    /// R77: DBD comes first, and once.
    fn take_base(&mut self, name: String) -> Result<(), u8> {
        if self.base.is_some() {
            return Err(STATEMENT);
        }
        self.base = Some(name);
        Ok(())
    }

    fn take_segment(&mut self, name: String, above: Option<String>, length: u64) -> Result<(), u8> {
        if self.base.is_none() || (above.is_none() && !self.segments.is_empty()) {
            return Err(STATEMENT);
        }
        if self.segments.iter().any(|other| other.name == name) {
            return Err(NAME);
        }
        let parent = match above {
            None => 0,
            Some(named) => {
                let place = self.segments.iter().position(|other| other.name == named);
                1 + place.ok_or(PARENT)?
            }
        };
        let level = 1 + parent
            .checked_sub(1)
            .map_or(0, |at| self.segments[at].level);
        let open = self.segments.is_empty() || self.open().contains(&parent);
        if self.segments.len() == 32 || !(1..=120).contains(&length) || !open || level > 15 {
            return Err(RULE);
        }
        self.segments.push(Segment {
            name,
            parent,
            level,
            length,
            key: None,
        });
        Ok(())
    }

    /// The last segment and those above it, by code: whose child the next one may be.
    fn open(&self) -> Vec<usize> {
        let mut codes = vec![self.segments.len()];
        while let Some(&code) = codes.last() {
            match self.segments[code - 1].parent {
                0 => break,
                parent => codes.push(parent),
            }
        }
        codes
    }

    fn take_field(&mut self, own: &str, kind: Option<u8>, rest: &[&str]) -> Result<(), u8> {
        let [",", "BYTES", "=", length, ",", "START", "=", start, ",", "TYPE", "=", "C" | "X"] =
            rest
        else {
            return Err(STATEMENT);
        };
        let name = name(own).ok_or(STATEMENT)?;
        let length = number(length).ok_or(STATEMENT)?;
        let start = number(start).ok_or(STATEMENT)?;
        let owner = self.segments.len();
        let segment = self.segments.last_mut().ok_or(STATEMENT)?;
        if kind.is_some() && segment.key.is_some() {
            return Err(STATEMENT);
        }
        let twice = |other: &Field| other.owner == owner && other.name == name;
        if self.fields.iter().any(twice) {
            return Err(NAME);
        }
        let within = start >= 1 && length >= 1 && start + length - 1 <= segment.length;
        if self.fields.len() == 64 || !within {
            return Err(RULE);
        }
        if let Some(kind) = kind {
            segment.key = Some((kind, start, length));
        }
        self.fields.push(Field {
            name,
            owner,
            start,
            length,
        });
        Ok(())
    }

    /// R79: both blocks.
    fn pair(&self) -> Pair {
        let counts = [self.segments.len() as u8, self.fields.len() as u8, 0];
        let mut catalogue = [b"HDC\x00\x01", counts.as_slice()].concat();
        let mut names = [b"HDN\x00\x01", counts.as_slice()].concat();
        names.extend(padded(self.base.as_deref().unwrap_or_default()));
        for each in &self.segments {
            let (kind, start, length) = each.key.unwrap_or_default();
            let key = [kind, start as u8, length as u8];
            catalogue.extend([each.parent as u8, each.length as u8]);
            catalogue.extend(key);
            catalogue.extend([0; 3]);
            names.extend(padded(&each.name));
        }
        for each in &self.fields {
            catalogue.extend([each.owner as u8, each.start as u8, each.length as u8, 0]);
            names.extend(padded(&each.name));
        }
        Pair { catalogue, names }
    }
}

fn padded(name: &str) -> Vec<u8> {
    format!("{name:8}").into_bytes()
}

/// R81: the statements of a pair; `None` where no text reads to it (R82).
pub fn write(catalogue: &[u8], names: &[u8]) -> Option<Vec<u8>> {
    let read = Catalogue::read(catalogue)?;
    let (type_count, field_count) = (usize::from(catalogue[5]), usize::from(catalogue[6]));
    let listed = list_names(names, type_count, field_count)?;
    let (segments, fields) = listed[1..].split_at(type_count);
    let entries: Vec<&[u8]> = catalogue[8 + 8 * type_count..].chunks(4).collect();
    let packed = (1..=type_count).any(|code| read.of(code as u8).key_value != ValueType::Bytes);
    if packed || entries.iter().any(|entry| entry[3] != 0) {
        return None;
    }
    let ascend = entries.windows(2).all(|two| two[0][0] <= two[1][0]);
    if !ascend || has_twice(segments.iter().map(|name| (0, name))) {
        return None;
    }
    if has_twice(entries.iter().map(|entry| entry[0]).zip(fields)) {
        return None;
    }
    let mut text = format!("DBD NAME={}\n", listed[0]);
    for code in 1..=type_count {
        let entry = &catalogue[8 * code..][..8];
        let parent = match entry[0] {
            0 => "0",
            above => &segments[usize::from(above) - 1],
        };
        let own = &segments[code - 1];
        let length = read.of(code as u8).length;
        text += &format!("SEGM NAME={own},PARENT={parent},BYTES={length}\n");
        let mut key = match entry[2] {
            0 => None,
            kind => Some(([entry[3], entry[4]], ["U", "M"][usize::from(kind) - 1])),
        };
        for (field, name) in entries.iter().zip(fields) {
            if usize::from(field[0]) != code {
                continue;
            }
            let shown = match key {
                Some((span, letter)) if span == field[1..3] => {
                    key = None;
                    format!("({name},SEQ,{letter})")
                }
                _ => name.clone(),
            };
            let (start, length) = (field[1], field[2]);
            text += &format!("FIELD NAME={shown},BYTES={length},START={start},TYPE=C\n");
        }
        if key.is_some() {
            return None;
        }
    }
    Some(text.into_bytes())
}

/// The names of a list that fits so many types and fields, without their spaces.
fn list_names(block: &[u8], type_count: usize, field_count: usize) -> Option<Vec<String>> {
    let header = [
        b"HDN\x00\x01".as_slice(),
        &[type_count as u8, field_count as u8, 0],
    ]
    .concat();
    let rest = block.strip_prefix(header.as_slice())?;
    if rest.len() != 8 * (1 + type_count + field_count) {
        return None;
    }
    rest.chunks(8)
        .map(|each| name(std::str::from_utf8(each).ok()?.trim_end_matches(' ')))
        .collect()
}

fn has_twice<'n>(named: impl Iterator<Item = (u8, &'n String)>) -> bool {
    let mut seen: HashMap<(u8, &String), ()> = HashMap::new();
    let mut twice = false;
    for each in named {
        twice |= seen.insert(each, ()).is_some();
    }
    twice
}

/// As `umbristal_dbd_read`.
pub fn dbd_read(text: &[u8], cat: &mut [u8], names: &mut [u8]) -> u64 {
    let pair = match read(text) {
        Ok(pair) => pair,
        Err(fault) => return u64::from(fault.kind) | fault.line.min(u64::from(u32::MAX)) << 32,
    };
    if cat.len() < pair.catalogue.len() || names.len() < pair.names.len() {
        return 28;
    }
    cat[..pair.catalogue.len()].copy_from_slice(&pair.catalogue);
    names[..pair.names.len()].copy_from_slice(&pair.names);
    u64::from(pair.catalogue[5]) << 8 | u64::from(pair.catalogue[6]) << 16
}

/// As `umbristal_dbd_write`.
pub fn dbd_write(cat: &[u8], names: &[u8], text: &mut [u8]) -> u64 {
    let Some(written) = write(cat, names) else {
        return 20;
    };
    if text.len() < written.len() {
        return 28;
    }
    text[..written.len()].copy_from_slice(&written);
    (written.len() as u64) << 32
}

//! A function as all three say it, and how two of them differ.

use std::fmt;

/// Name and kind; a pointer with its length is one slice.
#[derive(Clone, PartialEq, Eq, Debug)]
pub struct Parameter {
    pub name: String,
    pub kind: String,
}

#[derive(Clone, PartialEq, Eq, Debug)]
pub struct Signature {
    pub name: String,
    pub parameters: Vec<Parameter>,
    pub result: String,
}

/// What one place says.
pub struct Stated {
    pub place: &'static str,
    pub functions: Vec<Signature>,
}

/// The kinds there are beside arrays, as Rust writes them.
const KINDS: [&str; 8] = [
    "&[u8]",
    "&mut [u8]",
    "u8",
    "u16",
    "u32",
    "u64",
    "usize",
    "()",
];

/// An array is lent by a pointer alone, so that its size is part of what must agree.
fn is_array(written: &str) -> bool {
    let inner = written
        .strip_prefix("&[u8; ")
        .or_else(|| written.strip_prefix("&mut [u8; "));
    inner
        .and_then(|rest| rest.strip_suffix(']'))
        .and_then(|size| size.parse::<usize>().ok())
        .is_some_and(|size| size > 0)
}

pub fn kind(written: &str) -> Result<String, String> {
    match KINDS.contains(&written) || is_array(written) {
        true => Ok(written.to_string()),
        false => Err(format!("`{written}` is no kind that the face has")),
    }
}

impl fmt::Display for Parameter {
    fn fmt(&self, out: &mut fmt::Formatter) -> fmt::Result {
        write!(out, "{}: {}", self.name, self.kind)
    }
}

impl Stated {
    fn of(&self, name: &str) -> Vec<&Signature> {
        let is_it = |each: &&Signature| each.name == name;
        self.functions.iter().filter(is_it).collect()
    }
}

/// A sentence for each difference, with the function it is about in front.
pub fn differences(one: &Stated, other: &Stated) -> Vec<String> {
    let mut names: Vec<&str> = [one, other]
        .iter()
        .flat_map(|stated| stated.functions.iter().map(|each| each.name.as_str()))
        .collect();
    names.sort_unstable();
    names.dedup();
    let mut found = Vec::new();
    for name in names {
        match (&one.of(name)[..], &other.of(name)[..]) {
            ([a], [b]) => found.extend(between(one.place, a, other.place, b)),
            (a, b) => found.push(format!(
                "{name}: {} times in {}, {} times in {}",
                a.len(),
                one.place,
                b.len(),
                other.place
            )),
        }
    }
    found
}

fn between(at: &str, a: &Signature, elsewhere: &str, b: &Signature) -> Vec<String> {
    let name = &a.name;
    let (here, there) = (a.parameters.len(), b.parameters.len());
    let mut found = Vec::new();
    if here != there {
        found.push(format!(
            "{name}: {here} parameters in {at}, {there} in {elsewhere}"
        ));
    }
    for (place, (x, y)) in a.parameters.iter().zip(&b.parameters).enumerate() {
        if x != y {
            let place = place + 1;
            found.push(format!(
                "{name}: parameter {place} is `{x}` in {at}, `{y}` in {elsewhere}"
            ));
        }
    }
    if a.result != b.result {
        let (x, y) = (&a.result, &b.result);
        found.push(format!(
            "{name}: `{x}` comes back in {at}, `{y}` in {elsewhere}"
        ));
    }
    found
}

//! What the header declares.

use crate::signature::{kind, Parameter, Signature};

/// The functions that the archive has to have, those among them for which the header has a body too.
pub fn functions(text: &str) -> Result<Vec<Signature>, String> {
    let code = with_sizes(text, &without_bodies(&without_comments(text)));
    code.split([';', '{', '}'])
        .map(str::trim)
        .filter_map(prototype)
        .map(|(head, parameters)| function(head, parameters))
        .collect()
}

/// The enumerators of an enum, without their common beginning.
pub fn enumerators(text: &str, name: &str) -> Vec<(String, u8)> {
    let code = without_comments(text);
    let (_, behind) = code
        .split_once(&format!("enum {name} {{"))
        .unwrap_or_else(|| panic!("enum {name} is there"));
    let (body, _) = behind.split_once('}').expect("an enum ends");
    let parted = body.split(',').map(|each| {
        let (name, number) = each.split_once('=').expect("each has its number");
        let name = name.trim().trim_start_matches("UMBRISTAL_");
        (name.to_string(), number.trim().parse().expect("a byte"))
    });
    parted.collect()
}

/// What a name is defined as.
pub fn defined(text: &str, name: &str) -> String {
    let found = text.lines().find_map(|line| {
        let rest = line.strip_prefix("#define ")?.strip_prefix(name)?;
        rest.starts_with(' ').then(|| rest.trim().to_string())
    });
    found.unwrap_or_else(|| panic!("{name} is defined"))
}

/// The code alone: no comments, and no line for the preprocessor.
fn without_comments(text: &str) -> String {
    let lines = text.lines().filter(|line| !line.starts_with('#'));
    let whole = lines.collect::<Vec<_>>().join(" ");
    let mut parts = whole.split("/*");
    let first = parts.next().unwrap_or("").to_string();
    parts.fold(first, |code, part| {
        code + part.split_once("*/").map_or("", |(_, behind)| behind)
    })
}

/// A declaration alone, where a compiler may take in a body instead.
fn without_bodies(code: &str) -> String {
    let code = code.replace("UMBRISTAL_HELPER ", "");
    let mut parts = code.split("UMBRISTAL_BODY(");
    let first = parts.next().unwrap_or("").to_string();
    parts.fold(first, |code, part| {
        code + ";" + part.split_once("})").map_or("", |(_, behind)| behind)
    })
}

/// The number for each name that stands as the size of an array.
fn with_sizes(text: &str, code: &str) -> String {
    let mut parts = code.split("[UMBRISTAL_");
    let first = parts.next().unwrap_or("").to_string();
    parts.fold(first, |code, part| {
        let (name, behind) = part.split_once(']').expect("a size ends");
        let size = defined(text, &format!("UMBRISTAL_{name}"));
        format!("{code}[{size}]{behind}")
    })
}

/// Type and name, and the parameters, if the statement declares a function and does not define one here.
fn prototype(statement: &str) -> Option<(&str, &str)> {
    let (head, parameters) = statement.split_once('(')?;
    let name = head.split([' ', '*']).next_back()?;
    let other = ["static ", "return "]
        .iter()
        .any(|word| head.starts_with(word));
    (name.starts_with("umbristal_") && !other).then_some((head, parameters))
}

fn function(head: &str, parameters: &str) -> Result<Signature, String> {
    let (result, name) = head.rsplit_once(' ').unwrap_or(("", head));
    let fault = |what: String| format!("{name}: {what}");
    let inner = parameters
        .strip_suffix(')')
        .ok_or_else(|| fault("its parameters do not end".into()))?;
    Ok(Signature {
        name: name.to_string(),
        parameters: slices(inner).map_err(fault)?,
        result: integer(result).map_err(fault)?,
    })
}

/// The parameters, each pointer taken together with the length that must follow it.
fn slices(inner: &str) -> Result<Vec<Parameter>, String> {
    let mut all = Vec::new();
    let mut rest = inner.split(',').map(str::trim);
    while let Some(word) = rest.next() {
        let (left, name) = word.rsplit_once([' ', '*']).unwrap_or(("", word));
        if let Some((name, size)) = name.split_once('[') {
            let kind = array(left, size.trim_end_matches(']'))?;
            let name = name.to_string();
            all.push(Parameter { name, kind });
            continue;
        }
        let kind = match word.contains('*') {
            true => {
                let length = format!("size_t {name}_len");
                if rest.next() != Some(&length) {
                    return Err(format!("`{length}` does not follow `{name}`"));
                }
                pointer(left)?
            }
            false => integer(left)?,
        };
        let name = name.to_string();
        all.push(Parameter { name, kind });
    }
    Ok(all)
}

fn pointer(written: &str) -> Result<String, String> {
    match written.trim_end_matches([' ', '*']) {
        "const uint8_t" | "const void" => kind("&[u8]"),
        "uint8_t" => kind("&mut [u8]"),
        other => kind(other),
    }
}

fn array(written: &str, size: &str) -> Result<String, String> {
    match written {
        "const uint8_t" => kind(&format!("&[u8; {size}]")),
        "uint8_t" | "char" => kind(&format!("&mut [u8; {size}]")),
        other => kind(other),
    }
}

fn integer(written: &str) -> Result<String, String> {
    match written.trim() {
        "uint8_t" => kind("u8"),
        "uint16_t" => kind("u16"),
        "uint32_t" => kind("u32"),
        "uint64_t" => kind("u64"),
        "size_t" => kind("usize"),
        "void" => kind("()"),
        other => kind(other),
    }
}

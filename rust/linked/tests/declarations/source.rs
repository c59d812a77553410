//! What the declarations for Rust say, and what the crates export: both over slices, and written alike.

use crate::signature::{kind, Parameter, Signature};

/// Parameters that a crate calls otherwise than the header.
const OTHER_NAMES: [(&str, &str); 4] = [
    ("res", "result"),
    ("one", "list1"),
    ("two", "list2"),
    ("operator", "operation"),
];

/// The lines `pub fn name = umbristal_name(..) -> ..;`.
pub fn declared(text: &str) -> Result<Vec<Signature>, String> {
    let code = without_comments(text);
    let mut all = Vec::new();
    for (place, _) in code.match_indices(" = umbristal_") {
        let own = code[..place].split(' ').next_back().unwrap_or("");
        let function = function(&code[place + 3..])?;
        let own = own.trim_start_matches("r#");
        if function.name != format!("umbristal_{own}") {
            return Err(format!("{}: it is called {own} here", function.name));
        }
        all.push(function);
    }
    Ok(all)
}

/// The functions of a crate that are marked for the archive.
pub fn exported(text: &str) -> Result<Vec<Signature>, String> {
    const MARK: &str = "#[unsafe(no_mangle)] ";
    const HEAD: &str = "pub extern \"C\" fn ";
    let code = without_comments(text);
    let mut all = Vec::new();
    for (place, _) in code.match_indices(HEAD) {
        let mut function = function(&code[place + HEAD.len()..])?;
        if !code[..place].ends_with(MARK) {
            return Err(format!("{}: it is not marked no_mangle", function.name));
        }
        for parameter in &mut function.parameters {
            let other = OTHER_NAMES.iter().find(|names| names.0 == parameter.name);
            if let Some((_, name)) = other {
                parameter.name = name.to_string();
            }
        }
        all.push(function);
    }
    match code.matches(MARK).count() == all.len() {
        true => Ok(all),
        false => Err("a no_mangle stands before no `pub extern \"C\" fn`".into()),
    }
}

/// The code in one line, each gap one space.
fn without_comments(text: &str) -> String {
    let lines = text
        .lines()
        .map(|line| line.split_once("//").map_or(line, |(code, _)| code));
    let words: Vec<&str> = lines.flat_map(str::split_whitespace).collect();
    words.join(" ")
}

/// A function from its name on.
fn function(code: &str) -> Result<Signature, String> {
    let (name, rest) = code.split_once('(').ok_or("a function has parameters")?;
    let fault = |what: String| format!("{name}: {what}");
    let (inner, rest) = rest
        .split_once(')')
        .ok_or_else(|| fault("its parameters do not end".into()))?;
    let result = match rest.strip_prefix(" -> ") {
        Some(behind) => behind.split([' ', ';', '{']).next().unwrap_or(""),
        None => "()",
    };
    Ok(Signature {
        name: name.to_string(),
        parameters: parameters(inner).map_err(fault)?,
        result: kind(result).map_err(fault)?,
    })
}

fn parameters(inner: &str) -> Result<Vec<Parameter>, String> {
    let each = inner
        .split(',')
        .map(str::trim)
        .filter(|one| !one.is_empty());
    each.map(|one| {
        let (name, written) = one
            .split_once(": ")
            .ok_or_else(|| format!("`{one}` has no kind"))?;
        Ok(Parameter {
            name: name.to_string(),
            kind: kind(written)?,
        })
    })
    .collect()
}

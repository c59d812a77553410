//! The copybook for COBOL against the header: a compiler of COBOL knows neither the sizes that the functions take nor the
//! numbers that they speak in.

use crate::header::{defined, enumerators};
use crate::signature::Signature;
use crate::{header, text, HEADER};

const COPYBOOK: &str = "examples/cobol/umbristal.cpy";

/// The items of the copybook: level, name and clauses, the comments left out.
fn items(copybook: &str) -> Vec<(String, String, String)> {
    let lines = copybook.lines().map(str::trim);
    let code: Vec<&str> = lines.filter(|line| !line.starts_with("*>")).collect();
    let sentences = code.join(" ");
    let each = sentences.split(". ").map(|item| {
        let words: Vec<&str> = item.trim_end_matches('.').split_whitespace().collect();
        let (level, name) = (words[0].to_string(), words[1].to_string());
        (level, name, words[2..].join(" "))
    });
    each.collect()
}

/// How many bytes an item takes in its group.
fn size(name: &str, clauses: &str) -> usize {
    let times = match clauses.split_once("OCCURS ") {
        Some((_, behind)) => number(behind),
        None => 1,
    };
    let one = match clauses {
        _ if clauses.is_empty() || clauses.starts_with("REDEFINES") => 0,
        _ if clauses.starts_with("BINARY-CHAR UNSIGNED") => 1,
        _ if clauses.starts_with("PIC 9(4) COMP") => 2,
        _ if clauses.starts_with("PIC 9(9) COMP") => 4,
        _ if clauses.starts_with("PIC XX") => 2,
        _ if clauses.starts_with("PIC X(") => number(&clauses["PIC X(".len()..]),
        _ => panic!("{name}: how long is {clauses}?"),
    };
    one * times
}

/// The number that a text begins with.
fn number(text: &str) -> usize {
    let end = text
        .find(|sign: char| !sign.is_ascii_digit())
        .unwrap_or(text.len());
    text[..end].parse().expect("a number")
}

/// Each block with its size.
fn blocks(copybook: &str) -> Vec<(String, usize)> {
    let mut blocks: Vec<(String, usize)> = Vec::new();
    for (level, name, clauses) in items(copybook) {
        match level.as_str() {
            "01" => blocks.push((name.clone(), size(&name, &clauses))),
            "05" => blocks.last_mut().expect("a group is open").1 += size(&name, &clauses),
            "78" | "88" => {}
            _ => panic!("{name}: level {level}"),
        }
    }
    blocks
}

/// The block that the copybook has for a parameter.
fn block_for(parameter: &str) -> &'static str {
    match parameter {
        "ask" => "UM-ASK",
        "cat" => "UM-CATALOGUE",
        "tab" => "UM-TABLE",
        "pos" => "UM-POSITION",
        "list" | "list1" => "UM-LIST",
        "list2" => "UM-LIST-2",
        "area" => "UM-AREA",
        "out" => "UM-OUT",
        "told" => "UM-TOLD",
        other => panic!("no block is known for {other}"),
    }
}

fn functions() -> Vec<Signature> {
    let all = header::functions(&text(HEADER)).expect("the header can be read");
    let those = all.into_iter();
    those
        .filter(|each| each.name.starts_with("umbristal_cobol_"))
        .collect()
}

#[test]
fn every_block_has_the_size_that_the_functions_take() {
    let blocks = blocks(&text(COPYBOOK));
    let functions = functions();
    assert!(!functions.is_empty());
    for function in functions {
        for parameter in function.parameters {
            let name = block_for(&parameter.name);
            let found = blocks.iter().find(|block| block.0 == name);
            let (_, size) = found.unwrap_or_else(|| panic!("{name} is in {COPYBOOK}"));
            let taken = parameter.kind.replace("mut ", "");
            assert_eq!(format!("&[u8; {size}]"), taken, "{}: {name}", function.name);
        }
    }
}

/// The numbers of the names from one to another, without what they begin with.
fn constants(copybook: &str, from: &str, to: &str, lead: &str) -> Vec<(String, u8)> {
    let all: Vec<_> = items(copybook)
        .into_iter()
        .filter(|item| item.0 == "78")
        .collect();
    let place = |name: &str| all.iter().position(|item| item.1 == name).expect(name);
    let those = &all[place(from)..=place(to)];
    let each = those.iter().map(|(_, name, clauses)| {
        let value = clauses.strip_prefix("VALUE ").expect("a value");
        let name = name.strip_prefix(lead).expect("a name of this kind");
        (name.replace('-', "_"), number(value) as u8)
    });
    each.collect()
}

#[test]
fn calls_statuses_and_operators_have_their_numbers() {
    let (copybook, header) = (text(COPYBOOK), text(HEADER));
    for (name, from, to) in [
        ("umbristal_calls", "UM-GU", "UM-DLET"),
        ("umbristal_statuses", "UM-BLANK", "UM-PD"),
        ("umbristal_operators", "UM-OP-NONE", "UM-OP-GE"),
    ] {
        let here = constants(&copybook, from, to, "UM-");
        assert_eq!(here, enumerators(&header, name), "{COPYBOOK} and {HEADER}");
    }
}

#[test]
fn the_limits_are_those_of_the_header() {
    let (copybook, header) = (text(COPYBOOK), text(HEADER));
    for (here, there) in [
        ("UM-TYPES-MOST", "UMBRISTAL_TYPES_MOST"),
        ("UM-FIELDS-MOST", "UMBRISTAL_FIELDS_MOST"),
        ("UM-LEVELS-MOST", "UMBRISTAL_LEVELS_MOST"),
        ("UM-AREA-MOST", "UMBRISTAL_DATA_MOST"),
        ("UM-CELLS-MOST", "UMBRISTAL_CELLS_MOST"),
        ("UM-CATALOGUE-MOST", "UMBRISTAL_CATALOGUE_MOST"),
        ("UM-TABLE-MOST", "UMBRISTAL_TABLE_MOST"),
        ("UM-LIST-MOST", "UMBRISTAL_LIST_SIZE"),
    ] {
        let item = items(&copybook).into_iter().find(|item| item.1 == here);
        let (_, _, clauses) = item.unwrap_or_else(|| panic!("{here} is in {COPYBOOK}"));
        assert_eq!(
            clauses,
            format!("VALUE {}", defined(&header, there)),
            "{here}"
        );
    }
}

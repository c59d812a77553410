//! The tables of figures, and the page made of them.

use crate::clock::REPETITIONS;
use crate::contenders::{ALL, BY_HAND, MISSING, STORE};
use crate::figures::{Figures, Run};
use crate::markdown::{aligned, rounded, thousands};
use crate::processor;
use crate::shapes;
use crate::targets::{targets, without_target};
use crate::work::Operation;
use crate::worst::Row;
use crate::SIZES;
use stack::blocks::NAMES;
use stack::Depth;

const TEMPLATE: &str = include_str!("page.md");

/// BENCHMARK.md.
pub fn page(run: &Run, depths: &[Depth], statements: &str) -> String {
    let costs: Vec<String> = SIZES
        .iter()
        .map(|&size| {
            let costs = costs(&run.sample, size);
            format!("### {} segments\n\n{costs}", thousands(size))
        })
        .collect();
    TEMPLATE
        .replace("{{processor}}", &processor::name())
        .replace("{{repetitions}}", &REPETITIONS.to_string())
        .replace("{{missing}}\n\n", &missing())
        .replace("{{elsewhere}}\n\n", elsewhere())
        .replace("{{costs}}", costs.join("\n").trim_end())
        .replace("{{worst}}", worst(&run.worst).trim_end())
        .replace("{{targets}}", targets(run).trim_end())
        .replace("{{without_target}}", without_target(run).trim_end())
        .replace("{{statements}}", statements.trim_end())
        .replace("{{depths}}", self::depths(depths).trim_end())
}

/// Which peers are not here, and how they are had; nothing where all are.
pub fn missing() -> String {
    if MISSING.is_empty() {
        return String::new();
    }
    let told = MISSING.iter().map(|(name, package)| {
        format!("{name} was not installed (Debian: {package}) and is left out.\n")
    });
    let packages: Vec<&str> = MISSING.iter().map(|(_, package)| *package).collect();
    let brings = format!("    apt-get install {}\n\n", packages.join(" "));
    told.collect::<String>() + "After this the next run measures everybody:\n\n" + &brings
}

/// What is to be said where the stack is another than the gate's.
fn elsewhere() -> &'static str {
    match std::env::consts::ARCH {
        "x86_64" => "",
        _ => "The bytes of stack below are this processor's; the gate bounds those of x86-64.\n\n",
    }
}

/// Nanoseconds, and in brackets how many times the store's.
pub fn costs(figures: &Figures<Operation>, size: usize) -> String {
    let mut rows = vec![vec![format!("ns, {} segments", thousands(size))]];
    rows[0].extend(ALL.map(String::from));
    for operation in Operation::ALL {
        let store = figures.of(operation, size, STORE);
        let mut row = vec![operation.title().to_string()];
        for name in ALL {
            row.push(match (figures.of(operation, size, name), store) {
                (Some(own), Some(store)) if name != STORE => {
                    format!("{} ({})", rounded(own), rounded(own / store))
                }
                (Some(own), _) => rounded(own),
                (None, _) => "".to_string(),
            });
        }
        rows.push(row);
    }
    aligned(&rows)
}

/// Nanoseconds by the number of cells, and by how much the last step of it multiplies them; the same by hand.
pub fn worst(figures: &Figures<Row>) -> String {
    let sizes = shapes::SIZES;
    let [_, before, last] = sizes;
    let mut rows = vec![vec!["ns, by number of cells".to_string()]];
    rows[0].extend(sizes.map(thousands));
    rows[0].push(format!("{} / {}", thousands(last), thousands(before)));
    rows[0].extend(sizes.map(|size| format!("by hand: {}", thousands(size))));
    for row in Row::ALL {
        let of = |size, name| figures.of(row, size, name);
        let told = |figure: Option<f64>| figure.map_or(String::new(), rounded);
        let growth = of(last, STORE).zip(of(before, STORE));
        let mut cells = vec![format!("{}, {}", row.name(), row.counted())];
        cells.extend(sizes.map(|size| told(of(size, STORE))));
        cells.push(told(growth.map(|(last, before)| last / before)));
        cells.extend(sizes.map(|size| told(of(size, BY_HAND))));
        rows.push(cells);
    }
    aligned(&rows)
}

/// Bytes of stack.
pub fn depths(depths: &[Depth]) -> String {
    let mut rows = vec![vec!["bytes of stack".to_string()]];
    rows[0].extend(NAMES.map(String::from));
    for depth in depths {
        let mut row = vec![depth.function.to_string()];
        row.extend(depth.bytes.map(|bytes| match bytes {
            Some(bytes) => thousands(bytes),
            None => "not measured".to_string(),
        }));
        rows.push(row);
    }
    aligned(&rows)
}

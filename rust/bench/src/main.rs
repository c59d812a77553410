//! What a call costs. `bench FOLDER` measures, prints tables, and writes BENCHMARK.md and benchmark.svg into the
//! folder, which it makes; without a folder it only prints.

mod asked;
mod beside;
mod by_hand;
mod calls;
mod chart;
mod clock;
mod contenders;
mod figures;
#[cfg(lmdb)]
mod lmdb;
mod markdown;
mod marks;
mod measure;
mod page;
mod panel;
mod processor;
mod sample;
mod shapes;
#[cfg(sqlite)]
mod sqlite;
mod statements;
mod targets;
mod users;
mod work;
mod worst;

use figures::{Figures, Run};
use sample::Sample;
use stack::Depth;
use std::path::Path;
use std::process::ExitCode;

/// How many segments the samples have.
const SIZES: [usize; 3] = [64, 512, 4059];

fn main() -> ExitCode {
    let words: Vec<String> = std::env::args().skip(1).collect();
    if words.first().is_some_and(|word| word == beside::WORD) {
        beside::run(&words[1..]);
        return ExitCode::SUCCESS;
    }
    print!("{}", page::missing());
    let run = run();
    let depths = stack::depths();
    println!("{}", page::depths(&depths));
    let statements = statements::figures();
    println!("{statements}");
    let Some(folder) = words.first() else {
        return ExitCode::SUCCESS;
    };
    match written(Path::new(folder), &run, &depths, &statements) {
        Ok(()) => {
            println!("{folder}: BENCHMARK.md and benchmark.svg are written");
            ExitCode::SUCCESS
        }
        Err(error) => {
            eprintln!("{folder}: {error}");
            ExitCode::FAILURE
        }
    }
}

/// Measures everything, and tells it on the way.
fn run() -> Run {
    let mut run = Run {
        sample: Figures::new(),
        worst: Figures::new(),
    };
    for size in SIZES {
        contenders::measure(&Sample::new(size), &mut run.sample);
        println!("{}", page::costs(&run.sample, size));
    }
    for size in shapes::SIZES {
        contenders::measure_worst(size, &mut run.worst);
    }
    println!("{}", page::worst(&run.worst));
    println!("{}", targets::targets(&run));
    println!("{}", targets::without_target(&run));
    run
}

fn written(folder: &Path, run: &Run, depths: &[Depth], statements: &str) -> std::io::Result<()> {
    std::fs::create_dir_all(folder)?;
    std::fs::write(
        folder.join("BENCHMARK.md"),
        page::page(run, depths, statements),
    )?;
    std::fs::write(folder.join("benchmark.svg"), chart::chart(run))
}

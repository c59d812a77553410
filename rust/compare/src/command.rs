//! The command line: `compare --calls N --seed S`, `compare --case K --seed S`, `compare --soak`.

use crate::comparison::{Comparison, Difference};
use crate::dice::Dice;
use crate::tally::Tally;
use face::Functions;
use std::process::ExitCode;
use std::time::{Instant, SystemTime, UNIX_EPOCH};

const USAGE: &str = "usage: compare [--calls N] [--seed S] [--case K] [--soak]";

struct Options {
    calls: u64,
    seed: Option<u64>,
    case: Option<u64>,
    soak: bool,
}

fn read_options(mut words: impl Iterator<Item = String>) -> Option<Options> {
    let mut options = Options {
        calls: 200_000,
        seed: None,
        case: None,
        soak: false,
    };
    while let Some(word) = words.next() {
        let mut number = || words.next()?.parse().ok();
        match word.as_str() {
            "--calls" => options.calls = number()?,
            "--seed" => options.seed = Some(number()?),
            "--case" => options.case = Some(number()?),
            "--soak" => options.soak = true,
            _ => return None,
        }
    }
    Some(options)
}

/// Runs what the words ask for; fails on a difference.
pub fn main(judge: &Functions, store: &Functions, words: impl Iterator<Item = String>) -> ExitCode {
    let Some(options) = read_options(words) else {
        eprintln!("{USAGE}");
        return ExitCode::from(2);
    };
    println!("{} is compared with {}", store.name, judge.name);
    let compared = match (options.soak, options.case) {
        (true, _) => soak(judge, store, &options),
        (_, Some(case)) => one_case(judge, store, &options, case),
        _ => timed(judge, store, options.seed.unwrap_or(1), options.calls).map(|_| ()),
    };
    match compared {
        Ok(()) => ExitCode::SUCCESS,
        Err(difference) => {
            println!("{difference}");
            ExitCode::FAILURE
        }
    }
}

fn timed(
    judge: &Functions,
    store: &Functions,
    seed: u64,
    calls: u64,
) -> Result<Tally, Box<Difference>> {
    let start = Instant::now();
    let tally = crate::run(judge, store, seed, calls)?;
    let seconds = start.elapsed().as_secs_f64();
    let rate = tally.calls() as f64 / seconds;
    println!("{tally}");
    println!("seed {seed}, {seconds:.1} s, {rate:.0} compared calls a second, no difference");
    Ok(tally)
}

fn one_case(
    judge: &Functions,
    store: &Functions,
    options: &Options,
    case: u64,
) -> Result<(), Box<Difference>> {
    let mut comparison = Comparison::new(judge, store, options.seed.unwrap_or(1));
    crate::run_case(&mut comparison, case)?;
    println!("{}", comparison.tally);
    Ok(())
}

/// Fresh seeds until stopped; the first is taken from the clock unless it is given.
fn soak(judge: &Functions, store: &Functions, options: &Options) -> Result<(), Box<Difference>> {
    let clock = SystemTime::now().duration_since(UNIX_EPOCH);
    let first = options
        .seed
        .unwrap_or_else(|| clock.map_or(1, |since| since.as_nanos() as u64));
    let mut seeds = Dice::new(first, 0);
    let mut total = Tally::default();
    loop {
        // Only as many bits as are easily written down.
        let seed = seeds.roll() >> 32;
        total.add(&timed(judge, store, seed, options.calls)?);
        println!("in all:\n{total}\n");
    }
}

//! DBD statements: texts and pairs are drawn and damaged, and two readers and two writers are compared on them.

mod pairs;
mod sheet;

use crate::comparison::hex;
use crate::dice::Dice;
use face::Statements;
use std::collections::BTreeMap;
use std::thread;

/// How many texts were read, by fault, and how many pairs were written, by status.
#[derive(Default, Debug)]
pub struct Tally {
    pub texts: u64,
    pub read: BTreeMap<u8, u64>,
    pub written: BTreeMap<u8, u64>,
}

impl Tally {
    fn add(&mut self, other: Tally) {
        self.texts += other.texts;
        for (mine, more) in [
            (&mut self.read, other.read),
            (&mut self.written, other.written),
        ] {
            for (number, count) in more {
                *mine.entry(number).or_default() += count;
            }
        }
    }
}

/// Compares so many texts, and the pairs that they lead to, or to the first difference. The texts are shared out among the processors.
pub fn run(judge: &Statements, store: &Statements, seed: u64, texts: u64) -> Result<Tally, String> {
    let shares = thread::available_parallelism().map_or(1, |count| count.get() as u64);
    thread::scope(|scope| {
        let share =
            |first: u64| run_share(judge, store, seed, (first..texts).step_by(shares as usize));
        let running: Vec<_> = (0..shares)
            .map(|first| scope.spawn(move || share(first)))
            .collect();
        let mut whole = Tally::default();
        for each in running {
            whole.add(each.join().expect("a comparison does not panic")?);
        }
        Ok(whole)
    })
}

fn run_share(
    judge: &Statements,
    store: &Statements,
    seed: u64,
    cases: impl Iterator<Item = u64>,
) -> Result<Tally, String> {
    let mut tally = Tally::default();
    for case in cases {
        let mut dice = Dice::new(seed, case);
        play(judge, store, &mut dice, &mut tally)
            .map_err(|said| format!("seed {seed}, text {case}: {said}"))?;
    }
    Ok(tally)
}

/// One text; and where it can be read, its pair, written and read again, and damaged.
fn play(
    judge: &Statements,
    store: &Statements,
    dice: &mut Dice,
    tally: &mut Tally,
) -> Result<(), String> {
    let text = sheet::draw(dice);
    let (cat, names) = (room(dice, 520), room(dice, 784));
    let read = compare_reading(judge, store, &text, &cat, &names)?;
    tally.texts += 1;
    *tally.read.entry(read.result as u8).or_default() += 1;
    let mut pair = match read.result as u8 {
        0 => pairs::cut(&read),
        _ if dice.percent(20) => pairs::draw(dice),
        _ => return Ok(()),
    };
    if dice.percent(60) {
        pairs::damage(dice, &mut pair);
    }
    let out = room(dice, 4700);
    let written = compare_writing(judge, store, &pair, &out)?;
    *tally.written.entry(written.result as u8).or_default() += 1;
    if written.result as u8 == 0 {
        let long = (written.result >> 32) as usize;
        let again = compare_reading(
            judge,
            store,
            &written.blocks[0][..long],
            &[0; 520],
            &[0; 784],
        )?;
        if pairs::cut(&again) != pair {
            return Err(format!("a pair is not read back: {}", hex(&pair.catalogue)));
        }
        let exact = vec![0x2E; long - usize::from(dice.percent(50))];
        compare_writing(judge, store, &pair, &exact)?;
    }
    Ok(())
}

/// A buffer with something in it: often long enough, at times just not.
fn room(dice: &mut Dice, enough: usize) -> Vec<u8> {
    let long = match dice.below(12) {
        0 => dice.below(enough),
        1 => 0,
        _ => enough,
    };
    let byte = dice.byte();
    vec![byte; long]
}

/// A result, and the buffers that were written to.
#[derive(PartialEq, Eq)]
struct Left {
    result: u64,
    blocks: Vec<Vec<u8>>,
}

fn compare_reading(
    judge: &Statements,
    store: &Statements,
    text: &[u8],
    cat: &[u8],
    names: &[u8],
) -> Result<Left, String> {
    let read = |by: &Statements| {
        let (mut cat, mut names) = (cat.to_vec(), names.to_vec());
        let result = (by.dbd_read)(text, &mut cat, &mut names);
        Left {
            result,
            blocks: vec![cat, names],
        }
    };
    same(judge, store, read, || {
        format!("reading\n{}", String::from_utf8_lossy(text))
    })
}

fn compare_writing(
    judge: &Statements,
    store: &Statements,
    pair: &pairs::Pair,
    out: &[u8],
) -> Result<Left, String> {
    let write = |by: &Statements| {
        let mut text = out.to_vec();
        let result = (by.dbd_write)(&pair.catalogue, &pair.names, &mut text);
        Left {
            result,
            blocks: vec![text],
        }
    };
    same(judge, store, write, || {
        format!("writing {} {}", hex(&pair.catalogue), hex(&pair.names))
    })
}

/// What both leave, if it is the same.
fn same(
    judge: &Statements,
    store: &Statements,
    act: impl Fn(&Statements) -> Left,
    what: impl Fn() -> String,
) -> Result<Left, String> {
    let expected = act(judge);
    let actual = act(store);
    if actual == expected {
        return Ok(expected);
    }
    let told = |by: &Statements, left: &Left| {
        let blocks: Vec<String> = left.blocks.iter().map(|block| hex(block)).collect();
        format!("{}: {:016x} {}", by.name, left.result, blocks.join(" "))
    };
    Err(format!(
        "{}\n{}\n{}",
        what(),
        told(judge, &expected),
        told(store, &actual)
    ))
}

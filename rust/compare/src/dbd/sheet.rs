//! Texts of DBD statements: sound ones, as words and signs, with blanks strewn in; and the same with one rule or several
//! broken.

use crate::dice::Dice;
use crate::plan::Plan;

type Line = Vec<String>;

/// A text, in about every second case a sound one.
pub fn draw(dice: &mut Dice) -> Vec<u8> {
    let mut lines = sound(dice);
    let broken = match dice.below(10) {
        0..=4 => 0,
        5..=7 => 1,
        _ => dice.between(2, 4),
    };
    for _ in 0..broken {
        damage(dice, &mut lines);
    }
    let mut text = spelled(dice, &lines);
    if dice.percent(6) && !text.is_empty() {
        let at = dice.below(text.len());
        text[at] = dice.byte();
    }
    if dice.percent(2) {
        let long = dice.below(text.len() + 1);
        text.truncate(long);
    }
    text
}

fn words(text: &str) -> Line {
    text.split(' ').map(str::to_string).collect()
}

fn name(dice: &mut Dice, number: usize) -> String {
    match dice.below(12) {
        0 => format!("LONGN{number:03}"),
        1 => format!("n{number}"),
        2 => format!("SEQ{number}"),
        3 => format!("N{number}X"),
        _ => format!("N{number}"),
    }
}

/// The statements of a drawn catalogue, its fields by their types and every key among them.
fn sound(dice: &mut Dice) -> Vec<Line> {
    let mut plan = Plan::draw(dice);
    if dice.percent(95) {
        let few = dice.between(1, 5).min(plan.types.len());
        plan.types.truncate(few);
        plan.fields
            .retain(|field| usize::from(field.type_code) <= few);
    }
    let names: Vec<String> = (0..plan.types.len()).map(|at| name(dice, at)).collect();
    let mut lines = vec![words(&format!("DBD NAME = {}", name(dice, 99)))];
    let mut left = 64;
    for (at, each) in plan.types.iter().enumerate() {
        let parent = match each.parent {
            0 => "0",
            code => &names[usize::from(code) - 1],
        };
        let own = &names[at];
        lines.push(words(&format!(
            "SEGM NAME = {own} , PARENT = {parent} , BYTES = {}",
            digits(dice, each.length)
        )));
        let mut spans: Vec<(u8, u8, u8)> = plan
            .fields
            .iter()
            .filter(|field| usize::from(field.type_code) == at + 1)
            .map(|field| (0, field.start, field.length))
            .collect();
        if each.kind != 0 {
            let place = dice.below(spans.len() + 1);
            spans.insert(place, (each.kind, each.key_start, each.key_length));
        }
        for (number, &(kind, start, length)) in spans.iter().take(left).enumerate() {
            let own = name(dice, number);
            lines.push(field(dice, &own, kind, start, length));
        }
        left -= spans.len().min(left);
    }
    lines
}

fn field(dice: &mut Dice, own: &str, kind: u8, start: u8, length: u8) -> Line {
    let own = match kind {
        0 => own.to_string(),
        1 => format!("( {own} , SEQ , U )"),
        _ => format!("( {own} , SEQ , M )"),
    };
    let letter = dice.pick(&["C", "X"]);
    words(&format!(
        "FIELD NAME = {own} , BYTES = {} , START = {} , TYPE = {letter}",
        digits(dice, length),
        digits(dice, start)
    ))
}

fn digits(dice: &mut Dice, number: u8) -> String {
    match dice.below(20) {
        0 => format!("{number:03}"),
        1 => format!("{number:040}"),
        _ => number.to_string(),
    }
}

/// One thing wrong, or at least other.
fn damage(dice: &mut Dice, lines: &mut Vec<Line>) {
    let at = dice.below(lines.len());
    match dice.below(17) {
        0 => drop(lines.remove(at)),
        1 => lines.insert(at, lines[at].clone()),
        2 => {
            let other = dice.below(lines.len());
            lines.swap(at, other);
        }
        3 => {
            let odd = [
                "DBDGEN",
                "FINISH",
                "END",
                "* done",
                "SEGM",
                "",
                "FIELD NAME",
                "dbd NAME = A",
            ];
            let odd = *dice.pick(&odd);
            lines.insert(at, words(odd));
        }
        4 => crowd(dice, lines),
        5 => deepen(lines),
        6 | 7 => change_number(dice, &mut lines[at]),
        8 | 9 => change_name(dice, lines, at),
        10 => change_parent(dice, lines, at),
        11 | 12 => change_word(dice, &mut lines[at]),
        13 => give_key(&mut lines[at]),
        14 => change_last(dice, &mut lines[at]),
        _ => change_sign(dice, &mut lines[at]),
    }
    if lines.is_empty() {
        lines.push(words(""));
    }
}

/// Segments up to 33, or fields up to 65.
fn crowd(dice: &mut Dice, lines: &mut Vec<Line>) {
    let (word, most) = *dice.pick(&[("SEGM", 33), ("FIELD", 65)]);
    let root = lines.iter().find(|line| line[0] == "SEGM");
    let root = root
        .and_then(|line| line.get(3))
        .cloned()
        .unwrap_or_default();
    let there = lines.iter().filter(|line| line[0] == word).count();
    for number in there..most - usize::from(dice.percent(50)) {
        lines.push(match word {
            "SEGM" => words(&format!(
                "SEGM NAME = M{number} , PARENT = {root} , BYTES = 9"
            )),
            _ => field(dice, &format!("M{number}"), 0, 1, 1),
        });
    }
}

/// A chain down to level 15 or 16.
fn deepen(lines: &mut Vec<Line>) {
    let mut segments = lines.iter().filter(|line| line[0] == "SEGM");
    let Some(last) = segments.next_back().and_then(|line| line.get(3)).cloned() else {
        return;
    };
    let mut above = last;
    for number in 0..15 {
        lines.push(words(&format!(
            "SEGM NAME = D{number} , PARENT = {above} , BYTES = 1"
        )));
        above = format!("D{number}");
    }
}

fn change_number(dice: &mut Dice, line: &mut Line) {
    let places: Vec<usize> = (0..line.len())
        .filter(|&at| at > 3 && line[at].bytes().all(|byte| byte.is_ascii_digit()))
        .collect();
    if places.is_empty() {
        return;
    }
    let at = *dice.pick(&places);
    let odd = [
        "0",
        "1",
        "120",
        "121",
        "255",
        "256",
        "257",
        "999999999999999999999",
        "1A",
        "A1",
        "",
    ];
    line[at] = dice.pick(&odd).to_string();
    if dice.percent(5) {
        line[at] = "9".repeat(dice.between(1, 400));
    }
}

/// The name of another line, or none that is right.
fn change_name(dice: &mut Dice, lines: &mut [Line], at: usize) {
    let other = dice.below(lines.len());
    let taken = lines[other].get(3).cloned().unwrap_or_default();
    let odd = ["ABCDEFGHI", "7UP", "N_1", "0", "seq", "DBD", "A"];
    let new = match dice.percent(60) {
        true => taken,
        false => dice.pick(&odd).to_string(),
    };
    let place = match lines[at].get(3).map(String::as_str) {
        Some("(") => 4,
        _ => 3,
    };
    if let Some(name) = lines[at].get_mut(place) {
        *name = new;
    }
}

fn change_parent(dice: &mut Dice, lines: &mut [Line], at: usize) {
    let other = dice.below(lines.len());
    let taken = lines[other].get(3).cloned().unwrap_or_default();
    let new = match dice.below(6) {
        0 => "0".to_string(),
        1 => "00".to_string(),
        2 => "STOP".to_string(),
        _ => taken,
    };
    if let Some(parent) = lines[at].get_mut(7) {
        *parent = new;
    }
}

/// A word or a sign left out, once more, or another one.
fn change_word(dice: &mut Dice, line: &mut Line) {
    let at = dice.below(line.len());
    match dice.below(4) {
        0 => drop(line.remove(at)),
        1 => line.insert(at, line[at].clone()),
        2 => line[at] = line[at].to_lowercase(),
        _ => {
            let odd = [
                "NAME", "BYTES", "START", "TYPE", "C", "X", "P", "U", "SEQ", "(", ",", "=",
            ];
            line[at] = dice.pick(&odd).to_string();
        }
    }
    if line.is_empty() {
        line.push(String::new());
    }
}

/// SEQ for a field that has none.
fn give_key(line: &mut Line) {
    if line[0] == "FIELD" && line.get(3).is_some_and(|word| word != "(") {
        let own = line[3].clone();
        line.splice(3..4, words(&format!("( {own} , SEQ , U )")));
    }
}

/// Another letter for the type, where the line has one.
fn change_last(dice: &mut Dice, line: &mut Line) {
    if let Some(last) = line.last_mut() {
        *last = dice.pick(&["P", "c", "CX", "X", "0", "1"]).to_string();
    }
}

fn change_sign(dice: &mut Dice, line: &mut Line) {
    let odd = [";", "-", "\0", "\u{7f}", "'", "*", "é", "."];
    let at = dice.below(line.len() + 1);
    line.insert(at, dice.pick(&odd).to_string());
}

/// The lines with blanks between their words: where two words meet there must be one, elsewhere there may be.
fn spelled(dice: &mut Dice, lines: &[Line]) -> Vec<u8> {
    let loose = dice.percent(30);
    let crlf = dice.percent(15);
    let mut text = Vec::new();
    for line in lines {
        while loose && dice.percent(10) {
            text.extend(dice.pick(&["\n", "  \n", "\t\r\n"]).as_bytes());
        }
        let mut behind_word = false;
        for word in line {
            let is_word = word.bytes().all(|byte| byte.is_ascii_alphanumeric());
            if (is_word && behind_word) || (loose && dice.percent(30)) {
                text.extend(dice.pick(&[" ", "  ", "\t", " \r"]).as_bytes());
            }
            text.extend(word.as_bytes());
            behind_word = is_word;
        }
        if crlf {
            text.push(b'\r');
        }
        text.push(b'\n');
    }
    if dice.percent(20) {
        text.pop();
    }
    text
}

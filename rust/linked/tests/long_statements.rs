//! DBD statements that are far too long, against the judge: nothing traps, and every line is counted.

use compare::JUDGED_STATEMENTS;
use linked::STATEMENTS;

const MANY: usize = 3_000_000;
const ROOT: &str = "DBD NAME=P\nSEGM NAME=Q,PARENT=0,BYTES=12\n";

/// What both readers answer to the text, which must be the same, and leave of buffers that hold something.
fn answer(text: &str) -> u64 {
    let read = |by: &face::Statements| {
        let (mut cat, mut names) = ([7; 520], [7; 784]);
        let result = (by.dbd_read)(text.as_bytes(), &mut cat, &mut names);
        (result, cat, names)
    };
    let store = read(&STATEMENTS);
    assert!(store == read(&JUDGED_STATEMENTS), "{:.60}", text);
    store.0
}

fn fault(kind: u64, line: usize) -> u64 {
    kind | (line as u64) << 32
}

#[test]
fn long_texts_are_answered() {
    let blank = "\n".repeat(MANY);
    let one = 1 << 8;
    assert_eq!(answer(&(blank.clone() + ROOT)), one);
    assert_eq!(answer(&(ROOT.to_string() + &blank)), one);
    assert_eq!(answer(&blank), fault(1, MANY + 1));
    assert_eq!(answer(&(blank + "DBDGEN")), fault(1, MANY + 1));
}

#[test]
fn long_lines_are_answered() {
    let one = 1 << 8;
    let spaces = " ".repeat(MANY);
    assert_eq!(answer(&ROOT.replace(' ', &spaces)), one);
    assert_eq!(answer(&ROOT.replace("12", &("0".repeat(MANY) + "12"))), one);
    assert_eq!(answer(&ROOT.replace("12", &"9".repeat(MANY))), fault(20, 2));
    assert_eq!(answer(&ROOT.replace('Q', &"Q".repeat(MANY))), fault(1, 2));
    assert_eq!(answer(&ROOT.replace(',', &",".repeat(MANY))), fault(1, 2));
    for byte in ["\0", "\r", "é"] {
        let fault_or_none = if byte == "\r" { one } else { fault(1, 3) };
        assert_eq!(
            answer(&(ROOT.to_string() + &byte.repeat(MANY))),
            fault_or_none
        );
    }
}

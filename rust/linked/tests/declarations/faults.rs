//! That a difference is found, and said so that one knows where to look.

use crate::signature::{differences, Signature, Stated};
use crate::{header, source};

const C: &str =
    "/* umbristal_none(void); */ uint8_t umbristal_a(const uint8_t *cat, size_t cat_len,\n\
                 uint8_t *tab, size_t tab_len, uint8_t number);\n\
                 static inline uint8_t umbristal_b(uint64_t result) { return (uint8_t)result; }";
const RUST: &str = "pub fn a = umbristal_a(cat: &[u8], tab: &mut [u8], number: u8) -> u8;";

fn between(c: &str, rust: &str) -> Vec<String> {
    let stated = |place, functions: Result<Vec<Signature>, String>| Stated {
        place,
        functions: functions.expect("it can be read"),
    };
    let one = stated("C", header::functions(c));
    differences(&one, &stated("Rust", source::declared(rust)))
}

/// The one difference that comes of writing the Rust otherwise.
fn found(from: &str, to: &str) -> String {
    assert!(RUST.contains(from));
    let found = between(C, &RUST.replace(from, to));
    assert_eq!(found.len(), 1, "{found:?}");
    found[0].clone()
}

#[test]
fn nothing_where_both_agree() {
    assert_eq!(between(C, RUST), [""; 0]);
}

#[test]
fn each_kind_of_difference() {
    assert_eq!(
        found("tab: &mut [u8]", "tab: &[u8]"),
        "umbristal_a: parameter 2 is `tab: &mut [u8]` in C, `tab: &[u8]` in Rust"
    );
    assert_eq!(
        found("number: u8", "number: u16"),
        "umbristal_a: parameter 3 is `number: u8` in C, `number: u16` in Rust"
    );
    assert_eq!(
        found("cat: ", "list: "),
        "umbristal_a: parameter 1 is `cat: &[u8]` in C, `list: &[u8]` in Rust"
    );
    assert_eq!(
        found(", number: u8", ""),
        "umbristal_a: 3 parameters in C, 2 in Rust"
    );
    assert_eq!(
        found("-> u8", "-> u64"),
        "umbristal_a: `u8` comes back in C, `u64` in Rust"
    );
}

#[test]
fn arrays_by_their_size() {
    let c = "#define UMBRISTAL_TOLD_SIZE 8\nvoid umbristal_c(const uint8_t ask[21],\n\
             uint8_t told[UMBRISTAL_TOLD_SIZE]);";
    let rust = "pub fn c = umbristal_c(ask: &[u8; 21], told: &mut [u8; 8]) -> ();";
    assert_eq!(between(c, rust), [""; 0]);
    assert_eq!(
        between(c, &rust.replace("[u8; 8]", "[u8; 9]")),
        ["umbristal_c: parameter 2 is `told: &mut [u8; 8]` in C, `told: &mut [u8; 9]` in Rust"]
    );
    assert_eq!(
        between(&c.replace("const ", ""), rust),
        ["umbristal_c: parameter 1 is `ask: &mut [u8; 21]` in C, `ask: &[u8; 21]` in Rust"]
    );
    assert_eq!(
        between(c, &rust.replace("&[u8; 21]", "&[u8]")),
        ["umbristal_c: parameter 1 is `ask: &[u8; 21]` in C, `ask: &[u8]` in Rust"]
    );
}

#[test]
fn a_function_that_is_missing() {
    assert_eq!(
        between(C, ""),
        ["umbristal_a: 1 times in C, 0 times in Rust"]
    );
    assert_eq!(
        between("", RUST),
        ["umbristal_a: 0 times in C, 1 times in Rust"]
    );
}

#[test]
fn what_cannot_be_read_is_no_agreement() {
    let header = |text: &str| header::functions(text).unwrap_err();
    assert_eq!(
        header(&C.replace("size_t cat_len,", "")),
        "umbristal_a: `size_t cat_len` does not follow `cat`"
    );
    assert_eq!(
        header(&C.replace("uint8_t number", "int number")),
        "umbristal_a: `int` is no kind that the face has"
    );
    assert_eq!(
        header("void umbristal_c(uint8_t told[0]);"),
        "umbristal_c: `&mut [u8; 0]` is no kind that the face has"
    );
    let exported = |text: &str| source::exported(text).unwrap_err();
    assert_eq!(
        exported("pub extern \"C\" fn umbristal_a(cat: &[u8]) -> u8 {}"),
        "umbristal_a: it is not marked no_mangle"
    );
    assert_eq!(
        exported("#[unsafe(no_mangle)]\nfn umbristal_a(cat: &[u8]) -> u8 {}"),
        "a no_mangle stands before no `pub extern \"C\" fn`"
    );
}

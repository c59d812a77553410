//! The listing program on real files, against the judge's text, and how it ends: what it reads and prints is not proved, so it is run.

use std::path::{Path, PathBuf};
use std::process::{Command, Output, Stdio};
use std::sync::{OnceLock, RwLock};

/// The status of a whole listing, of a refusal, and of wrong usage or a file or output that fails.
const LISTED: i32 = 0;
const REFUSED: i32 = 1;
const FAILED: i32 = 2;

/// The program: the one that UMBRISTAL_LISTER names, or else one made here, once, from the proved crate.
fn program() -> &'static Path {
    static MADE: OnceLock<PathBuf> = OnceLock::new();
    MADE.get_or_init(|| match std::env::var_os("UMBRISTAL_LISTER") {
        Some(named) => PathBuf::from(named),
        None => made(),
    })
}

fn made() -> PathBuf {
    let out = Path::new(env!("CARGO_TARGET_TMPDIR")).join("umbristal-list");
    let tool = Path::new(env!("CARGO_MANIFEST_DIR")).join("../../tools/host-lister");
    let done = Command::new(tool).arg(&out).status();
    assert!(done.expect("tools/host-lister runs").success());
    out
}

/// Held for writing where a pipe must have no other end: a process that another test starts has a copy of every pipe until it has become the program.
static STARTS: RwLock<()> = RwLock::new(());

fn output(command: &mut Command) -> Ended {
    let _start = STARTS.read().unwrap_or_else(|error| error.into_inner());
    Ended::of(command.output().expect("the program runs"))
}

/// A folder of its own for a test, gone when the test is over.
struct Folder(PathBuf);

impl Folder {
    fn new(name: &str) -> Folder {
        let path = format!("umbristal-listing-{}-{name}", std::process::id());
        let folder = std::env::temp_dir().join(path);
        std::fs::create_dir_all(&folder).expect("a folder for the files");
        Folder(folder)
    }

    fn with(self, file: &str, bytes: &[u8]) -> Folder {
        std::fs::write(self.0.join(file), bytes).expect("a file is written");
        self
    }

    fn bench(name: &str) -> Folder {
        Folder::new(name)
            .with("CAT.HDC", &shipped("CAT.HDC"))
            .with("TAB.HDT", &shipped("TAB.HDT"))
    }

    /// The program in this folder, with these words behind its name.
    fn command(&self, words: &[&str]) -> Command {
        let mut command = Command::new(program());
        command.args(words).current_dir(&self.0);
        command
    }

    fn run(&self, words: &[&str]) -> Ended {
        output(&mut self.command(words))
    }
}

impl Drop for Folder {
    fn drop(&mut self) {
        let _ = std::fs::remove_dir_all(&self.0);
    }
}

/// What a run has printed and said, and its status; `None` where a signal ended it.
struct Ended {
    status: Option<i32>,
    printed: String,
    said: String,
}

impl Ended {
    fn of(output: Output) -> Ended {
        Ended {
            status: output.status.code(),
            printed: String::from_utf8(output.stdout).expect("it prints text"),
            said: String::from_utf8(output.stderr).expect("it says text"),
        }
    }
}

fn shipped(file: &str) -> Vec<u8> {
    let path: PathBuf = Path::new(env!("CARGO_MANIFEST_DIR")).join("../../crates/lister/data");
    std::fs::read(path.join(file)).expect("the shipped block")
}

/// A catalogue of one type without a key, of this many data bytes.
fn one_type(length: u8) -> Vec<u8> {
    let mut catalogue = b"HDC\x00\x01\x01\x00\x00".to_vec();
    catalogue.extend([0, length, 0, 0, 0, 0, 0, 0]);
    catalogue
}

/// The longest catalogue: 32 types of one byte, all but the first beneath the first, and 64 fields of the first.
fn longest_catalogue() -> Vec<u8> {
    let mut catalogue = b"HDC\x00\x01\x20\x40\x00".to_vec();
    for code in 1..=32 {
        catalogue.extend([u8::from(code > 1), 1, 0, 0, 0, 0, 0, 0]);
    }
    for _ in 0..64 {
        catalogue.extend([1, 1, 1, 0]);
    }
    catalogue
}

/// A table of one type with n roots in m cells.
fn roots(length: u8, n: usize, m: usize) -> Vec<u8> {
    let size = usize::from(length) + 1;
    let mut table = b"HDT\x00\x01".to_vec();
    table.extend([length + 1, (n / 256) as u8, (n % 256) as u8]);
    table.resize(8 + m * size, 0);
    for i in 0..n {
        let cell = 8 + i * size;
        table[cell] = 1;
        table[cell + 1] = (i % 251) as u8;
    }
    table
}

/// The program prints what the judge does, and its status tells a listing from a refusal.
fn as_the_judge(name: &str, catalogue: &[u8], table: &[u8]) -> String {
    let folder = Folder::new(name)
        .with("CAT.HDC", catalogue)
        .with("TAB.HDT", table);
    let ended = folder.run(&[]);
    assert_eq!(ended.printed, judge::listing(catalogue, table), "{name}");
    let whole = ended.printed.ends_with("GB\n");
    let status = if whole { LISTED } else { REFUSED };
    assert_eq!(ended.status, Some(status), "{name}");
    let too_long = table.len() > 65_536;
    assert_eq!(ended.said.is_empty(), !too_long, "{name}: {}", ended.said);
    ended.printed
}

#[test]
fn the_bench_table() {
    let said = as_the_judge("bench", &shipped("CAT.HDC"), &shipped("TAB.HDT"));
    assert!(said.starts_with("0 1 1 -- 303741\n") && said.ends_with("\nGB\n"));
}

#[test]
fn empty_tables() {
    let catalogue = one_type(1);
    for (name, table) in [("empty", roots(1, 0, 12)), ("no-cells", roots(1, 0, 0))] {
        assert_eq!(as_the_judge(name, &catalogue, &table), "GB\n");
    }
}

#[test]
fn refusals() {
    let (catalogue, table) = (shipped("CAT.HDC"), shipped("TAB.HDT"));
    let mut bad_catalogue = catalogue.clone();
    bad_catalogue[7] = 1;
    let mut bad_table = table.clone();
    bad_table[7] += 1;
    assert_eq!(as_the_judge("bad-both", &bad_catalogue, &bad_table), "CX\n");
    assert_eq!(as_the_judge("bad-table", &catalogue, &bad_table), "TX\n");
}

#[test]
fn a_missing_file_counts_as_empty() {
    let no_catalogue = Folder::new("no-catalogue").with("TAB.HDT", &shipped("TAB.HDT"));
    let no_table = Folder::new("no-table").with("CAT.HDC", &shipped("CAT.HDC"));
    for (folder, file, letters) in [
        (no_catalogue, "CAT.HDC", "CX\n"),
        (no_table, "TAB.HDT", "TX\n"),
        (Folder::new("nothing"), "CAT.HDC", "CX\n"),
    ] {
        let ended = folder.run(&[]);
        assert_eq!(ended.status, Some(REFUSED));
        assert_eq!(ended.printed, letters);
        let words = format!("umbristal-list: {file}: is not there, and counts as empty\n");
        assert!(ended.said.contains(&words), "{}", ended.said);
    }
}

#[test]
fn as_many_cells_as_there_can_be() {
    let said = as_the_judge("full", &one_type(1), &roots(1, 4096, 4096));
    assert_eq!(said.lines().count(), 4097);
}

#[test]
fn the_longest_catalogue_and_a_byte_more() {
    let (mut catalogue, table) = (longest_catalogue(), roots(1, 2, 3));
    assert_eq!(catalogue.len(), 520);
    let said = as_the_judge("catalogue-520", &catalogue, &table);
    assert_eq!(said, "0 1 1 -- 00\n1 1 1 -- 01\nGB\n");
    for length in [521, 522, 600] {
        catalogue.resize(length, 0);
        let name = format!("catalogue-{length}");
        assert_eq!(as_the_judge(&name, &catalogue, &table), "CX\n");
    }
}

/// 65,528 bytes are no cells of one size with at most 4,096 of them, so that no table of 65,536 bytes is sound. One of 65,535 is listed, and one of
/// 65,537, which is sound as well, is refused for its length alone.
#[test]
fn the_longest_tables_and_a_byte_more() {
    let longest = roots(76, 851, 851);
    assert_eq!(longest.len(), 65_535);
    let said = as_the_judge("table-65535", &one_type(76), &longest);
    assert_eq!(said.lines().count(), 852);
    let mut longer = longest;
    longer.push(0);
    assert_eq!(as_the_judge("table-65536", &one_type(76), &longer), "TX\n");
    let too_long = roots(26, 2427, 2427);
    assert_eq!(too_long.len(), 65_537);
    assert_eq!(judge::table_check(&one_type(26), &too_long), 0);
    assert_eq!(
        as_the_judge("table-65537", &one_type(26), &too_long),
        "TX\n"
    );
    assert_eq!(as_the_judge("table-bad", b"HDC", &too_long), "CX\n");
    let far_too_long = roots(120, 4096, 4096);
    assert_eq!(
        as_the_judge("table-495624", &one_type(120), &far_too_long),
        "TX\n"
    );
}

#[test]
fn a_table_that_is_too_long_is_told_from_a_bad_one() {
    let folder = Folder::new("too-long").with("CAT.HDC", &one_type(26));
    let too_long = folder.with("TAB.HDT", &roots(26, 2427, 2427));
    let ended = too_long.run(&[]);
    assert_eq!((ended.status, &ended.printed[..]), (Some(REFUSED), "TX\n"));
    assert!(
        ended.said.contains("has more than 65536 bytes"),
        "{}",
        ended.said
    );
    let bad = too_long.with("TAB.HDT", b"HDT");
    assert_eq!(bad.run(&[]).said, "");
}

#[test]
fn names_as_arguments() {
    let folder = Folder::new("names")
        .with("a catalogue", &shipped("CAT.HDC"))
        .with("-t", &shipped("TAB.HDT"))
        .with("CAT.HDC", b"not this one");
    let listing = judge::listing(&shipped("CAT.HDC"), &shipped("TAB.HDT"));
    for words in [&["a catalogue", "-t"][..], &["--", "a catalogue", "-t"]] {
        let ended = folder.run(words);
        assert_eq!(ended.status, Some(LISTED), "{words:?}");
        assert_eq!(ended.printed, listing, "{words:?}");
    }
    let ended = folder.run(&["-t", "a catalogue"]);
    assert_eq!(ended.status, Some(FAILED));
    let ended = folder.run(&["--", "-t", "a catalogue"]);
    assert_eq!((ended.status, &ended.printed[..]), (Some(REFUSED), "CX\n"));
}

#[test]
fn help_and_wrong_usage() {
    let folder = Folder::bench("usage");
    let help = folder.run(&["--help"]);
    assert_eq!(help.status, Some(LISTED));
    assert!(help
        .printed
        .starts_with("usage: umbristal-list [CATALOGUE TABLE]\n"));
    assert_eq!(folder.run(&["-h"]).printed, help.printed);
    let version = folder.run(&["--version"]);
    assert_eq!(version.status, Some(LISTED));
    assert!(version.printed.starts_with("umbristal-list 0."));
    for words in [
        &["CAT.HDC"][..],
        &["CAT.HDC", "TAB.HDT", "x"],
        &["--held"],
        &["--", "x"],
    ] {
        let ended = folder.run(words);
        assert_eq!(ended.status, Some(FAILED), "{words:?}");
        assert_eq!(ended.printed, "", "{words:?}");
        assert_eq!(ended.said, help.printed, "{words:?}");
    }
}

#[test]
fn a_file_that_cannot_be_read() {
    let ended = Folder::bench("unreadable").run(&["CAT.HDC", "."]);
    assert_eq!(ended.status, Some(FAILED));
    assert_eq!(ended.printed, "");
    assert_eq!(ended.said, "umbristal-list: .: Is a directory\n");
}

#[test]
fn an_output_that_is_full() {
    let folder = Folder::bench("full-disk");
    for words in [&[][..], &["--help"]] {
        let full = std::fs::File::create("/dev/full").expect("/dev/full");
        let ended = output(folder.command(words).stdout(full));
        assert_eq!(ended.status, Some(FAILED), "{words:?}");
        assert!(ended.said.starts_with("umbristal-list: standard output: "));
    }
}

#[test]
fn an_output_that_is_closed() {
    let folder = Folder::bench("closed");
    let mut shell = Command::new("sh");
    shell.args(["-c", "exec \"$0\" >&-"]).arg(program());
    let ended = output(shell.current_dir(&folder.0));
    assert_eq!(ended.status, Some(FAILED));
    assert!(ended.said.starts_with("umbristal-list: standard output: "));
}

/// A pipe that nobody reads any more ends the program by a signal, as it does others.
#[test]
fn a_reader_that_is_gone() {
    let _alone = STARTS.write().unwrap_or_else(|error| error.into_inner());
    let mut reader = Command::new("true");
    let mut reader = reader.stdin(Stdio::piped()).spawn().expect("true runs");
    let pipe = reader.stdin.take().expect("its end of a pipe");
    reader.wait().expect("true ends");
    let folder = Folder::bench("gone");
    let ended = folder.command(&[]).stdout(pipe).status();
    assert_eq!(ended.expect("the program runs").code(), None);
}

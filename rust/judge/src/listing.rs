//! The text of the listing program.

use super::calls::{Database, GN};
use super::position::{Place, Position};
use super::status::Status;
use std::fmt::Write;

/// The longest table file the listing takes.
const LONGEST_FILE: usize = 65_536;

/// The whole output for the contents of CAT.HDC and TAB.HDT; a missing file counts as empty.
pub fn listing(catalogue: &[u8], table: &[u8]) -> String {
    let mut text = String::new();
    let last = lines(catalogue, table, &mut text).unwrap_or_else(|refusal| refusal);
    text.push_str(last.letters());
    text.push('\n');
    text
}

/// Writes a line for each segment got, and hands back the final status.
fn lines(catalogue: &[u8], table: &[u8], text: &mut String) -> Result<Status, Status> {
    // A file that is too long counts as a bad table, which comes after a bad catalogue.
    let readable = if table.len() > LONGEST_FILE {
        &[]
    } else {
        table
    };
    let mut database = Database::read(catalogue, readable)?;
    let area = vec![0; database.catalogue.longest()];
    let mut position = Position::fresh(&database.forest);
    loop {
        let answer = database.call(position, GN, &[], &area)?;
        position = answer.position;
        let (Some(subject), Place::On(path)) = (answer.subject, &position.place) else {
            return Ok(answer.status);
        };
        let cell = database.forest.cell_of(path);
        let letters = answer.status.letters();
        let (type_code, level) = (subject.type_code, subject.level);
        write!(text, "{cell} {type_code} {level} {letters} ").expect("a string takes all");
        for byte in subject.data {
            write!(text, "{byte:02X}").expect("a string takes all");
        }
        text.push('\n');
    }
}

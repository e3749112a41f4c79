//! The written form of lines.

use std::io::Write;

/// Appends a line with its fields in their columns.
pub fn line(text: &mut Vec<u8>, letter: u8, fields: &[u64]) {
    text.push(letter);
    for field in fields {
        write!(text, "{field:>16}").expect("a list of bytes takes all that is written");
    }
    text.push(b'\n');
}

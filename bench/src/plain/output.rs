//! The lines that are printed, in the layout of the file.

use super::fault::Fault;
use super::field::{self, COLUMNS};
use super::refusal::Refusal;

/// Prints what an event is answered, and the balance after it.
pub fn write_answer(output: &mut Vec<u8>, letter: u8, answer: Result<u64, Refusal>, balance: i64) {
    let (refusal, order) = match answer {
        Ok(order) => (0, order),
        Err(refusal) => (refusal.into(), 0),
    };
    if !field::has_room(balance) {
        let letter = char::from(letter);
        let line = format!("{letter}{refusal:>16}{order:>16}{balance}\n");
        output.extend_from_slice(line.as_bytes());
        return;
    }
    let [first, second, third] = new_line(output, letter);
    field::write(first, refusal);
    field::write(second, order);
    field::write_balance(third, balance);
}

/// Prints the fault that ends a run.
pub fn write_fault(output: &mut Vec<u8>, fault: Fault) {
    let place = fault.place;
    let numbers = [
        fault.cause as u64,
        fault.column,
        u64::from(place.letter),
        place.line,
        place.part as u64,
    ];
    let fields: &mut [_; 5] = new_line(output, b'!');
    for (field, number) in fields.iter_mut().zip(numbers) {
        field::write(field, number);
    }
}

/// Appends a line with spaces in all of its fields, and answers these.
fn new_line<const N: usize>(output: &mut Vec<u8>, letter: u8) -> &mut [[u8; COLUMNS]; N] {
    output.push(letter);
    let start = output.len();
    output.extend_from_slice([[b' '; COLUMNS]; N].as_flattened());
    output.push(b'\n');
    let (fields, _) = output[start..].as_chunks_mut();
    fields
        .first_chunk_mut()
        .expect("the fields were just appended")
}

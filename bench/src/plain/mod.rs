//! The gate in plain Rust: one trading day, replayed from its input.

mod day;
mod day_part;
mod event;
mod fault;
mod field;
mod lines;
mod order;
mod output;
mod phase;
mod range;
mod refusal;
mod register;
mod security;
mod table;
#[cfg(test)]
mod tests;

use day::Day;
use event::{Desk, Event};
use fault::{Cause, Fault};
use lines::Lines;

/// Answers a whole input over four tables of `rows` rows each and a book of `orders` rows.
pub fn replay(input: &[u8], rows: usize, orders: usize) -> Vec<u8> {
    let mut output = Vec::new();
    replay_into(input, rows, orders, &mut output);
    output
}

/// As `replay`, with the answer in place of what `output` had.
pub fn replay_into(input: &[u8], rows: usize, orders: usize, output: &mut Vec<u8>) {
    output.clear();
    if let Err(fault) = run(input, rows, orders, output) {
        output::write_fault(output, fault);
    }
}

/// Loads the day part and answers the events, until the input ends or a fault is met.
fn run(input: &[u8], rows: usize, orders: usize, output: &mut Vec<u8>) -> Result<(), Fault> {
    let mut lines = Lines::new(input);
    let opening = day_part::load(&mut lines, rows)?;
    let mut desk = Desk::new(Day::open(opening, orders));
    while let Some(place) = lines.begin() {
        let event = Event::read(place, &mut lines)?;
        let answer = desk.answer(event);
        output::write_answer(output, place.letter, answer, desk.balance());
        if matches!(event, Event::Close) && answer.is_ok() {
            return nothing_follows(lines);
        }
    }
    Ok(())
}

/// After the close the input has to end: another line is a fault, if only of its place.
fn nothing_follows(mut lines: Lines) -> Result<(), Fault> {
    match lines.begin() {
        None => Ok(()),
        Some(place) => {
            Event::read(place, &mut lines)?;
            Err(place.fault(Cause::Sequence))
        }
    }
}

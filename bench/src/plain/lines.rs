//! The input, taken line by line.

use super::fault::{Cause, Fault, Part, Place};
use super::field::{self, COLUMNS};
use super::range::Range;

/// What is left of the input, and how far it was read.
pub struct Lines<'a> {
    rest: &'a [u8],
    begun: u64,
    part: Part,
}

impl<'a> Lines<'a> {
    /// The whole input, from its day part on.
    pub fn new(input: &'a [u8]) -> Self {
        Self {
            rest: input,
            begun: 0,
            part: Part::Day,
        }
    }

    /// The day part is over: the lines that follow are events.
    pub fn enter_events(&mut self) {
        self.part = Part::Event;
    }

    /// Takes the letter of the next line, if the input has one.
    pub fn begin(&mut self) -> Option<Place> {
        let (&letter, rest) = self.rest.split_first()?;
        self.rest = rest;
        self.begun += 1;
        Some(self.place(letter))
    }

    /// The fault of an input that ends where a line has to begin.
    pub fn ended(&self) -> Fault {
        let missing = Place {
            line: self.begun + 1,
            ..self.place(0)
        };
        missing.fault(Cause::Length)
    }

    /// Takes the fields of the line that was begun, each in its range, and its line feed.
    pub fn fields<const N: usize>(
        &mut self,
        place: Place,
        ranges: [Range; N],
    ) -> Result<[u64; N], Fault> {
        let width = COLUMNS * N;
        if self.rest.get(width) != Some(&b'\n') {
            return Err(place.fault(Cause::Length));
        }
        let (fields, _) = self.rest[..width].as_chunks::<COLUMNS>();
        self.rest = &self.rest[width + 1..];
        let mut numbers = [0; N];
        for (index, (field, range)) in fields.iter().zip(ranges).enumerate() {
            let first = field::first_column(index);
            let number =
                field::read(field).map_err(|byte| place.fault_at(Cause::Digits, first + byte))?;
            if !range.holds(number) {
                return Err(place.fault_at(Cause::Range, first));
            }
            numbers[index] = number;
        }
        Ok(numbers)
    }

    fn place(&self, letter: u8) -> Place {
        Place {
            letter,
            line: self.begun,
            part: self.part,
        }
    }
}

//! What ends a run: a line that is not as it should be.

/// What is wrong with a line. Each cause stands for the number that a fault line shows.
#[derive(Clone, Copy, Debug, PartialEq, Eq)]
pub enum Cause {
    /// No line of this part of the input begins with this letter.
    Letter = 23,
    /// The line does not end straight after its last field, or there is no line where one has to be.
    Length = 24,
    /// A field is not the written form of a number.
    Digits = 25,
    /// A number is out of its range.
    Range = 26,
    /// The line is not in its place, does not rise, or comes after the close.
    Sequence = 27,
    /// The line's table is full.
    Room = 28,
    /// The end line counts otherwise than the file.
    Count = 29,
    /// An account designates one participant too many.
    Designations = 30,
}

/// A part of the input, with its number.
#[derive(Clone, Copy, Debug, PartialEq, Eq)]
pub enum Part {
    /// What the day begins with.
    Day = 1,
    /// What then happens.
    Event = 2,
}

/// Where a line begins: its letter, its number in the input, and the part that it belongs to.
#[derive(Clone, Copy, Debug, PartialEq, Eq)]
pub struct Place {
    pub letter: u8,
    pub line: u64,
    pub part: Part,
}

impl Place {
    /// A fault of this line, shown in a column of it.
    pub fn fault_at(self, cause: Cause, column: usize) -> Fault {
        Fault {
            cause,
            column: column as u64,
            place: self,
        }
    }

    /// A fault of this line as a whole, which shows its first column.
    pub fn fault(self, cause: Cause) -> Fault {
        self.fault_at(cause, 1)
    }
}

/// The first fault of the input, which ends the run.
#[derive(Clone, Copy, Debug, PartialEq, Eq)]
pub struct Fault {
    pub cause: Cause,
    pub column: u64,
    pub place: Place,
}

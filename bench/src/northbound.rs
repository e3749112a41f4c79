//! The static library, behind a safe call.

use std::iter;
use std::mem::MaybeUninit;

#[link(name = "northbound", kind = "static")]
unsafe extern "C" {
    // Both take nothing and answer a number that never changes, so they are safe to call.
    safe fn northbound_most_rows() -> u64;
    safe fn northbound_most_orders() -> u64;

    // What its pointers have to keep stands in `northbound.h`.
    fn northbound_replay(
        input: *const u8,
        input_length: usize,
        rows: u64,
        orders: u64,
        text: *mut u8,
        text_length: usize,
        length: *mut usize,
    ) -> u32;
}

/// Why there is no answer.
#[derive(Clone, Copy, Debug, PartialEq, Eq)]
pub enum Refused {
    /// There was no memory for the tables or the book.
    Memory,
    /// More rows or more orders were asked for than there can be.
    TooLarge,
    /// The library answered a number or a length that its header does not have.
    Unlawful,
}

/// What the library answers.
enum Status {
    Answered,
    TextTooShort,
    Refused(Refused),
}

impl From<u32> for Status {
    fn from(number: u32) -> Self {
        match number {
            0 => Self::Answered,
            1 => Self::TextTooShort,
            2 => Self::Refused(Refused::Memory),
            3 => Self::Refused(Refused::TooLarge),
            _ => Self::Refused(Refused::Unlawful),
        }
    }
}

/// The most rows that a table may have.
pub fn most_rows() -> u64 {
    northbound_most_rows()
}

/// The most rows that the book may have.
pub fn most_orders() -> u64 {
    northbound_most_orders()
}

/// Answers a whole input over four tables of `rows` rows each and a book of `orders` rows. The answer takes the place
/// of what `text` had; a text that is too short for it grows.
pub fn replay(input: &[u8], rows: usize, orders: usize, text: &mut Vec<u8>) -> Result<(), Refused> {
    text.clear();
    let (mut status, mut length) = attempt(input, rows, orders, text.spare_capacity_mut());
    if let Status::TextTooShort = status {
        text.reserve_exact(length);
        (status, length) = attempt(input, rows, orders, text.spare_capacity_mut());
    }
    match status {
        Status::Answered => {
            // SAFETY: The text was empty, and the first `length` bytes of its capacity were just written.
            unsafe { text.set_len(length) };
            Ok(())
        }
        Status::TextTooShort => Err(Refused::Unlawful),
        Status::Refused(refused) => Err(refused),
    }
}

/// Whether the library writes an answer and nothing else: into a text that is longer than the answer and one of its
/// length; and its beginning into one that is too short for it, and into none.
pub fn writes_alone(input: &[u8], rows: usize, orders: usize, answer: &[u8]) -> bool {
    const BEFORE: u8 = 0xA5;
    let longest = answer.len() + 9;
    [longest, answer.len(), answer.len().saturating_sub(1), 0]
        .into_iter()
        .all(|room| {
            let mut text = vec![MaybeUninit::new(BEFORE); longest];
            let (status, length) = attempt(input, rows, orders, &mut text[..room]);
            let written = match status {
                Status::Answered if room >= answer.len() => answer,
                Status::TextTooShort if room < answer.len() => &answer[..room],
                _ => return false,
            };
            // SAFETY: Each byte of the text had a value before the call, and the library writes bytes with a value alone.
            let text = text.iter().map(|byte| unsafe { byte.assume_init() });
            let expected = written
                .iter()
                .copied()
                .chain(iter::repeat(BEFORE))
                .take(longest);
            length == answer.len() && text.eq(expected)
        })
}

/// Calls the library. If it has answered, the first bytes of the text, as many as the length says, are the answer; of a
/// text that is too short all bytes are its beginning.
fn attempt(
    input: &[u8],
    rows: usize,
    orders: usize,
    text: &mut [MaybeUninit<u8>],
) -> (Status, usize) {
    let mut length = 0;
    // SAFETY: No pointer is null: that of a slice is not, also where it is empty. `input` has `input.len()` bytes to be
    // read. `text` has `text.len()` bytes to be written, which the library does not read, so that they need no value.
    // `length` is one number. The three do not overlap: `text` is borrowed here alone, and `length` is a variable of
    // this function. The library keeps none of the pointers. Several threads may be in this call at once, since each
    // has its own text and length, and the input is only read.
    let number = unsafe {
        northbound_replay(
            input.as_ptr(),
            input.len(),
            rows as u64,
            orders as u64,
            text.as_mut_ptr().cast(),
            text.len(),
            &raw mut length,
        )
    };
    let status = match Status::from(number) {
        Status::Answered if length > text.len() => Status::Refused(Refused::Unlawful),
        Status::TextTooShort if length <= text.len() => Status::Refused(Refused::Unlawful),
        status => status,
    };
    (status, length)
}

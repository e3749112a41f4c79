//! Days to try the gate on: good ones and damaged ones, by chance, and the borders of small ones.

pub mod chance;
mod damage;
mod events;
mod morning;
pub mod writing;

use chance::Chance;
use events::Author;
use morning::{Morning, Sizes};

/// An input, and the rows of the tables and of the book that it is answered over.
pub struct Day {
    pub input: Vec<u8>,
    pub rows: usize,
    pub orders: usize,
}

/// The day of a number, by a seed: the same one each time.
pub fn numbered(seed: u64, number: u64) -> Day {
    let mut chance = Chance::new(seed ^ number.wrapping_mul(0xA076_1D64_78BD_642F));
    let sizes = Sizes::by(&mut chance);
    let morning = Morning::by(&mut chance, sizes);
    let rows = rows_by(&mut chance, morning.longest_group());
    let events = match chance.below(20) {
        0..6 => chance.below(20),
        6..18 => chance.between(20, 300),
        _ => chance.between(300, 3000),
    };
    let orders = match chance.below(20) {
        0 => chance.below(3) as usize,
        1..4 => chance.between(1, 40) as usize,
        4 => 50_000,
        _ => 512,
    };
    let mut input = Author::new(&mut chance, &morning, rows, orders).write(events as usize);
    if chance.percent(40) {
        for _ in 0..chance.between(1, 3) {
            damage::damage(&mut input, &mut chance);
        }
    }
    Day {
        input,
        rows,
        orders,
    }
}

/// Rows for a table that is to hold so many lines, now and then too few of them.
fn rows_by(chance: &mut Chance, lines: usize) -> usize {
    match chance.below(20) {
        0 => chance.below(lines as u64 + 1) as usize,
        1..4 => lines,
        4 => lines + 1,
        5 => 16_384,
        _ => lines.max(256),
    }
}

/// A short day that has a line of every letter.
fn short_day() -> Vec<u8> {
    let mut text = Vec::new();
    let lines: [(u8, &[u64]); 22] = [
        (b'D', &[1, 20_190_215, 100_000]),
        (b'S', &[600_000, 1, 1000, 10]),
        (b'S', &[600_010, 2, 905, 5]),
        (b'P', &[101, 600_000, 500]),
        (b'A', &[80_000_001, 600_000, 300]),
        (b'G', &[80_000_001, 102]),
        (b'E', &[2, 1, 1, 1]),
        (b'B', &[101, 0, 600_000, 1000, 100]),
        (b'L', &[102, 80_000_001, 600_000, 900, 300]),
        (b'T', &[1, 50, 900]),
        (b'C', &[1, 101]),
        (b'N', &[1]),
        (b'C', &[1, 101]),
        (b'Y', &[1]),
        (b'F', &[600_000, 28, 100]),
        (b'U', &[1]),
        (b'H', &[]),
        (b'H', &[]),
        (b'H', &[]),
        (b'R', &[2]),
        (b'H', &[]),
        (b'Z', &[]),
    ];
    for (letter, fields) in lines {
        writing::line(&mut text, letter, fields);
    }
    text
}

/// The short day cut after each of its bytes, and with each of them changed in many ways.
pub fn short_days() -> impl Iterator<Item = Day> {
    let whole = short_day();
    let cut = (0..=whole.len()).map({
        let whole = whole.clone();
        move |length| whole[..length].to_vec()
    });
    let changed = (0..whole.len()).flat_map(move |place| {
        let whole = whole.clone();
        b" 0123589\n\0AX:/\xff".iter().map(move |&byte| {
            let mut input = whole.clone();
            input[place] = byte;
            input
        })
    });
    cut.chain(changed).map(|input| Day {
        input,
        rows: 256,
        orders: 512,
    })
}

/// A day that asks for more orders than a day takes, over a book of so many rows.
pub fn crowded_day(orders: usize) -> Day {
    let mut input = Vec::new();
    writing::line(&mut input, b'D', &[2, 20_190_215, 1_000_000_000_000_000]);
    writing::line(&mut input, b'S', &[1, 1, 900_000, 10]);
    writing::line(&mut input, b'P', &[1, 1, 9_999_999_999]);
    writing::line(&mut input, b'E', &[1, 1, 0, 0]);
    for number in 1..=orders as u64 + 3 {
        if number % 3 == 0 {
            writing::line(
                &mut input,
                b'B',
                &[1, 0, 1, 990_000, 100 * (number % 7 + 1)],
            );
        } else {
            writing::line(&mut input, b'L', &[1, 0, 1, 810_000, number % 1000 + 1]);
        }
        if number % 5 == 0 {
            writing::line(&mut input, b'R', &[number - 1]);
        }
    }
    Day {
        input,
        rows: 1,
        orders,
    }
}

/// A day whose sales bring the balance to more digits than a field has columns.
pub fn wide_day() -> Day {
    let mut input = Vec::new();
    writing::line(&mut input, b'D', &[2, 20_190_215, 1_000_000_000_000_000]);
    writing::line(&mut input, b'S', &[1, 1, 900_000, 10]);
    writing::line(&mut input, b'P', &[1, 1, 9_999_999_999]);
    writing::line(&mut input, b'E', &[1, 1, 0, 0]);
    for number in 1..=9_010 {
        writing::line(&mut input, b'L', &[1, 0, 1, 990_000, 1_000_000]);
        writing::line(&mut input, b'T', &[number, 1_000_000, 999_999]);
    }
    Day {
        input,
        rows: 1,
        orders: 50_000,
    }
}

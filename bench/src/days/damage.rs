//! Damage to a day: what a broken or careless writer makes of it.

use super::chance::Chance;

/// Bytes that stand at the borders of what a line may have.
const BYTES: [u8; 16] = *b" 0019:/\n\r\tDSEBZ\0";

/// What a field may have in place of its number.
const FIELDS: [&[u8; 16]; 14] = [
    b"                ",
    b"              07",
    b"               0",
    b"               1",
    b"              00",
    b"0000000000000001",
    b"9999999999999999",
    b"1               ",
    b"       1        ",
    b"              -1",
    b"              +1",
    b"           16385",
    b"               x",
    b"              1\n",
];

/// The ends of the ranges, and the numbers next to them.
const BORDERS: [u64; 24] = [
    2,
    3,
    4,
    5,
    7,
    10,
    15,
    99_999,
    100_000,
    900_000,
    900_001,
    999_999,
    1_000_000,
    16_384,
    79_999_999,
    80_000_000,
    80_099_999,
    80_100_000,
    99_991_231,
    99_991_232,
    9_999_999_999,
    10_000_000_000,
    1_000_000_000_000_000,
    1_000_000_000_000_001,
];

/// Damages an input in one way.
pub fn damage(input: &mut Vec<u8>, chance: &mut Chance) {
    match chance.below(14) {
        0 | 1 => change_byte(input, chance),
        2 => input.truncate(chance.below(input.len() as u64 + 1) as usize),
        3 => drop_byte(input, chance),
        4 => add_byte(input, chance),
        5..8 => change_field(input, chance),
        8 => count_otherwise(input, chance),
        9 => input.extend_from_slice(chance.of(&[
            &b"\n"[..],
            b"X\n",
            b"\0",
            b"H",
            b"H \n",
            b"\xff\n",
            b"H\r\n",
        ])),
        _ => rearrange(input, chance),
    }
}

/// A place in the input, in its first lines as often as anywhere.
fn place(input: &[u8], chance: &mut Chance) -> Option<usize> {
    let length = if chance.percent(40) {
        input.len().min(600)
    } else {
        input.len()
    };
    (length > 0).then(|| chance.place(length))
}

fn byte(chance: &mut Chance) -> u8 {
    if chance.percent(80) {
        chance.of(&BYTES)
    } else {
        chance.below(256) as u8
    }
}

fn change_byte(input: &mut [u8], chance: &mut Chance) {
    if let Some(place) = place(input, chance) {
        input[place] = byte(chance);
    }
}

fn drop_byte(input: &mut Vec<u8>, chance: &mut Chance) {
    if let Some(place) = place(input, chance) {
        input.remove(place);
    }
}

fn add_byte(input: &mut Vec<u8>, chance: &mut Chance) {
    if let Some(place) = place(input, chance) {
        input.insert(place, byte(chance));
    }
}

/// Where the line begins in which a place lies.
fn line_start(input: &[u8], place: usize) -> usize {
    input[..place]
        .iter()
        .rposition(|&byte| byte == b'\n')
        .map_or(0, |feed| feed + 1)
}

/// Puts something else into a field, at times what only just is or is not in a range.
fn change_field(input: &mut [u8], chance: &mut Chance) {
    let Some(place) = place(input, chance) else {
        return;
    };
    let start = line_start(input, place) + 1 + 16 * chance.place(4);
    let Some(field) = input.get_mut(start..start + 16) else {
        return;
    };
    if chance.percent(50) {
        let other: &[u8; 16] = chance.of(&FIELDS);
        field.copy_from_slice(other);
    } else {
        field.copy_from_slice(format!("{:>16}", chance.of(&BORDERS)).as_bytes());
    }
}

/// Changes a digit of the end line's counts.
fn count_otherwise(input: &mut [u8], chance: &mut Chance) {
    let Some(end) = input.windows(2).position(|bytes| bytes == b"\nE") else {
        return;
    };
    let last_column = end + 1 + 16 * chance.between(1, 4) as usize;
    if let Some(digit) = input.get_mut(last_column) {
        *digit = b'0' + chance.below(10) as u8;
    }
}

/// Lets lines change places, doubles, drops or moves one.
fn rearrange(input: &mut Vec<u8>, chance: &mut Chance) {
    let mut lines: Vec<&[u8]> = input.split_inclusive(|&byte| byte == b'\n').collect();
    if lines.is_empty() {
        return;
    }
    let near = if chance.percent(50) {
        lines.len().min(12)
    } else {
        lines.len()
    };
    let (one, other) = (chance.place(near), chance.place(near));
    match chance.below(6) {
        0 | 1 => lines.swap(one, other),
        2 => lines.swap(one, (one + 1) % near),
        3 => lines.insert(one, lines[one]),
        4 => lines.insert(one, lines[other]),
        _ => {
            lines.remove(one);
        }
    }
    *input = lines.concat();
}

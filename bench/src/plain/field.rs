//! The written form of a number: sixteen columns, with spaces and then digits.

/// The columns of one field.
pub const COLUMNS: usize = 16;

/// The first column of a line's field, where the first field is number 0 and the letter stands in column 1.
pub const fn first_column(field: usize) -> usize {
    2 + COLUMNS * field
}

/// Reads the number in a field. Where there is none, answers the first byte that rules every written form out, counted
/// from 0 within the field.
pub fn read(field: &[u8; COLUMNS]) -> Result<u64, usize> {
    const LAST: usize = COLUMNS - 1;
    let start = field.iter().position(|&byte| byte != b' ').ok_or(LAST)?;
    if field[start] == b'0' && start < LAST {
        return Err(start);
    }
    let mut number = 0;
    for (column, &byte) in field.iter().enumerate().skip(start) {
        if !byte.is_ascii_digit() {
            return Err(column);
        }
        number = number * 10 + u64::from(byte - b'0');
    }
    Ok(number)
}

/// Writes a number at the right end of a field that has spaces in it.
pub fn write(field: &mut [u8; COLUMNS], number: u64) {
    write_digits(field, number);
}

/// Whether a balance has room in a field, with its minus where it is below 0.
pub fn has_room(balance: i64) -> bool {
    (-999_999_999_999_999..=9_999_999_999_999_999).contains(&balance)
}

/// Writes a balance that has room: below 0 it has a minus straight before its digits.
pub fn write_balance(field: &mut [u8; COLUMNS], balance: i64) {
    let start = write_digits(field, balance.unsigned_abs());
    if balance < 0 && start > 0 {
        field[start - 1] = b'-';
    }
}

/// The digits of the numbers below 100, two for each.
const PAIRS: [[u8; 2]; 100] = {
    let mut pairs = [[0; 2]; 100];
    let mut number = 0;
    while number < 100 {
        pairs[number] = [b'0' + (number / 10) as u8, b'0' + (number % 10) as u8];
        number += 1;
    }
    pairs
};

/// Writes the digits of a number that has room, pair by pair from the right, and answers the place of the first one.
fn write_digits(field: &mut [u8; COLUMNS], mut number: u64) -> usize {
    let mut start = COLUMNS;
    while number >= 10 && start > 0 {
        let pair = PAIRS[(number % 100) as usize];
        field[start - 2..start].copy_from_slice(&pair);
        number /= 100;
        start -= 2;
    }
    if start == COLUMNS || (number > 0 && start > 0) {
        start -= 1;
        field[start] = b'0' + number as u8;
    }
    start
}

#[cfg(test)]
mod tests {
    use super::*;

    fn written(balance: i64) -> [u8; COLUMNS] {
        let mut field = [b' '; COLUMNS];
        write_balance(&mut field, balance);
        field
    }

    #[test]
    fn numbers_stand_at_the_right_end() {
        assert_eq!(read(b"               7"), Ok(7));
        assert_eq!(read(b"               0"), Ok(0));
        assert_eq!(read(b"9999999999999999"), Ok(9_999_999_999_999_999));
        assert_eq!(written(20_190_215), *b"        20190215");
        assert_eq!(written(0), *b"               0");
        assert_eq!(written(-85_000), *b"          -85000");
    }

    #[test]
    fn the_byte_that_rules_a_number_out_is_found() {
        assert_eq!(read(b"              07"), Err(14));
        assert_eq!(read(b"7               "), Err(1));
        assert_eq!(read(b"                "), Err(15));
        assert_eq!(read(b"             027"), Err(13));
        assert_eq!(read(b"            0100"), Err(12));
        assert_eq!(read(b"               x"), Err(15));
        assert_eq!(read(b"            1\n23"), Err(13));
    }
}

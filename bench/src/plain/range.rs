//! The ranges of the numbers, both ends included.

/// A range of numbers from a least to a greatest one, all of them multiples of a unit.
#[derive(Clone, Copy, Debug)]
pub struct Range {
    least: u64,
    most: u64,
    unit: u64,
}

impl Range {
    const fn new(least: u64, most: u64) -> Self {
        Self::in_units(least, most, 1)
    }

    const fn in_units(least: u64, most: u64, unit: u64) -> Self {
        Self { least, most, unit }
    }

    /// Whether the number is one of the range.
    pub const fn holds(self, number: u64) -> bool {
        self.least <= number && number <= self.most && number.is_multiple_of(self.unit)
    }
}

/// What any field can say: sixteen digits.
pub const ANY: Range = Range::new(0, 9_999_999_999_999_999);
pub const MARKET: Range = Range::new(1, 2);
pub const DATE: Range = Range::new(1, 99_991_231);
pub const QUOTA: Range = Range::new(1, 1_000_000_000_000_000);
pub const CODE: Range = Range::new(1, 999_999);
pub const BUYING: Range = Range::new(1, 3);
pub const CLOSE: Range = Range::new(1, 900_000);
pub const BAND: Range = Range::in_units(5, 10, 5);
pub const PARTICIPANT: Range = Range::new(1, 99_999);
pub const ACCOUNT: Range = Range::new(80_000_000, 80_099_999);
pub const HELD_SHARES: Range = Range::new(1, 9_999_999_999);
pub const LINES: Range = Range::new(0, 16_384);
pub const LINK: Range = Range::new(0, 1);
pub const PRICE: Range = Range::new(1, 999_999);
pub const BOUGHT_SHARES: Range = Range::in_units(100, 1_000_000, 100);
pub const SOLD_SHARES: Range = Range::new(1, 1_000_000);
pub const ALL_SHARES: Range = Range::new(1, 1_000_000_000_000);

/// Narrows a number that was found in a range below 2^32.
pub fn narrow(number: u64) -> u32 {
    u32::try_from(number).expect("the number is in a small range")
}

#[cfg(test)]
mod tests {
    use super::*;

    #[test]
    fn participants_have_five_digits_at_the_most() {
        assert!(!PARTICIPANT.holds(0));
        assert!(PARTICIPANT.holds(99_999));
        assert!(!PARTICIPANT.holds(100_000));
    }

    #[test]
    fn bands_are_five_and_ten() {
        assert!(BAND.holds(5) && BAND.holds(10));
        assert!(!BAND.holds(7) && !BAND.holds(0) && !BAND.holds(15));
    }

    #[test]
    fn lots_are_those_of_their_side() {
        assert!(BOUGHT_SHARES.holds(100) && BOUGHT_SHARES.holds(1_000_000));
        assert!(
            [0, 150, 1_000_100]
                .iter()
                .all(|&shares| !BOUGHT_SHARES.holds(shares))
        );
        assert!(SOLD_SHARES.holds(1));
    }
}

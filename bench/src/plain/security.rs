//! The security list: what may be bought, and at which prices.

use super::fault::Cause;
use super::range::{ALL_SHARES, narrow};
use super::refusal::Refusal;
use super::table::Table;

/// Whether a security may be bought.
#[derive(Clone, Copy, Debug, PartialEq, Eq)]
pub enum Buying {
    Open,
    SellOnly,
    Suspended,
}

impl Buying {
    /// The state of a number from 1 to 3.
    pub fn numbered(number: u64) -> Self {
        match number {
            1 => Self::Open,
            2 => Self::SellOnly,
            _ => Self::Suspended,
        }
    }

    /// Whether a buy may come.
    pub fn permits(self) -> Result<(), Refusal> {
        match self {
            Self::Open => Ok(()),
            Self::SellOnly => Err(Refusal::SellOnly),
            Self::Suspended => Err(Refusal::Suspended),
        }
    }

    /// The state after a notice of foreign holding.
    fn noticed(self, band: NoticeBand) -> Self {
        match (self, band) {
            (Self::Open, NoticeBand::Suspending) => Self::Suspended,
            (Self::Suspended, NoticeBand::Reopening) => Self::Open,
            (state, _) => state,
        }
    }
}

/// What the foreign part of all shares says about buying.
#[derive(Clone, Copy, Debug, PartialEq, Eq)]
enum NoticeBand {
    /// 28 percent and more.
    Suspending,
    /// More than 26 and less than 28 percent.
    Between,
    /// 26 percent and less.
    Reopening,
}

impl NoticeBand {
    /// The band of a notice whose numbers fit each other.
    fn of(foreign: u64, total: u64) -> Self {
        if foreign * 100 >= total * 28 {
            Self::Suspending
        } else if foreign * 100 <= total * 26 {
            Self::Reopening
        } else {
            Self::Between
        }
    }
}

/// One security of the list, with its lowest and its highest price of the day.
#[derive(Clone, Copy, Debug)]
pub struct Security {
    pub buying: Buying,
    lowest: u32,
    highest: u32,
}

impl Security {
    /// A security of a previous close and a price band of so many percent.
    pub fn new(buying: Buying, close: u64, band: u64) -> Self {
        let limit = |percent: u64| narrow((close * percent + 50) / 100);
        Self {
            buying,
            lowest: limit(100 - band),
            highest: limit(100 + band),
        }
    }

    /// Whether the price is within the limits of the day.
    pub fn permits(&self, price: u64) -> bool {
        (u64::from(self.lowest)..=u64::from(self.highest)).contains(&price)
    }
}

/// The security list, which rises by code.
pub struct Securities(Table<u32, Security>);

impl Securities {
    /// An empty list that has room for so many lines.
    pub fn new(room: usize) -> Self {
        Self(Table::new(room))
    }

    /// How many lines it has.
    pub fn len(&self) -> usize {
        self.0.len()
    }

    /// Adds a line.
    pub fn add(&mut self, code: u64, security: Security) -> Result<(), Cause> {
        self.0.add(narrow(code), security)
    }

    /// The security of a code.
    pub fn find(&self, code: u64) -> Result<&Security, Refusal> {
        self.number(code).map(|number| self.0.row(number))
    }

    /// Takes a notice of how many of a security's shares foreigners hold.
    pub fn notice(&mut self, code: u64, foreign: u64, total: u64) -> Result<(), Refusal> {
        let security = self.number(code).map(|number| self.0.row_mut(number))?;
        if !ALL_SHARES.holds(total) || foreign > total {
            return Err(Refusal::Foreign);
        }
        security.buying = security.buying.noticed(NoticeBand::of(foreign, total));
        Ok(())
    }

    fn number(&self, code: u64) -> Result<usize, Refusal> {
        let code = u32::try_from(code).map_err(|_| Refusal::Code)?;
        self.0.find(&code).ok_or(Refusal::Code)
    }
}

#[cfg(test)]
mod tests {
    use super::*;

    fn limits(close: u64, band: u64) -> (u32, u32) {
        let security = Security::new(Buying::Open, close, band);
        (security.lowest, security.highest)
    }

    #[test]
    fn limits_round_to_the_nearest_fen() {
        assert_eq!(limits(1005, 10), (905, 1106));
        assert_eq!(limits(905, 5), (860, 950));
    }

    #[test]
    fn notices_suspend_and_reopen() {
        let mut list = Securities::new(1);
        list.add(600_000, Security::new(Buying::Open, 1000, 10))
            .unwrap();
        let mut after = |foreign, total| {
            list.notice(600_000, foreign, total)
                .map(|()| list.find(600_000).unwrap().buying)
        };
        assert_eq!(after(28, 100), Ok(Buying::Suspended));
        assert_eq!(after(27, 100), Ok(Buying::Suspended));
        assert_eq!(after(26, 100), Ok(Buying::Open));
        assert_eq!(after(27, 100), Ok(Buying::Open));
        assert_eq!(after(2_799_999_999, 10_000_000_000), Ok(Buying::Open));
        assert_eq!(after(2_800_000_000, 10_000_000_000), Ok(Buying::Suspended));
        assert_eq!(after(101, 100), Err(Refusal::Foreign));
        assert_eq!(after(0, 0), Err(Refusal::Foreign));
        assert_eq!(after(0, 1), Ok(Buying::Open));
    }

    #[test]
    fn a_security_that_may_only_be_sold_stays_so() {
        for band in [
            NoticeBand::Suspending,
            NoticeBand::Between,
            NoticeBand::Reopening,
        ] {
            assert_eq!(Buying::SellOnly.noticed(band), Buying::SellOnly);
        }
    }
}

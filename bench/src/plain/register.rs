//! The registers: who holds what, how much of it may still be sold, and who may sell it.

use super::fault::Cause;
use super::range::narrow;
use super::refusal::Refusal;
use super::table::Table;

/// The most participants that one account designates.
const MOST_DESIGNATED: usize = 20;

/// A pool of shares: how many there were at the opening, and how many of them may still be sold.
#[derive(Clone, Copy, Debug)]
struct Pool {
    opening: u64,
    sellable: u64,
}

/// Holdings of shares, which rise by holder and then code. A holding's row is the number of its pool.
pub struct Holdings(Table<(u32, u32), Pool>);

impl Holdings {
    /// An empty register that has room for so many lines.
    pub fn new(room: usize) -> Self {
        Self(Table::new(room))
    }

    /// How many lines it has.
    pub fn len(&self) -> usize {
        self.0.len()
    }

    /// Adds a holding, all of which may be sold.
    pub fn add(&mut self, holder: u64, code: u64, shares: u64) -> Result<(), Cause> {
        let pool = Pool {
            opening: shares,
            sellable: shares,
        };
        self.0.add((narrow(holder), narrow(code)), pool)
    }

    /// The pool of a holder and a code.
    pub fn find(&self, holder: u32, code: u32) -> Result<usize, Refusal> {
        self.0.find(&(holder, code)).ok_or(Refusal::NoPosition)
    }

    /// Takes shares out of a pool.
    pub fn draw(&mut self, pool: usize, shares: u64) -> Result<(), Refusal> {
        let pool = self.0.row_mut(pool);
        pool.sellable = pool
            .sellable
            .checked_sub(shares)
            .ok_or(Refusal::ShortBalance)?;
        Ok(())
    }

    /// Puts shares back that were drawn from a pool.
    pub fn restore(&mut self, pool: usize, shares: u64) {
        let pool = self.0.row_mut(pool);
        pool.sellable += shares;
        debug_assert!(pool.sellable <= pool.opening);
    }

    fn has_holder(&self, holder: u32) -> bool {
        self.0
            .first_from(&(holder, 0))
            .is_some_and(|first| first.0 == holder)
    }
}

/// Which participants the accounts have designated, rising by account and then participant.
pub struct Designations(Table<(u32, u32), ()>);

impl Designations {
    /// No designation yet, with room for so many lines.
    pub fn new(room: usize) -> Self {
        Self(Table::new(room))
    }

    /// How many lines there are.
    pub fn len(&self) -> usize {
        self.0.len()
    }

    /// Adds the designation of a participant by an account.
    pub fn add(&mut self, account: u64, participant: u64) -> Result<(), Cause> {
        let account = narrow(account);
        let key = (account, narrow(participant));
        self.0.rise_to(&key)?;
        let earlier = self.0.key_from_end(MOST_DESIGNATED);
        if earlier.is_some_and(|earlier| earlier.0 == account) {
            return Err(Cause::Designations);
        }
        self.0.add(key, ())
    }

    fn has(&self, account: u32, participant: u32) -> bool {
        self.0.find(&(account, participant)).is_some()
    }

    fn has_account(&self, account: u32) -> bool {
        self.0
            .first_from(&(account, 0))
            .is_some_and(|first| first.0 == account)
    }
}

/// The accounts' holdings, each sold by the participants that its account has designated.
pub struct Accounts {
    pub holdings: Holdings,
    pub designations: Designations,
}

impl Accounts {
    /// The pool that a participant may draw on for an account.
    pub fn find(&self, participant: u32, account: u64, code: u32) -> Result<usize, Refusal> {
        let account = u32::try_from(account).map_err(|_| Refusal::Account)?;
        if self.designations.has(account, participant) {
            return self.holdings.find(account, code);
        }
        let known = self.designations.has_account(account) || self.holdings.has_holder(account);
        Err(if known {
            Refusal::Undesignated
        } else {
            Refusal::Account
        })
    }
}

#[cfg(test)]
mod tests {
    use super::*;

    fn participants() -> Holdings {
        let mut register = Holdings::new(256);
        register.add(101, 600_000, 500).unwrap();
        register.add(101, 600_016, 12_000).unwrap();
        register.add(205, 600_519, 300).unwrap();
        register
    }

    fn accounts() -> Accounts {
        let mut holdings = Holdings::new(256);
        holdings.add(80_000_001, 600_000, 300).unwrap();
        holdings.add(80_000_002, 600_009, 4500).unwrap();
        let mut designations = Designations::new(256);
        designations.add(80_000_001, 101).unwrap();
        designations.add(80_000_001, 205).unwrap();
        designations.add(80_000_002, 205).unwrap();
        Accounts {
            holdings,
            designations,
        }
    }

    #[test]
    fn participants_find_their_holdings() {
        let mut register = participants();
        assert_eq!(register.find(101, 600_016), Ok(1));
        assert_eq!(register.find(102, 600_016), Err(Refusal::NoPosition));
        assert_eq!(register.draw(1, 12_000), Ok(()));
        assert_eq!(register.draw(1, 1), Err(Refusal::ShortBalance));
        register.restore(1, 12_000);
        assert_eq!(register.draw(1, 12_000), Ok(()));
    }

    #[test]
    fn accounts_find_theirs_by_designation() {
        let mut register = accounts();
        assert_eq!(register.find(101, 80_000_001, 600_000), Ok(0));
        assert_eq!(
            register.find(101, 80_000_003, 600_000),
            Err(Refusal::Account)
        );
        assert_eq!(
            register.find(101, 80_000_002, 600_009),
            Err(Refusal::Undesignated)
        );
        assert_eq!(
            register.find(205, 80_000_001, 600_009),
            Err(Refusal::NoPosition)
        );
        assert_eq!(register.find(205, 0, 600_000), Err(Refusal::Account));
        assert_eq!(register.holdings.draw(1, 4501), Err(Refusal::ShortBalance));
        assert_eq!(register.holdings.draw(1, 4500), Ok(()));
    }

    #[test]
    fn an_account_names_twenty_participants_at_the_most() {
        let mut designations = Designations::new(256);
        for participant in 1..=20 {
            assert_eq!(designations.add(80_000_001, participant), Ok(()));
        }
        assert_eq!(designations.add(80_000_001, 21), Err(Cause::Designations));
        assert_eq!(designations.add(80_000_001, 20), Err(Cause::Sequence));
        assert_eq!(designations.add(80_000_002, 21), Ok(()));
    }
}

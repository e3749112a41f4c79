//! What a day begins with, by chance.

use std::collections::{BTreeMap, BTreeSet};

use super::chance::Chance;
use super::writing;

const LEAST_ACCOUNT: u64 = 80_000_000;
const MOST_ACCOUNT: u64 = 80_099_999;
const MOST_PARTICIPANT: u64 = 99_999;
const MOST_CODE: u64 = 999_999;
const MOST_HELD: u64 = 9_999_999_999;
const MOST_CLOSE: u64 = 900_000;

/// How many lines each group is to have, as far as its numbers allow it.
#[derive(Clone, Copy)]
pub struct Sizes {
    pub securities: usize,
    pub participants: usize,
    pub accounts: usize,
    pub designations: usize,
}

impl Sizes {
    /// Sizes by chance, from none to some hundreds, and now and then some thousands.
    pub fn by(chance: &mut Chance) -> Self {
        let thousands = chance.percent(1);
        let mut size = || match chance.below(100) {
            _ if thousands => chance.between(1000, 6000) as usize,
            0..10 => 0,
            10..50 => chance.between(1, 6) as usize,
            50..85 => chance.between(7, 50) as usize,
            85..98 => chance.between(51, 256) as usize,
            _ => chance.between(257, 400) as usize,
        };
        Self {
            securities: size(),
            participants: size(),
            accounts: size(),
            designations: size(),
        }
    }
}

/// A security of the list.
#[derive(Clone, Copy)]
pub struct Security {
    pub code: u64,
    pub buying: u64,
    pub close: u64,
    pub band: u64,
}

impl Security {
    /// The lowest and the highest price of the day.
    pub fn limits(&self) -> (u64, u64) {
        let limit = |percent: u64| (self.close * percent + 50) / 100;
        (limit(100 - self.band), limit(100 + self.band))
    }
}

/// So many shares of a code, held by a participant or an account.
#[derive(Clone, Copy)]
pub struct Holding {
    pub holder: u64,
    pub code: u64,
    pub shares: u64,
}

/// All lines of a day part.
pub struct Morning {
    pub market: u64,
    pub date: u64,
    pub quota: u64,
    pub securities: Vec<Security>,
    pub participants: Vec<Holding>,
    pub accounts: Vec<Holding>,
    pub designations: Vec<(u64, u64)>,
}

impl Morning {
    /// A day part by chance.
    pub fn by(chance: &mut Chance, sizes: Sizes) -> Self {
        let securities = securities_by(chance, sizes.securities);
        let codes: Vec<u64> = securities.iter().map(|security| security.code).collect();
        let most_participant = chance.of(&[5, 300, MOST_PARTICIPANT]);
        let participants = holdings_by(chance, sizes.participants, &codes, (1, most_participant));
        let most_account = LEAST_ACCOUNT + chance.of(&[9, 300, 99_999]);
        let accounts = holdings_by(
            chance,
            sizes.accounts,
            &codes,
            (LEAST_ACCOUNT, most_account),
        );
        let designations = designations_by(chance, sizes.designations, &accounts, &participants);
        Self {
            market: chance.between(1, 2),
            date: match chance.below(4) {
                0 => 1,
                1 => 99_991_231,
                _ => chance.between(1, 99_991_231),
            },
            quota: quota_by(chance),
            securities,
            participants,
            accounts,
            designations,
        }
    }

    /// Writes the day part, its end line included.
    pub fn write(&self, text: &mut Vec<u8>) {
        writing::line(text, b'D', &[self.market, self.date, self.quota]);
        for security in &self.securities {
            let Security {
                code,
                buying,
                close,
                band,
            } = *security;
            writing::line(text, b'S', &[code, buying, close, band]);
        }
        for (letter, holdings) in [(b'P', &self.participants), (b'A', &self.accounts)] {
            for &Holding {
                holder,
                code,
                shares,
            } in holdings
            {
                writing::line(text, letter, &[holder, code, shares]);
            }
        }
        for &(account, participant) in &self.designations {
            writing::line(text, b'G', &[account, participant]);
        }
        let counts = [
            self.securities.len(),
            self.participants.len(),
            self.accounts.len(),
            self.designations.len(),
        ];
        writing::line(text, b'E', &counts.map(|count| count as u64));
    }

    /// The most lines that a group has.
    pub fn longest_group(&self) -> usize {
        let holdings = self.participants.len().max(self.accounts.len());
        holdings
            .max(self.securities.len())
            .max(self.designations.len())
    }
}

/// A quota of any size, from one that the first buy uses up to the greatest.
fn quota_by(chance: &mut Chance) -> u64 {
    match chance.below(10) {
        0 => 1,
        1 => 100_000,
        2 => 1_000_000_000_000_000,
        _ => {
            let scale = 10_u64.pow(chance.between(3, 14) as u32);
            chance.between(scale, scale * 10)
        }
    }
}

fn securities_by(chance: &mut Chance, size: usize) -> Vec<Security> {
    let most = chance
        .of(&[size as u64 + 2, 2000, MOST_CODE])
        .max(size as u64);
    let mut list = BTreeMap::new();
    for _ in 0..size {
        let code = match chance.below(40) {
            0 => 1,
            1 => MOST_CODE,
            _ => chance.between(1, most),
        };
        let security = Security {
            code,
            buying: chance.of(&[1, 1, 1, 1, 1, 1, 2, 3]),
            close: close_by(chance),
            band: chance.of(&[5, 10]),
        };
        list.insert(code, security);
    }
    list.into_values().collect()
}

fn close_by(chance: &mut Chance) -> u64 {
    match chance.below(10) {
        0 => chance.of(&[1, 2, 5, 9, 10, 11, 49, 50, 51, 95, 99, 101]),
        1 => chance.of(&[MOST_CLOSE, MOST_CLOSE - 1, 899_995, 899_991]),
        2 => chance.of(&[905, 1000, 1005]),
        3 => chance.between(1, MOST_CLOSE),
        _ => chance.between(1, 5000),
    }
}

/// Holdings of the codes that are listed, and of some that are not.
fn holdings_by(
    chance: &mut Chance,
    size: usize,
    codes: &[u64],
    holders: (u64, u64),
) -> Vec<Holding> {
    let mut list = BTreeMap::new();
    for _ in 0..size {
        let holder = match chance.below(30) {
            0 => holders.0,
            1 => holders.1,
            _ => chance.between(holders.0, holders.1),
        };
        let code = match chance.any(codes) {
            Some(&code) if !chance.percent(4) => code,
            _ => chance.between(1, MOST_CODE),
        };
        let shares = match chance.below(10) {
            0 => chance.of(&[1, 2, 99, 100]),
            1 => chance.of(&[MOST_HELD, MOST_HELD - 1, 1_000_000, 1_000_001]),
            2 => chance.between(1, MOST_HELD),
            _ => chance.between(1, 5000),
        };
        list.insert(
            (holder, code),
            Holding {
                holder,
                code,
                shares,
            },
        );
    }
    list.into_values().collect()
}

/// Designations by accounts that hold something, and by some that do not, now and then of one participant too many.
fn designations_by(
    chance: &mut Chance,
    size: usize,
    accounts: &[Holding],
    participants: &[Holding],
) -> Vec<(u64, u64)> {
    let most_named = if chance.percent(3) { 22 } else { 20 };
    let mut list = BTreeSet::new();
    for _ in 0..size {
        let account = match chance.any(accounts) {
            Some(holding) if !chance.percent(6) => holding.holder,
            _ => chance.of(&[LEAST_ACCOUNT, MOST_ACCOUNT, 80_000_007]),
        };
        let most = if chance.percent(8) { most_named } else { 1 };
        for _ in 0..most {
            let participant = match chance.any(participants) {
                Some(holding) if !chance.percent(30) => holding.holder,
                _ => chance.between(1, MOST_PARTICIPANT),
            };
            let named = list
                .range((account, 0)..=(account, MOST_PARTICIPANT))
                .count();
            if list.len() < size && named < most_named {
                list.insert((account, participant));
            }
        }
    }
    list.into_iter().collect()
}

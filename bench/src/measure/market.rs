//! Markets that fill their tables, and events that meet any of their rows.

use bench::days::chance::Chance;
use bench::days::writing;

use super::Kind;

/// The orders that a day takes.
pub const ORDERS: usize = 50_000;

/// A quota that so many orders do not use up.
const QUOTA: u64 = 1_000_000_000_000_000;

/// A security, with its previous close.
#[derive(Clone, Copy)]
struct Security {
    code: u64,
    close: u64,
}

/// An account, with what it holds and the participant that it has designated.
#[derive(Clone, Copy)]
struct Account {
    number: u64,
    holds: Security,
    participant: u64,
}

/// An order that was written, for the events that follow it.
#[derive(Clone, Copy)]
struct Order {
    number: u64,
    participant: u64,
    price: u64,
    shares: u64,
}

/// A market whose four tables are full, its codes, participants and accounts spread over all that there are.
pub struct Market {
    chance: Chance,
    securities: Vec<Security>,
    participants: Vec<u64>,
    accounts: Vec<Account>,
}

impl Market {
    /// A market of tables of so many rows.
    pub fn new(rows: usize) -> Self {
        let mut chance = Chance::new(rows as u64);
        let securities: Vec<Security> = spread(&mut chance, rows, 1, 999_999)
            .into_iter()
            .map(|code| Security {
                code,
                close: chance.between(100, 90_000),
            })
            .collect();
        let participants = spread(&mut chance, rows, 1, 99_999);
        let accounts = spread(&mut chance, rows, 80_000_000, 80_099_999)
            .into_iter()
            .map(|number| Account {
                number,
                holds: chance.of(&securities),
                participant: chance.of(&participants),
            })
            .collect();
        Self {
            chance,
            securities,
            participants,
            accounts,
        }
    }

    /// How many lines its day part has.
    pub fn lines(&self) -> usize {
        2 + 4 * self.securities.len()
    }

    /// Its day part: each table has as many lines as the others.
    pub fn day_part(&self) -> Vec<u8> {
        const SHARES: u64 = 9_999_999_999;
        let mut text = Vec::new();
        writing::line(&mut text, b'D', &[1, 20_190_215, QUOTA]);
        for security in &self.securities {
            writing::line(&mut text, b'S', &[security.code, 1, security.close, 10]);
        }
        for (&participant, security) in self.participants.iter().zip(self.securities.iter().rev()) {
            writing::line(&mut text, b'P', &[participant, security.code, SHARES]);
        }
        for account in &self.accounts {
            writing::line(
                &mut text,
                b'A',
                &[account.number, account.holds.code, SHARES],
            );
        }
        for account in &self.accounts {
            writing::line(&mut text, b'G', &[account.number, account.participant]);
        }
        writing::line(&mut text, b'E', &[self.securities.len() as u64; 4]);
        text
    }

    /// The events of a kind, one for each order, and the orders that have to be there before.
    pub fn events(&mut self, kind: Kind) -> (Vec<u8>, Vec<u8>) {
        let numbers = 1..=ORDERS as u64;
        let (mut preparation, mut events) = (Vec::new(), Vec::new());
        match kind {
            Kind::Load => {}
            Kind::Sell => numbers.for_each(|number| {
                self.sell(&mut events, number);
            }),
            Kind::Buy => numbers.for_each(|number| {
                self.buy(&mut events, number);
            }),
            Kind::Trade => {
                for order in self.orders(&mut preparation) {
                    self.trade(&mut events, order);
                }
            }
            Kind::Cancel => {
                for order in self.orders(&mut preparation) {
                    writing::line(&mut events, b'C', &[order.number, order.participant]);
                }
            }
        }
        (preparation, events)
    }

    /// Writes all orders of a day, buys and sells in turn, and answers them in an order by chance.
    fn orders(&mut self, text: &mut Vec<u8>) -> Vec<Order> {
        let mut orders: Vec<Order> = (1..=ORDERS as u64)
            .map(|number| match number % 2 {
                0 => self.buy(text, number),
                _ => self.sell(text, number),
            })
            .collect();
        self.chance.shuffle(&mut orders);
        orders
    }

    /// Writes a sell for an account by the participant that it has designated.
    fn sell(&mut self, text: &mut Vec<u8>, number: u64) -> Order {
        let Account {
            number: account,
            holds: Security { code, close: price },
            participant,
        } = self.chance.of(&self.accounts);
        let shares = self.chance.between(1, 10_000);
        writing::line(text, b'L', &[participant, account, code, price, shares]);
        Order {
            number,
            participant,
            price,
            shares,
        }
    }

    /// Writes a buy.
    fn buy(&mut self, text: &mut Vec<u8>, number: u64) -> Order {
        let Security { code, close: price } = self.chance.of(&self.securities);
        let participant = self.chance.of(&self.participants);
        let shares = 100 * self.chance.between(1, 100);
        writing::line(text, b'B', &[participant, 0, code, price, shares]);
        Order {
            number,
            participant,
            price,
            shares,
        }
    }

    /// Writes a trade of some or all shares of an order, at its limit.
    fn trade(&mut self, text: &mut Vec<u8>, order: Order) {
        let shares = if self.chance.percent(50) {
            order.shares
        } else {
            self.chance.between(1, order.shares)
        };
        writing::line(text, b'T', &[order.number, shares, order.price]);
    }
}

/// So many numbers that rise from a least to a greatest one, each by chance within its own equal part of the way.
fn spread(chance: &mut Chance, count: usize, least: u64, most: u64) -> Vec<u64> {
    let part = (most - least + 1) / count as u64;
    (0..count as u64)
        .map(|number| least + number * part + chance.below(part))
        .collect()
}

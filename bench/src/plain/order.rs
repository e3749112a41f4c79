//! An order at the gate and at the market, until nothing is left of it.

use super::range::{PRICE, narrow};
use super::refusal::Refusal;

/// What a participant asks for: to buy or to sell so many shares at a limit. The account is 0 where none is named.
#[derive(Clone, Copy, Debug)]
pub struct Request {
    pub participant: u64,
    pub account: u64,
    pub code: u64,
    pub price: u64,
    pub shares: u64,
}

impl From<[u64; 5]> for Request {
    fn from([participant, account, code, price, shares]: [u64; 5]) -> Self {
        Self {
            participant,
            account,
            code,
            price,
            shares,
        }
    }
}

/// The pool that a sell drew on.
#[derive(Clone, Copy, Debug, PartialEq, Eq)]
pub enum Source {
    Participants(usize),
    Accounts(usize),
}

/// Whether an order buys, or sells shares of a pool.
#[derive(Clone, Copy, Debug, PartialEq, Eq)]
pub enum Side {
    Buy,
    Sell(Source),
}

/// How far an order has come.
#[derive(Clone, Copy, Debug, PartialEq, Eq)]
pub enum State {
    /// Taken, and waiting at the gate.
    Held,
    /// At the market.
    Live,
    /// At the market, which was asked to cancel it.
    CancelAsked,
    /// Nothing is left of it.
    Done,
}

impl State {
    /// Whether the order is at the market.
    pub fn is_live(self) -> bool {
        matches!(self, Self::Live | Self::CancelAsked)
    }
}

/// What an order that ends gives back.
#[derive(Clone, Copy, Debug, PartialEq, Eq)]
pub enum GivenBack {
    /// The fen that a buy had reserved and not used.
    Quota(u64),
    /// The shares that a sell had drawn and not sold.
    Shares(Source, u64),
}

/// What the day keeps of an order: whose it is, its limit, and how many of its shares are left.
#[derive(Clone, Copy, Debug)]
pub struct Order {
    pub participant: u32,
    pub state: State,
    side: Side,
    limit: u32,
    remainder: u32,
}

impl Order {
    /// An order that was just taken: nothing of it is traded.
    pub fn held(request: &Request, side: Side) -> Self {
        Self {
            participant: narrow(request.participant),
            state: State::Held,
            side,
            limit: narrow(request.price),
            remainder: narrow(request.shares),
        }
    }

    /// Trades shares at a price, and answers by how much the balance rises.
    pub fn trade(&mut self, shares: u64, price: u64) -> Result<u64, Refusal> {
        let limit = u64::from(self.limit);
        let (worse, gain) = match self.side {
            Side::Buy => (price > limit, limit.saturating_sub(price)),
            Side::Sell(_) => (price < limit, price),
        };
        if shares == 0 || shares > u64::from(self.remainder) || !PRICE.holds(price) || worse {
            return Err(Refusal::Fill);
        }
        self.remainder -= narrow(shares);
        if self.remainder == 0 {
            self.state = State::Done;
        }
        Ok(gain * shares)
    }

    /// Ends the order, and answers what it gives back.
    pub fn end(&mut self) -> GivenBack {
        self.state = State::Done;
        let shares = u64::from(std::mem::take(&mut self.remainder));
        match self.side {
            Side::Buy => GivenBack::Quota(u64::from(self.limit) * shares),
            Side::Sell(source) => GivenBack::Shares(source, shares),
        }
    }
}

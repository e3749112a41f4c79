//! A trading day: its phase, its balance, its securities, holdings and orders, and what may be done with them.

use super::day_part::Opening;
use super::order::{GivenBack, Order, Request, Side, Source, State};
use super::phase::Phase;
use super::range::{BOUGHT_SHARES, PARTICIPANT, Range, SOLD_SHARES, narrow};
use super::refusal::Refusal;
use super::register::{Accounts, Holdings};
use super::security::{Securities, Security};

/// The most orders that a day takes, however long its book is.
const MOST_ORDERS: usize = 50_000;

/// An order that was taken and waits at the gate: it has to be sent or voided.
#[must_use]
pub struct Pass(usize);

/// The day.
pub struct Day {
    phase: Phase,
    balance: i64,
    shut: bool,
    securities: Securities,
    participants: Holdings,
    accounts: Accounts,
    book: Vec<Order>,
    most_orders: usize,
    unfinished: usize,
}

impl Day {
    /// Opens a day over a book of so many rows.
    pub fn open(opening: Opening, orders: usize) -> Self {
        let most_orders = orders.min(MOST_ORDERS);
        Self {
            phase: Phase::OpeningCall,
            balance: opening.quota.cast_signed(),
            shut: false,
            securities: opening.securities,
            participants: opening.participants,
            accounts: opening.accounts,
            book: Vec::with_capacity(most_orders),
            most_orders,
            unfinished: 0,
        }
    }

    /// What is left of the quota.
    pub fn balance(&self) -> i64 {
        self.balance
    }

    /// Takes a buy, which reserves its worth at the limit.
    pub fn reserve_buy(&mut self, request: &Request) -> Result<Pass, Refusal> {
        let buying = self.judge(request, BOUGHT_SHARES)?.buying;
        if request.account != 0 {
            return Err(Refusal::Account);
        }
        buying.permits()?;
        if self.shut || self.balance <= 0 {
            return Err(Refusal::Quota);
        }
        self.lower_balance(request.price * request.shares);
        Ok(self.hold(Order::held(request, Side::Buy)))
    }

    /// Takes a sell, which draws its shares from a pool.
    pub fn reserve_sell(&mut self, request: &Request) -> Result<Pass, Refusal> {
        self.judge(request, SOLD_SHARES)?;
        let (participant, code) = (narrow(request.participant), narrow(request.code));
        let source = match request.account {
            0 => Source::Participants(self.participants.find(participant, code)?),
            account => Source::Accounts(self.accounts.find(participant, account, code)?),
        };
        let (register, pool) = self.register(source);
        register.draw(pool, request.shares)?;
        Ok(self.hold(Order::held(request, Side::Sell(source))))
    }

    /// Sends an order to the market, and answers its number.
    pub fn send(&mut self, pass: Pass) -> u64 {
        let Pass(row) = pass;
        self.book[row].state = State::Live;
        row as u64 + 1
    }

    /// Gives an order up that was not sent.
    pub fn void(&mut self, pass: Pass) {
        let Pass(row) = pass;
        let given_back = self.book[row].end();
        self.take_back(given_back);
    }

    /// The market has traded shares of an order.
    pub fn trade(&mut self, number: u64, shares: u64, price: u64) -> Result<(), Refusal> {
        let order = self.order(number)?;
        if !order.state.is_live() {
            return Err(Refusal::State);
        }
        let rise = order.trade(shares, price)?;
        if order.state == State::Done {
            self.unfinished -= 1;
        }
        self.raise_balance(rise);
        Ok(())
    }

    /// The market gives back what is left of an order.
    pub fn give_back(&mut self, number: u64) -> Result<(), Refusal> {
        self.end_order(number, State::is_live)
    }

    /// A participant asks the market to cancel its order.
    pub fn cancel(&mut self, number: u64, participant: u64) -> Result<(), Refusal> {
        let phase = self.phase;
        let order = self.order(number)?;
        if u64::from(order.participant) != participant {
            return Err(Refusal::Order);
        }
        if order.state != State::Live {
            return Err(Refusal::State);
        }
        if !phase.takes_cancels() {
            return Err(Refusal::NoCancel);
        }
        order.state = State::CancelAsked;
        Ok(())
    }

    /// The market confirms the cancel of an order.
    pub fn confirm(&mut self, number: u64) -> Result<(), Refusal> {
        self.end_order(number, |state| state == State::CancelAsked)
    }

    /// The market declines the cancel of an order.
    pub fn decline(&mut self, number: u64) -> Result<(), Refusal> {
        let order = self.order(number)?;
        if order.state != State::CancelAsked {
            return Err(Refusal::State);
        }
        order.state = State::Live;
        Ok(())
    }

    /// One phase forward.
    pub fn step(&mut self) -> Result<(), Refusal> {
        self.phase = self.phase.next().ok_or(Refusal::Phase)?;
        self.settle();
        Ok(())
    }

    /// Takes a notice of how many of a security's shares foreigners hold.
    pub fn notice(&mut self, code: u64, foreign: u64, total: u64) -> Result<(), Refusal> {
        self.securities.notice(code, foreign, total)
    }

    /// Whether the day can be closed: after hours, and with no order left at the market.
    pub fn close(&self) -> Result<(), Refusal> {
        if self.phase == Phase::AfterHours && self.unfinished == 0 {
            Ok(())
        } else {
            Err(Refusal::Business)
        }
    }

    /// What is asked of every order, whatever its side.
    fn judge(&self, request: &Request, lots: Range) -> Result<&Security, Refusal> {
        if !self.phase.takes_orders() {
            return Err(Refusal::Hours);
        }
        if self.book.len() >= self.most_orders {
            return Err(Refusal::Full);
        }
        let security = self.securities.find(request.code)?;
        if !security.permits(request.price) {
            return Err(Refusal::Price);
        }
        if !lots.holds(request.shares) {
            return Err(Refusal::Lot);
        }
        if !PARTICIPANT.holds(request.participant) {
            return Err(Refusal::Account);
        }
        Ok(security)
    }

    fn hold(&mut self, order: Order) -> Pass {
        self.book.push(order);
        self.unfinished += 1;
        Pass(self.book.len() - 1)
    }

    /// The order of a number, where the first one is number 1.
    fn order(&mut self, number: u64) -> Result<&mut Order, Refusal> {
        number
            .checked_sub(1)
            .and_then(|row| self.book.get_mut(usize::try_from(row).ok()?))
            .ok_or(Refusal::Order)
    }

    /// Ends an order whose state allows it.
    fn end_order(
        &mut self,
        number: u64,
        may_end: impl FnOnce(State) -> bool,
    ) -> Result<(), Refusal> {
        let order = self.order(number)?;
        if !may_end(order.state) {
            return Err(Refusal::State);
        }
        let given_back = order.end();
        self.take_back(given_back);
        Ok(())
    }

    /// Takes back what an order had reserved and not used, now that it is done.
    fn take_back(&mut self, given_back: GivenBack) {
        self.unfinished -= 1;
        match given_back {
            GivenBack::Quota(fen) => self.raise_balance(fen),
            GivenBack::Shares(source, shares) => {
                let (register, pool) = self.register(source);
                register.restore(pool, shares);
            }
        }
    }

    fn register(&mut self, source: Source) -> (&mut Holdings, usize) {
        match source {
            Source::Participants(pool) => (&mut self.participants, pool),
            Source::Accounts(pool) => (&mut self.accounts.holdings, pool),
        }
    }

    fn raise_balance(&mut self, fen: u64) {
        self.balance += fen.cast_signed();
        self.settle();
    }

    fn lower_balance(&mut self, fen: u64) {
        self.balance -= fen.cast_signed();
        self.settle();
    }

    /// Shuts buying for the rest of the day, if the phase and the balance say so.
    fn settle(&mut self) {
        self.shut |= self.phase.shuts_buying() && self.balance <= 0;
    }
}

//! The events of a day, and the desk that answers them.

use super::day::{Day, Pass};
use super::fault::{Cause, Fault, Place};
use super::lines::Lines;
use super::order::Request;
use super::range::{ANY, LINK};
use super::refusal::Refusal;

/// Whether orders reach the market.
#[derive(Clone, Copy, Debug, PartialEq, Eq)]
pub enum Link {
    Down,
    Up,
}

impl From<u64> for Link {
    /// The link of a number: 0 is down.
    fn from(number: u64) -> Self {
        if number == 0 { Self::Down } else { Self::Up }
    }
}

/// What happens on a day.
#[derive(Clone, Copy, Debug)]
pub enum Event {
    Buy(Request),
    Sell(Request),
    Trade { order: u64, shares: u64, price: u64 },
    Return { order: u64 },
    Confirm { order: u64 },
    Decline { order: u64 },
    Cancel { order: u64, participant: u64 },
    Step,
    Notice { code: u64, foreign: u64, total: u64 },
    Link(Link),
    Close,
}

impl Event {
    /// Reads the event of a line that was begun.
    pub fn read(place: Place, lines: &mut Lines) -> Result<Self, Fault> {
        match place.letter {
            b'B' => lines
                .fields(place, [ANY; 5])
                .map(|fields| Self::Buy(fields.into())),
            b'L' => lines
                .fields(place, [ANY; 5])
                .map(|fields| Self::Sell(fields.into())),
            b'T' => lines.fields(place, [ANY; 3]).map(Self::trade),
            b'R' => lines
                .fields(place, [ANY])
                .map(|[order]| Self::Return { order }),
            b'Y' => lines
                .fields(place, [ANY])
                .map(|[order]| Self::Confirm { order }),
            b'N' => lines
                .fields(place, [ANY])
                .map(|[order]| Self::Decline { order }),
            b'C' => lines.fields(place, [ANY; 2]).map(Self::cancel),
            b'H' => lines.fields(place, []).map(|[]| Self::Step),
            b'F' => lines.fields(place, [ANY; 3]).map(Self::notice),
            b'U' => lines
                .fields(place, [LINK])
                .map(|[link]| Self::Link(link.into())),
            b'Z' => lines.fields(place, []).map(|[]| Self::Close),
            _ => Err(place.fault(Cause::Letter)),
        }
    }

    fn trade([order, shares, price]: [u64; 3]) -> Self {
        Self::Trade {
            order,
            shares,
            price,
        }
    }

    fn cancel([order, participant]: [u64; 2]) -> Self {
        Self::Cancel { order, participant }
    }

    fn notice([code, foreign, total]: [u64; 3]) -> Self {
        Self::Notice {
            code,
            foreign,
            total,
        }
    }
}

/// The day and its link to the market.
pub struct Desk {
    day: Day,
    link: Link,
}

impl Desk {
    /// The desk of a day that was just opened: its link is up.
    pub fn new(day: Day) -> Self {
        Self {
            day,
            link: Link::Up,
        }
    }

    /// What is left of the quota.
    pub fn balance(&self) -> i64 {
        self.day.balance()
    }

    /// Does what the event asks, and answers the order's number, which is 0 for an event of no order.
    pub fn answer(&mut self, event: Event) -> Result<u64, Refusal> {
        let day = &mut self.day;
        match event {
            Event::Buy(request) => {
                let pass = day.reserve_buy(&request)?;
                self.pass_on(pass)
            }
            Event::Sell(request) => {
                let pass = day.reserve_sell(&request)?;
                self.pass_on(pass)
            }
            Event::Trade {
                order,
                shares,
                price,
            } => day.trade(order, shares, price).map(|()| order),
            Event::Return { order } => day.give_back(order).map(|()| order),
            Event::Confirm { order } => day.confirm(order).map(|()| order),
            Event::Decline { order } => day.decline(order).map(|()| order),
            Event::Cancel { order, participant } => day.cancel(order, participant).map(|()| order),
            Event::Step => day.step().map(|()| 0),
            Event::Notice {
                code,
                foreign,
                total,
            } => day.notice(code, foreign, total).map(|()| 0),
            Event::Close => day.close().map(|()| 0),
            Event::Link(link) => {
                self.link = link;
                Ok(0)
            }
        }
    }

    /// Sends an order that was taken, or gives it up where the link is down.
    fn pass_on(&mut self, pass: Pass) -> Result<u64, Refusal> {
        match self.link {
            Link::Up => Ok(self.day.send(pass)),
            Link::Down => {
                self.day.void(pass);
                Err(Refusal::Link)
            }
        }
    }
}

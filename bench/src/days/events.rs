//! The events of a day, by chance, written with an eye to what the earlier ones were answered.

use super::chance::Chance;
use super::morning::{Holding, Morning};
use super::writing;
use crate::plain;

/// Numbers that no call takes, or that only just pass.
const ODD: [u64; 8] = [
    0,
    1,
    2,
    99_999,
    100_000,
    999_999,
    1_000_000,
    9_999_999_999_999_999,
];

/// The bytes of an event's answer and of a fault's.
const ANSWER: usize = 50;

/// An order that was taken, as its answers tell.
struct Order {
    number: u64,
    participant: u64,
    buys: bool,
    limit: u64,
    remainder: u64,
    cancel_asked: bool,
}

/// An event that was written and not yet answered.
struct Written {
    letter: u8,
    fields: Vec<u64>,
}

/// Who writes a day's events.
pub struct Author<'a> {
    chance: &'a mut Chance,
    morning: &'a Morning,
    rows: usize,
    orders: usize,
    text: Vec<u8>,
    unanswered: Vec<Written>,
    answered: usize,
    open: Vec<Order>,
    taken: u64,
    phase: u64,
    down: bool,
    steps_in_thousand: u64,
}

impl<'a> Author<'a> {
    /// An author with a day part before him, over tables and a book of so many rows.
    pub fn new(chance: &'a mut Chance, morning: &'a Morning, rows: usize, orders: usize) -> Self {
        let mut text = Vec::new();
        morning.write(&mut text);
        Self {
            chance,
            morning,
            rows,
            orders,
            text,
            unanswered: Vec::new(),
            answered: 0,
            open: Vec::new(),
            taken: 0,
            phase: 1,
            down: false,
            steps_in_thousand: 0,
        }
    }

    /// Writes so many events, and for some days a good end.
    pub fn write(mut self, events: usize) -> Vec<u8> {
        let steps = self.chance.of(&[0, 1, 2, 3, 4, 5, 8]);
        self.steps_in_thousand = (steps * 1000 / events.max(1) as u64).min(500);
        let round = (events / 16).max(8);
        let mut left = events;
        while left > 0 {
            let now = left.min(round);
            (0..now).for_each(|_| self.event());
            left -= now;
            self.learn();
        }
        if self.chance.percent(50) {
            self.end();
        }
        self.text
    }

    fn event(&mut self) {
        if self.down && self.chance.percent(25) {
            return self.put(b'U', &[1]);
        }
        if self.chance.below(1000) < self.steps_in_thousand {
            return self.put(b'H', &[]);
        }
        let most = if self.open.is_empty() && self.chance.percent(75) {
            48
        } else {
            100
        };
        match self.chance.below(most) {
            0..24 => self.buy(),
            24..48 => self.sell(),
            48..68 => self.trade(),
            68..73 => self.put_order(b'R'),
            73..83 => self.cancel(),
            83..88 => self.put_order(b'Y'),
            88..92 => self.put_order(b'N'),
            92..97 => self.notice(),
            97..99 => self.link(),
            _ => self.put(b'Z', &[]),
        }
    }

    fn put(&mut self, letter: u8, fields: &[u64]) {
        writing::line(&mut self.text, letter, fields);
        let fields = fields.to_vec();
        self.unanswered.push(Written { letter, fields });
        match letter {
            b'H' => self.phase = (self.phase + 1).min(5),
            b'U' => {
                self.down = self
                    .unanswered
                    .last()
                    .is_some_and(|event| event.fields == [0])
            }
            _ => {}
        }
    }

    fn odd(&mut self) -> u64 {
        self.chance.of(&ODD)
    }

    fn code(&mut self) -> u64 {
        let odd = self.odd();
        match self.chance.any(&self.morning.securities) {
            Some(security) if !self.chance.percent(4) => security.code,
            _ => odd,
        }
    }

    /// A price for an order of a code, mostly within its limits and often at one.
    fn price(&mut self, code: u64) -> u64 {
        let listed = self
            .morning
            .securities
            .binary_search_by_key(&code, |security| security.code);
        let Ok(row) = listed else {
            return self.odd();
        };
        let security = self.morning.securities[row];
        let (lowest, highest) = security.limits();
        match self.chance.below(40) {
            0..8 => lowest,
            8..16 => highest,
            16 => lowest - 1,
            17 => highest + 1,
            18 => self.odd(),
            19..30 => security.close,
            _ => self.chance.between(lowest, highest),
        }
    }

    fn buy(&mut self) {
        let code = self.code();
        let price = self.price(code);
        let shares = match self.chance.below(30) {
            0 => self.odd(),
            1 => self.chance.of(&[50, 150, 999_900, 1_000_100]),
            2 => 1_000_000,
            3..8 => 100,
            _ => 100 * self.chance.between(1, 30),
        };
        let odd = self.odd();
        let participant = match self.chance.any(&self.morning.participants) {
            _ if self.chance.percent(2) => odd,
            Some(holding) => holding.holder,
            None => 101,
        };
        let account = if self.chance.percent(2) {
            self.odd()
        } else {
            0
        };
        self.put(b'B', &[participant, account, code, price, shares]);
    }

    fn sell(&mut self) {
        let (participant, account, holding) = self.seller();
        let code = if self.chance.percent(3) {
            self.code()
        } else {
            holding.code
        };
        let price = self.price(code);
        let most = holding.shares.min(1_000_000);
        let shares = match self.chance.below(20) {
            0 => self.odd(),
            1 => holding.shares + 1,
            2..5 => most,
            5 => 1_000_000,
            6 => 1,
            7..10 => self.chance.between(1, most),
            _ => self.chance.between(1, most / 20 + 1),
        };
        self.put(b'L', &[participant, account, code, price, shares]);
    }

    /// A participant, the account that is named, and what is to be sold.
    fn seller(&mut self) -> (u64, u64, Holding) {
        let code = self.code();
        let nothing = Holding {
            holder: 0,
            code,
            shares: 1000,
        };
        let morning = self.morning;
        match self.chance.below(20) {
            0..8 => match self.chance.any(&morning.participants) {
                Some(&holding) => (holding.holder, 0, holding),
                None => (101, 0, nothing),
            },
            8..17 => match self.chance.any(&morning.accounts) {
                Some(&holding) => (self.designated(holding.holder), holding.holder, holding),
                None => (101, 80_000_000, nothing),
            },
            17 => match self.chance.any(&morning.designations) {
                Some(&(account, participant)) => (participant, account, nothing),
                None => (101, 80_099_999, nothing),
            },
            18 => match self.chance.any(&morning.accounts) {
                Some(&holding) => (self.odd(), holding.holder, holding),
                None => (101, 80_099_999, nothing),
            },
            _ => (self.chance.between(1, 99_999), self.odd(), nothing),
        }
    }

    /// A participant that the account has designated, if there is one.
    fn designated(&mut self, account: u64) -> u64 {
        let first = self
            .morning
            .designations
            .partition_point(|pair| pair.0 < account);
        let end = self
            .morning
            .designations
            .partition_point(|pair| pair.0 <= account);
        match self.chance.any(&self.morning.designations[first..end]) {
            Some(&(_, participant)) => participant,
            None => self.chance.between(1, 300),
        }
    }

    /// A place among the open orders, if there are any.
    fn open_order(&mut self) -> Option<usize> {
        if self.open.is_empty() || self.chance.percent(8) {
            None
        } else {
            Some(self.chance.place(self.open.len()))
        }
    }

    /// The number of an order, open or done, or of none.
    fn order_number(&mut self) -> u64 {
        match self.chance.below(10) {
            0 => self.odd(),
            1 => self.taken,
            2 => self.taken + 1,
            _ => self.chance.between(0, self.taken),
        }
    }

    fn trade(&mut self) {
        let Some(place) = self.open_order() else {
            let fields = [self.order_number(), self.odd(), self.odd()];
            return self.put(b'T', &fields);
        };
        let Order {
            number,
            buys,
            limit,
            remainder,
            ..
        } = self.open[place];
        let shares = match self.chance.below(20) {
            0 => 0,
            1 => remainder + 1,
            2 => self.odd(),
            3..8 => remainder,
            8..10 => 1,
            _ => self.chance.between(1, remainder),
        };
        let (better, worse) = if buys {
            (limit - 1, limit + 1)
        } else {
            (limit + 1, limit - 1)
        };
        let price = match self.chance.below(30) {
            0 => worse,
            1 => self.odd(),
            2 => self.chance.of(&[0, 1, 999_999, 1_000_000]),
            3..8 => better,
            8..18 => limit,
            _ if buys => self.chance.between(1, limit),
            _ => self.chance.between(limit, 999_999.min(limit * 2)),
        };
        self.put(b'T', &[number, shares, price]);
    }

    fn cancel(&mut self) {
        let Some(place) = self.open_order() else {
            let fields = [self.order_number(), self.odd()];
            return self.put(b'C', &fields);
        };
        let Order {
            number,
            participant,
            ..
        } = self.open[place];
        let asker = if self.chance.percent(10) {
            self.odd()
        } else {
            participant
        };
        self.put(b'C', &[number, asker]);
    }

    /// An event of an order alone, for a Confirm or a Decline mostly one whose cancel is asked.
    fn put_order(&mut self, letter: u8) {
        let mut place = self.open_order();
        if letter != b'R' && self.chance.percent(80) {
            place = self
                .open
                .iter()
                .position(|order| order.cancel_asked)
                .or(place);
        }
        let number = match place {
            Some(place) => {
                self.open[place].cancel_asked = false;
                self.open[place].number
            }
            None => self.order_number(),
        };
        self.put(letter, &[number]);
    }

    fn notice(&mut self) {
        let code = self.code();
        let total = match self.chance.below(10) {
            0 => self.odd(),
            1 => self.chance.of(&[0, 1_000_000_000_000, 1_000_000_000_001]),
            2..6 => 100,
            _ => self.chance.between(1, 10_000_000_000),
        };
        let of_total = |percent: u64| total / 100 * percent + total % 100 * percent / 100;
        let foreign = match self.chance.below(12) {
            0 => total + 1,
            1 => total,
            2 => self.odd(),
            3..5 => of_total(28),
            5 => of_total(28) + 1,
            6 => of_total(27),
            7..9 => of_total(26),
            9 => of_total(26) + 1,
            10 => 0,
            _ => self.chance.between(0, total),
        };
        self.put(b'F', &[code, foreign, total]);
    }

    fn link(&mut self) {
        let up = self.chance.of(&[0, 0, 0, 0, 1]);
        self.put(b'U', &[up]);
    }

    /// Steps the day to its last phase, ends its orders and closes it; sometimes a line follows.
    fn end(&mut self) {
        while self.phase < 5 {
            (0..3).for_each(|_| self.event());
            self.put(b'Z', &[]);
            self.put(b'H', &[]);
        }
        (0..4).for_each(|_| self.event());
        self.put(b'Z', &[]);
        self.learn();
        let open: Vec<(u64, bool)> = self
            .open
            .iter()
            .map(|order| (order.number, order.cancel_asked))
            .collect();
        for (number, asked) in open {
            self.put(if asked { b'Y' } else { b'R' }, &[number]);
        }
        self.put(b'Z', &[]);
        if self.chance.percent(60) {
            self.after_close();
        }
    }

    /// Writes what has no place after the close, or is no line at all.
    fn after_close(&mut self) {
        match self.chance.below(6) {
            0 => self.text.extend_from_slice(b"X\n"),
            1 => self.text.extend_from_slice(b"Z 1\n"),
            2 => self.put(b'U', &[2]),
            3 => self.put(b'Z', &[]),
            4 => self.text.extend_from_slice(b"B"),
            _ => (0..2).for_each(|_| self.event()),
        }
    }

    /// Reads what the events were answered that were written since the last time.
    fn learn(&mut self) {
        let answers = plain::replay(&self.text, self.rows, self.orders);
        let fresh = answers[self.answered * ANSWER..].chunks_exact(ANSWER);
        for (event, answer) in std::mem::take(&mut self.unanswered).into_iter().zip(fresh) {
            if answer[0] != event.letter {
                break;
            }
            self.answered += 1;
            self.note(
                &event,
                number_in(&answer[1..17]),
                number_in(&answer[17..33]),
            );
        }
    }

    /// Notes what an event was answered.
    fn note(&mut self, event: &Written, refusal: u64, number: u64) {
        let place = self.open.iter().position(|order| order.number == number);
        match (event.letter, event.fields.as_slice(), place) {
            (b'B' | b'L', &[participant, _, _, limit, shares], _) if refusal == 0 => {
                self.taken = number;
                self.open.push(Order {
                    number,
                    participant,
                    buys: event.letter == b'B',
                    limit,
                    remainder: shares,
                    cancel_asked: false,
                });
            }
            (b'T', &[_, shares, _], Some(place)) => {
                self.open[place].remainder -= shares;
                if self.open[place].remainder == 0 {
                    self.open.swap_remove(place);
                }
            }
            (b'R' | b'Y', _, Some(place)) => {
                self.open.swap_remove(place);
            }
            (b'C', _, Some(place)) => self.open[place].cancel_asked = true,
            (b'N', _, Some(place)) => self.open[place].cancel_asked = false,
            _ => {}
        }
    }
}

/// The number in a field of an answer, or 0 where it is none.
fn number_in(field: &[u8]) -> u64 {
    str::from_utf8(field)
        .ok()
        .and_then(|digits| digits.trim_start().parse().ok())
        .unwrap_or(0)
}

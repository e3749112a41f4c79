//! The day part of the input: what the day begins with.

use super::fault::{Cause, Fault, Place};
use super::field;
use super::lines::Lines;
use super::range;
use super::register::{Accounts, Designations, Holdings};
use super::security::{Buying, Securities, Security};

/// What a day opens with.
pub struct Opening {
    pub quota: u64,
    pub securities: Securities,
    pub participants: Holdings,
    pub accounts: Accounts,
}

/// How far the day part has come: which kind of line was the last one.
#[derive(Clone, Copy, PartialEq, Eq, PartialOrd, Ord)]
enum Stage {
    Nothing,
    Day,
    Securities,
    Participants,
    Accounts,
    Designations,
}

/// Reads the day part, its end line included, into tables of so many rows.
pub fn load(lines: &mut Lines, rows: usize) -> Result<Opening, Fault> {
    let mut loading = Loading::new(rows);
    while let Some(place) = lines.begin() {
        match place.letter {
            b'D' => loading.day(place, lines)?,
            b'S' => loading.security(place, lines)?,
            b'P' => loading.participant(place, lines)?,
            b'A' => loading.account(place, lines)?,
            b'G' => loading.designation(place, lines)?,
            b'E' => {
                loading.end(place, lines)?;
                return Ok(loading.opening);
            }
            _ => return Err(place.fault(Cause::Letter)),
        }
    }
    Err(lines.ended())
}

/// A day that is being loaded.
struct Loading {
    stage: Stage,
    opening: Opening,
}

impl Loading {
    fn new(rows: usize) -> Self {
        Self {
            stage: Stage::Nothing,
            opening: Opening {
                quota: 0,
                securities: Securities::new(rows),
                participants: Holdings::new(rows),
                accounts: Accounts {
                    holdings: Holdings::new(rows),
                    designations: Designations::new(rows),
                },
            },
        }
    }

    fn day(&mut self, place: Place, lines: &mut Lines) -> Result<(), Fault> {
        let [_market, _date, quota] =
            lines.fields(place, [range::MARKET, range::DATE, range::QUOTA])?;
        if self.stage != Stage::Nothing {
            return Err(place.fault(Cause::Sequence));
        }
        self.stage = Stage::Day;
        self.opening.quota = quota;
        Ok(())
    }

    fn security(&mut self, place: Place, lines: &mut Lines) -> Result<(), Fault> {
        let ranges = [range::CODE, range::BUYING, range::CLOSE, range::BAND];
        let [code, buying, close, band] = lines.fields(place, ranges)?;
        self.reach(Stage::Securities)
            .and_then(|()| {
                let security = Security::new(Buying::numbered(buying), close, band);
                self.opening.securities.add(code, security)
            })
            .map_err(|cause| place.fault(cause))
    }

    fn participant(&mut self, place: Place, lines: &mut Lines) -> Result<(), Fault> {
        let ranges = [range::PARTICIPANT, range::CODE, range::HELD_SHARES];
        let [participant, code, shares] = lines.fields(place, ranges)?;
        self.reach(Stage::Participants)
            .and_then(|()| self.opening.participants.add(participant, code, shares))
            .map_err(|cause| place.fault(cause))
    }

    fn account(&mut self, place: Place, lines: &mut Lines) -> Result<(), Fault> {
        let ranges = [range::ACCOUNT, range::CODE, range::HELD_SHARES];
        let [account, code, shares] = lines.fields(place, ranges)?;
        self.reach(Stage::Accounts)
            .and_then(|()| self.opening.accounts.holdings.add(account, code, shares))
            .map_err(|cause| place.fault(cause))
    }

    fn designation(&mut self, place: Place, lines: &mut Lines) -> Result<(), Fault> {
        let [account, participant] = lines.fields(place, [range::ACCOUNT, range::PARTICIPANT])?;
        self.reach(Stage::Designations)
            .and_then(|()| self.opening.accounts.designations.add(account, participant))
            .map_err(|cause| place.fault(cause))
    }

    fn end(&mut self, place: Place, lines: &mut Lines) -> Result<(), Fault> {
        let counts = lines.fields(place, [range::LINES; 4])?;
        if self.stage == Stage::Nothing {
            return Err(place.fault(Cause::Sequence));
        }
        let differing = self
            .lines_read()
            .into_iter()
            .zip(counts)
            .position(|(read, count)| read as u64 != count);
        match differing {
            Some(count) => Err(place.fault_at(Cause::Count, field::first_column(count))),
            None => {
                lines.enter_events();
                Ok(())
            }
        }
    }

    /// Goes on to a group of lines, or stays in it.
    fn reach(&mut self, stage: Stage) -> Result<(), Cause> {
        if self.stage == Stage::Nothing || self.stage > stage {
            return Err(Cause::Sequence);
        }
        self.stage = stage;
        Ok(())
    }

    /// How many lines each group has, in the order of the end line.
    fn lines_read(&self) -> [usize; 4] {
        [
            self.opening.securities.len(),
            self.opening.participants.len(),
            self.opening.accounts.holdings.len(),
            self.opening.accounts.designations.len(),
        ]
    }
}

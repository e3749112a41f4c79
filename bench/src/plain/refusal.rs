//! Why the gate does not do what an event asks.

/// What an event is refused for. Each refusal stands for the number that its answer shows.
#[derive(Clone, Copy, Debug, PartialEq, Eq)]
pub enum Refusal {
    /// An order comes after hours.
    Hours = 1,
    /// The day can take no more orders.
    Full = 2,
    /// The security list does not have the code.
    Code = 3,
    /// The price is beyond a limit of the day.
    Price = 4,
    /// The shares are no lot of their side.
    Lot = 5,
    /// The participant or the account cannot give the order.
    Account = 6,
    /// The account has not designated the participant.
    Undesignated = 7,
    /// There is no such holding.
    NoPosition = 8,
    /// Fewer shares may be sold than are wanted.
    ShortBalance = 9,
    /// A buy of a security that may only be sold.
    SellOnly = 10,
    /// A buy of a security whose buying is suspended.
    Suspended = 11,
    /// A buy while buying is shut, or with nothing left of the quota.
    Quota = 12,
    /// There is no such order, or it is another participant's.
    Order = 13,
    /// The order's state does not allow it.
    State = 14,
    /// A trade that does not fit its order.
    Fill = 15,
    /// A step after hours.
    Phase = 16,
    /// A cancel in a phase without cancelling.
    NoCancel = 17,
    /// A notice whose numbers of shares do not fit each other.
    Foreign = 18,
    /// The day cannot be closed yet.
    Business = 21,
    /// The order was taken and is given up, since the link is down.
    Link = 22,
}

impl From<Refusal> for u64 {
    fn from(refusal: Refusal) -> Self {
        refusal as Self
    }
}

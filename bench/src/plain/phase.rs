//! The phases of a day.

/// A phase of the day.
#[derive(Clone, Copy, Debug, PartialEq, Eq)]
pub enum Phase {
    OpeningCall,
    OpeningCallWithoutCancelling,
    ContinuousTrading,
    ClosingCall,
    AfterHours,
}

impl Phase {
    /// The phase that a step leads to.
    pub fn next(self) -> Option<Self> {
        match self {
            Self::OpeningCall => Some(Self::OpeningCallWithoutCancelling),
            Self::OpeningCallWithoutCancelling => Some(Self::ContinuousTrading),
            Self::ContinuousTrading => Some(Self::ClosingCall),
            Self::ClosingCall => Some(Self::AfterHours),
            Self::AfterHours => None,
        }
    }

    /// Whether orders are taken.
    pub fn takes_orders(self) -> bool {
        self != Self::AfterHours
    }

    /// Whether a cancel may be asked.
    pub fn takes_cancels(self) -> bool {
        matches!(self, Self::OpeningCall | Self::ContinuousTrading)
    }

    /// Whether a low balance shuts buying.
    pub fn shuts_buying(self) -> bool {
        matches!(self, Self::ContinuousTrading | Self::ClosingCall)
    }
}

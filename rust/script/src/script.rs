use engine::{Order, Policy};

/// A script that has the right form.
#[derive(Clone, Debug, PartialEq, Eq)]
pub struct Script {
    pub head: Head,
    pub calls: Vec<Call>,
}

#[derive(Clone, Debug, PartialEq, Eq)]
pub struct Head {
    pub journal: JournalKind,
    pub policy: Policy,
    pub used: u64,
}

#[derive(Clone, Copy, Debug, PartialEq, Eq)]
pub enum JournalKind {
    Roll,
    Strip,
    RollAndStrip,
    StripAndRoll,
}

#[derive(Clone, Debug, PartialEq, Eq)]
pub enum Call {
    Open { number: u32, ledger: u16, class: u8, limit: u64, label: u64 },
    Batch { orders: Vec<Order>, answers: usize },
    Move { moment: u64, lapses: usize },
    Report { bytes: usize },
    AskAccount(u32),
    AskReservation(u32),
    AskMoment,
    AskReading,
}

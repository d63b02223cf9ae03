/// One order of a batch.
#[derive(Clone, Copy, Debug, PartialEq, Eq)]
pub struct Order {
    pub number: u32,
    pub linked: bool,
    pub task: Task,
}

/// What is ordered.
#[derive(Clone, Copy, Debug, PartialEq, Eq)]
pub enum Task {
    Transfer {
        debit: u32,
        credit: u32,
        amount: u64,
    },
    /// A duration of 0 seconds means no deadline.
    Reserve {
        debit: u32,
        credit: u32,
        amount: u64,
        duration: u32,
    },
    Post {
        reservation: u32,
        amount: u64,
    },
    Void {
        reservation: u32,
    },
}

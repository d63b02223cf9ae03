/// The bytes of an order in a script.
pub type OrderBytes = [u8; 26];

/// One order, its deadline worked out.
#[derive(Clone, Copy, Debug, PartialEq, Eq)]
pub struct Leg {
    pub number: u32,
    pub linked: bool,
    pub task: Task,
}

#[derive(Clone, Copy, Debug, PartialEq, Eq)]
pub enum Task {
    Transfer(Flow),
    /// With the deadline, or 0 for none.
    Reserve(Flow, u64),
    Post {
        reservation: u32,
        amount: u64,
    },
    Void {
        reservation: u32,
    },
}

/// Water that goes from one account to another, now or later.
#[derive(Clone, Copy, Debug, PartialEq, Eq)]
pub struct Flow {
    pub debit: u32,
    pub credit: u32,
    pub amount: u64,
}

#[inline(always)]
pub fn is_linked(order: &OrderBytes) -> bool {
    order[4] != 0
}

/// Whether mark and kind are allowed.
#[inline(always)]
pub fn is_order(order: &OrderBytes) -> bool {
    order[4] <= 1 && matches!(order[5], 2..=5)
}

impl Leg {
    /// Reads an order whose mark and kind are allowed, as it runs at a moment.
    #[inline(always)]
    pub fn read(order: &OrderBytes, moment: u64) -> Leg {
        let &[n0, n1, n2, n3, mark, kind, f0, f1, f2, f3, s0, s1, s2, s3, ref tail @ ..] = order;
        let &[a0, a1, a2, a3, a4, a5, a6, a7, d0, d1, d2, d3] = tail;
        let first = u32::from_be_bytes([f0, f1, f2, f3]);
        let second = u32::from_be_bytes([s0, s1, s2, s3]);
        let amount = u64::from_be_bytes([a0, a1, a2, a3, a4, a5, a6, a7]);
        let flow = Flow { debit: first, credit: second, amount };
        let task = match kind {
            2 => Task::Transfer(flow),
            3 => match u32::from_be_bytes([d0, d1, d2, d3]) {
                0 => Task::Reserve(flow, 0),
                duration => Task::Reserve(flow, moment + u64::from(duration)),
            },
            4 => Task::Post { reservation: first, amount },
            _ => Task::Void { reservation: first },
        };
        Leg { number: u32::from_be_bytes([n0, n1, n2, n3]), linked: mark != 0, task }
    }
}

//! Scripts before they are bytes. Any field may be out of its range.

/// What fields hold that are not looked at.
const UNUSED: u8 = 0xC3;

#[derive(Clone, Debug)]
pub struct Plan {
    pub head: Head,
    pub calls: Vec<Call>,
}

#[derive(Clone, Copy, Debug)]
pub struct Head {
    pub version: u8,
    pub journal: u8,
    pub policy: u8,
    pub class: u8,
    pub below: u8,
    pub from: u8,
    pub used: u64,
}

#[derive(Clone, Debug)]
pub enum Call {
    Open { number: u32, ledger: u16, class: u8, limit: u64, label: u64 },
    Batch { orders: Vec<Order>, answers: u8 },
    Move { moment: u64, lapses: u16 },
    Report { bytes: u16 },
    Account(u32),
    Reservation(u32),
    Moment,
    Reading,
}

#[derive(Clone, Copy, Debug)]
pub struct Order {
    pub number: u32,
    pub linked: bool,
    pub kind: u8,
    pub first: u32,
    pub second: u32,
    pub amount: u64,
    pub duration: u32,
}

pub const TRANSFER: u8 = 2;
pub const RESERVE: u8 = 3;
pub const POST: u8 = 4;
pub const VOID: u8 = 5;

impl Head {
    pub fn new(journal: u8, policy: u8) -> Head {
        Head {
            version: 1,
            journal,
            policy,
            class: UNUSED,
            below: UNUSED,
            from: UNUSED,
            used: u64::from_be_bytes([UNUSED; 8]),
        }
    }

    pub fn with_used(self, used: u64) -> Head {
        Head { used, ..self }
    }
}

impl Order {
    pub fn transfer(number: u32, debit: u32, credit: u32, amount: u64) -> Order {
        Order {
            number,
            linked: false,
            kind: TRANSFER,
            first: debit,
            second: credit,
            amount,
            duration: u32::from_be_bytes([UNUSED; 4]),
        }
    }

    pub fn reserve(number: u32, debit: u32, credit: u32, amount: u64, duration: u32) -> Order {
        Order { kind: RESERVE, duration, ..Order::transfer(number, debit, credit, amount) }
    }

    pub fn post(number: u32, reservation: u32, amount: u64) -> Order {
        let unused = u32::from_be_bytes([UNUSED; 4]);
        Order { kind: POST, ..Order::transfer(number, reservation, unused, amount) }
    }

    pub fn void(number: u32, reservation: u32) -> Order {
        Order { kind: VOID, ..Order::post(number, reservation, u64::from_be_bytes([UNUSED; 8])) }
    }

    pub fn linked(self) -> Order {
        Order { linked: true, ..self }
    }
}

impl Plan {
    pub fn bytes(&self) -> Vec<u8> {
        let head = &self.head;
        let mut bytes =
            vec![head.version, head.journal, head.policy, head.class, head.below, head.from];
        bytes.extend(head.used.to_be_bytes());
        for call in &self.calls {
            call.write(&mut bytes);
        }
        bytes
    }
}

impl Call {
    fn write(&self, bytes: &mut Vec<u8>) {
        match self {
            Call::Open { number, ledger, class, limit, label } => {
                bytes.push(1);
                bytes.extend(number.to_be_bytes());
                bytes.extend(ledger.to_be_bytes());
                bytes.push(*class);
                bytes.extend(limit.to_be_bytes());
                bytes.extend(label.to_be_bytes());
            }
            Call::Batch { orders, answers } => {
                bytes.extend([2, orders.len() as u8, *answers]);
                orders.iter().for_each(|order| order.write(bytes));
            }
            Call::Move { moment, lapses } => {
                bytes.push(3);
                bytes.extend(moment.to_be_bytes());
                bytes.extend(lapses.to_be_bytes());
            }
            Call::Report { bytes: length } => {
                bytes.push(4);
                bytes.extend(length.to_be_bytes());
            }
            Call::Account(number) => {
                bytes.push(5);
                bytes.extend(number.to_be_bytes());
            }
            Call::Reservation(number) => {
                bytes.push(6);
                bytes.extend(number.to_be_bytes());
            }
            Call::Moment => bytes.push(7),
            Call::Reading => bytes.push(8),
        }
    }
}

impl Order {
    fn write(&self, bytes: &mut Vec<u8>) {
        bytes.extend(self.number.to_be_bytes());
        bytes.extend([u8::from(self.linked), self.kind]);
        bytes.extend(self.first.to_be_bytes());
        bytes.extend(self.second.to_be_bytes());
        bytes.extend(self.amount.to_be_bytes());
        bytes.extend(self.duration.to_be_bytes());
    }
}

#[cfg(test)]
mod tests {
    use super::*;

    #[test]
    fn a_plan_is_a_script() {
        let orders = vec![Order::transfer(7, 1, 2, 900).linked(), Order::void(8, 3)];
        let calls = vec![
            Call::Open { number: 1, ledger: 2, class: 3, limit: 4, label: 5 },
            Call::Batch { orders, answers: 9 },
            Call::Move { moment: 1, lapses: 2 },
            Call::Report { bytes: 77 },
            Call::Account(1),
            Call::Reservation(2),
            Call::Moment,
            Call::Reading,
        ];
        let plan = Plan { head: Head::new(0, 0), calls };
        let script = script::parse(&plan.bytes()).expect("sound");
        assert_eq!(script.calls.len(), 8);
    }
}

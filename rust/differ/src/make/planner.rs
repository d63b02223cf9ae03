//! Makes calls that are mostly taken: it remembers roughly what went before.

use super::probe::Seen;
use super::values::{amount, class, duration, edge_moment, label, limit};
use crate::plan::{Call, Order};
use crate::rng::Rng;
use engine::{Fate, Past};
use script::{MOST_LAPSES, MOST_REPORT_BYTES};

/// How often things of a script are out of the common, in a thousand times.
#[derive(Clone, Copy, Debug)]
pub struct Temper {
    pub faults: u64,
    pub links: u64,
    pub edges: u64,
    pub ledgers: u64,
}

impl Temper {
    pub fn new(rng: &mut Rng) -> Temper {
        Temper {
            faults: rng.pick(&[0, 5, 5, 20, 20, 60, 300]),
            links: rng.pick(&[0, 50, 100, 200, 300, 900]),
            edges: rng.pick(&[0, 0, 0, 5, 20, 300]),
            ledgers: rng.pick(&[1, 1, 2, 3]),
        }
    }
}

#[derive(Clone, Debug)]
pub struct Planner {
    pub rng: Rng,
    temper: Temper,
    accounts: Vec<(u32, u16)>,
    next_order: u32,
    live: Vec<u32>,
    resolved: Vec<u32>,
    deadlines: Vec<u64>,
    moment: u64,
}

impl Planner {
    pub fn new(mut rng: Rng) -> Planner {
        let temper = Temper::new(&mut rng);
        Planner {
            rng,
            temper,
            accounts: Vec::new(),
            next_order: 1,
            live: Vec::new(),
            resolved: Vec::new(),
            deadlines: Vec::new(),
            moment: 0,
        }
    }

    pub fn temper(&mut self) -> &mut Temper {
        &mut self.temper
    }

    pub fn openings(&mut self, count: usize) -> Vec<Call> {
        (0..count).map(|_| self.open()).collect()
    }

    pub fn calls(&mut self, count: usize) -> Vec<Call> {
        (0..count).map(|_| self.call()).collect()
    }

    fn call(&mut self) -> Call {
        match self.rng.below(100) {
            0..=4 => self.open(),
            5..=59 => self.batch(),
            60..=77 => self.move_to(),
            78..=82 => self.report(),
            83..=89 => Call::Account(self.some_account()),
            90..=96 => Call::Reservation(self.any_reservation()),
            97..=98 => Call::Moment,
            _ => Call::Reading,
        }
    }

    fn is_faulty(&mut self) -> bool {
        self.rng.in_thousand(self.temper.faults)
    }

    pub fn open(&mut self) -> Call {
        let number = match self.rng.below(30) {
            _ if self.is_faulty() => self.rng.pick(&[0, 1, 2, 3]),
            0 | 1 => self.rng.next() as u32,
            2 => u32::MAX - self.rng.below(3) as u32,
            _ => self.accounts.len() as u32 + 1,
        };
        let ledger = match self.rng.below(self.temper.ledgers) as u16 {
            _ if self.is_faulty() => 0,
            2 => u16::MAX,
            other => other + 7,
        };
        self.accounts.push((number, ledger));
        let faults = self.temper.faults / 2;
        Call::Open {
            number,
            ledger,
            class: class(&mut self.rng),
            limit: limit(&mut self.rng, self.temper.edges),
            label: label(&mut self.rng, faults),
        }
    }

    pub fn some_account(&mut self) -> u32 {
        if self.accounts.is_empty() || self.is_faulty() {
            return self.rng.pick(&[0, 1, 2, 999, u32::MAX]);
        }
        self.rng.pick(&self.accounts).0
    }

    /// A reservation to ask about, of any fate.
    pub fn any_reservation(&mut self) -> u32 {
        let known = [self.live.as_slice(), &self.resolved].concat();
        if known.is_empty() || self.is_faulty() {
            let near = self.next_order.wrapping_sub(self.rng.below(5) as u32);
            return self.rng.pick(&[0, 1, 2, near, u32::MAX]);
        }
        self.rng.pick(&known)
    }

    /// A reservation to end, mostly a live one.
    fn live_reservation(&mut self) -> u32 {
        if self.live.is_empty() || self.rng.in_thousand(50) {
            return self.any_reservation();
        }
        let place = self.rng.place(self.live.len());
        let number = self.live.swap_remove(place);
        self.resolved.push(number);
        number
    }

    /// Takes over where the book really stands.
    pub fn learn(&mut self, seen: &Seen) {
        let past = Past { entries: &seen.entries, moment: seen.moment };
        let (live, resolved): (Vec<_>, Vec<_>) =
            past.reservations().partition(|r| past.fate(r) == Fate::Live);
        self.live = live.iter().map(|r| r.number).collect();
        self.resolved = resolved.iter().map(|r| r.number).collect();
        self.accounts = past.accounts().map(|a| (a.number, a.ledger)).collect();
        self.next_order = past.highest_order().saturating_add(1);
        self.deadlines = past.deadlines().iter().map(|d| d.0).collect();
        self.moment = seen.moment;
    }

    /// Two accounts, mostly of one ledger.
    fn pair(&mut self) -> (u32, u32) {
        let one = self.some_account();
        if self.is_faulty() {
            return (one, self.some_account());
        }
        let ledger = self.accounts.iter().find(|a| a.0 == one).map(|a| a.1);
        let others = self.accounts.iter().filter(|a| Some(a.1) == ledger && a.0 != one);
        let others: Vec<u32> = others.map(|a| a.0).collect();
        if others.is_empty() {
            return (one, self.some_account());
        }
        (one, self.rng.pick(&others))
    }

    fn order_number(&mut self) -> u32 {
        if self.is_faulty() {
            let back = self.rng.below(4) as u32;
            let rare = if self.rng.in_thousand(30) { u32::MAX } else { 0 };
            return self.rng.pick(&[rare, self.next_order.saturating_sub(back)]);
        }
        let gap = if self.rng.in_thousand(100) { self.rng.below(1000) as u32 } else { 0 };
        let number = self.next_order.saturating_add(gap);
        self.next_order = number.saturating_add(1);
        number
    }

    pub fn order(&mut self) -> Order {
        let number = self.order_number();
        let amount = amount(&mut self.rng, self.temper.edges);
        match self.rng.below(100) {
            0..=34 => {
                let (debit, credit) = self.pair();
                Order::transfer(number, debit, credit, amount)
            }
            35..=64 => self.reserve(number, amount),
            65..=86 if !self.live.is_empty() => {
                let less = amount.min(1 + self.rng.below(20));
                let chosen = self.rng.pick(&[amount, less, less]);
                Order::post(number, self.live_reservation(), chosen)
            }
            _ if self.live.is_empty() && !self.is_faulty() => self.reserve(number, amount),
            _ => Order::void(number, self.live_reservation()),
        }
    }

    fn reserve(&mut self, number: u32, amount: u64) -> Order {
        let (debit, credit) = self.pair();
        let duration = duration(&mut self.rng);
        self.live.push(number);
        if duration > 0 {
            self.deadlines.push(self.moment + u64::from(duration));
        }
        Order::reserve(number, debit, credit, amount, duration)
    }

    pub fn batch(&mut self) -> Call {
        let count = match self.rng.below(20) {
            0 => self.rng.below(2),
            1 => self.rng.within(15, 64),
            2 => 64,
            3..=8 => 1,
            _ => self.rng.within(1, 9),
        };
        let mut orders: Vec<Order> = Vec::new();
        while (orders.len() as u64) < count {
            let legs = self.legs().min(count - orders.len() as u64);
            let mut chain: Vec<_> = (0..legs).map(|_| self.order().linked()).collect();
            if let Some(last) = chain.last_mut() {
                last.linked = self.is_faulty();
            }
            orders.extend(chain);
        }
        let answers = self.answers(orders.len());
        Call::Batch { orders, answers }
    }

    /// How long a chain is.
    fn legs(&mut self) -> u64 {
        if !self.rng.in_thousand(self.temper.links) {
            return 1;
        }
        match self.rng.below(100) {
            0 => self.rng.within(15, 17),
            1 | 2 => self.rng.within(1, 40),
            3..=9 => self.rng.within(6, 16),
            _ => self.rng.within(2, 5),
        }
    }

    /// How long the answer list is.
    fn answers(&mut self, orders: usize) -> u8 {
        let length = match self.rng.below(8) {
            _ if self.is_faulty() => self.rng.place(orders + 1),
            0 => 64,
            1 => orders + self.rng.place(5),
            _ => orders,
        };
        length.min(64) as u8
    }

    pub fn move_to(&mut self) -> Call {
        let moment = self.next_moment();
        let lapses = match self.rng.below(10) {
            0 => self.rng.below(4),
            1 => self.rng.below(20),
            2 => 256,
            3 => MOST_LAPSES.into(),
            _ => 40,
        };
        Call::Move { moment, lapses: lapses as u16 }
    }

    /// Mostly a little later, often at a deadline or right beside it.
    fn next_moment(&mut self) -> u64 {
        if self.is_faulty() && self.rng.in_thousand(300) {
            return edge_moment(&mut self.rng);
        }
        if self.is_faulty() {
            return self.moment.saturating_sub(self.rng.below(5));
        }
        let now = self.moment;
        self.deadlines.retain(|d| *d > now);
        let next = self.deadlines.iter().min().copied();
        let target = match (self.rng.below(10), next) {
            (0..=2, Some(deadline)) => deadline,
            (3, Some(deadline)) => deadline - 1,
            (4, Some(deadline)) => deadline + 1,
            (5, _) => now,
            _ => now + self.rng.below(40),
        };
        self.moment = target.max(now).min(engine::LAST_MOMENT);
        self.moment
    }

    pub fn report(&mut self) -> Call {
        let bytes = match self.rng.below(4) {
            0 => self.rng.below(40),
            1 => self.rng.below(400),
            _ => self.rng.within(400, MOST_REPORT_BYTES.into()),
        };
        Call::Report { bytes: bytes as u16 }
    }
}

//! What a list of entries and a moment give. Nothing is kept: each answer is a
//! search, a filter or a sum over the entries.

use crate::entry::{Content, Entry};
use crate::label::Label;

#[derive(Clone, Copy, Debug, PartialEq, Eq)]
pub struct Account {
    pub number: u32,
    pub ledger: u16,
    pub class: u8,
    pub limit: u64,
    pub label: Label,
}

#[derive(Clone, Copy, Debug, PartialEq, Eq)]
pub struct Reservation {
    pub number: u32,
    pub debit: u32,
    pub credit: u32,
    pub amount: u64,
    pub deadline: Option<u64>,
}

#[derive(Clone, Copy, Debug, PartialEq, Eq)]
pub enum Fate {
    Live,
    Posted,
    Voided,
    Lapsed,
}

#[derive(Clone, Copy, Debug, Default, PartialEq, Eq)]
pub struct Totals {
    pub debits_pending: u64,
    pub debits_posted: u64,
    pub credits_pending: u64,
    pub credits_posted: u64,
}

/// A list of entries seen at a moment.
#[derive(Clone, Copy)]
pub struct Past<'a> {
    pub entries: &'a [Entry],
    pub moment: u64,
}

impl<'a> Past<'a> {
    pub fn accounts(self) -> impl Iterator<Item = Account> + 'a {
        self.entries.iter().filter_map(as_account)
    }

    pub fn account(self, number: u32) -> Option<Account> {
        self.accounts().find(|a| a.number == number)
    }

    pub fn reservations(self) -> impl Iterator<Item = Reservation> + 'a {
        self.entries.iter().filter_map(as_reservation)
    }

    pub fn reservation(self, number: u32) -> Option<Reservation> {
        self.reservations().find(|r| r.number == number)
    }

    pub fn fate(self, reservation: &Reservation) -> Fate {
        let ending = self.entries.iter().find_map(|e| match e.content {
            Content::Post { reservation: r, .. } if r == reservation.number => Some(Fate::Posted),
            Content::Void { reservation: r } if r == reservation.number => Some(Fate::Voided),
            _ => None,
        });
        match (ending, reservation.deadline) {
            (Some(fate), _) => fate,
            (None, Some(deadline)) if deadline <= self.moment => Fate::Lapsed,
            (None, _) => Fate::Live,
        }
    }

    pub fn totals(self, account: u32) -> Totals {
        let mut totals = Totals::default();
        for entry in self.entries {
            match entry.content {
                Content::Transfer { debit, credit, amount } => {
                    totals.add_posted(account, debit, credit, amount)
                }
                Content::Reserve { debit, credit, .. } if [debit, credit].contains(&account) => {
                    self.add_reservation(&mut totals, account, entry);
                }
                Content::Post { reservation, amount } => {
                    if let Some(r) = self.reservation(reservation) {
                        totals.add_posted(account, r.debit, r.credit, amount);
                    }
                }
                _ => {}
            }
        }
        totals
    }

    fn add_reservation(self, totals: &mut Totals, account: u32, entry: &Entry) {
        let live = as_reservation(entry).filter(|r| self.fate(r) == Fate::Live);
        if let Some(r) = live {
            totals.add_pending(account, r.debit, r.credit, r.amount);
        }
    }

    /// The highest order number, or 0.
    pub fn highest_order(self) -> u32 {
        let orders = self.entries.iter().filter(|e| !e.is_account());
        orders.map(|e| e.number).max().unwrap_or(0)
    }

    /// The live reservations with a deadline, as pairs of deadline and number, in order.
    pub fn deadlines(self) -> Vec<(u64, u32)> {
        let mut found: Vec<_> = self
            .reservations()
            .filter_map(|r| r.deadline.map(|d| (d, r)))
            .filter(|(_, r)| self.fate(r) == Fate::Live)
            .map(|(d, r)| (d, r.number))
            .collect();
        found.sort_unstable();
        found
    }
}

impl Totals {
    fn add_posted(&mut self, account: u32, debit: u32, credit: u32, amount: u64) {
        if debit == account {
            self.debits_posted += amount;
        }
        if credit == account {
            self.credits_posted += amount;
        }
    }

    fn add_pending(&mut self, account: u32, debit: u32, credit: u32, amount: u64) {
        if debit == account {
            self.debits_pending += amount;
        }
        if credit == account {
            self.credits_pending += amount;
        }
    }
}

fn as_account(entry: &Entry) -> Option<Account> {
    match entry.content {
        Content::Account { ledger, class, limit, label } => {
            Some(Account { number: entry.number, ledger, class, limit, label })
        }
        _ => None,
    }
}

fn as_reservation(entry: &Entry) -> Option<Reservation> {
    match entry.content {
        Content::Reserve { debit, credit, amount, deadline } => {
            Some(Reservation { number: entry.number, debit, credit, amount, deadline })
        }
        _ => None,
    }
}

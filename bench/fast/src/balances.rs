//! Accounts and reservations, and how a leg changes them.

use crate::account::{Accounts, Opening, Side};
use crate::leg::{Flow, Leg, Task};
use crate::policy::{Policy, Rule};
use crate::refusal::Refusal;
use crate::reservation::{Fate, Reservation, Reservations};
use crate::TOP;

pub struct Balances {
    pub accounts: Accounts,
    pub reservations: Reservations,
    pub moment: u64,
    /// The highest order number.
    pub highest: u32,
    policy: Policy,
}

/// A flow that was checked: the places of both accounts, and the sides that change as they are after it.
struct Checked {
    debit: usize,
    credit: usize,
    debits: Side,
    credits: Side,
}

impl Balances {
    /// Balances without accounts and reservations, under a policy.
    #[inline(always)]
    pub fn new(policy: Policy) -> Balances {
        let mut balances = Balances::EMPTY;
        balances.policy = policy;
        balances
    }

    pub fn policy(&self) -> Policy {
        self.policy
    }

    const EMPTY: Balances = Balances {
        accounts: Accounts::EMPTY,
        reservations: Reservations::EMPTY,
        moment: 0,
        highest: 0,
        policy: Policy { class: 0, below: Rule::Open, from: Rule::Open },
    };

    /// The last refusal of an opening.
    pub fn check_admitted(&self, opening: &Opening) -> Result<(), Refusal> {
        let Opening { class, limit, .. } = *opening;
        let admitted = self.policy.admits(class, limit, Side::ZERO, Side::ZERO);
        Refusal::AccountNotAdmitted.when(!admitted)
    }

    /// Takes a leg, or changes nothing.
    #[inline(always)]
    pub fn take(&mut self, leg: &Leg) -> Result<(), Refusal> {
        Refusal::OrderNumber.when(leg.number <= self.highest)?;
        match leg.task {
            Task::Transfer(flow) => {
                let posted = |side: Side| Side { posted: side.posted + flow.amount, ..side };
                let checked = self.check(flow, posted)?;
                self.put(&checked);
            }
            Task::Reserve(flow, until) => self.reserve(leg.number, flow, until)?,
            Task::Post { reservation, amount } => self.post(reservation, amount)?,
            Task::Void { reservation } => {
                let place = self.reservations.live(reservation)?;
                self.end(place, 0, Fate::Voided);
            }
        }
        self.highest = leg.number;
        Ok(())
    }

    #[inline(always)]
    fn reserve(&mut self, number: u32, flow: Flow, deadline: u64) -> Result<(), Refusal> {
        let pending = |side: Side| Side { pending: side.pending + flow.amount, ..side };
        let checked = self.check(flow, pending)?;
        Refusal::ReservationsFull.when(self.reservations.is_full())?;
        self.put(&checked);
        self.reservations.add(Reservation {
            number,
            debit: checked.debit as u8,
            credit: checked.credit as u8,
            fate: Fate::Live,
            amount: flow.amount,
            deadline,
        });
        Ok(())
    }

    #[inline(always)]
    fn post(&mut self, reservation: u32, amount: u64) -> Result<(), Refusal> {
        let place = self.reservations.live(reservation)?;
        let reserved = self.reservations.at(place).amount;
        Refusal::PostAmount.when(amount == 0 || amount > reserved)?;
        self.end(place, amount, Fate::Posted);
        Ok(())
    }

    /// The refusals from 22 to 29.
    #[inline(always)]
    fn check(&self, flow: Flow, after: impl Fn(Side) -> Side) -> Result<Checked, Refusal> {
        Refusal::Amount.when(flow.amount == 0 || flow.amount > TOP)?;
        let debit = self.accounts.find(flow.debit).ok_or(Refusal::DebitUnknown)?;
        let credit = self.accounts.find(flow.credit).ok_or(Refusal::CreditUnknown)?;
        Refusal::SameAccount.when(debit == credit)?;
        let (from, to) = (self.accounts.at(debit), self.accounts.at(credit));
        Refusal::LedgersDiffer.when(from.opening.ledger != to.opening.ledger)?;
        let (debits, credits) = (after(from.debits), after(to.credits));
        Refusal::TopPassed.when(debits.sum() > TOP || credits.sum() > TOP)?;
        let admits = |o: &Opening, d, c| self.policy.admits(o.class, o.limit, d, c);
        Refusal::DebitNotAdmitted.when(!admits(&from.opening, debits, from.credits))?;
        Refusal::CreditNotAdmitted.when(!admits(&to.opening, to.debits, credits))?;
        Ok(Checked { debit, credit, debits, credits })
    }

    #[inline(always)]
    fn put(&mut self, checked: &Checked) {
        self.accounts.at_mut(checked.debit).debits = checked.debits;
        self.accounts.at_mut(checked.credit).credits = checked.credits;
    }

    /// Ends a live reservation, and posts a part of it.
    #[inline(always)]
    fn end(&mut self, place: usize, part: u64, fate: Fate) {
        self.release(place, part);
        self.reservations.resolve(place, fate);
    }

    #[inline(always)]
    fn release(&mut self, place: usize, part: u64) {
        let Reservation { debit, credit, amount, .. } = *self.reservations.at(place);
        self.accounts.at_mut(debit.into()).debits.release(amount, part);
        self.accounts.at_mut(credit.into()).credits.release(amount, part);
    }

    /// Takes the leg back that was taken last. The highest number is put back by the caller.
    pub fn undo(&mut self, leg: &Leg) {
        match leg.task {
            Task::Transfer(flow) => {
                self.change_back(flow, |side| side.posted -= flow.amount);
            }
            Task::Reserve(flow, _) => {
                self.change_back(flow, |side| side.pending -= flow.amount);
                self.reservations.remove_last();
            }
            Task::Post { reservation, amount } => self.revive(reservation, amount),
            Task::Void { reservation } => self.revive(reservation, 0),
        }
    }

    fn change_back(&mut self, flow: Flow, change: impl Fn(&mut Side)) {
        if let Some(place) = self.accounts.find(flow.debit) {
            change(&mut self.accounts.at_mut(place).debits);
        }
        if let Some(place) = self.accounts.find(flow.credit) {
            change(&mut self.accounts.at_mut(place).credits);
        }
    }

    fn revive(&mut self, reservation: u32, part: u64) {
        if let Some(place) = self.reservations.find(reservation) {
            let Reservation { debit, credit, amount, .. } = *self.reservations.at(place);
            self.accounts.at_mut(debit.into()).debits.reserve_again(amount, part);
            self.accounts.at_mut(credit.into()).credits.reserve_again(amount, part);
            self.reservations.revive(place);
        }
    }

    /// Moves to a moment, and tells the numbers that lapse in their order.
    #[inline(always)]
    pub fn move_to(&mut self, moment: u64, lapsed: impl FnMut(u32)) {
        self.moment = moment;
        let due = self.reservations.deadlines.due(moment);
        if due > 0 {
            self.lapse(due, lapsed);
        }
    }

    fn lapse(&mut self, due: usize, mut lapsed: impl FnMut(u32)) {
        for n in 0..due {
            let place = self.reservations.deadlines.place(n);
            lapsed(self.reservations.at(place).number);
            self.release(place, 0);
            self.reservations.mark_lapsed(place);
        }
        self.reservations.deadlines.drop_first(due);
    }
}

//! The checks of one leg, from 21 to 35.

use crate::bounds::{RESERVATIONS, TOP};
use crate::entry::{Content, Entry};
use crate::order::{Order, Task};
use crate::past::{Account, Fate, Past, Reservation, Totals};
use crate::policy::Policy;
use crate::refusal::{refuse_if, Refusal};

/// The entry of this leg, taken right after the past, or why it is refused.
pub fn run(past: Past, policy: &Policy, order: &Order) -> Result<Entry, Refusal> {
    refuse_if(order.number <= past.highest_order(), Refusal::OrderNumber)?;
    Ok(Entry {
        number: order.number,
        moment: past.moment,
        linked: order.linked,
        content: content(past, policy, order.task)?,
    })
}

fn content(past: Past, policy: &Policy, task: Task) -> Result<Content, Refusal> {
    match task {
        Task::Transfer { debit, credit, amount } => {
            let water = Water::new(past, debit, credit, amount)?;
            water.check(past, policy, Totals::post_debit, Totals::post_credit)?;
            Ok(Content::Transfer { debit, credit, amount })
        }
        Task::Reserve { debit, credit, amount, duration } => {
            let water = Water::new(past, debit, credit, amount)?;
            water.check(past, policy, Totals::reserve_debit, Totals::reserve_credit)?;
            let full = past.reservations().count() >= RESERVATIONS;
            refuse_if(full, Refusal::ReservationsFull)?;
            Ok(Content::Reserve {
                debit,
                credit,
                amount,
                deadline: (duration > 0).then(|| past.moment + u64::from(duration)),
            })
        }
        Task::Post { reservation, amount } => {
            let reserved = live(past, reservation)?.amount;
            let wrong = amount == 0 || amount > reserved;
            refuse_if(wrong, Refusal::PostAmount)?;
            Ok(Content::Post { reservation, amount })
        }
        Task::Void { reservation } => {
            live(past, reservation)?;
            Ok(Content::Void { reservation })
        }
    }
}

/// The live reservation of a number.
fn live(past: Past, number: u32) -> Result<Reservation, Refusal> {
    let found = past.reservation(number).ok_or(Refusal::ReservationUnknown)?;
    match past.fate(&found) {
        Fate::Live => Ok(found),
        Fate::Posted => Err(Refusal::AlreadyPosted),
        Fate::Voided => Err(Refusal::AlreadyVoided),
        Fate::Lapsed => Err(Refusal::AlreadyLapsed),
    }
}

/// Water that is to go from one account to another, now or later.
struct Water {
    debit: Account,
    credit: Account,
    amount: u64,
}

impl Water {
    fn new(past: Past, debit: u32, credit: u32, amount: u64) -> Result<Water, Refusal> {
        refuse_if(amount == 0 || amount > TOP, Refusal::Amount)?;
        let debit = past.account(debit).ok_or(Refusal::DebitUnknown)?;
        let credit = past.account(credit).ok_or(Refusal::CreditUnknown)?;
        refuse_if(debit.number == credit.number, Refusal::SameAccount)?;
        refuse_if(debit.ledger != credit.ledger, Refusal::LedgersDiffer)?;
        Ok(Water { debit, credit, amount })
    }

    /// The checks on both accounts with their totals after the leg.
    fn check(
        &self,
        past: Past,
        policy: &Policy,
        debited: fn(Totals, u64) -> Totals,
        credited: fn(Totals, u64) -> Totals,
    ) -> Result<(), Refusal> {
        let debit = debited(past.totals(self.debit.number), self.amount);
        let credit = credited(past.totals(self.credit.number), self.amount);
        let too_much = debit.debits_pending + debit.debits_posted > TOP
            || credit.credits_pending + credit.credits_posted > TOP;
        refuse_if(too_much, Refusal::TopPassed)?;
        let admitted = |a: &Account, t: &Totals| policy.admits(a.class, a.limit, t);
        let debit_admitted = admitted(&self.debit, &debit);
        refuse_if(!debit_admitted, Refusal::DebitNotAdmitted)?;
        let credit_admitted = admitted(&self.credit, &credit);
        refuse_if(!credit_admitted, Refusal::CreditNotAdmitted)
    }
}

impl Totals {
    fn post_debit(mut self, amount: u64) -> Totals {
        self.debits_posted += amount;
        self
    }

    fn reserve_debit(mut self, amount: u64) -> Totals {
        self.debits_pending += amount;
        self
    }

    fn post_credit(mut self, amount: u64) -> Totals {
        self.credits_posted += amount;
        self
    }

    fn reserve_credit(mut self, amount: u64) -> Totals {
        self.credits_pending += amount;
        self
    }
}

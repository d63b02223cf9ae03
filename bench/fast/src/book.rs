//! A book: its balances over a journal, and its calls.

use crate::account::{Account, Opening};
use crate::balances::Balances;
use crate::chain::{self, LEGS};
use crate::entry::Entry;
use crate::journal::Journal;
use crate::leg::{is_linked, Leg, OrderBytes};
use crate::listing;
use crate::policy::Policy;
use crate::reading::{self, Stop};
use crate::refusal::Refusal;
use crate::reservation::Reservation;
use crate::LAST_MOMENT;

pub struct Book<'m> {
    journal: Journal<'m>,
    balances: Balances,
    stop: Option<Stop>,
}

/// What a move answers; the next deadline is 0 if there is none.
pub struct Moved {
    pub lapsed: usize,
    pub next_deadline: u64,
}

impl<'m> Book<'m> {
    /// A book that has not read its journal yet. Reading is apart from this, so that the tables are made in their place.
    #[inline(always)]
    pub fn new(journal: Journal<'m>, policy: Policy) -> Book<'m> {
        Book { journal, balances: Balances::new(policy), stop: None }
    }

    /// Reads the journal. Of the records of its first store so many may be in use.
    pub fn read(&mut self, in_use: usize) {
        let records = self.journal.first.first_records(in_use);
        let (count, stop) = reading::read(&mut self.balances, records);
        self.journal.first.set_count(count);
        if stop.is_some() {
            self.balances = Balances::new(self.balances.policy());
            self.stop = stop;
        }
    }

    pub fn journal(&self) -> &Journal<'m> {
        &self.journal
    }

    pub fn moment(&self) -> u64 {
        self.balances.moment
    }

    pub fn stop(&self) -> Option<Stop> {
        self.stop
    }

    pub fn account(&self, number: u32) -> Option<&Account> {
        let accounts = &self.balances.accounts;
        accounts.find(number).map(|place| accounts.at(place))
    }

    pub fn reservation(&self, number: u32) -> Option<&Reservation> {
        let reservations = &self.balances.reservations;
        reservations.find(number).map(|place| reservations.at(place))
    }

    /// The number of an account by its place.
    pub fn number_at(&self, place: u8) -> u32 {
        self.balances.accounts.at(place.into()).opening.number
    }

    pub fn open(&mut self, opening: Opening) -> Result<(), Refusal> {
        self.check_reading()?;
        self.balances.accounts.check(&opening)?;
        Refusal::JournalFull.when(self.journal.spare() == 0)?;
        self.balances.check_admitted(&opening)?;
        self.balances.accounts.add(opening);
        self.journal.append(&Entry::Opening(opening), self.balances.moment);
        Ok(())
    }

    /// Answers how many orders were taken.
    pub fn run_batch(
        &mut self,
        orders: &[OrderBytes],
        answers: &mut [u8],
    ) -> Result<usize, Refusal> {
        self.check_reading()?;
        Refusal::AnswersTooShort.when(answers.len() < orders.len())?;
        let (mut taken, mut done) = (0, 0);
        while let Some(order) = orders.get(done) {
            if is_linked(order) {
                let chain = first_chain(&orders[done..]);
                taken += self.run_chain(chain, &mut answers[done..done + chain.len()]);
                done += chain.len();
            } else {
                let run = self.run_single(order);
                taken += usize::from(run.is_ok());
                answers[done] = run.map_or_else(|refusal| refusal as u8, |()| 0);
                done += 1;
            }
        }
        Ok(taken)
    }

    /// Runs a chain of one order.
    #[inline(always)]
    fn run_single(&mut self, order: &OrderBytes) -> Result<(), Refusal> {
        Refusal::ChainOverSpare.when(self.journal.spare() == 0)?;
        let leg = Leg::read(order, self.balances.moment);
        self.balances.take(&leg)?;
        self.journal.append(&Entry::Leg(leg), self.balances.moment);
        Ok(())
    }

    /// Answers for each order of a chain, and tells how many were taken.
    #[inline(never)]
    fn run_chain(&mut self, chain: &[OrderBytes], answers: &mut [u8]) -> usize {
        let whole = if is_unfinished(chain) {
            Err((chain.len() - 1, Refusal::ChainUnfinished))
        } else if chain.len() > LEGS {
            return refuse_all(answers, Refusal::ChainTooLong);
        } else if chain.len() > self.journal.spare() {
            return refuse_all(answers, Refusal::ChainOverSpare);
        } else {
            chain::run(&mut self.balances, chain)
        };
        if let Err((place, refusal)) = whole {
            refuse_all(answers, Refusal::ChainRefused);
            answers[place] = refusal as u8;
            return 0;
        }
        let moment = self.balances.moment;
        for order in chain {
            self.journal.append(&Entry::Leg(Leg::read(order, moment)), moment);
        }
        answers.fill(0);
        chain.len()
    }

    /// Moves the book, and puts the numbers that lapse into the first places.
    pub fn move_to(&mut self, moment: u64, lapses: &mut [[u8; 4]]) -> Result<Moved, Refusal> {
        self.check_reading()?;
        Refusal::MomentTooLate.when(moment > LAST_MOMENT)?;
        Refusal::MomentEarlier.when(moment < self.balances.moment)?;
        let lapsed = self.balances.reservations.deadlines.due(moment);
        Refusal::LapsesTooShort.when(lapsed > lapses.len())?;
        let mut places = lapses.iter_mut();
        self.balances.move_to(moment, |number| {
            if let Some(place) = places.next() {
                *place = number.to_be_bytes();
            }
        });
        let next_deadline = self.balances.reservations.deadlines.earliest();
        Ok(Moved { lapsed, next_deadline })
    }

    /// Writes the listing, and answers its length.
    pub fn report(&self, buffer: &mut [u8]) -> Result<usize, Refusal> {
        self.check_reading()?;
        listing::write(self.balances.accounts.all(), buffer).ok_or(Refusal::BufferTooShort)
    }

    #[inline(always)]
    fn check_reading(&self) -> Result<(), Refusal> {
        Refusal::ReadingStopped.when(self.stop.is_some())
    }
}

/// The chain that the orders begin with, unfinished or not.
fn first_chain(orders: &[OrderBytes]) -> &[OrderBytes] {
    let linked = orders.iter().take_while(|order| is_linked(order)).count();
    &orders[..orders.len().min(linked + 1)]
}

fn is_unfinished(chain: &[OrderBytes]) -> bool {
    chain.last().is_some_and(is_linked)
}

fn refuse_all(answers: &mut [u8], refusal: Refusal) -> usize {
    answers.fill(refusal as u8);
    0
}

use crate::bounds::{ACCOUNTS, LAST_MOMENT, LEGS, TOP};
use crate::chain::{chains, is_unfinished};
use crate::entry::{Entry, Fields};
use crate::journal::Journal;
use crate::label::Label;
use crate::leg;
use crate::listing::listing;
use crate::order::Order;
use crate::past::{Account, Past, Reservation, Totals};
use crate::policy::Policy;
use crate::reading::{self, Stop};
use crate::refusal::{refuse_if, Refusal};

/// A book: a journal, a moment and a policy.
#[derive(Debug)]
pub struct Book<'m> {
    journal: Journal<'m>,
    policy: Policy,
    moment: u64,
    stop: Option<Stop>,
}

/// What a move answers.
#[derive(Clone, Copy, Debug, PartialEq, Eq)]
pub struct Moved {
    pub lapsed: usize,
    pub next_deadline: Option<u64>,
}

impl<'m> Book<'m> {
    /// Reads the journal; this never refuses.
    pub fn new(journal: Journal<'m>, policy: Policy) -> Book<'m> {
        let (moment, stop) = match reading::read(journal.entries(), &policy) {
            Ok(moment) => (moment, None),
            Err(stop) => (0, Some(stop)),
        };
        Book { journal, policy, moment, stop }
    }

    pub fn journal(&self) -> &Journal<'m> {
        &self.journal
    }

    pub fn moment(&self) -> u64 {
        self.moment
    }

    /// Where reading stopped, if it did.
    pub fn stop(&self) -> Option<Stop> {
        self.stop
    }

    /// What the book holds: nothing if reading stopped.
    pub fn past(&self) -> Past<'_> {
        let entries = match self.stop {
            None => self.journal.entries(),
            Some(_) => &[],
        };
        Past { entries, moment: self.moment }
    }

    pub fn account(&self, number: u32) -> Option<(Account, Totals)> {
        let account = self.past().account(number)?;
        Some((account, self.past().totals(number)))
    }

    pub fn reservation(&self, number: u32) -> Option<Reservation> {
        self.past().reservation(number)
    }

    pub fn open(
        &mut self,
        number: u32,
        ledger: u16,
        class: u8,
        limit: u64,
        label: u64,
    ) -> Result<(), Refusal> {
        self.check_reading()?;
        let fields = Fields {
            kind: 1,
            number,
            first: u32::from(ledger),
            second: u32::from(class),
            amount: limit,
            moment: self.moment,
            label,
            ..Fields::default()
        };
        check_form(self.past(), &fields)?;
        refuse_if(self.journal.spare() == 0, Refusal::JournalFull)?;
        check_admitted(&self.policy, &fields)?;
        self.append(&[Entry::from_fields(&fields).expect("checked to be sound")]);
        Ok(())
    }

    /// Answers how many orders were taken.
    pub fn run_batch(&mut self, orders: &[Order], answers: &mut [u8]) -> Result<usize, Refusal> {
        self.check_reading()?;
        refuse_if(answers.len() < orders.len(), Refusal::AnswersTooShort)?;
        let mut taken = 0;
        let mut rest = answers;
        for chain in chains(orders) {
            let (places, after) = rest.split_at_mut(chain.len());
            match self.run_chain(chain) {
                Ok(()) => {
                    taken += chain.len();
                    places.fill(0);
                }
                Err(refused) => refused.answer(places),
            }
            rest = after;
        }
        Ok(taken)
    }

    fn run_chain(&mut self, chain: &[Order]) -> Result<(), ChainRefusal> {
        if is_unfinished(chain) {
            let last = chain.len() - 1;
            return Err(ChainRefusal::Leg(last, Refusal::ChainUnfinished));
        }
        if chain.len() > LEGS {
            return Err(ChainRefusal::Whole(Refusal::ChainTooLong));
        }
        if chain.len() > self.journal.spare() {
            return Err(ChainRefusal::Whole(Refusal::ChainOverSpare));
        }
        let mut entries = self.journal.entries().to_vec();
        for (place, order) in chain.iter().enumerate() {
            let past = Past { entries: &entries, moment: self.moment };
            let entry = leg::run(past, &self.policy, order);
            entries.push(entry.map_err(|refusal| ChainRefusal::Leg(place, refusal))?);
        }
        self.append(&entries[self.journal.count()..]);
        Ok(())
    }

    /// Moves the book to a moment, and lists what lapses.
    pub fn move_to(&mut self, moment: u64, lapses: &mut [u32]) -> Result<Moved, Refusal> {
        self.check_reading()?;
        refuse_if(moment > LAST_MOMENT, Refusal::MomentTooLate)?;
        refuse_if(moment < self.moment, Refusal::MomentEarlier)?;
        let deadlines = self.past().deadlines();
        let (due, later): (Vec<_>, Vec<_>) = deadlines.iter().partition(|(d, _)| *d <= moment);
        refuse_if(due.len() > lapses.len(), Refusal::LapsesTooShort)?;
        for (place, (_, number)) in lapses.iter_mut().zip(&due) {
            *place = *number;
        }
        self.moment = moment;
        Ok(Moved { lapsed: due.len(), next_deadline: later.first().map(|(deadline, _)| *deadline) })
    }

    /// Writes the listing, and answers its length.
    pub fn report(&self, buffer: &mut [u8]) -> Result<usize, Refusal> {
        self.check_reading()?;
        let text = listing(self.past());
        let place = buffer.get_mut(..text.len());
        let place = place.ok_or(Refusal::BufferTooShort)?;
        place.copy_from_slice(text.as_bytes());
        Ok(text.len())
    }

    fn check_reading(&self) -> Result<(), Refusal> {
        refuse_if(self.stop.is_some(), Refusal::ReadingStopped)
    }

    fn append(&mut self, entries: &[Entry]) {
        for entry in entries {
            self.journal.append(*entry).expect("spare was seen");
        }
    }
}

/// Why a chain was not taken.
enum ChainRefusal {
    /// The same answer for all legs.
    Whole(Refusal),
    /// One leg's own answer; the others were refused with it.
    Leg(usize, Refusal),
}

impl ChainRefusal {
    fn answer(&self, places: &mut [u8]) {
        match self {
            ChainRefusal::Whole(refusal) => places.fill(refusal.number()),
            ChainRefusal::Leg(place, refusal) => {
                places.fill(Refusal::ChainRefused.number());
                places[*place] = refusal.number();
            }
        }
    }
}

/// The checks on an account entry that is read.
pub(crate) fn check_account(past: Past, policy: &Policy, fields: &Fields) -> Result<(), Refusal> {
    check_form(past, fields)?;
    check_admitted(policy, fields)
}

fn check_form(past: Past, fields: &Fields) -> Result<(), Refusal> {
    let number_taken = past.account(fields.number).is_some();
    let full = past.accounts().count() >= ACCOUNTS;
    refuse_if(fields.number == 0 || number_taken, Refusal::AccountNumber)?;
    refuse_if(fields.first == 0, Refusal::Ledger)?;
    refuse_if(fields.amount > TOP, Refusal::Limit)?;
    refuse_if(Label::new(fields.label).is_none(), Refusal::LabelMalformed)?;
    refuse_if(full, Refusal::AccountsFull)
}

fn check_admitted(policy: &Policy, fields: &Fields) -> Result<(), Refusal> {
    let class = u8::try_from(fields.second).expect("a class has 8 bits");
    let admitted = policy.admits(class, fields.amount, &Totals::default());
    refuse_if(!admitted, Refusal::AccountNotAdmitted)
}

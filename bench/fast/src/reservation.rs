use crate::deadlines::Deadlines;
use crate::index::Index;
use crate::refusal::Refusal;

/// The most reservations of a book, resolved ones counted.
pub const RESERVATIONS: usize = 256;

#[derive(Clone, Copy, Debug, PartialEq, Eq)]
#[repr(u8)]
pub enum Fate {
    Live,
    Posted,
    Voided,
    Lapsed,
}

/// Debit and credit are places in the table of accounts; deadline 0 stands for none.
#[derive(Clone, Copy)]
pub struct Reservation {
    pub number: u32,
    pub debit: u8,
    pub credit: u8,
    pub fate: Fate,
    pub amount: u64,
    pub deadline: u64,
}

/// The reservations by rising number, which is the order in which they were made.
pub struct Reservations {
    count: usize,
    rows: [Reservation; RESERVATIONS],
    index: Index<{ 2 * RESERVATIONS }>,
    pub deadlines: Deadlines,
}

impl Reservations {
    /// All its bytes are 0, so that it is made by one filling.
    pub const EMPTY: Reservations = Reservations {
        count: 0,
        rows: [Reservation {
            number: 0,
            debit: 0,
            credit: 0,
            fate: Fate::Live,
            amount: 0,
            deadline: 0,
        }; RESERVATIONS],
        index: Index::EMPTY,
        deadlines: Deadlines::EMPTY,
    };

    #[inline(always)]
    pub fn find(&self, number: u32) -> Option<usize> {
        self.index.find(number, |place| self.rows[place].number)
    }

    #[inline(always)]
    pub fn at(&self, place: usize) -> &Reservation {
        &self.rows[place]
    }

    /// The place of the live reservation of a number.
    #[inline(always)]
    pub fn live(&self, number: u32) -> Result<usize, Refusal> {
        let place = self.find(number).ok_or(Refusal::ReservationUnknown)?;
        match self.rows[place].fate {
            Fate::Live => Ok(place),
            Fate::Posted => Err(Refusal::AlreadyPosted),
            Fate::Voided => Err(Refusal::AlreadyVoided),
            Fate::Lapsed => Err(Refusal::AlreadyLapsed),
        }
    }

    #[inline(always)]
    pub fn is_full(&self) -> bool {
        self.count == RESERVATIONS
    }

    #[inline(always)]
    pub fn add(&mut self, reservation: Reservation) {
        let place = self.count;
        self.rows[place] = reservation;
        self.index.insert(reservation.number, place);
        if reservation.deadline != 0 {
            self.deadlines.insert(reservation.deadline, place);
        }
        self.count += 1;
    }

    /// Takes the last one back, which is live.
    pub fn remove_last(&mut self) {
        self.count -= 1;
        let last = self.rows[self.count];
        self.index.remove_last(last.number, self.count);
        if last.deadline != 0 {
            self.deadlines.remove(last.deadline, self.count);
        }
    }

    /// Posts or voids a live one.
    #[inline(always)]
    pub fn resolve(&mut self, place: usize, fate: Fate) {
        self.rows[place].fate = fate;
        let deadline = self.rows[place].deadline;
        if deadline != 0 {
            self.deadlines.remove(deadline, place);
        }
    }

    /// Takes a post or a void back.
    pub fn revive(&mut self, place: usize) {
        self.rows[place].fate = Fate::Live;
        let deadline = self.rows[place].deadline;
        if deadline != 0 {
            self.deadlines.insert(deadline, place);
        }
    }

    /// Marks a due one; its deadline is dropped later, with all that are due.
    pub fn mark_lapsed(&mut self, place: usize) {
        self.rows[place].fate = Fate::Lapsed;
    }
}

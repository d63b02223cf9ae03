use crate::index::Index;
use crate::refusal::Refusal;
use crate::TOP;

/// The most accounts of a book.
pub const ACCOUNTS: usize = 64;

/// The debits of an account, or its credits.
#[derive(Clone, Copy)]
pub struct Side {
    pub pending: u64,
    pub posted: u64,
}

impl Side {
    pub const ZERO: Side = Side { pending: 0, posted: 0 };

    #[inline(always)]
    pub fn sum(self) -> u64 {
        self.pending + self.posted
    }

    /// Ends what was reserved, and posts a part of it.
    #[inline(always)]
    pub fn release(&mut self, reserved: u64, part: u64) {
        self.pending -= reserved;
        self.posted += part;
    }

    /// Takes a release back.
    pub fn reserve_again(&mut self, reserved: u64, part: u64) {
        self.pending += reserved;
        self.posted -= part;
    }
}

/// What an account is opened with.
#[derive(Clone, Copy, Debug, PartialEq, Eq)]
pub struct Opening {
    pub number: u32,
    pub ledger: u16,
    pub class: u8,
    pub limit: u64,
    pub label: u64,
}

#[derive(Clone, Copy)]
pub struct Account {
    pub opening: Opening,
    pub debits: Side,
    pub credits: Side,
}

impl Account {
    const fn new(opening: Opening) -> Account {
        Account { opening, debits: Side::ZERO, credits: Side::ZERO }
    }
}

/// The accounts in the order in which they were opened.
pub struct Accounts {
    count: usize,
    rows: [Account; ACCOUNTS],
    index: Index<{ 2 * ACCOUNTS }>,
}

impl Accounts {
    /// All its bytes are 0, so that it is made by one filling.
    pub const EMPTY: Accounts = {
        let none = Opening { number: 0, ledger: 0, class: 0, limit: 0, label: 0 };
        Accounts { count: 0, rows: [Account::new(none); ACCOUNTS], index: Index::EMPTY }
    };

    #[inline(always)]
    pub fn find(&self, number: u32) -> Option<usize> {
        self.index.find(number, |place| self.rows[place].opening.number)
    }

    #[inline(always)]
    pub fn at(&self, place: usize) -> &Account {
        &self.rows[place]
    }

    #[inline(always)]
    pub fn at_mut(&mut self, place: usize) -> &mut Account {
        &mut self.rows[place]
    }

    pub fn all(&self) -> &[Account] {
        &self.rows[..self.count]
    }

    /// The refusals of an opening, but for those of journal and policy.
    pub fn check(&self, opening: &Opening) -> Result<(), Refusal> {
        let taken = opening.number == 0 || self.find(opening.number).is_some();
        Refusal::AccountNumber.when(taken)?;
        Refusal::Ledger.when(opening.ledger == 0)?;
        Refusal::Limit.when(opening.limit > TOP)?;
        Refusal::LabelMalformed.when(!is_label(opening.label))?;
        Refusal::AccountsFull.when(self.count == ACCOUNTS)
    }

    /// Adds an account that was checked.
    pub fn add(&mut self, opening: Opening) {
        self.rows[self.count] = Account::new(opening);
        self.index.insert(opening.number, self.count);
        self.count += 1;
    }
}

/// Whether a number is a label: 1 to 8 characters, filled with spaces.
pub fn is_label(number: u64) -> bool {
    let bytes = number.to_be_bytes();
    let length = name_length(bytes);
    let in_alphabet = |b: &u8| matches!(b, b'A'..=b'Z' | b'0'..=b'9' | b'-');
    length > 0 && bytes[..length].iter().all(in_alphabet)
}

/// How long a label is without its filling.
pub fn name_length(label: [u8; 8]) -> usize {
    let filling = label.iter().rev().take_while(|&&b| b == b' ').count();
    label.len() - filling
}

#[cfg(test)]
mod tests {
    use super::*;

    #[test]
    fn labels() {
        let labels = [b"DAM     ", b"GATE-12 ", b"RESERVE9", b"-       "];
        let others = [b"        ", b" DAM    ", b"A B     ", b"dam     ", b"DAM\0\0\0\0\0"];
        assert!(labels.iter().all(|l| is_label(u64::from_be_bytes(**l))));
        assert!(others.iter().all(|l| !is_label(u64::from_be_bytes(**l))));
        assert!(!is_label(0));
    }
}

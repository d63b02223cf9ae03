//! What a call is told, written into its place in the output.

use crate::book::Book;
use crate::leg::OrderBytes;
use crate::refusal::Refusal;
use crate::script::{Call, MOST_BYTES};

/// What places of lists and buffers hold before a call.
const ANSWER_FILL: u8 = 15;
const LAPSE_FILL: u8 = 255;
const BUFFER_FILL: u8 = 0xA5;
/// The code of the end of the output.
const END: u8 = 255;

/// The most bytes that a call is told: a report's.
pub const MOST_TOLD: usize = 10 + MOST_BYTES as usize;

/// How many bytes a call will be told.
#[inline]
pub fn length(book: &Book, call: &Call) -> usize {
    match *call {
        Call::Open(_) => 2,
        Call::Batch { answers, .. } => 10 + answers,
        Call::Move { lapses, .. } => 18 + 4 * lapses,
        Call::Report { bytes } => 10 + bytes,
        Call::Account(number) if book.account(number).is_some() => 57,
        Call::Reservation(number) if book.reservation(number).is_some() => 31,
        Call::Account(_) | Call::Reservation(_) => 2,
        Call::Moment => 9,
        Call::Reading => 10,
    }
}

/// Makes a call; the place is as long as what it is told.
#[inline]
pub fn make(book: &mut Book, call: &Call, place: &mut [u8]) {
    let mut told = Told { rest: place };
    match *call {
        Call::Open(opening) => {
            let answer = book.open(opening);
            told.bytes([1, number(&answer)]);
        }
        Call::Batch { orders, .. } => batch(book, orders, told),
        Call::Move { moment, .. } => move_to(book, moment, told),
        Call::Report { .. } => report(book, told),
        Call::Account(number) => account(book, number, told),
        Call::Reservation(number) => reservation(book, number, told),
        Call::Moment => {
            told.bytes([7]);
            told.long(book.moment());
        }
        Call::Reading => {
            let (answer, place) = book.stop().map_or((0, 0), |s| (s.refusal as u8, s.place));
            told.bytes([8, answer]);
            told.long(place as u64);
        }
    }
}

#[inline]
fn batch(book: &mut Book, orders: &[OrderBytes], told: Told) {
    let (mut head, answers) = told.split::<10>();
    answers.fill(ANSWER_FILL);
    let taken = book.run_batch(orders, answers);
    head.bytes([2, number(&taken)]).long(taken.unwrap_or(0) as u64);
}

fn move_to(book: &mut Book, moment: u64, told: Told) {
    let (mut head, lapses) = told.split::<18>();
    lapses.fill(LAPSE_FILL);
    let moved = book.move_to(moment, lapses.as_chunks_mut().0);
    let answer = number(&moved);
    let (lapsed, next) = moved.map_or((0, 0), |m| (m.lapsed, m.next_deadline));
    head.bytes([3, answer]).long(lapsed as u64).long(next);
}

fn report(book: &Book, told: Told) {
    let (mut head, buffer) = told.split::<10>();
    buffer.fill(BUFFER_FILL);
    let length = book.report(buffer);
    head.bytes([4, number(&length)]).long(length.unwrap_or(0) as u64);
}

fn account(book: &Book, number: u32, mut told: Told) {
    let Some(account) = book.account(number) else {
        told.bytes([5, 0]);
        return;
    };
    let (o, debits, credits) = (&account.opening, account.debits, account.credits);
    told.bytes([5, 1]).bytes(o.number.to_be_bytes()).bytes(o.ledger.to_be_bytes());
    told.bytes([o.class]).long(o.limit).long(o.label);
    told.long(debits.pending).long(debits.posted);
    told.long(credits.pending).long(credits.posted);
}

fn reservation(book: &Book, number: u32, mut told: Told) {
    let Some(r) = book.reservation(number) else {
        told.bytes([6, 0]);
        return;
    };
    told.bytes([6, 1]).bytes(r.number.to_be_bytes());
    told.bytes(book.number_at(r.debit).to_be_bytes());
    told.bytes(book.number_at(r.credit).to_be_bytes());
    told.long(r.amount).long(r.deadline).bytes([r.fate as u8]);
}

fn number<T>(answer: &Result<T, Refusal>) -> u8 {
    match answer {
        Ok(_) => 0,
        Err(refusal) => *refusal as u8,
    }
}

/// Tells the journal after the last call; the place is as long as that.
pub fn end(book: &Book, place: &mut [u8]) {
    let journal = book.journal();
    let mut told = Told { rest: place };
    told.bytes([END]).long(journal.count() as u64).long(journal.spare() as u64);
    let (records, used) = told.rest.split_at_mut(journal.bytes().len());
    records.copy_from_slice(journal.bytes());
    Told { rest: used }.long(journal.strip_used() as u64);
}

/// How many bytes the end takes.
pub fn end_length(book: &Book) -> usize {
    1 + 3 * 8 + book.journal().bytes().len()
}

/// A place in the output, written from its front.
struct Told<'o> {
    rest: &'o mut [u8],
}

impl<'o> Told<'o> {
    #[inline(always)]
    fn bytes<const N: usize>(&mut self, bytes: [u8; N]) -> &mut Self {
        let (place, rest) = std::mem::take(&mut self.rest).split_at_mut(N);
        place.copy_from_slice(&bytes);
        self.rest = rest;
        self
    }

    #[inline(always)]
    fn long(&mut self, number: u64) -> &mut Self {
        self.bytes(number.to_be_bytes())
    }

    /// The first bytes, and the list behind them.
    #[inline(always)]
    fn split<const N: usize>(self) -> (Told<'o>, &'o mut [u8]) {
        let (head, list) = self.rest.split_at_mut(N);
        (Told { rest: head }, list)
    }
}

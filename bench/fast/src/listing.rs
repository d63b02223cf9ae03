//! The listing: a line for each account and a sum line for each ledger.

use crate::account::{name_length, Account, ACCOUNTS};

/// How a sum line stands where others have their label.
const SUM: [u8; 8] = *b"=       ";

/// The words of a line.
struct Line {
    ledger: u16,
    label: [u8; 8],
    /// The account's number, or how many accounts a ledger has.
    number: u64,
    totals: [u64; 4],
}

/// Writes the listing, and answers its length; none if the buffer is too short, and then nothing is written.
pub fn write(accounts: &[Account], buffer: &mut [u8]) -> Option<usize> {
    let mut order = [0; ACCOUNTS];
    let order = sort(accounts, &mut order);
    let mut length = 0;
    each_line(accounts, order, |line| length += line.length());
    let mut rest = buffer.get_mut(..length)?;
    each_line(accounts, order, |line| {
        let (place, after) = std::mem::take(&mut rest).split_at_mut(line.length());
        line.write(place);
        rest = after;
    });
    Some(length)
}

/// The places of the accounts in the order of the listing.
fn sort<'o>(accounts: &[Account], order: &'o mut [u8; ACCOUNTS]) -> &'o [u8] {
    let order = &mut order[..accounts.len()];
    (0..).zip(order.iter_mut()).for_each(|(place, slot)| *slot = place);
    order.sort_unstable_by_key(|&place| {
        let opening = &accounts[usize::from(place)].opening;
        (opening.ledger, opening.label, opening.number)
    });
    order
}

fn each_line(accounts: &[Account], order: &[u8], mut each: impl FnMut(&Line)) {
    let at = |place: u8| &accounts[usize::from(place)];
    let ledgers = order.chunk_by(|&a, &b| at(a).opening.ledger == at(b).opening.ledger);
    for ledger in ledgers {
        let mut sums = [0; 4];
        for &place in ledger {
            let line = Line::of(at(place));
            each(&line);
            sums.iter_mut().zip(line.totals).for_each(|(sum, total)| *sum += total);
        }
        let number = ledger.len() as u64;
        each(&Line { ledger: at(ledger[0]).opening.ledger, label: SUM, number, totals: sums });
    }
}

impl Line {
    fn of(account: &Account) -> Line {
        let Account { opening, debits, credits } = account;
        Line {
            ledger: opening.ledger,
            label: opening.label.to_be_bytes(),
            number: opening.number.into(),
            totals: [debits.pending, debits.posted, credits.pending, credits.posted],
        }
    }

    /// Its words, six spaces and the line feed.
    fn length(&self) -> usize {
        let totals: usize = self.totals.iter().map(|&total| digits(total)).sum();
        digits(self.ledger.into()) + name_length(self.label) + digits(self.number) + totals + 7
    }

    /// Writes the line from its end to its beginning.
    fn write(&self, place: &mut [u8]) {
        let mut rest = push(place, b"\n");
        for total in self.totals.iter().rev() {
            rest = push(push_number(rest, *total), b" ");
        }
        rest = push(push_number(rest, self.number), b" ");
        rest = push(rest, &self.label[..name_length(self.label)]);
        push_number(push(rest, b" "), self.ledger.into());
    }
}

fn digits(number: u64) -> usize {
    number.checked_ilog10().map_or(1, |log| log as usize + 1)
}

/// Writes bytes at the end, and gives the part before them.
fn push<'b>(place: &'b mut [u8], bytes: &[u8]) -> &'b mut [u8] {
    let (rest, end) = place.split_at_mut(place.len() - bytes.len());
    end.copy_from_slice(bytes);
    rest
}

fn push_number(place: &mut [u8], mut number: u64) -> &mut [u8] {
    let (rest, end) = place.split_at_mut(place.len() - digits(number));
    for digit in end.iter_mut().rev() {
        *digit = b'0' + (number % 10) as u8;
        number /= 10;
    }
    rest
}

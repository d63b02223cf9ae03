//! Full books whose listings are as long as they get.

use super::{batch, plan};
use crate::case::Case;
use crate::plan::{Call, Head, Order};
use engine::TOP;
use script::MOST_REPORT_BYTES;

const ACCOUNTS: u32 = engine::ACCOUNTS as u32;
/// The most ledgers of two accounts: an account that is alone in its ledger has no totals.
const LEDGERS: u32 = ACCOUNTS / 2;
/// What all ledgers list: for each, two account lines and a sum line.
const LISTED: u16 = LEDGERS as u16 * (98 + 98 + 84);
/// Reserved on each side of an account. What is left to the top is posted; both have 17 digits.
const RESERVED: u64 = 50_000_000_000_000_000;

/// 64 accounts with both sides at the top, in 32 ledgers or fewer, listed into buffers that are a
/// byte too short, just long enough, and of the longest length; and one that is longer than allowed.
pub fn full_books() -> impl Iterator<Item = Case> {
    let ledgers = (1..=LEDGERS).filter(|ledgers| ACCOUNTS % ledgers == 0);
    let allowed = ledgers.map(|ledgers| full_book(ledgers, MOST_REPORT_BYTES));
    allowed.chain([full_book(LEDGERS, MOST_REPORT_BYTES + 1)])
}

/// The accounts of a ledger reserve and transfer in a ring, each to the next.
fn full_book(ledgers: u32, longest: u16) -> Case {
    let size = ACCOUNTS / ledgers;
    let mut calls: Vec<_> = (0..ACCOUNTS).map(|place| open(place, place / size)).collect();
    let orders: Vec<_> = (0..ACCOUNTS).flat_map(|place| orders(place, size)).collect();
    calls.extend(orders.chunks(64).map(|orders| batch(orders.to_vec())));
    let buffers = [8192, LISTED - 1, LISTED, longest];
    calls.extend(buffers.map(|bytes| Call::Report { bytes }));
    Case::of_plan(plan(Head::new(0, 0), calls), Vec::new())
}

fn open(place: u32, ledger: u32) -> Call {
    Call::Open {
        number: number(place),
        ledger: 60_000 + ledger as u16,
        class: 0,
        limit: TOP,
        label: u64::from_be_bytes(*b"CISTERNS"),
    }
}

fn orders(place: u32, size: u32) -> [Order; 2] {
    let next = place - place % size + (place + 1) % size;
    let (debit, credit) = (number(place), number(next));
    [
        Order::reserve(2 * place + 1, debit, credit, RESERVED, 0),
        Order::transfer(2 * place + 2, debit, credit, TOP - RESERVED),
    ]
}

/// An account number of ten digits.
fn number(place: u32) -> u32 {
    4_000_000_000 + place
}

#[cfg(test)]
mod tests {
    use super::*;
    use crate::told::parts;

    #[test]
    fn the_longest_listing() {
        let bytes = full_book(LEDGERS, MOST_REPORT_BYTES).script();
        let (code, output) = script::run(&bytes, &mut [], usize::MAX);
        assert_eq!(code, 0);
        let script = script::parse(&bytes).expect("sound");
        let (parts, _) = parts(&script.calls, &output);
        let reports: Vec<_> = parts[parts.len() - 4..].iter().map(|part| &part[..10]).collect();
        let taken = [[4, 0].as_slice(), &8960_u64.to_be_bytes()].concat();
        let refused = [4, 56, 0, 0, 0, 0, 0, 0, 0, 0].to_vec();
        assert_eq!(reports, [&refused, &refused, &taken, &taken]);
    }
}

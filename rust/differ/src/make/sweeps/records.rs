//! Strips of all lengths, versions and faults.

use super::{batch, open, plan, DAM};
use crate::case::{pattern, Case};
use crate::plan::{Call, Head, Order};
use crate::rng::Rng;
use engine::{Fields, Record, RECORD_BYTES, TOP};

/// Memory, used and version of every kind.
pub fn strips() -> impl Iterator<Item = Case> {
    let sizes = [0, 1, 2, 48, 49, 50, 96, 97, 144, 145, 192, 193, 194, 241, 242, 300];
    let used = [0, 1, 2, 48, 49, 50, 97, 144, 145, 146, 192, 193, 241, 1 << 32, u64::MAX];
    sizes.into_iter().flat_map(move |size| {
        used.into_iter().flat_map(move |used| {
            [(1, 1), (1, 2), (1, 3), (0, 1), (2, 1), (255, 3)].map(|(version, journal)| {
                let mut memory = four_records();
                memory[0] = version;
                memory.extend(pattern(200));
                memory.truncate(size);
                look(Head::new(journal, 0).with_used(used), memory)
            })
        })
    })
}

/// One byte changed in a sound journal, at each place.
pub fn changed_records(seed: u64) -> impl Iterator<Item = Case> {
    let mut rng = Rng::new(seed);
    let places = 0..four_records().len();
    places.flat_map(move |place| {
        let random = rng.next() as u8;
        [1, 0x80, 0xFF, random].map(|change| {
            let mut memory = four_records();
            memory[place] ^= change;
            memory.extend(pattern(100));
            look(Head::new(1, 1).with_used(193), memory)
        })
    })
}

/// Journals with more accounts or reservations than a book has room for.
pub fn overfull_journals() -> impl Iterator<Item = Case> {
    let accounts = [63, 64, 65, 66].map(|count| (count, 0));
    let reserves = [255, 256, 257, 258].map(|count| (2, count));
    accounts.into_iter().chain(reserves).map(|(accounts, reserves)| {
        let account = Fields { kind: 1, first: 7, label: DAM, ..Fields::default() };
        let reserve = Fields { kind: 3, first: 1, second: 2, amount: 1, ..Fields::default() };
        let numbered = |fields: Fields| move |number| Fields { number, ..fields }.record();
        let mut memory = vec![1];
        memory.extend((1..=accounts).flat_map(numbered(account)));
        memory.extend((1..=reserves).flat_map(numbered(reserve)));
        let used = memory.len() as u64;
        memory.extend(pattern(2 * RECORD_BYTES));
        look(Head::new(1, 0).with_used(used), memory)
    })
}

/// What stands behind the linked orders of a journal.
#[derive(Clone, Copy)]
enum Behind {
    Nothing,
    Order,
    LaterOrder,
    Account,
}

/// Journals with so many linked orders in a row, and something behind them or nothing.
pub fn linked_journals() -> impl Iterator<Item = Case> {
    (0..=18).flat_map(|legs| {
        [Behind::Nothing, Behind::Order, Behind::LaterOrder, Behind::Account]
            .map(|behind| linked_journal(legs, behind))
    })
}

fn linked_journal(legs: u32, behind: Behind) -> Case {
    let order = Fields { kind: 2, first: 1, second: 2, amount: 1, moment: 70, ..Fields::default() };
    let mut memory = four_records();
    for number in 3..3 + legs {
        memory.extend(Fields { number, flags: 1, ..order }.record());
    }
    let last = Fields { number: 3 + legs, ..order };
    let account = Fields { kind: 1, first: 7, label: DAM, ..last };
    match behind {
        Behind::Nothing => {}
        Behind::Order => memory.extend(last.record()),
        Behind::LaterOrder => memory.extend(Fields { moment: 71, ..last }.record()),
        Behind::Account => memory.extend(account.record()),
    }
    let used = memory.len() as u64;
    memory.extend(pattern(2 * RECORD_BYTES));
    look(Head::new(1, 0).with_used(used), memory)
}

/// What is asked after a reading.
fn look(head: Head, memory: Vec<u8>) -> Case {
    let last = Order::transfer(90, 1, 2, 1);
    let calls = vec![
        Call::Reading,
        Call::Moment,
        Call::Account(1),
        Call::Reservation(1),
        open(90, 0),
        batch(vec![last]),
    ];
    Case::of_plan(plan(head, calls), memory)
}

/// Two accounts, a reserve and a post.
fn four_records() -> Vec<u8> {
    let fields = Fields {
        kind: 1,
        number: 1,
        first: 7,
        second: 255,
        amount: TOP,
        label: DAM,
        ..Fields::default()
    };
    let reserve = Fields {
        kind: 3,
        flags: 1,
        first: 1,
        second: 2,
        amount: 9,
        moment: 5,
        until: 60,
        label: 0,
        ..fields
    };
    let post = Fields { kind: 4, flags: 0, number: 2, second: 0, amount: 8, until: 0, ..reserve };
    let records: [Record; 4] =
        [fields.record(), Fields { number: 2, ..fields }.record(), reserve.record(), post.record()];
    [vec![1], records.concat()].concat()
}

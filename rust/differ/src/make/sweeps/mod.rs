//! Cases that go through all values of something: lengths of chains, lists, strips and scripts.

mod books;
mod chains;
mod records;
mod scripts;
mod volumes;

use super::deep;
use crate::case::Case;
use crate::plan::{Call, Head, Order, Plan};
use crate::rng::Rng;

pub use books::full_books;

const DAM: u64 = 0x44414D2020202020;

/// All sweeps but the full books, in mixed order; the generator chooses the scripts that are cut and changed.
pub fn all(mut rng: Rng) -> Vec<Case> {
    let base = loop {
        let case = deep::short(rng.clone());
        rng.next();
        if (150..500).contains(&case.script().len()) {
            break case;
        }
    };
    let faulty = rng.next();
    let mut cases: Vec<_> = chains::chains()
        .chain(chains::lengths())
        .chain(records::strips())
        .chain(records::changed_records(faulty))
        .chain(volumes::limits())
        .chain(volumes::tops())
        .chain(volumes::edge_moments())
        .chain(records::overfull_journals())
        .chain(records::linked_journals())
        .chain(scripts::heads())
        .chain(scripts::faults())
        .chain(scripts::cuts(base.clone()))
        .chain(scripts::changes(base.clone(), faulty))
        .chain(scripts::rooms(base))
        .collect();
    for last in (1..cases.len()).rev() {
        cases.swap(last, rng.place(last + 1));
    }
    cases
}

fn open(number: u32, limit: u64) -> Call {
    Call::Open { number, ledger: 7, class: 1, limit, label: DAM }
}

fn batch(orders: Vec<Order>) -> Call {
    let answers = orders.len().min(64) as u8;
    Call::Batch { orders, answers }
}

fn plan(head: Head, calls: Vec<Call>) -> Plan {
    Plan { head, calls }
}

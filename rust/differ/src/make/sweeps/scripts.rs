//! Scripts that are cut, changed, or have too little room for output.

use super::{batch, open, plan};
use crate::case::{pattern, Case, Text};
use crate::plan::{Call, Head, Order};
use crate::rng::Rng;

/// Heads with every value of each byte.
pub fn heads() -> impl Iterator<Item = Case> {
    (0..6).flat_map(|place| {
        (0..=255).flat_map(move |value| {
            [1, 3].into_iter().filter_map(move |policy| {
                let mut bytes = plan(Head::new(3, policy), vec![Call::Reading]).bytes();
                (bytes[4], bytes[5]) = (1, 2);
                bytes[place] = value;
                let is_telling = !(6..254).contains(&value) || value % 16 == policy;
                is_telling.then(|| Case::of_bytes(bytes, pattern(60)))
            })
        })
    })
}

/// A script cut at each length.
pub fn cuts(base: Case) -> impl Iterator<Item = Case> {
    let bytes = base.script();
    (0..=bytes.len())
        .map(move |length| Case { text: Text::Bytes(bytes[..length].to_vec()), ..base.clone() })
}

/// A script with one byte changed, at each place.
pub fn changes(base: Case, seed: u64) -> impl Iterator<Item = Case> {
    let bytes = base.script();
    let mut rng = Rng::new(seed);
    (0..bytes.len()).map(move |place| {
        let mut bytes = bytes.clone();
        bytes[place] = match rng.below(3) {
            0 => rng.next() as u8,
            1 => rng.below(10) as u8,
            _ => bytes[place] ^ (1 << rng.below(8)),
        };
        Case { text: Text::Bytes(bytes), ..base.clone() }
    })
}

/// A script with room for output of every length, up to all that it tells; long outputs with a
/// wider step.
pub fn rooms(base: Case) -> impl Iterator<Item = Case> {
    let mut memory = base.memory.clone();
    let (_, output) = script::run(&base.script(), &mut memory, usize::MAX);
    let length = output.len();
    let step = 1 + length / 400;
    let last = length.saturating_sub(3)..=length + 1;
    (0..length).step_by(step).chain(last).map(move |room| base.clone().with_output(room))
}

/// A script with every call.
fn all_calls() -> Case {
    let orders = vec![Order::reserve(1, 1, 2, 9, 60), Order::post(2, 1, 9)];
    let calls = vec![
        open(1, 0),
        open(2, 0),
        batch(orders),
        Call::Move { moment: 60, lapses: 1 },
        Call::Report { bytes: 99 },
        Call::Account(1),
        Call::Reservation(1),
        Call::Moment,
        Call::Reading,
    ];
    Case::of_plan(plan(Head::new(1, 0).with_used(0), calls), pattern(250))
}

/// Scripts with a fault: cut anywhere, calls of no kind, and orders with other marks and kinds.
pub fn faults() -> impl Iterator<Item = Case> {
    let base = all_calls();
    let bytes = base.script();
    let codes = (0..=255).map({
        let bytes = bytes.clone();
        move |code| [bytes.as_slice(), &[code, 7, 7]].concat()
    });
    // The first order begins after the head, two openings and three bytes.
    let order = 14 + 2 * 24 + 3;
    let marks_and_kinds = [order + 4, order + 5, order + 30, order + 31];
    let orders = marks_and_kinds.into_iter().flat_map(move |place| {
        let bytes = bytes.clone();
        (0..=255).step_by(3).map(move |value| {
            let mut bytes = bytes.clone();
            bytes[place] = value;
            bytes
        })
    });
    let faulty = codes.chain(orders);
    let faulty = faulty.map(|bytes| Case::of_bytes(bytes, pattern(250)));
    cuts(base).chain(faulty)
}

//! Amounts and moments right at their edges.

use super::{batch, open, plan};
use crate::case::{pattern, Case};
use crate::plan::{Call, Head, Order};
use engine::{LAST_MOMENT, RECORD_BYTES, TOP};

/// Amounts right at, below and above what a limit admits, pending and posted.
pub fn limits() -> impl Iterator<Item = Case> {
    let limits = [0, 1, 2, 1000, TOP - 1, TOP];
    limits.into_iter().flat_map(|limit| {
        [1, 2].into_iter().flat_map(move |policy| {
            [0, 1, 2]
                .into_iter()
                .flat_map(move |used| [0, 1, 2].map(|above| limit_case(limit, policy, used, above)))
        })
    })
}

fn limit_case(limit: u64, policy: u8, used: u64, above: u64) -> Case {
    let amount = (limit + above).saturating_sub(used + 1);
    let pair = if policy == 1 { [1, 2] } else { [2, 1] };
    let before = [
        Order::reserve(1, pair[0], pair[1], used, 0),
        Order::transfer(2, pair[0], pair[1], used / 2),
        Order::transfer(3, pair[1], pair[0], 1),
    ];
    let calls = vec![
        open(1, limit),
        open(2, TOP),
        batch(before.into()),
        batch(vec![Order::transfer(4, pair[0], pair[1], amount)]),
        batch(vec![Order::reserve(5, pair[0], pair[1], amount + 1, 0)]),
        Call::Account(1),
        Call::Account(2),
    ];
    Case::of_plan(plan(Head::new(0, policy), calls), Vec::new())
}

/// Sums right at the top and above it, on either side.
pub fn tops() -> impl Iterator<Item = Case> {
    let amounts = [0, 1, 2, TOP / 2, TOP / 2 + 1, TOP - 2, TOP - 1, TOP, TOP + 1];
    amounts.into_iter().flat_map(move |one| {
        amounts.into_iter().flat_map(move |two| {
            [(1, 3), (2, 3), (1, 2)].map(|(debit, credit)| {
                let orders = vec![
                    Order::transfer(1, 1, 2, one),
                    Order::reserve(2, debit, credit, two, 0),
                    Order::post(3, 2, two.saturating_sub(1)),
                    Order::transfer(4, 1, 2, 1),
                    Order::transfer(5, 3, 2, TOP),
                ];
                let mut calls: Vec<_> = (1..=3).map(|n| open(n, 0)).collect();
                calls.extend([batch(orders), Call::Report { bytes: 300 }]);
                Case::of_plan(plan(Head::new(0, 0), calls), Vec::new())
            })
        })
    })
}

/// Deadlines and moves around the last moment.
pub fn edge_moments() -> impl Iterator<Item = Case> {
    let durations = [0, 1, 2, 3, u32::MAX];
    let moments = [LAST_MOMENT - 2, LAST_MOMENT - 1, LAST_MOMENT];
    durations.into_iter().flat_map(move |duration| {
        moments.into_iter().map(move |moment| {
            let to = |moment| Call::Move { moment, lapses: 2 };
            let orders =
                vec![Order::reserve(8, 1, 2, 1, duration), Order::reserve(9, 1, 2, 1, duration)];
            let mut calls = vec![open(1, 0), open(2, 0), to(moment), batch(orders)];
            calls.extend([0, 1, 2, 3].map(|more| to(moment + more)));
            calls.extend([Call::Reservation(8), Call::Reservation(9), open(3, 0)]);
            calls.push(batch(vec![Order::post(10, 8, 1)]));
            let memory = pattern(1 + RECORD_BYTES * 9);
            Case::of_plan(plan(Head::new(1, 0).with_used(0), calls), memory)
        })
    })
}

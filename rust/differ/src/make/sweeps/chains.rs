//! Chains and lists of all lengths.

use super::{batch, open, plan};
use crate::case::{pattern, Case};
use crate::plan::{Call, Head, Order};
use engine::RECORD_BYTES;

/// Chains of every length, with and without an end, just fitting the spare or not, with a
/// refused leg at any place or none.
pub fn chains() -> impl Iterator<Item = Case> {
    let lengths = (1..=18u32).chain([33, 63]);
    lengths.flat_map(|legs| {
        let spares = [legs - 1, legs, legs + 1];
        let refused = [0, 1, legs / 2, legs];
        spares.into_iter().flat_map(move |spare| {
            refused.into_iter().flat_map(move |refused| {
                [false, true].map(|has_end| chain(legs, spare, refused, has_end))
            })
        })
    })
}

fn chain(legs: u32, spare: u32, refused: u32, has_end: bool) -> Case {
    let leg = |number: u32| {
        let amount = if number == refused { 0 } else { 1 };
        let order = Order::reserve(number, 1, 2, amount, number);
        if number == legs && has_end {
            order
        } else {
            order.linked()
        }
    };
    let orders = (1..=legs).map(leg).collect();
    let next = Order::transfer(1, 1, 2, 1);
    let calls = vec![open(1, 0), open(2, 0), batch(orders), batch(vec![next])];
    let memory = pattern(1 + RECORD_BYTES * (2 + spare as usize));
    Case::of_plan(plan(Head::new(1, 0).with_used(0), calls), memory)
}

/// Lists of every length beside what is needed, and lengths that are not allowed.
pub fn lengths() -> impl Iterator<Item = Case> {
    let answers = (0..=7).chain([63, 64, 65, 66, 128, 255]).map(|answers| {
        let orders = (1..=5).map(|n| Order::transfer(n, 1, 2, 1)).collect();
        after_openings(Call::Batch { orders, answers })
    });
    let orders = [62, 63, 64, 65, 66, 100, 128, 255].map(|count| {
        let orders = (1..=count).map(|n| Order::void(n, 1)).collect();
        after_openings(batch(orders))
    });
    let lapses =
        (0..=8).chain([255, 256, 299, 300, 301, 302, 512, 556, 32768, 65535]).map(|lapses| {
            let orders = (1..=6).map(|n| Order::reserve(n, 1, 2, 1, 9 - n / 3)).collect();
            let moves = [7, 8, 9].map(|moment| Call::Move { moment, lapses });
            after(moves.into(), batch(orders))
        });
    let reports = (0..=60).chain([8192, 8193, 12095, 12096, 12097, 12352, 16384, 32768, 65535]);
    let reports = reports.map(|bytes| after_openings(Call::Report { bytes }));
    answers.chain(orders).chain(lapses).chain(reports)
}

fn after_openings(call: Call) -> Case {
    after(vec![Call::Report { bytes: 99 }], call)
}

fn after(last: Vec<Call>, call: Call) -> Case {
    let mut calls = vec![open(1, 0), open(2, 0), call];
    calls.extend(last);
    Case::of_plan(plan(Head::new(0, 0), calls), Vec::new())
}

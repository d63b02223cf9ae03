//! Scripts that fill the tables: 64 accounts, 256 reservations, journals to their end.

use super::planner::Planner;
use super::values::head;
use crate::case::{pattern, Case};
use crate::plan::{Call, Head, Order, Plan};
use crate::rng::Rng;
use script::MOST_REPORT_BYTES;

pub fn tables(mut rng: Rng) -> Case {
    let any = head(&mut rng).with_used(0);
    let open = Head::new(rng.pick(&[0, 1, 1, 1]), 0).with_used(0);
    let head = rng.pick(&[any, open, open]);
    let accounts = rng.pick(&[2, 2, 3, 64, 70, 75]);
    let memory = 1 + 48 * rng.within(280, 420) as usize;
    let reserves = rng.within(200, 320) as u32;
    let mut planner = Planner::new(rng);
    *planner.temper() = super::planner::Temper { faults: 10, links: 100, edges: 2, ledgers: 1 };
    let mut calls = planner.openings(accounts);
    calls.extend(reserve_batches(&mut planner, reserves));
    calls.extend(planner.calls(20));
    let report = planner.report();
    calls.extend([report, Call::Report { bytes: MOST_REPORT_BYTES }]);
    calls.extend(last_moves(&mut planner));
    Case::of_plan(Plan { head, calls }, pattern(memory))
}

fn reserve_batches(planner: &mut Planner, reserves: u32) -> Vec<Call> {
    let mut number = 0;
    let mut calls = Vec::new();
    while number < reserves {
        let count = planner.rng.within(1, 64).min(u64::from(reserves - number));
        let orders: Vec<_> = (0..count)
            .map(|_| {
                number += 1;
                reserve(planner, number)
            })
            .collect();
        calls.push(Call::Batch { orders, answers: 64 });
        if planner.rng.in_thousand(300) {
            calls.push(planner.batch());
        }
    }
    calls
}

fn reserve(planner: &mut Planner, number: u32) -> Order {
    let duration = planner.rng.pick(&[0, 5, 5, 5, 6, 7, 1 << 20]);
    let [debit, credit] = planner.rng.pick(&[[1, 2], [2, 1]]);
    let order = Order::reserve(number, debit, credit, 1, duration);
    if planner.rng.in_thousand(50) {
        order.linked()
    } else {
        order
    }
}

fn last_moves(planner: &mut Planner) -> Vec<Call> {
    let mut calls = Vec::new();
    for moment in [1 << 19, 1 << 21, engine::LAST_MOMENT] {
        let lapses = planner.rng.pick(&[0, 1, 100, 200, 255]);
        calls.push(Call::Move { moment, lapses });
        calls.push(planner.batch());
        calls.push(Call::Move { moment, lapses: 256 });
        calls.push(Call::Report { bytes: MOST_REPORT_BYTES });
    }
    calls
}

//! All small scripts of a kind, one after another: two orders, a move between them, and one more.

use crate::case::Case;
use crate::plan::{Call, Head, Order, Plan};
use engine::TOP;

const TASKS: u64 = 24;
const LIMITS: [u64; 4] = [0, 1, 2, TOP];
/// How many scripts there are.
pub const COUNT: u64 = TASKS * TASKS * TASKS * 2 * 5 * 7 * 4 * 2;

/// The digits of a number in mixed radix.
struct Digits(u64);

impl Digits {
    fn below(&mut self, n: u64) -> u64 {
        let digit = self.0 % n;
        self.0 /= n;
        digit
    }
}

pub fn case(index: u64) -> Case {
    let mut digits = Digits(index % COUNT);
    let first = task(1, digits.below(TASKS));
    let second = task(2, digits.below(TASKS));
    let third = task(3, digits.below(TASKS));
    let is_linked = digits.below(2) == 1;
    let moment = digits.below(5);
    let head = head(digits.below(7));
    let limit = LIMITS[digits.below(4) as usize];
    let lapses = digits.below(2) as u16;
    let first = if is_linked { first.linked() } else { first };
    let mut calls: Vec<_> =
        [(1, 9), (2, 9), (3, 8)].map(|(number, ledger)| open(number, ledger, limit)).into();
    calls.push(batch(vec![first, second]));
    calls.push(Call::Move { moment, lapses });
    calls.push(batch(vec![third]));
    calls.push(Call::Report { bytes: 150 });
    Case::of_plan(Plan { head, calls }, Vec::new())
}

fn head(choice: u64) -> Head {
    match choice {
        0..=2 => Head::new(0, choice as u8),
        more => Head {
            class: [0, 3, 3, 255][more as usize - 3],
            below: 1 + more as u8 % 2,
            from: 2 - more as u8 % 2,
            ..Head::new(0, 3)
        },
    }
}

fn open(number: u32, ledger: u16, limit: u64) -> Call {
    Call::Open { number, ledger, class: number as u8 + 1, limit, label: 0x44414D2020202020 }
}

fn batch(orders: Vec<Order>) -> Call {
    let answers = orders.len() as u8;
    Call::Batch { orders, answers }
}

fn task(number: u32, choice: u64) -> Order {
    match choice {
        0 => Order::transfer(number, 1, 2, 1),
        1 => Order::transfer(number, 1, 2, 2),
        2 => Order::transfer(number, 2, 1, 1),
        3 => Order::transfer(number, 1, 2, TOP),
        4 => Order::transfer(number, 2, 1, TOP - 1),
        5 => Order::transfer(number, 1, 2, 0),
        6 => Order::transfer(number, 1, 2, TOP + 1),
        7 => Order::transfer(number, 1, 1, 1),
        8 => Order::transfer(number, 1, 3, 1),
        9 => Order::transfer(number, 4, 1, 1),
        10 => Order::transfer(number, 1, 4, 1),
        11 => Order::reserve(number, 1, 2, 1, 0),
        12 => Order::reserve(number, 1, 2, 2, 1),
        13 => Order::reserve(number, 2, 1, 2, 2),
        14 => Order::reserve(number, 1, 2, TOP, 3),
        15 => Order::reserve(1, 2, 1, 1, u32::MAX),
        16 => Order::post(number, 1, 1),
        17 => Order::post(number, 1, 2),
        18 => Order::post(number, 1, 0),
        19 => Order::post(number, 2, 1),
        20 => Order::void(number, 1),
        21 => Order::void(number, 2),
        22 => Order::void(number, 0),
        _ => Order::post(2, 1, TOP),
    }
}

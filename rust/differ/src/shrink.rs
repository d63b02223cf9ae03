//! Makes a case smaller, as long as it still differs.

use crate::case::{Case, Text};
use crate::plan::{Call, Plan};

pub fn shrink(mut case: Case, differs: impl Fn(&Case) -> bool) -> Case {
    if case.output.is_some() {
        let ample = Case { output: None, ..case.clone() };
        if differs(&ample) {
            case = ample;
        }
    }
    case = match case.text.clone() {
        Text::Plan(plan) => shrink_plan(&case, plan, &differs),
        Text::Bytes(bytes) => {
            let smaller = drop_items(bytes, &|b| differs(&with_bytes(&case, b)));
            with_bytes(&case, &smaller)
        }
    };
    shorten_memory(&mut case, &differs);
    case
}

/// Takes memory away from the end.
fn shorten_memory(case: &mut Case, differs: &impl Fn(&Case) -> bool) {
    let mut less = case.memory.len();
    while less > 0 {
        let mut shorter = case.clone();
        shorter.memory.truncate(case.memory.len().saturating_sub(less));
        if shorter.memory.len() < case.memory.len() && differs(&shorter) {
            *case = shorter;
        } else {
            less /= 2;
        }
    }
}

fn with_bytes(case: &Case, bytes: &[u8]) -> Case {
    Case { text: Text::Bytes(bytes.to_vec()), ..case.clone() }
}

fn shrink_plan(case: &Case, mut plan: Plan, differs: &impl Fn(&Case) -> bool) -> Case {
    let head = plan.head;
    let with_calls = |calls: &[Call]| Case {
        text: Text::Plan(Plan { head, calls: calls.to_vec() }),
        ..case.clone()
    };
    loop {
        let before = size(&plan.calls);
        plan.calls = drop_items(plan.calls, &|calls| differs(&with_calls(calls)));
        drop_orders(&mut plan.calls, &|calls| differs(&with_calls(calls)));
        if size(&plan.calls) == before {
            return with_calls(&plan.calls);
        }
    }
}

fn size(calls: &[Call]) -> usize {
    let orders = |call: &Call| match call {
        Call::Batch { orders, .. } => orders.len(),
        _ => 0,
    };
    calls.len() + calls.iter().map(orders).sum::<usize>()
}

fn drop_orders(calls: &mut Vec<Call>, differs: &impl Fn(&[Call]) -> bool) {
    for place in 0..calls.len() {
        let Call::Batch { orders, answers } = calls[place].clone() else {
            continue;
        };
        let rest = calls.clone();
        let with_orders = |orders: &[_]| {
            let mut calls = rest.clone();
            calls[place] = Call::Batch { orders: orders.to_vec(), answers };
            calls
        };
        let fewer = drop_items(orders, &|orders| differs(&with_orders(orders)));
        *calls = with_orders(&fewer);
    }
}

/// Drops groups of items, from half of them down to single ones.
fn drop_items<T: Clone>(mut items: Vec<T>, differs: &impl Fn(&[T]) -> bool) -> Vec<T> {
    let mut group = items.len().div_ceil(2);
    while group > 0 {
        let mut place = 0;
        while place < items.len() {
            let mut fewer = items.clone();
            fewer.drain(place..items.len().min(place + group));
            if differs(&fewer) {
                items = fewer;
            } else {
                place += group;
            }
        }
        group /= 2;
    }
    items
}

#[cfg(test)]
mod tests {
    use super::*;
    use crate::case::pattern;
    use crate::compare::{difference, run};
    use crate::engines::{Engine, Second};
    use crate::plan::{Head, Order};
    use crate::told::parts;

    /// Tells posts and voids of posted reservations that they are voided.
    struct Broken;

    impl Engine for Broken {
        fn run(&self, script: &[u8], memory: &mut [u8], output: &mut [u8]) -> (u32, u64) {
            let (code, written) = Second.run(script, memory, output);
            let parsed = script::parse(script).expect("plans only");
            let told = output.to_vec();
            let mut start = 0;
            for (call, part) in parsed.calls.iter().zip(parts(&parsed.calls, &told).0) {
                let answers = &mut output[start..start + part.len()];
                if matches!(call, script::Call::Batch { .. }) {
                    let wrong = answers[10..].iter_mut().filter(|answer| **answer == 32);
                    wrong.for_each(|answer| *answer = 33);
                }
                start += part.len();
            }
            (code, written)
        }
    }

    #[test]
    fn a_difference_is_shrunk() {
        let mut calls: Vec<_> = (1..9).map(opening).collect();
        let orders = (1..20).map(|n| Order::reserve(n, 1, 2, 5, 0)).collect();
        calls.push(Call::Batch { orders, answers: 19 });
        let ends = [Order::void(20, 1), Order::post(21, 2, 1), Order::void(22, 2)];
        calls.extend([Call::Moment, Call::Batch { orders: ends.into(), answers: 9 }]);
        calls.extend([Call::Reading, Call::Report { bytes: 99 }]);
        let head = Head::new(1, 0).with_used(0);
        let case = Case::of_plan(Plan { head, calls }, pattern(5000));
        let differs = |case: &Case| {
            let script = case.script();
            let ran = [&Broken as &dyn Engine, &Second].map(|e| run(e, &script, case));
            difference(&ran[0], &ran[1]).is_some()
        };
        assert!(differs(&case));
        let small = shrink(case, differs);
        assert_eq!(small.memory.len(), 1 + 48 * 5);
        let script = script::parse(&small.script()).expect("a plan");
        assert_eq!(script.calls.len(), 4);
    }

    fn opening(number: u32) -> Call {
        Call::Open { number, ledger: 7, class: 0, limit: 0, label: 0x44414D2020202020 }
    }

    #[test]
    fn only_what_matters_is_left() {
        let items: Vec<u32> = (0..100).collect();
        let left = drop_items(items, &|kept| kept.contains(&17) && kept.contains(&60));
        assert_eq!(left, [17, 60]);
    }
}

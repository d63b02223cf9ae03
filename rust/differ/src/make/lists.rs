//! Scripts whose lists and buffers are just long enough, or one place too short or too long.

use super::planner::Planner;
use super::values::head;
use crate::case::{pattern, Case};
use crate::plan::{Call, Plan};
use crate::rng::Rng;
use crate::told::parts;
use script::{MOST_LAPSES, MOST_REPORT_BYTES};

pub fn edges(mut rng: Rng) -> Case {
    let head = head(&mut rng).with_used(0);
    let count = rng.within(5, 40) as usize;
    let mut planner = Planner::new(rng);
    let mut calls = planner.openings(4);
    for call in planner.calls(count) {
        calls.push(with_room(call));
    }
    calls.push(Call::Report { bytes: MOST_REPORT_BYTES });
    let mut plan = Plan { head, calls };
    let memory = pattern(1 + 48 * 60);
    fit(&mut plan, &memory, &mut planner.rng);
    Case::of_plan(plan, memory)
}

fn with_room(call: Call) -> Call {
    match call {
        Call::Move { moment, .. } => Call::Move { moment, lapses: MOST_LAPSES },
        Call::Report { .. } => Call::Report { bytes: MOST_REPORT_BYTES },
        other => other,
    }
}

/// Runs the plan once, and then gives each list about as many places as were used.
fn fit(plan: &mut Plan, memory: &[u8], rng: &mut Rng) {
    let bytes = plan.bytes();
    let script = script::parse(&bytes).expect("a plan of the right form");
    let (_, output) = script::run(&bytes, &mut memory.to_vec(), usize::MAX);
    let (parts, _) = parts(&script.calls, &output);
    for (call, part) in plan.calls.iter_mut().zip(parts) {
        match call {
            Call::Move { lapses, .. } => *lapses = near(part, rng).min(MOST_LAPSES),
            Call::Report { bytes } => *bytes = near(part, rng).min(MOST_REPORT_BYTES),
            _ => {}
        }
    }
}

/// The length that a move or a report was told, or one beside it.
fn near(part: &[u8], rng: &mut Rng) -> u16 {
    let used = u16::from_be_bytes([part[8], part[9]]);
    (used + rng.below(3) as u16).saturating_sub(1)
}

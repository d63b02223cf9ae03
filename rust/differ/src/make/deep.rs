//! Random scripts, long and short, that are mostly taken.

use super::planner::Planner;
use super::probe::see;
use super::values::head;
use crate::case::{pattern, Case};
use crate::plan::Plan;
use crate::rng::Rng;

/// After so many calls the planner is told how they went.
const BLOCK: usize = 8;

pub fn long(mut rng: Rng) -> Case {
    let memory = 1 + 48 * rng.within(120, 450) + rng.below(48);
    let calls = rng.within(100, 300);
    random(rng, memory, calls)
}

pub fn short(mut rng: Rng) -> Case {
    let memory = rng.below(1200);
    let calls = rng.within(1, 25);
    random(rng, memory, calls)
}

fn random(mut rng: Rng, memory: u64, calls: u64) -> Case {
    let head = head(&mut rng).with_used(0);
    let accounts = 1 + rng.place(8);
    let is_cut = rng.in_thousand(30);
    let mut planner = Planner::new(rng);
    let mut plan = Plan { head, calls: planner.openings(accounts) };
    let memory = pattern(memory as usize);
    extend(&mut plan, &memory, &mut planner, calls as usize);
    let case = Case::of_plan(plan, memory);
    if !is_cut {
        return case;
    }
    let room = case.room(&case.script()) as u64;
    case.with_output(planner.rng.below(room) as usize)
}

/// Adds so many calls, but few once the journal is all but full.
pub fn extend(plan: &mut Plan, memory: &[u8], planner: &mut Planner, calls: usize) {
    let mut left = calls;
    while left > 0 {
        let seen = see(plan, memory);
        planner.learn(&seen);
        if seen.spare < 6 {
            left = left.min(BLOCK);
        }
        let block = left.min(BLOCK);
        plan.calls.extend(planner.calls(block));
        left -= block;
    }
}

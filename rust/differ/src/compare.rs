//! Runs one case on two engines, and looks at every byte.

use crate::case::{pattern, Case};
use crate::engines::Engine;

/// Bytes before and after the memory and the output that nobody may touch.
const GUARD: usize = 64;

/// What came of a case on one engine. Memory and output have their guards.
#[derive(Clone, Debug, PartialEq, Eq)]
pub struct Ran {
    pub code: u32,
    pub written: u64,
    pub output: Vec<u8>,
    pub memory: Vec<u8>,
}

#[derive(Clone, Copy, Debug, PartialEq, Eq)]
pub enum Difference {
    Code,
    Written,
    /// The first other byte, counted from the beginning of the output.
    Output(isize),
    /// The same for the memory.
    Memory(isize),
}

impl Ran {
    /// What the engine says it wrote.
    pub fn told(&self) -> &[u8] {
        let length = usize::try_from(self.written).unwrap_or(0);
        let inside = &self.output[GUARD..self.output.len() - GUARD];
        &inside[..length.min(inside.len())]
    }

    pub fn memory(&self) -> &[u8] {
        &self.memory[GUARD..self.memory.len() - GUARD]
    }
}

pub fn run(engine: &dyn Engine, script: &[u8], case: &Case) -> Ran {
    let room = case.room(script);
    let mut output = pattern(GUARD + room + GUARD);
    let mut memory = guarded(&case.memory);
    let memory_end = GUARD + case.memory.len();
    let (code, written) =
        engine.run(script, &mut memory[GUARD..memory_end], &mut output[GUARD..GUARD + room]);
    Ran { code, written, output, memory }
}

fn guarded(memory: &[u8]) -> Vec<u8> {
    let guard = pattern(GUARD);
    [&guard, memory, &guard].concat()
}

/// The first difference between what came of a case on both engines.
pub fn difference(one: &Ran, two: &Ran) -> Option<Difference> {
    if one.code != two.code {
        return Some(Difference::Code);
    }
    if one.written != two.written {
        return Some(Difference::Written);
    }
    if let Some(place) = first_other(&one.output, &two.output) {
        return Some(Difference::Output(place));
    }
    first_other(&one.memory, &two.memory).map(Difference::Memory)
}

fn first_other(one: &[u8], two: &[u8]) -> Option<isize> {
    let place = one.iter().zip(two).position(|(a, b)| a != b)?;
    Some(place as isize - GUARD as isize)
}

#[cfg(test)]
mod tests {
    use super::*;
    use crate::engines::Second;
    use crate::plan::{Call, Head, Plan};

    fn opening() -> Case {
        let open =
            Call::Open { number: 1, ledger: 1, class: 1, limit: 1, label: 0x44414D2020202020 };
        let plan = Plan { head: Head::new(1, 0).with_used(0), calls: vec![open.clone(), open] };
        Case::of_plan(plan, pattern(99))
    }

    #[test]
    fn every_byte_counts() {
        let case = opening();
        let script = case.script();
        let one = run(&Second, &script, &case);
        assert_eq!(difference(&one, &one), None);
        let mut two = one.clone();
        *two.output.last_mut().expect("guarded") ^= 1;
        let found = difference(&one, &two);
        assert_eq!(found, Some(Difference::Output(case.room(&script) as isize + 63)));
        let mut two = one.clone();
        two.memory[GUARD + 98] ^= 1;
        let found = difference(&one, &two);
        assert_eq!(found, Some(Difference::Memory(98)));
    }
}

//! What is measured: scripts and the memory that they run over.

use crate::engines::engine;
use crate::workload::{empty, every_call, memory, pairs, reading, transfers};

/// Enough for the output of every case.
pub const OUTPUT: usize = 1 << 22;

pub struct Case {
    pub name: String,
    pub what: &'static str,
    /// How many of them there are in the script or the memory.
    pub count: usize,
    pub script: Vec<u8>,
    pub memory: Vec<u8>,
    /// Whether the plain engine runs it in a time that can be waited for.
    pub plain: bool,
}

/// What stands after a run.
#[derive(PartialEq, Eq)]
pub struct Outcome {
    pub output: Vec<u8>,
    pub memory: Vec<u8>,
}

pub fn all() -> Vec<Case> {
    let transfers = [10, 100, 1_000, 10_000, 40_000].map(transfers_case);
    let pairs = [128, 256].map(|count| {
        let case = case("pairs", "pairs of a reserve and its post", count);
        Case { script: pairs(count), memory: memory(2 * count + 2), ..case }
    });
    let readings = [1_000, 40_000].map(|count| {
        let memory = outcome("proved", &transfers_case(count)).memory;
        let case = case("entries", "entries read at creation", count + 2);
        Case { script: reading(memory.len()), memory, plain: count <= 1_000, ..case }
    });
    let created = case("empty", "an empty script: the book's creation", 1);
    let created = Case { script: empty(), memory: memory(2), ..created };
    transfers.into_iter().chain(pairs).chain(readings).chain([created]).collect()
}

/// What the stack is measured by: every call, on a journal of each kind, over a strip of a hundred records.
pub fn every_kind() -> Vec<Case> {
    let before = transfers_case(100);
    let used = before.memory.len();
    let mut strip = outcome("proved", &before).memory;
    strip.extend(vec![0; 48 * 100]);
    let of_kind = |kind: u8| {
        let case = case("calls", "every call", kind.into());
        Case { script: every_call(kind, used), memory: strip.clone(), ..case }
    };
    (0..4).map(of_kind).collect()
}

fn transfers_case(count: usize) -> Case {
    let case = case("transfers", "transfers", count);
    Case { script: transfers(count), memory: memory(count + 2), plain: count <= 1_000, ..case }
}

fn case(name: &str, what: &'static str, count: usize) -> Case {
    let (script, memory) = (Vec::new(), Vec::new());
    Case { name: format!("{name}-{count}"), what, count, script, memory, plain: true }
}

/// What comes of a case on an engine; it must run to its end.
pub fn outcome(name: &str, case: &Case) -> Outcome {
    let mut memory = case.memory.clone();
    let mut output = vec![0; OUTPUT];
    let (code, written) = engine(name)(&case.script, &mut memory, &mut output);
    assert_eq!(code, 0, "{name} on {}", case.name);
    output.truncate(written as usize);
    Outcome { output, memory }
}

use crate::cases::{outcome, Case, OUTPUT};
use crate::engines::{engine, NAMES};
use hub::Run;
use std::hint::black_box;
use std::time::Instant;

/// How long an engine may be measured on a case, in seconds, and how often at least.
const SECONDS: f64 = 0.4;
const RUNS: usize = 5;

/// The shortest run of each engine on a case, in nanoseconds, the engines by turns.
pub fn measure(case: &Case) -> Vec<(&'static str, f64)> {
    let expected = outcome("proved", case);
    let mut best: Vec<_> = NAMES
        .into_iter()
        .filter(|name| case.plain || *name != "plain")
        .map(|name| (name, f64::INFINITY))
        .collect();
    for (name, _) in &best {
        assert!(outcome(name, case) == expected, "{name} differs on {}", case.name);
    }
    let mut room = Room { memory: case.memory.clone(), output: vec![0; OUTPUT] };
    let start = Instant::now();
    let mut runs = 0;
    while runs < RUNS || start.elapsed().as_secs_f64() < SECONDS * best.len() as f64 {
        for (name, shortest) in &mut best {
            *shortest = shortest.min(room.time(engine(name), case));
        }
        runs += 1;
    }
    best
}

/// Memory and output that runs share.
struct Room {
    memory: Vec<u8>,
    output: Vec<u8>,
}

impl Room {
    /// One run, in nanoseconds.
    fn time(&mut self, engine: Run, case: &Case) -> f64 {
        self.memory.copy_from_slice(&case.memory);
        let start = Instant::now();
        black_box(engine(black_box(&case.script), &mut self.memory, &mut self.output));
        start.elapsed().as_nanos() as f64
    }
}

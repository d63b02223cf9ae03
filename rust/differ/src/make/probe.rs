use crate::plan::{Call, Plan};
use crate::told::parts;
use engine::{Entry, RECORD_BYTES};

/// What a plan leaves behind.
pub struct Seen {
    pub moment: u64,
    pub entries: Vec<Entry>,
    pub spare: u64,
    pub used: u64,
    pub memory: Vec<u8>,
}

/// Runs a plan on the second engine, to see where its book then stands.
pub fn see(plan: &Plan, memory: &[u8]) -> Seen {
    let mut plan = plan.clone();
    plan.calls.push(Call::Moment);
    let bytes = plan.bytes();
    let script = script::parse(&bytes).expect("a plan of the right form");
    let mut memory = memory.to_vec();
    let (_, output) = script::run(&bytes, &mut memory, usize::MAX);
    let (parts, end) = parts(&script.calls, &output);
    let moment = parts.last().expect("the moment was asked for");
    let records = &end[17..end.len() - 8];
    Seen {
        moment: number(&moment[1..]),
        entries: records
            .chunks_exact(RECORD_BYTES)
            .filter_map(|chunk| Entry::of_record(chunk.try_into().ok()?))
            .collect(),
        spare: number(&end[9..17]),
        used: number(&end[end.len() - 8..]),
        memory,
    }
}

fn number(bytes: &[u8]) -> u64 {
    bytes.iter().fold(0, |n, &b| n << 8 | u64::from(b))
}

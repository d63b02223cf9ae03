use crate::told::parts;
use script::Call;
use std::collections::BTreeMap;
use std::fmt::Write;

/// What was seen so far.
#[derive(Default)]
pub struct Tally {
    scripts: u64,
    calls: u64,
    codes: BTreeMap<u32, u64>,
    answers: BTreeMap<u8, u64>,
    readings: BTreeMap<u8, u64>,
}

impl Tally {
    /// Counts a script: how many calls its output tells of.
    pub fn add(&mut self, script: &[u8], code: u32, output: &[u8]) -> u64 {
        self.scripts += 1;
        *self.codes.entry(code).or_default() += 1;
        let Ok(script) = script::parse(script) else {
            return 0;
        };
        let (parts, _) = parts(&script.calls, output);
        for (call, part) in script.calls.iter().zip(&parts) {
            self.add_call(call, part);
        }
        self.calls += parts.len() as u64;
        parts.len() as u64
    }

    fn add_call(&mut self, call: &Call, part: &[u8]) {
        let answer = part.get(1).copied().unwrap_or(0);
        match call {
            Call::Open { .. } | Call::Move { .. } | Call::Report { .. } => self.add_answer(answer),
            Call::Batch { .. } if answer != 0 => self.add_answer(answer),
            Call::Batch { orders, .. } => {
                let answers = part[10..].iter().take(orders.len());
                answers.for_each(|answer| self.add_answer(*answer));
            }
            Call::AskReading => *self.readings.entry(answer).or_default() += 1,
            Call::AskAccount(_) | Call::AskReservation(_) | Call::AskMoment => {}
        }
    }

    fn add_answer(&mut self, answer: u8) {
        *self.answers.entry(answer).or_default() += 1;
    }

    pub fn calls(&self) -> u64 {
        self.calls
    }

    pub fn line(&self, seconds: f64) -> String {
        format!(
            "scripts {}, calls {}, codes [{}], answers [{}], readings [{}], seconds {seconds:.1}",
            self.scripts,
            self.calls,
            counts(&self.codes),
            counts(&self.answers),
            counts(&self.readings),
        )
    }
}

fn counts<T: std::fmt::Display>(map: &BTreeMap<T, u64>) -> String {
    let mut text = String::new();
    for (number, count) in map {
        let gap = if text.is_empty() { "" } else { " " };
        write!(text, "{gap}{number}:{count}").expect("a string takes all");
    }
    text
}

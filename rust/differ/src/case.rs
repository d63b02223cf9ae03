use crate::plan::Plan;
use script::Call;

/// A script with its memory and its room for output (none: room for everything).
#[derive(Clone, Debug)]
pub struct Case {
    pub text: Text,
    pub memory: Vec<u8>,
    pub output: Option<usize>,
}

#[derive(Clone, Debug)]
pub enum Text {
    Plan(Plan),
    Bytes(Vec<u8>),
}

impl Case {
    pub fn of_plan(plan: Plan, memory: Vec<u8>) -> Case {
        Case { text: Text::Plan(plan), memory, output: None }
    }

    pub fn of_bytes(bytes: Vec<u8>, memory: Vec<u8>) -> Case {
        Case { text: Text::Bytes(bytes), memory, output: None }
    }

    pub fn with_output(self, output: usize) -> Case {
        Case { output: Some(output), ..self }
    }

    pub fn script(&self) -> Vec<u8> {
        match &self.text {
            Text::Plan(plan) => plan.bytes(),
            Text::Bytes(bytes) => bytes.clone(),
        }
    }

    /// The room for output, for a script of this case.
    pub fn room(&self, script: &[u8]) -> usize {
        self.output.unwrap_or_else(|| {
            let script = script::parse(script);
            let calls: usize = script.map_or(0, |s| s.calls.iter().map(most_told).sum());
            let entries = 256.max(self.memory.len() / 48);
            calls + 48 * entries + 99
        })
    }
}

/// At least as many bytes as the call is told.
fn most_told(call: &Call) -> usize {
    match call {
        Call::Batch { answers, .. } => 10 + answers,
        Call::Move { lapses, .. } => 18 + 4 * lapses,
        Call::Report { bytes } => 10 + bytes,
        _ => 64,
    }
}

/// Bytes that nobody wrote.
pub fn pattern(length: usize) -> Vec<u8> {
    (0..length).map(|i| (i * 7 + 13) as u8).collect()
}

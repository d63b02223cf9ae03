//! Which part of an output belongs to which call.

use script::Call;

/// The parts of an output, one for each call that it tells of; the rest is the journal.
pub fn parts<'a>(calls: &[Call], output: &'a [u8]) -> (Vec<&'a [u8]>, &'a [u8]) {
    let mut rest = output;
    let mut parts = Vec::new();
    for call in calls {
        let length = length(call, rest);
        let Some((part, after)) = rest.split_at_checked(length) else {
            break;
        };
        parts.push(part);
        rest = after;
    }
    (parts, rest)
}

/// How many bytes the call is told; an answer about something that is there is longer.
fn length(call: &Call, rest: &[u8]) -> usize {
    let is_there = rest.get(1) == Some(&1);
    match call {
        Call::Open { .. } => 2,
        Call::Batch { answers, .. } => 10 + answers,
        Call::Move { lapses, .. } => 18 + 4 * lapses,
        Call::Report { bytes } => 10 + bytes,
        Call::AskAccount(_) if is_there => 57,
        Call::AskReservation(_) if is_there => 31,
        Call::AskAccount(_) | Call::AskReservation(_) => 2,
        Call::AskMoment => 9,
        Call::AskReading => 10,
    }
}

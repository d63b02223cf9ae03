use crate::case::Case;
use crate::compare::{Difference, Ran};
use crate::told::parts;
use script::Call;

/// Prints a case that differs: readable, as hex, and with what both engines said.
pub fn show(case: &Case, difference: Difference, first: &Ran, second: &Ran) {
    let script = case.script();
    println!("the engines differ: {difference:?}");
    match script::parse(&script) {
        Err(code) => println!("a bad script: {code:?}"),
        Ok(parsed) => {
            println!("{:?}", parsed.head);
            show_calls(&parsed.calls);
            show_parts(&parsed.calls, first.told(), second.told());
        }
    }
    println!("script: {}", hex(&script));
    println!("memory: {} bytes: {}", case.memory.len(), hex(&case.memory));
    println!("output: {} bytes of room", case.room(&script));
    for (name, ran) in [("first", first), ("second", second)] {
        println!("{name}: code {}, written {}", ran.code, ran.written);
    }
    match difference {
        Difference::Code | Difference::Written => {}
        Difference::Output(place) => show_bytes("output", place, first.told(), second.told()),
        Difference::Memory(place) => show_bytes("memory", place, first.memory(), second.memory()),
    }
}

fn show_calls(calls: &[Call]) {
    for (place, call) in calls.iter().enumerate() {
        match call {
            Call::Batch { orders, answers } => {
                println!("call {place}: Batch, {answers} answers");
                orders.iter().for_each(|order| println!("    {order:?}"));
            }
            other => println!("call {place}: {other:?}"),
        }
    }
}

/// Shows the first call that was told different things, or the ends.
fn show_parts(calls: &[Call], first: &[u8], second: &[u8]) {
    let (first_parts, first_end) = parts(calls, first);
    let (second_parts, second_end) = parts(calls, second);
    let mut pairs = first_parts.iter().zip(&second_parts);
    match pairs.position(|(one, two)| one != two) {
        Some(place) => {
            println!("call {place} was told by the first:  {}", hex(first_parts[place]));
            println!("call {place} was told by the second: {}", hex(second_parts[place]));
        }
        None if first_end != second_end => {
            println!("the end by the first:  {}", hex(first_end));
            println!("the end by the second: {}", hex(second_end));
        }
        None => {}
    }
}

/// Shows the bytes around a place; those outside of what belongs to the engine are left out.
fn show_bytes(what: &str, place: isize, first: &[u8], second: &[u8]) {
    println!("{what} differs first at byte {place}");
    let Ok(place) = usize::try_from(place) else {
        return;
    };
    let from = place.saturating_sub(16);
    for (name, bytes) in [("first", first), ("second", second)] {
        let to = bytes.len().min(place + 32);
        let around = bytes.get(from..to).unwrap_or(&[]);
        println!("{name}, from byte {from}: {}", hex(around));
    }
}

fn hex(bytes: &[u8]) -> String {
    bytes.iter().map(|byte| format!("{byte:02X}")).collect()
}

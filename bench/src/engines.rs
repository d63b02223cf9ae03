//! The engines in Rust, all called alike.

use hub::Run;

/// The proved engine, its rival in safe Rust, and the plain second engine.
pub const NAMES: [&str; 3] = ["proved", "fast", "plain"];

/// The engine of a name. `none` does nothing: what a process costs besides.
pub fn engine(name: &str) -> Run {
    match name {
        "proved" => hub::RUN.expect("built with WATER_BOOK_LIB"),
        "fast" => fast,
        "plain" => plain,
        "none" => |_, _, _| (0, 0),
        _ => panic!("no such engine: {name}"),
    }
}

fn fast(script: &[u8], memory: &mut [u8], output: &mut [u8]) -> (u32, u64) {
    let (code, written) = fast::run(script, memory, output);
    (code, written as u64)
}

fn plain(script: &[u8], memory: &mut [u8], output: &mut [u8]) -> (u32, u64) {
    let (code, told) = script::run(script, memory, output.len());
    output[..told.len()].copy_from_slice(&told);
    (code, told.len() as u64)
}

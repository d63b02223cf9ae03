//! How long engines take for the same scripts: the proved engine, one in safe Rust that is written to be fast, the plain
//! second one, and one in Java, which is measured by its own program in the same way.
//!
//! In the time is one whole run from the script's bytes to the output's: the script is checked and read, the book is
//! made, each list is filled as scripts say before its call, all calls are made, records are written to the strip's
//! memory, and the answers and the journal at the end are written to the output. It holds for all engines alike.
//! Outside the time stand the making of script, memory and output. Before each run the memory is put back to what the
//! case begins with, which also brings it near the processor, for all engines alike; the output is not cleared, as
//! every byte that counts is written. Before it is measured, each engine must give the output and the memory of the
//! proved one in every byte.

mod cases;
mod engines;
mod files;
mod measure;
mod workload;

use std::path::Path;

const USAGE: &str = "usage: bench write|measure|table FOLDER, or bench once ENGINE FOLDER CASE";

fn main() {
    let words: Vec<String> = std::env::args().skip(1).collect();
    let words: Vec<&str> = words.iter().map(String::as_str).collect();
    match words[..] {
        ["write", folder] => files::write_cases(folder.as_ref()),
        ["measure", folder] => measure_all(folder.as_ref()),
        ["table", folder] => print_table(folder.as_ref()),
        ["once", engine, folder, case] => once(engine, folder.as_ref(), case),
        _ => panic!("{USAGE}"),
    }
}

fn measure_all(folder: &Path) {
    for case in cases::all() {
        for (engine, ns) in measure::measure(&case) {
            files::add_result(folder, engine, &case, ns);
        }
    }
}

/// Nanoseconds for each order, pair or entry.
fn print_table(folder: &Path) {
    println!("| what | how many | proved | fast safe Rust | plain Rust | Java |");
    println!("|---|---|---|---|---|---|");
    for case in cases::all() {
        let each = engines::NAMES.into_iter().chain(["java"]).map(|engine| {
            let best = files::best_result(folder, engine, &case);
            best.map_or("not run".to_string(), |ns| format!("{:.1}", ns / case.count as f64))
        });
        let each: Vec<_> = each.collect();
        println!("| {} | {} | {} |", case.what, case.count, each.join(" | "));
    }
}

/// One run, to count instructions by.
fn once(engine: &str, folder: &Path, name: &str) {
    let (script, mut memory) = files::read_case(folder, name);
    let mut output = vec![0; cases::OUTPUT];
    let (code, _) = engines::engine(engine)(&script, &mut memory, &mut output);
    assert_eq!(code, 0);
}

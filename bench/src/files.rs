//! Cases and results as files in a folder, for programs in other languages.

use crate::cases::{all, every_kind, outcome, Case};
use std::fs;
use std::io::Write;
use std::path::Path;

const RESULTS: &str = "results";

/// Writes each case, and a list of the names of those that are measured by time.
pub fn write_cases(folder: &Path) {
    fs::create_dir_all(folder).expect("a folder");
    let mut names = String::new();
    for case in all() {
        write_case(folder, &case);
        names += &format!("{}\n", case.name);
    }
    every_kind().iter().for_each(|case| write_case(folder, case));
    fs::write(folder.join("names"), names).expect("a file");
    fs::write(folder.join(RESULTS), "").expect("a file");
}

/// Writes a case: its script, memory, output, and the memory afterwards.
fn write_case(folder: &Path, case: &Case) {
    let expected = outcome("proved", case);
    let write = |kind: &str, bytes: &[u8]| {
        fs::write(folder.join(format!("{}.{kind}", case.name)), bytes).expect("a file");
    };
    write("script", &case.script);
    write("memory", &case.memory);
    write("output", &expected.output);
    write("after", &expected.memory);
}

/// The script and memory of a written case.
pub fn read_case(folder: &Path, name: &str) -> (Vec<u8>, Vec<u8>) {
    let read = |kind| fs::read(folder.join(format!("{name}.{kind}"))).expect("a written case");
    (read("script"), read("memory"))
}

pub fn add_result(folder: &Path, engine: &str, case: &Case, ns: f64) {
    let results = fs::OpenOptions::new().append(true).open(folder.join(RESULTS));
    writeln!(results.expect("written cases"), "{engine} {} {ns:.0}", case.name).expect("a line");
}

/// The least that was measured of an engine on a case.
pub fn best_result(folder: &Path, engine: &str, case: &Case) -> Option<f64> {
    let results = fs::read_to_string(folder.join(RESULTS)).expect("written cases");
    let of_case = |line: &str| {
        let words: Vec<_> = line.split(' ').collect();
        let fits = words[..2] == [engine, &case.name];
        fits.then(|| words[2].parse().expect("nanoseconds"))
    };
    results.lines().filter_map(of_case).reduce(f64::min)
}

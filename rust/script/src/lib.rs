//! Runs scripts of calls on a book.
#![forbid(unsafe_code)]

mod code;
mod parse;
mod run;
mod script;

pub use code::Code;
pub use parse::{parse, MOST_LAPSES, MOST_REPORT_BYTES};
pub use run::{run, run_counted, Outcome};
pub use script::{Call, Head, JournalKind, Script};

//! The water book in safe Rust, written to be fast. Accounts and reservations stand in tables with their totals and
//! fates; scripts are read from their bytes, and what calls are told is written straight into the output. Nothing is
//! allocated.
#![forbid(unsafe_code)]

mod account;
mod balances;
mod book;
mod chain;
mod deadlines;
mod entry;
mod index;
mod journal;
mod leg;
mod listing;
mod policy;
mod reading;
mod refusal;
mod reservation;
mod run;
mod script;
mod told;

pub use run::run;

/// The largest volume.
const TOP: u64 = (1 << 56) - 1;
/// The last moment.
const LAST_MOMENT: u64 = (1 << 40) - 1;

//! The rules of the water book, computed from the journal's list of entries.
#![forbid(unsafe_code)]

mod book;
mod bounds;
mod chain;
mod entry;
mod journal;
mod label;
mod leg;
mod listing;
mod order;
mod past;
mod policy;
mod reading;
mod record;
mod refusal;

pub use book::{Book, Moved};
pub use bounds::{ACCOUNTS, LAST_MOMENT, LEGS, RESERVATIONS, ROLL_ENTRIES, TOP};
pub use entry::{Content, Entry, Fields};
pub use journal::{Journal, Roll, Strip};
pub use label::Label;
pub use order::{Order, Task};
pub use past::{Account, Fate, Past, Reservation, Totals};
pub use policy::Policy;
pub use reading::Stop;
pub use record::{Record, RECORD_BYTES};
pub use refusal::Refusal;

//! Makes cases.

mod deep;
mod full;
mod lists;
mod planner;
mod probe;
mod small;
mod source;
mod strips;
mod sweeps;
mod values;

pub use source::Source;

//! The proved engine, behind its C interface.

/// Something that runs a script over memory into an output: the code, and how many bytes of the output it wrote.
pub type Run = fn(script: &[u8], memory: &mut [u8], output: &mut [u8]) -> (u32, u64);

/// The proved engine, if this was built with its library.
#[cfg(water_book)]
pub const RUN: Option<Run> = Some(foreign::run);
#[cfg(not(water_book))]
pub const RUN: Option<Run> = None;

#[cfg(water_book)]
mod foreign;

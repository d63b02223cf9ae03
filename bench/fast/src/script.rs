//! The bytes of a script.

use crate::account::Opening;
use crate::leg::{is_order, OrderBytes};
use crate::policy::{Policy, Rule};

const VERSION: u8 = 1;
const HEAD_BYTES: usize = 14;
const ORDER_BYTES: usize = size_of::<OrderBytes>();
const MOST_ORDERS: u8 = 64;
const MOST_LAPSES: u16 = 300;
/// The longest buffer of a report.
pub const MOST_BYTES: u16 = 12096;

/// Why a script was not run, or not to its end.
#[derive(Clone, Copy, Debug, PartialEq, Eq)]
#[repr(u32)]
pub enum Code {
    Head = 1,
    Journal = 2,
    Policy = 3,
    Cut = 4,
    Call = 5,
    Order = 6,
    List = 7,
    Output = 8,
}

#[derive(Clone, Copy)]
pub enum Kind {
    Roll,
    Strip,
    RollAndStrip,
    StripAndRoll,
}

pub struct Head {
    pub journal: Kind,
    pub policy: Policy,
    pub used: u64,
}

pub enum Call<'s> {
    Open(Opening),
    /// The orders are fewer than the count where the script ends inside the call.
    Batch {
        count: usize,
        orders: &'s [OrderBytes],
        answers: usize,
    },
    Move {
        moment: u64,
        lapses: usize,
    },
    Report {
        bytes: usize,
    },
    Account(u32),
    Reservation(u32),
    Moment,
    Reading,
}

/// The head and the calls behind it, or the first fault of the script.
pub fn check(script: &[u8]) -> Result<(Head, Calls<'_>), Code> {
    let (head, rest) = script.split_first_chunk().ok_or(Code::Head)?;
    let head = Head::read(head)?;
    let mut calls = Calls { rest };
    while let Some(call) = calls.next()? {
        if let Call::Batch { count, orders, .. } = call {
            if !orders.iter().all(is_order) {
                return Err(Code::Order);
            }
            if orders.len() < count {
                return Err(Code::Cut);
            }
        }
    }
    Ok((head, Calls { rest }))
}

impl Head {
    fn read(bytes: &[u8; HEAD_BYTES]) -> Result<Head, Code> {
        let &[version, journal, policy, class, below, from, ref used @ ..] = bytes;
        if version != VERSION {
            return Err(Code::Head);
        }
        let journal = match journal {
            0 => Kind::Roll,
            1 => Kind::Strip,
            2 => Kind::RollAndStrip,
            3 => Kind::StripAndRoll,
            _ => return Err(Code::Journal),
        };
        let policy = match policy {
            3 => Policy { class, below: rule(below)?, from: rule(from)? },
            single => Policy { class: 0, below: rule(single)?, from: rule(single)? },
        };
        Ok(Head { journal, policy, used: u64::from_be_bytes(*used) })
    }
}

fn rule(byte: u8) -> Result<Rule, Code> {
    match byte {
        0 => Ok(Rule::Open),
        1 => Ok(Rule::Floor),
        2 => Ok(Rule::Ceiling),
        _ => Err(Code::Policy),
    }
}

/// The calls that are still to come.
pub struct Calls<'s> {
    rest: &'s [u8],
}

impl<'s> Calls<'s> {
    #[inline]
    pub fn next(&mut self) -> Result<Option<Call<'s>>, Code> {
        if self.rest.is_empty() {
            return Ok(None);
        }
        self.call().map(Some)
    }

    #[inline]
    fn call(&mut self) -> Result<Call<'s>, Code> {
        Ok(match self.u8()? {
            1 => Call::Open(Opening {
                number: self.u32()?,
                ledger: self.u16()?,
                class: self.u8()?,
                limit: self.u64()?,
                label: self.u64()?,
            }),
            2 => self.batch()?,
            3 => Call::Move { moment: self.u64()?, lapses: within(self.u16()?, MOST_LAPSES)? },
            4 => Call::Report { bytes: within(self.u16()?, MOST_BYTES)? },
            5 => Call::Account(self.u32()?),
            6 => Call::Reservation(self.u32()?),
            7 => Call::Moment,
            8 => Call::Reading,
            _ => return Err(Code::Call),
        })
    }

    #[inline]
    fn batch(&mut self) -> Result<Call<'s>, Code> {
        let count = within(self.u8()?, MOST_ORDERS)?;
        let answers = within(self.u8()?, MOST_ORDERS)?;
        let whole = count.min(self.rest.len() / ORDER_BYTES);
        let (orders, rest) = self.rest.split_at(whole * ORDER_BYTES);
        self.rest = rest;
        Ok(Call::Batch { count, orders: orders.as_chunks().0, answers })
    }

    #[inline]
    fn take<const N: usize>(&mut self) -> Result<[u8; N], Code> {
        let (taken, rest) = self.rest.split_first_chunk().ok_or(Code::Cut)?;
        self.rest = rest;
        Ok(*taken)
    }

    fn u8(&mut self) -> Result<u8, Code> {
        self.take().map(u8::from_be_bytes)
    }

    fn u16(&mut self) -> Result<u16, Code> {
        self.take().map(u16::from_be_bytes)
    }

    fn u32(&mut self) -> Result<u32, Code> {
        self.take().map(u32::from_be_bytes)
    }

    fn u64(&mut self) -> Result<u64, Code> {
        self.take().map(u64::from_be_bytes)
    }
}

fn within<T: Into<usize> + PartialOrd>(length: T, most: T) -> Result<usize, Code> {
    if length > most {
        return Err(Code::List);
    }
    Ok(length.into())
}

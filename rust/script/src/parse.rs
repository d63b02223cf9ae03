//! The bytes of a script, looked at from the front.

use crate::code::Code;
use crate::script::{Call, Head, JournalKind, Script};
use engine::{Order, Policy, Task};

const VERSION: u8 = 1;
const HEAD_BYTES: usize = 14;
const ORDER_BYTES: usize = 26;
const MOST_ORDERS: u8 = 64;
/// The most places of a list of lapses.
pub const MOST_LAPSES: u16 = 300;
/// The longest buffer of a report.
pub const MOST_REPORT_BYTES: u16 = 12096;

/// The script, or the first fault in it.
pub fn parse(bytes: &[u8]) -> Result<Script, Code> {
    let mut bytes = Bytes { rest: bytes };
    let head = head(bytes.take(HEAD_BYTES).map_err(|_| Code::Head)?)?;
    let mut calls = Vec::new();
    while !bytes.rest.is_empty() {
        calls.push(call(&mut bytes)?);
    }
    Ok(Script { head, calls })
}

fn head(bytes: &[u8]) -> Result<Head, Code> {
    if bytes[0] != VERSION {
        return Err(Code::Head);
    }
    let journal = match bytes[1] {
        0 => JournalKind::Roll,
        1 => JournalKind::Strip,
        2 => JournalKind::RollAndStrip,
        3 => JournalKind::StripAndRoll,
        _ => return Err(Code::Journal),
    };
    let policy = match bytes[2] {
        3 => Policy::ByClass(
            bytes[3],
            Box::new(simple_policy(bytes[4])?),
            Box::new(simple_policy(bytes[5])?),
        ),
        simple => simple_policy(simple)?,
    };
    let used = number(&bytes[6..14]);
    Ok(Head { journal, policy, used })
}

fn simple_policy(byte: u8) -> Result<Policy, Code> {
    match byte {
        0 => Ok(Policy::Open),
        1 => Ok(Policy::Floor),
        2 => Ok(Policy::Ceiling),
        _ => Err(Code::Policy),
    }
}

fn call(bytes: &mut Bytes) -> Result<Call, Code> {
    match bytes.u8()? {
        1 => Ok(Call::Open {
            number: bytes.u32()?,
            ledger: bytes.u16()?,
            class: bytes.u8()?,
            limit: bytes.u64()?,
            label: bytes.u64()?,
        }),
        2 => batch(bytes),
        3 => Ok(Call::Move { moment: bytes.u64()?, lapses: within(bytes.u16()?, MOST_LAPSES)? }),
        4 => Ok(Call::Report { bytes: within(bytes.u16()?, MOST_REPORT_BYTES)? }),
        5 => Ok(Call::AskAccount(bytes.u32()?)),
        6 => Ok(Call::AskReservation(bytes.u32()?)),
        7 => Ok(Call::AskMoment),
        8 => Ok(Call::AskReading),
        _ => Err(Code::Call),
    }
}

fn batch(bytes: &mut Bytes) -> Result<Call, Code> {
    let count = within(bytes.u8()?, MOST_ORDERS)?;
    let answers = within(bytes.u8()?, MOST_ORDERS)?;
    let orders = (0..count).map(|_| order(bytes.take(ORDER_BYTES)?)).collect::<Result<_, _>>()?;
    Ok(Call::Batch { orders, answers })
}

fn order(bytes: &[u8]) -> Result<Order, Code> {
    let linked = match bytes[4] {
        0 => false,
        1 => true,
        _ => return Err(Code::Order),
    };
    let first = number(&bytes[6..10]) as u32;
    let second = number(&bytes[10..14]) as u32;
    let amount = number(&bytes[14..22]);
    let task = match bytes[5] {
        2 => Task::Transfer { debit: first, credit: second, amount },
        3 => Task::Reserve {
            debit: first,
            credit: second,
            amount,
            duration: number(&bytes[22..26]) as u32,
        },
        4 => Task::Post { reservation: first, amount },
        5 => Task::Void { reservation: first },
        _ => return Err(Code::Order),
    };
    Ok(Order { number: number(&bytes[0..4]) as u32, linked, task })
}

fn within<T: Into<usize> + PartialOrd>(length: T, most: T) -> Result<usize, Code> {
    if length > most {
        Err(Code::List)
    } else {
        Ok(length.into())
    }
}

/// What is left of the script.
struct Bytes<'a> {
    rest: &'a [u8],
}

impl<'a> Bytes<'a> {
    fn take(&mut self, count: usize) -> Result<&'a [u8], Code> {
        let (taken, rest) = self.rest.split_at_checked(count).ok_or(Code::Cut)?;
        self.rest = rest;
        Ok(taken)
    }

    fn u8(&mut self) -> Result<u8, Code> {
        Ok(self.take(1)?[0])
    }

    fn u16(&mut self) -> Result<u16, Code> {
        Ok(number(self.take(2)?) as u16)
    }

    fn u32(&mut self) -> Result<u32, Code> {
        Ok(number(self.take(4)?) as u32)
    }

    fn u64(&mut self) -> Result<u64, Code> {
        Ok(number(self.take(8)?))
    }
}

fn number(bytes: &[u8]) -> u64 {
    bytes.iter().fold(0, |n, &b| n << 8 | u64::from(b))
}

#[cfg(test)]
mod tests {
    use super::*;

    const HEAD: [u8; 14] = [1, 0, 0, 9, 9, 9, 0, 0, 0, 0, 0, 0, 0, 7];

    fn with_calls(calls: &[u8]) -> Vec<u8> {
        [&HEAD, calls].concat()
    }

    fn with_head(place: usize, byte: u8) -> Vec<u8> {
        let mut bytes = HEAD.to_vec();
        bytes[place] = byte;
        bytes
    }

    #[test]
    fn faults() {
        let order_cut = with_calls(&[2, 1, 1, 0, 0, 0, 1, 9, 9]);
        let mut order_marked = order_cut.clone();
        order_marked.resize(14 + 3 + 26, 0);
        let mut order_of_no_kind = order_marked.clone();
        order_of_no_kind[14 + 3 + 4] = 1;
        let table = [
            (vec![], Code::Head),
            (HEAD[..13].to_vec(), Code::Head),
            (with_head(0, 2), Code::Head),
            (with_head(1, 4), Code::Journal),
            (with_head(2, 4), Code::Policy),
            (with_head(2, 3), Code::Policy),
            (with_calls(&[0]), Code::Call),
            (with_calls(&[9]), Code::Call),
            (with_calls(&[255]), Code::Call),
            (with_calls(&[1, 0]), Code::Cut),
            (with_calls(&[2]), Code::Cut),
            (with_calls(&[2, 65]), Code::List),
            (with_calls(&[2, 64]), Code::Cut),
            (with_calls(&[2, 0, 65]), Code::List),
            (order_cut, Code::Cut),
            (order_marked, Code::Order),
            (order_of_no_kind, Code::Order),
            (with_calls(&[3, 0, 0, 0, 0, 0, 0, 0, 0, 1]), Code::Cut),
            (with_calls(&[3, 0, 0, 0, 0, 0, 0, 0, 0, 1, 45]), Code::List),
            (with_calls(&[4, 47, 65]), Code::List),
            (with_calls(&[7, 8, 6, 0, 0, 0]), Code::Cut),
        ];
        for (bytes, code) in table {
            assert_eq!(parse(&bytes), Err(code), "{bytes:?}");
        }
    }

    #[test]
    fn calls() {
        let bytes = with_calls(&[7, 8, 5, 0, 0, 0, 2, 4, 47, 64, 2, 0, 64]);
        let script = parse(&bytes).expect("sound");
        assert_eq!(script.head.used, 7);
        assert_eq!(script.head.policy, Policy::Open);
        let expected = [
            Call::AskMoment,
            Call::AskReading,
            Call::AskAccount(2),
            Call::Report { bytes: 12096 },
            Call::Batch { orders: vec![], answers: 64 },
        ];
        assert_eq!(script.calls, expected);
    }
}

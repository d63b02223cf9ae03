//! Scripts to measure: on a strip, under a floor, but for those of every call.

const BATCH: usize = 64;

fn head(used: usize) -> Vec<u8> {
    let mut script = vec![1, 1, 1, 0, 0, 0];
    script.extend((used as u64).to_be_bytes());
    script
}

fn open(script: &mut Vec<u8>, number: u32) {
    script.push(1);
    script.extend(number.to_be_bytes());
    script.extend([0, 7, 1]);
    script.extend((1u64 << 50).to_be_bytes());
    script.extend(*b"DAM     ");
}

fn order(script: &mut Vec<u8>, number: usize, kind: u8, first: u32, second: u32, amount: u64) {
    script.extend((number as u32).to_be_bytes());
    script.extend([0, kind]);
    script.extend(first.to_be_bytes());
    script.extend(second.to_be_bytes());
    script.extend(amount.to_be_bytes());
    script.extend(0u32.to_be_bytes());
}

fn batches(script: &mut Vec<u8>, count: usize, mut each: impl FnMut(&mut Vec<u8>, usize)) {
    for first in (0..count).step_by(BATCH) {
        let orders = BATCH.min(count - first);
        script.extend([2, orders as u8, orders as u8]);
        for place in first..first + orders {
            each(script, place);
        }
    }
}

/// A number of transfers between two accounts.
pub fn transfers(count: usize) -> Vec<u8> {
    let mut script = head(0);
    open(&mut script, 1);
    open(&mut script, 2);
    batches(&mut script, count, |script, place| {
        order(script, place + 1, 2, 1 + place as u32 % 2, 2 - place as u32 % 2, 3);
    });
    script
}

/// Pairs of a reserve and its post; a book has room for 256.
pub fn pairs(count: usize) -> Vec<u8> {
    let mut script = head(0);
    open(&mut script, 1);
    open(&mut script, 2);
    batches(&mut script, 2 * count, |script, place| match place % 2 {
        0 => order(script, place + 1, 3, 1, 2, 5),
        _ => order(script, place + 1, 4, place as u32, 0, 4),
    });
    script
}

/// Reading a strip of which so many bytes are in use, and no call.
pub fn reading(used: usize) -> Vec<u8> {
    head(used)
}

/// Every call, with the longest lists, on a journal of any kind; so many bytes of the strip are in use.
pub fn every_call(journal: u8, used: usize) -> Vec<u8> {
    let mut script = head(used);
    (script[1], script[2]) = (journal, 3);
    open(&mut script, 1);
    open(&mut script, 2);
    batches(&mut script, BATCH, |script, place| match place % 4 {
        0 | 1 => order(script, 1001 + place, 3, 1, 2, 5),
        2 => order(script, 1001 + place, 4, 999 + place as u32, 0, 4),
        _ => order(script, 1001 + place, 5, 999 + place as u32, 0, 0),
    });
    script.extend([3, 0, 0, 0, 0, 0, 0, 0, 9]);
    script.extend(script::MOST_LAPSES.to_be_bytes());
    script.push(4);
    script.extend(script::MOST_REPORT_BYTES.to_be_bytes());
    script.extend([5, 0, 0, 0, 1, 6, 0, 0, 3, 233, 7, 8]);
    script
}

/// Room for so many records.
pub fn memory(records: usize) -> Vec<u8> {
    vec![0; 1 + 48 * records]
}

/// No call, on a new strip.
pub fn empty() -> Vec<u8> {
    head(0)
}

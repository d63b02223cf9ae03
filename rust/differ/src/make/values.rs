use crate::plan::Head;
use crate::rng::Rng;
use engine::{LAST_MOMENT, TOP};

/// Amounts and limits where something may go wrong.
const EDGES: [u64; 11] =
    [0, 1, 2, TOP / 2, TOP / 2 + 1, TOP - 1, TOP, TOP + 1, 1 << 32, 1 << 63, u64::MAX];
const LIMITS: [u64; 8] = [0, 0, 3, 50, 1000, 1000, 1_000_000, TOP];
const LABELS: [&[u8; 8]; 15] = [
    b"RESERVE8",
    b"RESERVE-",
    b"RESERVE ",
    b"DAM     ",
    b"DAM-2   ",
    b"DAM1    ",
    b"DAMS    ",
    b"MILL    ",
    b"GATE-12 ",
    b"RESERVE9",
    b"A       ",
    b"-       ",
    b"0       ",
    b"Z9-Z9-Z9",
    b"--------",
];
const BAD_LABELS: [&[u8; 8]; 10] = [
    b"        ",
    b" DAM    ",
    b"A B     ",
    b"dam     ",
    b"DAM\0\0\0\0\0",
    b"DAM    \0",
    b"A      B",
    b"DAM_    ",
    b"DAM/@[: ",
    b"\0\0\0\0\0\0\0\0",
];

/// A litre number: mostly small, and an edge in so many of a thousand times.
pub fn amount(rng: &mut Rng, edges: u64) -> u64 {
    if rng.in_thousand(edges) {
        rng.pick(&EDGES)
    } else {
        rng.within(1, 40)
    }
}

pub fn limit(rng: &mut Rng, edges: u64) -> u64 {
    if rng.in_thousand(edges) {
        rng.pick(&EDGES)
    } else {
        rng.pick(&LIMITS)
    }
}

pub fn class(rng: &mut Rng) -> u8 {
    rng.pick(&[0, 1, 2, 3, 127, 128, 254, 255])
}

/// A label, mostly of few so that some are shared, or a malformed one.
pub fn label(rng: &mut Rng, faults: u64) -> u64 {
    if rng.in_thousand(faults) {
        return bad_label(rng);
    }
    if rng.in_thousand(500) {
        return u64::from_be_bytes(*rng.pick(&LABELS));
    }
    if rng.in_thousand(400) {
        let mut bytes = *b"AAAAAAAA";
        bytes[rng.place(8)] = rng.pick(b"B-0Z");
        return u64::from_be_bytes(bytes);
    }
    let mut bytes = [b' '; 8];
    for place in bytes.iter_mut().take(1 + rng.place(8)) {
        *place = rng.pick(b"ABCXYZ0189-");
    }
    u64::from_be_bytes(bytes)
}

fn bad_label(rng: &mut Rng) -> u64 {
    if rng.in_thousand(600) {
        return u64::from_be_bytes(*rng.pick(&BAD_LABELS));
    }
    let mut bytes = *rng.pick(&LABELS);
    bytes[rng.place(8)] = rng.below(256) as u8;
    u64::from_be_bytes(bytes)
}

pub fn duration(rng: &mut Rng) -> u32 {
    match rng.below(20) {
        0..=3 => 0,
        4..=6 => 1,
        7..=16 => rng.within(2, 60) as u32,
        17 => 3600,
        18 => rng.next() as u32,
        _ => u32::MAX,
    }
}

/// A moment at an edge, whatever the book's is.
pub fn edge_moment(rng: &mut Rng) -> u64 {
    rng.pick(&[0, 1, LAST_MOMENT - 1, LAST_MOMENT, LAST_MOMENT + 1, 1 << 41, u64::MAX])
}

/// A head with any journal and policy, not yet with a used length.
pub fn head(rng: &mut Rng) -> Head {
    let head = Head::new(rng.pick(&[0, 1, 1, 2, 3]), rng.pick(&[0, 0, 1, 2, 3]));
    if head.policy == 3 {
        Head {
            class: rng.pick(&[0, 1, 2, 128, 255]),
            below: rng.below(3) as u8,
            from: rng.below(3) as u8,
            ..head
        }
    } else {
        head
    }
}

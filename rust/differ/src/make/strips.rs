//! Journals that one script wrote, damaged, and read by another.

use super::deep::extend;
use super::planner::Planner;
use super::probe::see;
use super::values::{amount, head, label};
use crate::case::{pattern, Case};
use crate::plan::{Call, Head, Plan};
use crate::rng::Rng;
use engine::{Fields, LAST_MOMENT, RECORD_BYTES, TOP};

pub fn damaged(mut rng: Rng) -> Case {
    let policy = head(&mut rng);
    let first = Head { journal: 1, ..policy }.with_used(0);
    let spare = rng.pick(&[5, 12, 30, 60, 90]);
    let memory = 1 + RECORD_BYTES * spare + rng.place(RECORD_BYTES);
    let (accounts, count) = (2 + rng.place(4), rng.place(40));
    let mut planner = Planner::new(rng);
    let faults = planner.rng.pick(&[0, 10, 30]);
    planner.temper().faults = faults;
    let mut plan = Plan { head: first, calls: planner.openings(accounts) };
    let memory = pattern(memory);
    extend(&mut plan, &memory, &mut planner, count);
    let seen = see(&plan, &memory);
    planner.learn(&seen);
    let mut strip = Strip { memory: seen.memory, used: seen.used };
    strip.damage(&mut planner.rng);
    let second = second_head(&mut planner.rng, policy, strip.used);
    let calls = reading_calls(&mut planner);
    let plan = Plan { head: second, calls };
    Case::of_plan(plan, strip.memory)
}

fn second_head(rng: &mut Rng, policy: Head, used: u64) -> Head {
    let policy = if rng.in_thousand(150) { head(rng) } else { policy };
    let journal = rng.pick(&[1, 1, 1, 1, 3, 3, 2, 0]);
    Head { journal, ..policy }.with_used(used)
}

/// Looks at what was read, and goes on from there.
fn reading_calls(planner: &mut Planner) -> Vec<Call> {
    let mut calls = vec![Call::Reading, Call::Moment];
    for _ in 0..3 {
        calls.push(Call::Account(planner.some_account()));
        calls.push(Call::Reservation(planner.any_reservation()));
    }
    let count = planner.rng.place(12);
    calls.extend(planner.calls(count));
    calls.push(Call::Report { bytes: 1000 });
    calls
}

struct Strip {
    memory: Vec<u8>,
    used: u64,
}

impl Strip {
    fn damage(&mut self, rng: &mut Rng) {
        for _ in 0..rng.pick(&[0, 1, 1, 1, 1, 2, 3]) {
            match rng.below(16) {
                0 => self.used = rng.below(self.memory.len() as u64 + 9),
                1 => self.used = self.near_boundary(rng),
                2 => self.change_byte(rng),
                3 => self.memory[0] = rng.pick(&[0, 2, 129, 255]),
                4 => self.memory.truncate(1 + rng.place(self.memory.len())),
                5 => self.memory.extend(pattern(rng.place(200))),
                6 => self.swap(rng),
                7 => self.repeat(rng),
                8 => self.remove(rng),
                9 => self.link_run(rng),
                10 => self.name_again(rng),
                11 => self.raise(rng),
                _ => self.change_field(rng),
            }
        }
    }

    fn count(&self) -> usize {
        let used = (self.used as usize).min(self.memory.len());
        used.saturating_sub(1) / RECORD_BYTES
    }

    fn near_boundary(&self, rng: &mut Rng) -> u64 {
        let records = rng.place(self.count() + 1);
        let boundary = (1 + RECORD_BYTES * records) as u64;
        (boundary + rng.below(3)).saturating_sub(1)
    }

    fn change_byte(&mut self, rng: &mut Rng) {
        let reach = (self.used as usize).clamp(1, self.memory.len());
        let place = rng.place(reach);
        self.memory[place] = match rng.below(3) {
            0 => rng.next() as u8,
            1 => self.memory[place].wrapping_add(1),
            _ => self.memory[place] ^ (1 << rng.below(8)),
        };
    }

    fn record(&mut self, place: usize) -> &mut [u8] {
        &mut self.memory[1 + RECORD_BYTES * place..][..RECORD_BYTES]
    }

    /// Copies one record over another.
    fn repeat(&mut self, rng: &mut Rng) {
        if self.count() > 0 {
            let (from, to) = (rng.place(self.count()), rng.place(self.count()));
            let copy = self.record(from).to_vec();
            self.record(to).copy_from_slice(&copy);
        }
    }

    /// Swaps two neighbours, or any two records.
    fn swap(&mut self, rng: &mut Rng) {
        if self.count() > 1 {
            let one = rng.place(self.count() - 1);
            let other = rng.pick(&[one + 1, rng.clone().place(self.count())]);
            let (copy, second) = (self.record(one).to_vec(), self.record(other).to_vec());
            self.record(one).copy_from_slice(&second);
            self.record(other).copy_from_slice(&copy);
        }
    }

    fn remove(&mut self, rng: &mut Rng) {
        if self.count() > 0 {
            let start = 1 + RECORD_BYTES * rng.place(self.count());
            self.memory.drain(start..start + RECORD_BYTES);
            self.used = self.used.saturating_sub(RECORD_BYTES as u64);
        }
    }

    /// Marks some records in a row as linked, and gives them one moment.
    fn link_run(&mut self, rng: &mut Rng) {
        let start = rng.place(self.count() + 1);
        let end = (start + 1 + rng.place(18)).min(self.count());
        let moment = self.fields(start).map_or(0, |f| f.moment);
        for place in start..end {
            self.with_fields(place, |fields| {
                fields.flags = 1;
                fields.moment = moment;
            });
        }
    }

    /// Lets all posts and voids from a place on name one reservation.
    fn name_again(&mut self, rng: &mut Rng) {
        let named = (0..self.count()).filter_map(|place| self.fields(place));
        let named: Vec<_> = named.filter(|f| f.kind > 3).map(|f| f.first).collect();
        if named.is_empty() {
            return;
        }
        let first = rng.pick(&named);
        for place in rng.place(self.count())..self.count() {
            self.with_fields(place, |fields| {
                if fields.kind > 3 {
                    fields.first = first;
                }
            });
        }
    }

    /// Makes the amounts of some transfers and reserves so large that they pass the top together.
    fn raise(&mut self, rng: &mut Rng) {
        for place in 0..self.count() {
            let is_chosen = rng.in_thousand(400);
            self.with_fields(place, |fields| {
                if is_chosen && [2, 3].contains(&fields.kind) {
                    fields.amount = TOP / 2 + 1;
                }
            });
        }
    }

    fn fields(&self, place: usize) -> Option<Fields> {
        let record = self.memory.get(1 + RECORD_BYTES * place..)?;
        Fields::of_record(record.first_chunk()?)
    }

    fn with_fields(&mut self, place: usize, change: impl FnOnce(&mut Fields)) {
        if let Some(mut fields) = self.fields(place) {
            change(&mut fields);
            self.record(place).copy_from_slice(&fields.record());
        }
    }

    fn change_field(&mut self, rng: &mut Rng) {
        if self.count() == 0 {
            return;
        }
        let place = rng.place(self.count());
        self.with_fields(place, |fields| change_one(fields, rng));
    }
}

/// Changes one field, mostly so that the entry stays sound.
fn change_one(fields: &mut Fields, rng: &mut Rng) {
    let small = |rng: &mut Rng| rng.below(40) as u32;
    match rng.below(13) {
        0 => fields.flags ^= 1,
        1 => fields.flags = rng.next() as u8,
        2 => fields.kind = rng.below(7) as u8,
        3 => fields.number = rng.pick(&[0, fields.number.wrapping_add(1), u32::MAX]),
        4 => fields.number = small(rng),
        5 => fields.first = small(rng),
        6 => fields.second = small(rng),
        7 => fields.amount = amount(rng, 300),
        8 => fields.moment = (fields.moment + rng.below(3)).saturating_sub(1),
        9 => fields.moment = rng.pick(&[0, LAST_MOMENT, LAST_MOMENT + 1]),
        10 => fields.until = until(fields.moment, rng),
        11 => fields.label = label(rng, 300),
        _ => fields.first = rng.pick(&[0, 65535, 65536, u32::MAX]),
    }
}

fn until(moment: u64, rng: &mut Rng) -> u64 {
    let moment = moment.min(LAST_MOMENT);
    let furthest = moment + u64::from(u32::MAX);
    let near = moment + rng.below(20);
    rng.pick(&[0, 1, moment, moment + 1, near, furthest, furthest + 1])
}

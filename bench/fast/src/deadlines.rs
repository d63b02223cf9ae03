use crate::reservation::RESERVATIONS;

/// The deadlines of live reservations, earliest first, and among equal ones by place. The places rise with the
/// numbers. A key is the deadline and, in its lowest 8 bits, the place.
pub struct Deadlines {
    count: usize,
    keys: [u64; RESERVATIONS],
}

fn key(deadline: u64, place: usize) -> u64 {
    deadline << 8 | place as u64
}

impl Deadlines {
    pub const EMPTY: Deadlines = Deadlines { count: 0, keys: [0; RESERVATIONS] };

    fn live(&self) -> &[u64] {
        &self.keys[..self.count]
    }

    pub fn insert(&mut self, deadline: u64, place: usize) {
        let key = key(deadline, place);
        let at = match self.live().last() {
            Some(&last) if last > key => self.live().partition_point(|&k| k < key),
            _ => self.count,
        };
        self.keys.copy_within(at..self.count, at + 1);
        self.keys[at] = key;
        self.count += 1;
    }

    pub fn remove(&mut self, deadline: u64, place: usize) {
        let key = key(deadline, place);
        let at = self.live().partition_point(|&k| k < key);
        self.keys.copy_within(at + 1..self.count, at);
        self.count -= 1;
    }

    /// The earliest deadline, or 0 if there is none.
    pub fn earliest(&self) -> u64 {
        self.live().first().map_or(0, |key| key >> 8)
    }

    /// How many are at or below the moment.
    #[inline]
    pub fn due(&self, moment: u64) -> usize {
        if self.count == 0 || self.keys[0] >> 8 > moment {
            return 0;
        }
        self.live().partition_point(|key| key >> 8 <= moment)
    }

    /// The place of the reservation whose deadline is n-th, from 0.
    pub fn place(&self, n: usize) -> usize {
        (self.keys[n] & 0xFF) as usize
    }

    pub fn drop_first(&mut self, many: usize) {
        self.keys.copy_within(many..self.count, 0);
        self.count -= many;
    }
}

#[cfg(test)]
mod tests {
    use super::*;

    #[test]
    fn keeps_their_order() {
        let mut deadlines = Deadlines::EMPTY;
        let given = [1060, 1030, 2000, 1060, 1103806595070, 1059];
        for (place, &deadline) in given.iter().enumerate() {
            deadlines.insert(deadline, place);
        }
        deadlines.remove(1059, 5);
        assert_eq!((deadlines.due(1029), deadlines.due(1060)), (0, 3));
        let places: Vec<_> = (0..5).map(|n| deadlines.place(n)).collect();
        assert_eq!(places, [1, 0, 3, 2, 4]);
        deadlines.drop_first(3);
        assert_eq!((deadlines.earliest(), deadlines.due(u64::MAX)), (2000, 2));
        deadlines.drop_first(2);
        assert_eq!((deadlines.earliest(), deadlines.due(u64::MAX)), (0, 0));
    }
}

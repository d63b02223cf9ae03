/// Finds places in a table by number: open addressing, SLOTS a power of two and at least twice the table's rows.
pub struct Index<const SLOTS: usize> {
    /// 0 where free, else the place and 1.
    slots: [u16; SLOTS],
}

impl<const SLOTS: usize> Index<SLOTS> {
    pub const EMPTY: Self = Index { slots: [0; SLOTS] };

    #[inline(always)]
    pub fn find(&self, number: u32, number_at: impl Fn(usize) -> u32) -> Option<usize> {
        let mut slot = first_slot::<SLOTS>(number);
        loop {
            let place = usize::from(self.slots[slot]).checked_sub(1)?;
            if number_at(place) == number {
                return Some(place);
            }
            slot = (slot + 1) % SLOTS;
        }
    }

    pub fn insert(&mut self, number: u32, place: usize) {
        let mut slot = first_slot::<SLOTS>(number);
        while self.slots[slot] != 0 {
            slot = (slot + 1) % SLOTS;
        }
        self.slots[slot] = place as u16 + 1;
    }

    /// Takes out the number that was put in last; then no other's search passes over its slot.
    pub fn remove_last(&mut self, number: u32, place: usize) {
        let mut slot = first_slot::<SLOTS>(number);
        while self.slots[slot] != place as u16 + 1 {
            slot = (slot + 1) % SLOTS;
        }
        self.slots[slot] = 0;
    }
}

/// The top bits of the number times 2^32 over the golden ratio.
#[inline(always)]
fn first_slot<const SLOTS: usize>(number: u32) -> usize {
    let spread = number.wrapping_mul(0x9E37_79B1);
    (spread >> (32 - SLOTS.trailing_zeros())) as usize
}

#[cfg(test)]
mod tests {
    use super::*;

    #[test]
    fn finds_what_is_in_it() {
        let numbers: Vec<u32> = (1..=64u32).map(|n| n.wrapping_mul(0x0400_4001)).collect();
        let mut index = Index::<128>::EMPTY;
        for (place, &number) in numbers.iter().enumerate() {
            assert_eq!(index.find(number, |p| numbers[p]), None);
            index.insert(number, place);
        }
        for (place, &number) in numbers.iter().enumerate() {
            assert_eq!(index.find(number, |p| numbers[p]), Some(place));
        }
        assert_eq!(index.find(0, |p| numbers[p]), None);
        for (place, &number) in numbers.iter().enumerate().rev() {
            index.remove_last(number, place);
            assert_eq!(index.find(number, |p| numbers[p]), None);
        }
        assert!(index.slots.iter().all(|&s| s == 0));
    }
}

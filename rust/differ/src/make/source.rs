use super::{deep, full, lists, small, strips, sweeps};
use crate::case::Case;
use crate::rng::Rng;

/// The families of cases, with their shares of the calls.
const FAMILIES: [(Family, u64); 7] = [
    (Family::Long, 35),
    (Family::Short, 15),
    (Family::Strips, 15),
    (Family::Tables, 5),
    (Family::Small, 7),
    (Family::Sweeps, 20),
    (Family::Lists, 3),
];

#[derive(Clone, Copy)]
enum Family {
    Long,
    Short,
    Strips,
    Tables,
    Small,
    Sweeps,
    Lists,
}

/// Gives one case after another, each family its share.
pub struct Source {
    rng: Rng,
    spent: [u64; FAMILIES.len()],
    last: usize,
    small: u64,
    sweeps: Vec<Case>,
}

impl Source {
    pub fn new(seed: u64) -> Source {
        let mut rng = Rng::new(seed);
        // The full books are the first of all sweeps, so that they are run whatever the seed.
        let sweeps = sweeps::full_books().collect();
        Source { small: rng.next(), sweeps, rng, spent: [0; FAMILIES.len()], last: 0 }
    }

    /// The next case, of the family that is furthest behind its share.
    pub fn next(&mut self) -> Case {
        let behind = |place: &usize| self.spent[*place] * 1000 / FAMILIES[*place].1;
        self.last = (0..FAMILIES.len()).min_by_key(behind).unwrap_or(0);
        let rng = Rng::new(self.rng.next());
        match FAMILIES[self.last].0 {
            Family::Long => deep::long(rng),
            Family::Short => deep::short(rng),
            Family::Strips => strips::damaged(rng),
            Family::Tables => full::tables(rng),
            Family::Lists => lists::edges(rng),
            Family::Small => {
                // This step has no divisor in common with the count.
                self.small = (self.small % small::COUNT + 1_000_003) % small::COUNT;
                small::case(self.small)
            }
            Family::Sweeps => loop {
                if let Some(case) = self.sweeps.pop() {
                    break case;
                }
                self.sweeps = sweeps::all(rng.clone());
            },
        }
    }

    /// Says how many calls the last case made; a script costs something too.
    pub fn spend(&mut self, calls: u64) {
        self.spent[self.last] += calls + 1;
    }
}

use crate::past::Totals;

/// A yes-or-no rule over class, limit and totals.
#[derive(Clone, Debug, PartialEq, Eq)]
pub enum Policy {
    Open,
    Floor,
    Ceiling,
    /// The first policy for classes below the number, the second from it on.
    ByClass(u8, Box<Policy>, Box<Policy>),
}

impl Policy {
    pub fn admits(&self, class: u8, limit: u64, totals: &Totals) -> bool {
        let [dp, dq, cp, cq, limit_wide] = [
            totals.debits_pending,
            totals.debits_posted,
            totals.credits_pending,
            totals.credits_posted,
            limit,
        ]
        .map(u128::from);
        match self {
            Policy::Open => true,
            Policy::Floor => dp + dq <= cq + limit_wide,
            Policy::Ceiling => cp + cq <= dq + limit_wide,
            Policy::ByClass(from, below, above) => {
                let chosen = if class < *from { below } else { above };
                chosen.admits(class, limit, totals)
            }
        }
    }
}

#[cfg(test)]
mod tests {
    use super::*;

    fn totals(numbers: [u64; 4]) -> Totals {
        Totals {
            debits_pending: numbers[0],
            debits_posted: numbers[1],
            credits_pending: numbers[2],
            credits_posted: numbers[3],
        }
    }

    #[test]
    fn floor_and_ceiling() {
        let table = [
            ([0, 0, 0, 0], 0, true, true),
            ([0, 900, 0, 900], 0, true, true),
            ([0, 901, 0, 900], 0, false, true),
            ([1, 900, 0, 900], 0, false, true),
            ([0, 100, 500, 0], 0, false, false),
            ([0, 5, 5, 1], 1, false, true),
            ([0, 0, 1, 0], 0, true, false),
            ([1, 0, 0, 1], 0, true, false),
            ([u64::MAX; 4], u64::MAX, true, true),
            ([u64::MAX; 4], u64::MAX - 1, false, false),
        ];
        for (numbers, limit, floor, ceiling) in table {
            let t = totals(numbers);
            assert_eq!(Policy::Floor.admits(0, limit, &t), floor, "{numbers:?}");
            assert_eq!(Policy::Ceiling.admits(0, limit, &t), ceiling, "{numbers:?}");
            assert!(Policy::Open.admits(0, limit, &t));
        }
    }

    #[test]
    fn by_class() {
        let policy = Policy::ByClass(7, Box::new(Policy::Floor), Box::new(Policy::Ceiling));
        let drawn = totals([1, 0, 0, 0]);
        assert!(!policy.admits(6, 0, &drawn));
        assert!(policy.admits(7, 0, &drawn));
    }
}

use crate::account::Side;

/// A yes-or-no rule over limit and totals.
#[derive(Clone, Copy, Debug, PartialEq, Eq)]
pub enum Rule {
    Open,
    Floor,
    Ceiling,
}

/// One rule for the classes below a class, and one from it on. A policy of one rule has it on both sides.
#[derive(Clone, Copy, Debug, PartialEq, Eq)]
pub struct Policy {
    pub class: u8,
    pub below: Rule,
    pub from: Rule,
}

impl Policy {
    /// Volumes here are at most the top, so that no sum of two or three passes 64 bits.
    #[inline(always)]
    pub fn admits(&self, class: u8, limit: u64, debits: Side, credits: Side) -> bool {
        let rule = if class < self.class { self.below } else { self.from };
        match rule {
            Rule::Open => true,
            Rule::Floor => debits.sum() <= credits.posted + limit,
            Rule::Ceiling => credits.sum() <= debits.posted + limit,
        }
    }
}

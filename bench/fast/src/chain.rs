//! Chains of two legs and more, which are taken whole or not at all.

use crate::balances::Balances;
use crate::leg::{Leg, OrderBytes};
use crate::refusal::Refusal;

/// The most legs of a chain.
pub const LEGS: usize = 16;

/// Runs the legs of a chain. On a refusal all is as before, and it comes with the place of its leg.
pub fn run(balances: &mut Balances, chain: &[OrderBytes]) -> Result<(), (usize, Refusal)> {
    let highest = balances.highest;
    for (place, order) in chain.iter().enumerate() {
        if let Err(refusal) = balances.take(&Leg::read(order, balances.moment)) {
            undo(balances, &chain[..place]);
            balances.highest = highest;
            return Err((place, refusal));
        }
    }
    Ok(())
}

fn undo(balances: &mut Balances, taken: &[OrderBytes]) {
    for order in taken.iter().rev() {
        balances.undo(&Leg::read(order, balances.moment));
    }
}

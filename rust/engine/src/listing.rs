use crate::past::{Account, Past, Totals};

/// The listing of the accounts with their totals, as text.
pub fn listing(past: Past) -> String {
    let mut accounts: Vec<_> = past.accounts().collect();
    accounts.sort_unstable_by_key(|a| (a.ledger, a.label, a.number));
    accounts
        .chunk_by(|a, b| a.ledger == b.ledger)
        .map(|ledger| ledger_lines(past, ledger))
        .collect()
}

/// The lines of one ledger and its sum line.
fn ledger_lines(past: Past, accounts: &[Account]) -> String {
    let mut text = String::new();
    let mut sum = Totals::default();
    let ledger = accounts[0].ledger;
    for account in accounts {
        let totals = past.totals(account.number);
        let (label, number) = (account.label.text(), account.number);
        text += &format!("{ledger} {label} {number} {}\n", words(&totals));
        sum.debits_pending += totals.debits_pending;
        sum.debits_posted += totals.debits_posted;
        sum.credits_pending += totals.credits_pending;
        sum.credits_posted += totals.credits_posted;
    }
    text += &format!("{ledger} = {} {}\n", accounts.len(), words(&sum));
    text
}

fn words(totals: &Totals) -> String {
    format!(
        "{} {} {} {}",
        totals.debits_pending, totals.debits_posted, totals.credits_pending, totals.credits_posted
    )
}

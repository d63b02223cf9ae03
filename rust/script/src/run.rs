use crate::code::Code;
use crate::parse::parse;
use crate::script::{Call, Head, JournalKind};
use engine::{Book, Fate, Journal, Order, Refusal};

/// What places of lists and buffers hold before a call.
const ANSWER_FILL: u8 = 15;
const LAPSE_FILL: u32 = u32::MAX;
const BUFFER_FILL: u8 = 0xA5;
/// The code of the end of the output.
const END: u8 = 255;

/// What came of a script.
#[derive(Clone, Debug, PartialEq, Eq)]
pub struct Outcome {
    pub code: u32,
    pub output: Vec<u8>,
    /// How many calls the output tells of.
    pub calls_told: usize,
}

/// Runs a script: its code and its output.
pub fn run(script: &[u8], memory: &mut [u8], output_limit: usize) -> (u32, Vec<u8>) {
    let outcome = run_counted(script, memory, output_limit);
    (outcome.code, outcome.output)
}

/// Runs a script, and counts the calls that the output tells of.
pub fn run_counted(script: &[u8], memory: &mut [u8], output_limit: usize) -> Outcome {
    let mut outcome = Outcome { code: 0, output: Vec::new(), calls_told: 0 };
    let script = match parse(script) {
        Ok(script) => script,
        Err(code) => {
            outcome.code = code.number();
            return outcome;
        }
    };
    let mut book = create(&script.head, memory);
    for call in &script.calls {
        let told = make(&mut book, call);
        if outcome.output.len() + told.len() > output_limit {
            outcome.code = Code::Output.number();
            return outcome;
        }
        outcome.output.extend(told);
        outcome.calls_told += 1;
    }
    let end = end(book.journal());
    if outcome.output.len() + end.len() > output_limit {
        outcome.code = Code::Output.number();
    } else {
        outcome.output.extend(end);
    }
    outcome
}

fn create<'m>(head: &Head, memory: &'m mut [u8]) -> Book<'m> {
    let journal = match head.journal {
        JournalKind::Roll => Journal::roll(),
        JournalKind::Strip => Journal::strip(memory, head.used),
        JournalKind::RollAndStrip => {
            Journal::mirror(Journal::roll(), Journal::strip(memory, head.used))
        }
        JournalKind::StripAndRoll => {
            Journal::mirror(Journal::strip(memory, head.used), Journal::roll())
        }
    };
    Book::new(journal, head.policy.clone())
}

/// Makes one call: what it was told.
fn make(book: &mut Book, call: &Call) -> Vec<u8> {
    match call {
        Call::Open { number, ledger, class, limit, label } => {
            let answer = book.open(*number, *ledger, *class, *limit, *label);
            vec![1, answer_byte(&answer)]
        }
        Call::Batch { orders, answers } => batch(book, orders, *answers),
        Call::Move { moment, lapses } => move_to(book, *moment, *lapses),
        Call::Report { bytes } => report(book, *bytes),
        Call::AskAccount(number) => account(book, *number),
        Call::AskReservation(number) => reservation(book, *number),
        Call::AskMoment => {
            let mut told = vec![7];
            told.extend(book.moment().to_be_bytes());
            told
        }
        Call::AskReading => {
            let (answer, place) =
                book.stop().map_or((0, 0), |stop| (stop.refusal.number(), stop.place));
            let mut told = vec![8, answer];
            told.extend(long(place));
            told
        }
    }
}

fn batch(book: &mut Book, orders: &[Order], places: usize) -> Vec<u8> {
    let mut answers = vec![ANSWER_FILL; places];
    let taken = book.run_batch(orders, &mut answers);
    let mut told = vec![2, answer_byte(&taken)];
    told.extend(long(taken.unwrap_or(0)));
    told.extend(answers);
    told
}

fn move_to(book: &mut Book, moment: u64, places: usize) -> Vec<u8> {
    let mut lapses = vec![LAPSE_FILL; places];
    let moved = book.move_to(moment, &mut lapses);
    let mut told = vec![3, answer_byte(&moved)];
    let (lapsed, next) = moved.map_or((0, 0), |m| (m.lapsed, m.next_deadline.unwrap_or(0)));
    told.extend(long(lapsed));
    told.extend(next.to_be_bytes());
    told.extend(lapses.iter().flat_map(|number| number.to_be_bytes()));
    told
}

fn report(book: &Book, bytes: usize) -> Vec<u8> {
    let mut buffer = vec![BUFFER_FILL; bytes];
    let length = book.report(&mut buffer);
    let mut told = vec![4, answer_byte(&length)];
    told.extend(long(length.unwrap_or(0)));
    told.extend(buffer);
    told
}

fn account(book: &Book, number: u32) -> Vec<u8> {
    let Some((account, totals)) = book.account(number) else {
        return vec![5, 0];
    };
    let mut told = vec![5, 1];
    told.extend(account.number.to_be_bytes());
    told.extend(account.ledger.to_be_bytes());
    told.push(account.class);
    told.extend(account.limit.to_be_bytes());
    told.extend(account.label.number().to_be_bytes());
    told.extend(totals.debits_pending.to_be_bytes());
    told.extend(totals.debits_posted.to_be_bytes());
    told.extend(totals.credits_pending.to_be_bytes());
    told.extend(totals.credits_posted.to_be_bytes());
    told
}

fn reservation(book: &Book, number: u32) -> Vec<u8> {
    let Some(reservation) = book.reservation(number) else {
        return vec![6, 0];
    };
    let mut told = vec![6, 1];
    told.extend(reservation.number.to_be_bytes());
    told.extend(reservation.debit.to_be_bytes());
    told.extend(reservation.credit.to_be_bytes());
    told.extend(reservation.amount.to_be_bytes());
    told.extend(reservation.deadline.unwrap_or(0).to_be_bytes());
    told.push(match book.past().fate(&reservation) {
        Fate::Live => 0,
        Fate::Posted => 1,
        Fate::Voided => 2,
        Fate::Lapsed => 3,
    });
    told
}

/// The journal after the last call.
fn end(journal: &Journal) -> Vec<u8> {
    let mut told = vec![END];
    told.extend(long(journal.count()));
    told.extend(long(journal.spare()));
    for entry in journal.entries() {
        told.extend(entry.record());
    }
    told.extend(long(journal.strip_used()));
    told
}

fn answer_byte<T>(answer: &Result<T, Refusal>) -> u8 {
    match answer {
        Ok(_) => 0,
        Err(refusal) => refusal.number(),
    }
}

fn long(number: usize) -> [u8; 8] {
    (number as u64).to_be_bytes()
}

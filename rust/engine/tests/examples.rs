//! The examples of the rule book.

use engine::{Book, Content, Entry, Fate, Fields, Journal, Label, Order, Policy, Refusal, Stop};
use engine::{Task, Totals, LAST_MOMENT, TOP};

const DAM: u64 = 0x44414D2020202020;

/// A book over a roll, with accounts 1 and 2 in one ledger.
fn book(policy: Policy, limit: u64) -> Book<'static> {
    let mut book = Book::new(Journal::roll(), policy);
    for number in 1..=2 {
        assert_eq!(book.open(number, 7, 0, limit, DAM), Ok(()));
    }
    book
}

fn order(number: u32, task: Task) -> Order {
    Order { number, linked: false, task }
}

fn linked(number: u32, task: Task) -> Order {
    Order { linked: true, ..order(number, task) }
}

fn transfer(debit: u32, credit: u32, amount: u64) -> Task {
    Task::Transfer { debit, credit, amount }
}

fn reserve(amount: u64, duration: u32) -> Task {
    Task::Reserve { debit: 1, credit: 2, amount, duration }
}

fn post(reservation: u32, amount: u64) -> Task {
    Task::Post { reservation, amount }
}

/// Runs one order alone: its answer.
fn one(book: &mut Book, number: u32, task: Task) -> u8 {
    let mut answers = [255];
    let taken = book.run_batch(&[order(number, task)], &mut answers);
    assert_eq!(taken, Ok(usize::from(answers[0] == 0)));
    answers[0]
}

fn totals(book: &Book, account: u32) -> [u64; 4] {
    let t: Totals = book.account(account).expect("opened").1;
    [t.debits_pending, t.debits_posted, t.credits_pending, t.credits_posted]
}

fn fate(book: &Book, number: u32) -> Fate {
    let reservation = book.reservation(number).expect("reserved");
    book.past().fate(&reservation)
}

#[test]
fn posts() {
    let table = [(250, 0), (400, 0), (401, 35), (0, 35), (TOP + 1, 35)];
    for (amount, answer) in table {
        let mut book = book(Policy::Open, 0);
        assert_eq!(one(&mut book, 1, reserve(400, 0)), 0);
        assert_eq!(one(&mut book, 2, post(1, amount)), answer);
        if answer == 0 {
            assert_eq!(totals(&book, 1), [0, amount, 0, 0]);
            assert_eq!(totals(&book, 2), [0, 0, 0, amount]);
            assert_eq!(fate(&book, 1), Fate::Posted);
            assert_eq!(one(&mut book, 3, Task::Void { reservation: 1 }), 32);
        } else {
            assert_eq!(fate(&book, 1), Fate::Live);
            assert_eq!(one(&mut book, 3, Task::Void { reservation: 1 }), 0);
            assert_eq!(one(&mut book, 4, post(1, 1)), 33);
        }
    }
}

#[test]
fn lapses() {
    let table = [(60, 1059, Fate::Live), (60, 1060, Fate::Lapsed), (0, LAST_MOMENT, Fate::Live)];
    for (duration, moment, expected) in table {
        let mut book = book(Policy::Open, 0);
        book.move_to(1000, &mut []).expect("no lapses");
        assert_eq!(one(&mut book, 1, reserve(9, duration)), 0);
        book.move_to(moment, &mut [0]).expect("room for one");
        assert_eq!(fate(&book, 1), expected);
        let pending = if expected == Fate::Live { 9 } else { 0 };
        assert_eq!(totals(&book, 1), [pending, 0, 0, 0]);
        let answer = if expected == Fate::Live { 0 } else { 34 };
        assert_eq!(one(&mut book, 2, post(1, 9)), answer);
    }
}

#[test]
fn floor() {
    for (amount, answer) in [(900, 0), (901, 28)] {
        let mut book = Book::new(Journal::roll(), Policy::Floor);
        assert_eq!(book.open(1, 7, 0, 0, DAM), Ok(()));
        assert_eq!(book.open(2, 7, 0, 900, DAM), Ok(()));
        assert_eq!(one(&mut book, 1, transfer(2, 1, 900)), 0);
        assert_eq!(one(&mut book, 2, transfer(1, 2, amount)), answer);
    }
    let mut book = book(Policy::Floor, 500);
    assert_eq!(book.open(3, 7, 0, 0, DAM), Ok(()));
    let to_three = Task::Reserve { debit: 1, credit: 3, amount: 500, duration: 0 };
    assert_eq!(one(&mut book, 1, to_three), 0);
    assert_eq!(one(&mut book, 2, transfer(3, 1, 100)), 28);
}

#[test]
fn numbers_and_top() {
    let mut book = book(Policy::Open, 0);
    assert_eq!(one(&mut book, 5, transfer(1, 2, TOP)), 0);
    assert_eq!(one(&mut book, 5, transfer(2, 1, 1)), 21);
    assert_eq!(one(&mut book, 0, transfer(2, 1, 1)), 21);
    assert_eq!(one(&mut book, 6, transfer(1, 2, 1)), 27);
    assert_eq!(one(&mut book, 6, transfer(2, 1, TOP)), 0);
    let table = [
        (transfer(1, 2, 0), 22),
        (transfer(9, 9, TOP + 1), 22),
        (transfer(9, 9, 1), 23),
        (transfer(1, 9, 1), 24),
        (transfer(1, 1, 1), 25),
        (post(5, 1), 31),
    ];
    for (task, answer) in table {
        assert_eq!(one(&mut book, u32::MAX, task), answer);
    }
    assert_eq!(book.open(3, 8, 0, 0, DAM), Ok(()));
    assert_eq!(one(&mut book, 7, transfer(1, 3, 1)), 26);
}

#[test]
fn batch_of_chains() {
    let mut book = book(Policy::Open, 0);
    assert_eq!(one(&mut book, 10, transfer(1, 2, 1)), 0);
    book.move_to(1000, &mut []).expect("no lapses");
    let orders = [
        order(11, transfer(1, 2, 100)),
        linked(12, transfer(1, 2, 50)),
        order(12, transfer(2, 1, 10)),
        linked(12, reserve(30, 60)),
        order(13, post(12, 30)),
        linked(14, Task::Void { reservation: 12 }),
    ];
    let mut answers = [255; 8];
    assert_eq!(book.run_batch(&orders, &mut answers), Ok(3));
    assert_eq!(answers, [0, 11, 21, 0, 0, 12, 255, 255]);
    let last = &book.journal().entries()[3..];
    let numbers: Vec<_> = last.iter().map(|e| (e.number, e.linked)).collect();
    assert_eq!(numbers, [(11, false), (12, true), (13, false)]);
    assert_eq!(last[1].fields().until, 1060);
    assert_eq!(book.past().highest_order(), 13);
    let short = book.run_batch(&orders, &mut answers[..5]);
    assert_eq!(short, Err(Refusal::AnswersTooShort));
    assert_eq!(book.run_batch(&[], &mut []), Ok(0));
}

#[test]
fn chains_of_16_and_17() {
    for (legs, answer) in [(16, 0), (17, 13)] {
        let mut book = book(Policy::Open, 0);
        let mut orders: Vec<_> = (1..=legs).map(|n| linked(n, transfer(1, 2, 1))).collect();
        let mut answers = vec![255; orders.len()];
        assert_eq!(book.run_batch(&orders, &mut answers), Ok(0));
        assert_eq!(answers.pop(), Some(12));
        assert!(answers.iter().all(|&a| a == 11));
        orders.last_mut().expect("legs").linked = false;
        answers.push(255);
        let taken = if answer == 0 { orders.len() } else { 0 };
        assert_eq!(book.run_batch(&orders, &mut answers), Ok(taken));
        assert!(answers.iter().all(|&a| a == answer));
    }
}

#[test]
fn a_move_lists_lapses() {
    let mut book = book(Policy::Open, 0);
    book.move_to(1000, &mut []).expect("no lapses");
    for (number, duration) in [(4, 60), (5, 30), (6, 0), (7, 60), (8, 1000)] {
        assert_eq!(one(&mut book, number, reserve(1, duration)), 0);
    }
    let mut list = [99; 5];
    let short = book.move_to(1060, &mut list[..2]);
    assert_eq!((short, book.moment()), (Err(Refusal::LapsesTooShort), 1000));
    assert_eq!(list, [99; 5]);
    let moved = book.move_to(1060, &mut list).expect("room");
    assert_eq!((moved.lapsed, moved.next_deadline), (3, Some(2000)));
    assert_eq!(list, [5, 4, 7, 99, 99]);
    let again = book.move_to(1060, &mut []).expect("nothing due");
    assert_eq!((again.lapsed, again.next_deadline), (0, Some(2000)));
    let earlier = book.move_to(1059, &mut []);
    assert_eq!(earlier, Err(Refusal::MomentEarlier));
    let late = book.move_to(LAST_MOMENT + 1, &mut []);
    assert_eq!(late, Err(Refusal::MomentTooLate));
}

#[test]
fn openings() {
    let table = [
        ((0, 0, TOP + 1, 0), Refusal::AccountNumber),
        ((1, 0, TOP + 1, 0), Refusal::AccountNumber),
        ((3, 0, TOP + 1, 0), Refusal::Ledger),
        ((3, 1, TOP + 1, 0), Refusal::Limit),
        ((3, 1, TOP, 0), Refusal::LabelMalformed),
    ];
    let mut book = book(Policy::Open, 0);
    for ((number, ledger, limit, label), refusal) in table {
        let answer = book.open(number, ledger, 0, limit, label);
        assert_eq!(answer, Err(refusal));
    }
    for number in 3..=64 {
        assert_eq!(book.open(number, 1, 0, TOP, DAM), Ok(()));
    }
    assert_eq!(book.open(65, 1, 0, 0, DAM), Err(Refusal::AccountsFull));
}

fn account_entry(number: u32, moment: u64) -> Entry {
    let label = Label::new(DAM).expect("a label");
    let content = Content::Account { ledger: 7, class: 0, limit: 0, label };
    Entry { number, moment, linked: false, content }
}

fn order_entry(kind: u8, number: u32, flags: u8, moment: u64, until: u64) -> Entry {
    let second = if kind == 4 { 0 } else { 2 };
    let fields = Fields {
        kind,
        flags,
        number,
        first: if kind == 4 { 3 } else { 1 },
        second,
        amount: 1,
        moment,
        until,
        label: 0,
    };
    Entry::from_fields(&fields).expect("sound")
}

/// Reads a strip of these entries: the moment, or where it stopped.
fn reading(entries: &[Entry]) -> Result<u64, (usize, u8)> {
    let mut memory = vec![1];
    memory.extend(entries.iter().flat_map(Entry::record));
    let used = memory.len() as u64;
    let book = Book::new(Journal::strip(&mut memory, used), Policy::Open);
    assert_eq!(book.journal().count(), entries.len());
    match book.stop() {
        None => Ok(book.moment()),
        Some(Stop { place, refusal }) => Err((place, refusal.number())),
    }
}

#[test]
fn readings() {
    let two = [account_entry(1, 0), account_entry(2, 5)];
    let after = |more: &[Entry]| [&two, more].concat();
    let mut long: Vec<_> = (1..=16).map(|n| order_entry(2, n, 1, 5, 0)).collect();
    long.push(order_entry(2, 17, 0, 5, 0));
    let begun = order_entry(2, 9, 1, 8, 0);
    let table = [
        (vec![], Ok(0)),
        (two.to_vec(), Ok(5)),
        (vec![account_entry(1, 5), account_entry(2, 4)], Err((1, 52))),
        (after(&[begun]), Err((3, 12))),
        (after(&[begun, account_entry(3, 8)]), Err((3, 12))),
        (after(&[begun, order_entry(2, 10, 0, 9, 0)]), Err((3, 16))),
        (after(&long), Err((18, 13))),
        (after(&[order_entry(3, 3, 0, 5, 60), order_entry(4, 4, 0, 60, 0)]), Err((3, 34))),
        (after(&[order_entry(3, 3, 0, 5, 60), order_entry(4, 4, 0, 59, 0)]), Ok(59)),
        (vec![account_entry(1, 0), account_entry(1, 0)], Err((1, 41))),
    ];
    for (entries, expected) in table {
        assert_eq!(reading(&entries), expected);
    }
}

#[test]
fn a_stopped_book_holds_nothing() {
    let mut memory = vec![1];
    memory.extend(account_entry(1, 5).record());
    memory.extend(account_entry(1, 5).record());
    memory.extend([0; 48]);
    let mut book = Book::new(Journal::strip(&mut memory, 97), Policy::Open);
    let stopped = Refusal::ReadingStopped;
    assert_eq!(book.open(0, 0, 0, 0, 0), Err(stopped));
    assert_eq!(book.run_batch(&[], &mut []), Err(stopped));
    assert_eq!(book.move_to(9, &mut []), Err(stopped));
    assert_eq!(book.report(&mut [0; 200]), Err(stopped));
    assert_eq!((book.account(1), book.moment()), (None, 0));
    assert_eq!((book.journal().count(), book.journal().spare()), (2, 1));
}

#[test]
fn a_listing_of_two_ledgers() {
    let label = |text: &[u8; 8]| u64::from_be_bytes(*text);
    let mut book = Book::new(Journal::roll(), Policy::Open);
    let accounts = [
        (4, 12, label(b"SPRING  ")),
        (5, 7, label(b"TOWN    ")),
        (2, 7, label(b"MILL    ")),
        (1, 7, label(b"DAM     ")),
    ];
    for (number, ledger, label) in accounts {
        assert_eq!(book.open(number, ledger, 0, 0, label), Ok(()));
    }
    assert_eq!(one(&mut book, 1, transfer(1, 2, 900)), 0);
    assert_eq!(one(&mut book, 2, transfer(2, 5, 250)), 0);
    assert_eq!(one(&mut book, 3, reserve(400, 0)), 0);
    let expected = "7 DAM 1 400 900 0 0\n7 MILL 2 0 250 400 900\n7 TOWN 5 0 0 0 250\n\
        7 = 3 400 1150 400 1150\n12 SPRING 4 0 0 0 0\n12 = 1 0 0 0 0\n";
    let mut buffer = [0; 121];
    let short = book.report(&mut buffer[..120]);
    assert_eq!(short, Err(Refusal::BufferTooShort));
    assert_eq!(buffer, [0; 121]);
    assert_eq!(book.report(&mut buffer), Ok(121));
    assert_eq!(buffer, expected.as_bytes());
}

#[test]
fn an_unusable_strip_takes_nothing() {
    let mut book = Book::new(Journal::strip(&mut [], 0), Policy::Open);
    assert_eq!(book.open(1, 7, 0, 0, DAM), Err(Refusal::JournalFull));
    let mut answers = [255];
    let orders = [order(1, transfer(1, 2, 1))];
    assert_eq!(book.run_batch(&orders, &mut answers), Ok(0));
    assert_eq!(answers, [14]);
    assert_eq!(book.report(&mut []), Ok(0));
}

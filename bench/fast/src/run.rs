use crate::book::Book;
use crate::journal::{Journal, Store, EMPTY_ROLL};
use crate::script::{check, Call, Calls, Code, Head, Kind};
use crate::told;

/// Runs a script: the code why it ended, and how many bytes of the output were written.
pub fn run(script: &[u8], memory: &mut [u8], output: &mut [u8]) -> (u32, usize) {
    let mut output = Output { rest: output, written: 0 };
    let ended = check(script).and_then(|(head, calls)| play(&head, calls, memory, &mut output));
    (ended.map_or_else(|code| code as u32, |()| 0), output.written)
}

/// Makes the journal of a head, and all calls on a book over it.
fn play(head: &Head, calls: Calls, memory: &mut [u8], output: &mut Output) -> Result<(), Code> {
    let mut table;
    let (journal, in_use) = match head.journal {
        Kind::Roll => {
            table = EMPTY_ROLL;
            (Journal { first: Store::roll(&mut table), second: None }, 0)
        }
        Kind::Strip => {
            let (first, in_use) = Store::strip(memory, head.used);
            (Journal { first, second: None }, in_use)
        }
        Kind::RollAndStrip => {
            table = EMPTY_ROLL;
            let (mut second, in_use) = Store::strip(memory, head.used);
            second.count_sound(in_use);
            (Journal { first: Store::roll(&mut table), second: Some(second) }, 0)
        }
        Kind::StripAndRoll => {
            table = EMPTY_ROLL;
            let (first, in_use) = Store::strip(memory, head.used);
            (Journal { first, second: Some(Store::roll(&mut table)) }, in_use)
        }
    };
    let mut book = Book::new(journal, head.policy);
    book.read(in_use);
    make_all(&mut book, calls, output)
}

fn make_all(book: &mut Book, mut calls: Calls, output: &mut Output) -> Result<(), Code> {
    while let Some(call) = calls.next()? {
        match output.take(told::length(book, &call)) {
            Some(place) => told::make(book, &call, place),
            None => return make_untold(book, &call),
        }
    }
    let place = output.take(told::end_length(book)).ok_or(Code::Output)?;
    told::end(book, place);
    Ok(())
}

/// Makes the call for which the output is too short.
#[cold]
fn make_untold(book: &mut Book, call: &Call) -> Result<(), Code> {
    let mut unseen = [0; told::MOST_TOLD];
    let length = told::length(book, call);
    told::make(book, call, &mut unseen[..length]);
    Err(Code::Output)
}

/// The output and how much of it was written.
struct Output<'o> {
    rest: &'o mut [u8],
    written: usize,
}

impl<'o> Output<'o> {
    /// The next bytes, if there are so many.
    #[inline]
    fn take(&mut self, length: usize) -> Option<&'o mut [u8]> {
        let (place, rest) = std::mem::take(&mut self.rest).split_at_mut_checked(length)?;
        self.rest = rest;
        self.written += length;
        Some(place)
    }
}

//! Runs scripts on two engines of the water book and compares all that comes of them.
#![forbid(unsafe_code)]

mod args;
mod case;
mod compare;
mod engines;
mod make;
mod plan;
mod rng;
mod show;
mod shrink;
mod tally;
mod told;

use crate::args::{Args, USAGE};
use crate::case::Case;
use crate::compare::{difference, run, Difference, Ran};
use crate::engines::{Engine, Fast, First, Second};
use crate::make::Source;
use crate::tally::Tally;
use std::process::ExitCode;
use std::time::Instant;

type Engines<'e> = [&'e dyn Engine; 2];

fn main() -> ExitCode {
    let args = match Args::parse(std::env::args().skip(1)) {
        Ok(args) => args,
        Err(fault) => {
            eprintln!("{fault}\n{USAGE}");
            return ExitCode::from(2);
        }
    };
    let second: &dyn Engine = if args.fast { &Fast } else { &Second };
    if args.with_itself {
        return compare_all(&args, &Second, second);
    }
    match hub::RUN {
        Some(run) => compare_all(&args, &First(run), second),
        None => {
            eprintln!(
                "built without the library: set WATER_BOOK_LIB and build again, or use --self"
            );
            ExitCode::from(2)
        }
    }
}

fn compare_all(args: &Args, first: &dyn Engine, second: &dyn Engine) -> ExitCode {
    let start = Instant::now();
    let is_late = || args.time.is_some_and(|time| start.elapsed() >= time);
    let mut source = Source::new(args.seed);
    let mut tally = Tally::default();
    while tally.calls() < args.calls && !is_late() {
        let case = source.next();
        let script = case.script();
        let (found, _, ran) = compare([first, second], &script, &case);
        if found.is_some() {
            report([first, second], case);
            return ExitCode::from(1);
        }
        source.spend(tally.add(&script, ran.code, ran.told()));
    }
    println!("{}", tally.line(start.elapsed().as_secs_f64()));
    ExitCode::SUCCESS
}

fn compare(engines: Engines, script: &[u8], case: &Case) -> (Option<Difference>, Ran, Ran) {
    let [one, two] = engines.map(|engine| run(engine, script, case));
    (difference(&one, &two), one, two)
}

/// Shrinks and shows a case that differs.
fn report(engines: Engines, case: Case) {
    let differs = |case: &Case| compare(engines, &case.script(), case).0.is_some();
    let case = shrink::shrink(case, differs);
    let (found, one, two) = compare(engines, &case.script(), &case);
    if let Some(difference) = found {
        show::show(&case, difference, &one, &two);
    }
}

use std::time::Duration;

pub const USAGE: &str =
    "usage: differ [--seed N] [--calls N] [--seconds N] [--self]\n       [--engine plain|fast]";

#[derive(Debug, PartialEq, Eq)]
pub struct Args {
    pub seed: u64,
    pub calls: u64,
    pub time: Option<Duration>,
    pub with_itself: bool,
    /// Whether the fast engine stands in the second one's place.
    pub fast: bool,
}

impl Args {
    pub fn parse(mut words: impl Iterator<Item = String>) -> Result<Args, String> {
        let mut args =
            Args { seed: 1, calls: 100_000, time: None, with_itself: false, fast: false };
        while let Some(word) = words.next() {
            let mut number = || {
                let value = words.next().ok_or(format!("{word} needs a number"))?;
                let parsed = value.parse::<u64>();
                parsed.map_err(|_| format!("not a number: {value}"))
            };
            match word.as_str() {
                "--seed" => args.seed = number()?,
                "--calls" => args.calls = number()?,
                "--seconds" => args.time = Some(Duration::from_secs(number()?)),
                "--self" => args.with_itself = true,
                "--engine" => args.fast = is_fast(words.next().as_deref())?,
                _ => return Err(format!("no such argument: {word}")),
            }
        }
        Ok(args)
    }
}

fn is_fast(name: Option<&str>) -> Result<bool, String> {
    match name {
        Some("plain") => Ok(false),
        Some("fast") => Ok(true),
        _ => Err("--engine needs plain or fast".to_string()),
    }
}

#[cfg(test)]
mod tests {
    use super::*;

    fn parse(line: &str) -> Result<Args, String> {
        Args::parse(line.split_whitespace().map(String::from))
    }

    #[test]
    fn arguments() {
        let plain = parse("").expect("defaults");
        assert_eq!((plain.seed, plain.calls), (1, 100_000));
        assert!(plain.time.is_none() && !plain.with_itself && !plain.fast);
        let all = parse("--self --engine fast --seed 7 --calls 9 --seconds 3").expect("all");
        assert_eq!((all.seed, all.calls), (7, 9));
        assert_eq!(all.time, Some(Duration::from_secs(3)));
        assert!(all.with_itself && all.fast);
        assert!(!parse("--engine plain").expect("plain").fast);
        for bad in ["--engine", "--engine slow", "--seed", "--seed x", "--other", "7"] {
            assert!(parse(bad).is_err(), "{bad}");
        }
    }
}

//! `simulate --seed N --steps M [--show]`: runs both ends over a bad net and checks demand 3 after every step.
use simulate::run::{Listener, run};
use std::process::ExitCode;

const USAGE: &str = "usage: simulate [--seed N] [--steps M] [--show]";

struct Options {
    seed: u64,
    steps: usize,
    show: bool,
}

fn options(mut words: impl Iterator<Item = String>) -> Result<Options, String> {
    let mut options = Options { seed: 1, steps: 2000, show: false };
    while let Some(word) = words.next() {
        let mut number = || -> Result<u64, String> {
            let value = words.next().ok_or(format!("{word} needs a number"))?;
            value.parse().map_err(|_| format!("{word} {value}: not a number"))
        };
        match word.as_str() {
            "--seed" => options.seed = number()?,
            "--steps" => options.steps = number()? as usize,
            "--show" => options.show = true,
            _ => return Err(format!("{word}: not an option")),
        }
    }
    Ok(options)
}

fn main() -> ExitCode {
    let options = match options(std::env::args().skip(1)) {
        Ok(options) => options,
        Err(error) => {
            eprintln!("{error}\n{USAGE}");
            return ExitCode::from(2);
        }
    };
    let mut print = |line: String| println!("{line}");
    let listener: Option<Listener> = if options.show { Some(&mut print) } else { None };
    match run(options.seed, options.steps, listener) {
        Ok(summary) => {
            println!("seed {}\n{summary}", options.seed);
            ExitCode::SUCCESS
        }
        Err(broken) => {
            eprintln!("seed {}: demand 3 is broken {broken}", options.seed);
            ExitCode::FAILURE
        }
    }
}

#[cfg(test)]
mod tests {
    use super::*;

    fn read(words: &[&str]) -> Result<Options, String> {
        options(words.iter().map(|word| word.to_string()))
    }

    #[test]
    fn options_are_read() {
        let options = read(&["--seed", "7", "--steps", "10", "--show"]).unwrap();
        assert_eq!((options.seed, options.steps, options.show), (7, 10, true));
    }

    #[test]
    fn other_words_are_refused() {
        for words in [&["--seed"][..], &["--steps", "x"], &["--help"]] {
            assert!(read(words).is_err(), "{words:?}");
        }
    }
}

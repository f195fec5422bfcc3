//! The load program: the proved one, run as a process, and inputs for it.
use crate::process::Program;
use crate::session;
use crate::texts;
use chance::Chance;
use std::io::Error;
use std::path::PathBuf;
use std::process::{Output, Stdio};

const PROGRAM: Program = Program { name: "load", variable: "ROOSTERYORE_LOAD" };

/// The proved program: `ROOSTERYORE_LOAD`, or the repository's.
pub fn program() -> PathBuf {
    PROGRAM.path()
}

/// What the proved program prints on this input.
///
/// # Errors
/// Where the program cannot be run, for instance since `tools/build load` did not build it yet.
pub fn proved(input: &[u8]) -> Result<Vec<u8>, Error> {
    Ok(output(input)?.stdout)
}

/// The same with what it says on standard error.
///
/// # Errors
/// As [`proved`].
pub fn output(input: &[u8]) -> Result<Output, Error> {
    PROGRAM.run(input, Stdio::piped())
}

/// A load of so many steps for the accounts of [`session::opening`].
pub fn order(accounts: usize, steps: usize) -> String {
    let lines = (0..accounts).map(|place| session::account(place) + "\n");
    format!("1 2005-09-20T15:53:00 1 {steps}\n") + &lines.collect::<String>()
}

/// A random load of so many steps, well formed.
pub fn input(chance: &mut Chance, accounts: usize, steps: usize) -> Vec<u8> {
    let any = chance.bits();
    let start = chance.pick(&[any, any, any, 0, 1, u64::MAX]);
    let day = texts::start_day(chance);
    let date = texts::date_on(chance, day);
    let reason = chance.between(1, 5);
    let width = chance.pick(&[1, 1, 20]);
    let mut text = format!("{start:0width$} {} {reason} {steps:0width$}\n", date.escape_ascii()).into_bytes();
    for _ in 0..accounts {
        text.extend(number(chance));
        let width = chance.pick(&[1, 3]);
        text.extend(format!(" {:0width$}\n", chance.between(0, 999)).bytes());
    }
    if chance.one_in(2) {
        // The last line need not have its end.
        text.pop();
    }
    text
}

/// A well-formed number of any length and bytes.
fn number(chance: &mut Chance) -> Vec<u8> {
    if chance.one_in(4) {
        return texts::number(chance).as_bytes().to_vec();
    }
    let bytes: Vec<u8> = (0x21..=0x7E).chain([0xA8, 0xB8]).chain(0xC0..=0xFF).collect();
    (0..chance.between(1, 30)).map(|_| chance.pick(&bytes)).collect()
}

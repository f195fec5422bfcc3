//! The session program: the proved one, run as a process, and random lines for it.
use crate::process::Program;
use crate::texts;
use chance::Chance;
use std::io::Error;
use std::path::PathBuf;
use std::process::Stdio;

const PROGRAM: Program = Program { name: "session", variable: "ROOSTERYORE_SESSION" };

/// The proved program: `ROOSTERYORE_SESSION`, or the repository's.
pub fn program() -> PathBuf {
    PROGRAM.path()
}

/// What the proved program prints on this input.
///
/// # Errors
/// Where the program cannot be run, for instance since `tools/build session` did not build it yet.
pub fn proved(input: &[u8]) -> Result<Vec<u8>, Error> {
    Ok(PROGRAM.run(input, Stdio::inherit())?.stdout)
}

/// Number and type of an account by its place.
pub fn account(place: usize) -> String {
    format!("choir-{place:06} 1")
}

/// The first lines of a session with so many accounts.
pub fn opening(accounts: usize) -> String {
    let lines = (0..accounts).map(|place| format!("O {}\n", account(place)));
    String::from("C 2005-09-19\n") + &lines.collect::<String>()
}

/// A session of random lines, most of them well formed.
pub fn lines(chance: &mut Chance, count: usize) -> Vec<u8> {
    let day = texts::start_day(chance);
    let known = [1, 2, 3].map(|receipt| texts::payment(chance, day, receipt));
    let mut text = format!("C {day}\n").into_bytes();
    for _ in 0..count {
        let from = text.len();
        match chance.below(16) {
            0 => text.extend(format!("C {}", texts::any_day(chance, day)).bytes()),
            1 | 2 => account_line(chance, b"O ", &mut text),
            3 | 4 => {
                account_line(chance, b"D ", &mut text);
                text.extend(format!(" {}", texts::any_kopecks(chance)).bytes());
            }
            5 => text.extend(format!("P {}", texts::any_day(chance, day)).bytes()),
            _ => {
                text.extend(b"R ");
                text.extend(texts::any_date(chance, day));
                text.push(b' ');
                text.extend(texts::parameters(chance, day, &known));
            }
        }
        if chance.one_in(8) {
            let mut line = text.split_off(from);
            texts::damage(chance, &mut line);
            text.extend(line);
        }
        text.push(b'\n');
    }
    text
}

fn account_line(chance: &mut Chance, letter: &[u8], text: &mut Vec<u8>) {
    text.extend(letter);
    text.extend(texts::number(chance).as_bytes());
    text.extend(format!(" {}", texts::any_kind(chance)).bytes());
}

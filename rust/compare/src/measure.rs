//! The proved programs and their twins timed as processes, in turns.
use crate::{load, session};
use std::fs::{self, File};
use std::io::{self, Read, Write};
use std::path::{Path, PathBuf};
use std::process::{Command, ExitStatus, Stdio};
use std::time::Instant;

/// As the only word, each makes a bench the twin of a program.
const SESSION_TWIN: &str = "--as-session-twin";
const LOAD_TWIN: &str = "--as-load-twin";

/// A program to be timed.
pub struct Program {
    path: PathBuf,
    word: Option<&'static str>,
}

/// How often each side is run, and the file that keeps its input.
pub struct Measure {
    /// The runs of which the median is told.
    pub runs: usize,
    /// The file, which is written anew for each input.
    pub file: PathBuf,
}

/// The session program and its twin.
pub fn sessions() -> [Program; 2] {
    [Program::proved(session::program()), Program::twin(SESSION_TWIN)]
}

/// The load program and its twin.
pub fn loads() -> [Program; 2] {
    [Program::proved(load::program()), Program::twin(LOAD_TWIN)]
}

/// Whether this process was started as a twin; then its work is done.
pub fn was_twin() -> bool {
    let input = || {
        let mut input = Vec::new();
        io::stdin().read_to_end(&mut input).expect("standard input");
        input
    };
    let printed = match std::env::args().nth(1).as_deref() {
        Some(SESSION_TWIN) => io::stdout().write_all(&twin::session::run(&input())),
        Some(LOAD_TWIN) => twin::load::Order::read(&input()).expect("a good input").print(&mut io::stdout()),
        _ => return false,
    };
    printed.expect("standard output");
    true
}

impl Program {
    fn proved(path: PathBuf) -> Program {
        Program { path, word: None }
    }

    fn twin(word: &'static str) -> Program {
        Program { path: std::env::current_exe().expect("this program"), word: Some(word) }
    }

    fn command(&self) -> Command {
        let mut command = Command::new(&self.path);
        command.args(self.word);
        command
    }

    fn ended(&self, status: io::Result<ExitStatus>) {
        let fine = status.is_ok_and(|status| status.success());
        assert!(
            fine,
            "{} does not run; `tools/build session load` builds the programs",
            self.path.display()
        );
    }

    /// How long it takes over a file, in seconds.
    fn over(&self, file: &Path) -> f64 {
        let start = Instant::now();
        let input = File::open(file).expect("the input's file");
        self.ended(self.command().stdin(input).stdout(Stdio::null()).status());
        start.elapsed().as_secs_f64()
    }

    /// How long it takes over a file when it prints into another, which has read an opening before; in seconds.
    fn piped(&self, file: &Path, other: &Program, opening: &[u8]) -> f64 {
        let start = Instant::now();
        let input = File::open(file).expect("the input's file");
        let mut reader = other.command().stdin(Stdio::piped()).stdout(Stdio::null()).spawn().expect("the reader runs");
        let mut pipe = reader.stdin.take().expect("its input is a pipe");
        pipe.write_all(opening).expect("the reader reads");
        self.ended(self.command().stdin(input).stdout(pipe).status());
        other.ended(reader.wait());
        start.elapsed().as_secs_f64()
    }
}

impl Measure {
    /// The medians of both programs over an input, in seconds.
    pub fn over(&self, programs: &[Program; 2], input: &str) -> [f64; 2] {
        self.medians(input, |side| programs[side].over(&self.file))
    }

    /// The same for a pipe: each program prints into another that has read an opening before.
    pub fn piped(&self, programs: &[Program; 2], input: &str, others: &[Program; 2], opening: &str) -> [f64; 2] {
        self.medians(input, |side| programs[side].piped(&self.file, &others[side], opening.as_bytes()))
    }

    fn medians(&self, input: &str, time: impl Fn(usize) -> f64) -> [f64; 2] {
        fs::write(&self.file, input).expect("the input's file");
        let mut times = [Vec::new(), Vec::new()];
        for _ in 0..self.runs {
            times.iter_mut().enumerate().for_each(|(side, times)| times.push(time(side)));
        }
        times.map(median)
    }
}

fn median(mut times: Vec<f64>) -> f64 {
    times.sort_by(f64::total_cmp);
    times[times.len() / 2]
}

/// A table's row: of so many lines, those a second on both sides without what `start` took, and their ratio.
pub fn row(what: &str, lines: usize, times: [f64; 2], start: [f64; 2]) -> String {
    let [proved, twin] = [0, 1].map(|side| lines as f64 / (times[side] - start[side]));
    format!("| {what} | {proved:.0} | {twin:.0} | {:.2} |", proved / twin)
}

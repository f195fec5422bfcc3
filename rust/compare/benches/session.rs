//! The session program against its twin, lines a second: `cargo bench --offline --bench session`.
//!
//! Both run as processes over the same file, in turns; the medians of 21 runs are told. A session of one line tells
//! what starting a process costs, which is taken off.
use compare::measure::{self, Measure};
use std::path::PathBuf;

const LINES: usize = 40_000;
/// How often a day is printed.
const PRINTS: usize = 4_000;

/// A day with so many accounts and records, then requests about them.
fn session(accounts: usize, records: usize, lines: usize) -> String {
    let mut text = compare::session::opening(accounts);
    for place in 0..lines {
        let payment = place % records.max(1);
        let time = format!("{:02}:{:02}:{:02}", payment / 3600, payment / 60 % 60, payment % 60);
        text += &match place {
            _ if records == 0 => format!("R 2005-09-20T15:55:00 action=check&number=choir-000000&amount={place}\n"),
            _ if place < records || place % 2 == 0 => format!(
                "R 2005-09-20T15:55:00 action=payment&number=choir-{:06}&amount=10.12&receipt={}&date=2005-09-20T{time}\n",
                payment * 7 % accounts,
                payment + 1
            ),
            _ => format!("R 2005-09-20T15:55:00 action=status&receipt={}\n", payment + 1),
        };
    }
    text
}

fn main() {
    if measure::was_twin() {
        return;
    }
    let measure = Measure { runs: 21, file: PathBuf::from(env!("CARGO_TARGET_TMPDIR")).join("session.txt") };
    let sessions = measure::sessions();
    let both = |text: &str| measure.over(&sessions, text);
    let start = both("C 2005-09-19\n");
    println!("| Session | proved, lines a second | twin | proved / twin |\n|---|---|---|---|");
    for (accounts, records) in [(1, 0), (16, 16), (16, 256), (256, 256)] {
        let text = session(accounts, records, LINES);
        let what = format!("{accounts} accounts, {records} records");
        println!("{}", measure::row(&what, text.lines().count(), both(&text), start));
    }
    let day = session(16, 256, 256);
    let (filled, printed) = (both(&day), both(&(day.clone() + &"P 2005-09-20\n".repeat(PRINTS))));
    println!("{}", measure::row("`P` of a day with 256 payments", PRINTS, printed, filled));
}

//! The load program against its twin, lines a second: `cargo bench --offline --bench load`.
//!
//! Both run as processes, in turns; the medians of 11 runs are told. A load without steps tells what starting costs,
//! which is taken off. The last row is of a load piped into a session: the proved programs, then the twins. The
//! session's twin reads all of its input before it starts, the proved one as it comes.
use compare::measure::{self, Measure};
use compare::{load, session};
use std::path::PathBuf;

const STEPS: usize = 1_000_000;
/// The steps that go through a pipe.
const PIPED: usize = 40_000;

fn main() {
    if measure::was_twin() {
        return;
    }
    let measure = Measure { runs: 11, file: PathBuf::from(env!("CARGO_TARGET_TMPDIR")).join("load.txt") };
    let (loads, sessions) = (measure::loads(), measure::sessions());
    println!("| Load | proved, lines a second | twin | proved / twin |\n|---|---|---|---|");
    for accounts in [1, 16, 256] {
        let [start, times] = [0, STEPS].map(|steps| measure.over(&loads, &load::order(accounts, steps)));
        println!("{}", measure::row(&format!("{accounts} accounts"), STEPS, times, start));
    }
    let opening = session::opening(16);
    let [start, times] = [0, PIPED].map(|steps| measure.piped(&loads, &load::order(16, steps), &sessions, &opening));
    println!("{}", measure::row("16 accounts, `load \\| session`", PIPED, times, start));
}

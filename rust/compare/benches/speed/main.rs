//! Each call against the twin: `cargo bench --offline --bench speed`; with `-- WORDS` those rows that have the words.
//!
//! Every call is timed by itself; before it, untimed, its state is put back and its buffer cleared, for all sides
//! alike. A run is the mean of a batch of calls, the batches of the sides take turns, and the median of 101 runs is
//! told, in nanoseconds. The cost of reading the clock is taken off.
mod agent;
mod gate;
mod readers;
mod sides;
mod stopwatch;

use stopwatch::Stopwatch;

fn main() {
    let mut stopwatch = Stopwatch::new();
    gate::calls(&mut stopwatch);
    gate::growth(&mut stopwatch);
    gate::refused(&mut stopwatch);
    gate::settlements(&mut stopwatch);
    gate::settlement_growth(&mut stopwatch);
    agent::calls(&mut stopwatch);
    agent::growth(&mut stopwatch);
    readers::readers(&mut stopwatch);
}

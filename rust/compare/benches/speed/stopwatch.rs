//! Measures sides in turns and prints a table.
use std::hint::black_box;
use std::time::{Duration, Instant};

/// One side of a comparison: puts its state back and times one call.
pub type Side<'a> = Box<dyn FnMut() -> Duration + 'a>;

/// How many runs a median is taken of.
const RUNS: usize = 101;
/// How long a batch of calls should take, and how many calls it has at most.
const BATCH: (Duration, u32) = (Duration::from_micros(200), 64);

pub struct Stopwatch {
    filter: Vec<String>,
    /// What reading the clock costs, in nanoseconds.
    reading: f64,
}

/// A side whose state is put back before each call.
pub fn side<'a, S, R>(
    mut state: S,
    mut restore: impl FnMut(&mut S) + 'a,
    mut call: impl FnMut(&mut S) -> R + 'a,
) -> Side<'a>
where
    S: 'a,
{
    Box::new(move || {
        restore(&mut state);
        timed(|| call(&mut state))
    })
}

fn timed<R>(call: impl FnOnce() -> R) -> Duration {
    let start = Instant::now();
    black_box(call());
    start.elapsed()
}

fn median(mut times: Vec<f64>) -> f64 {
    times.sort_by(f64::total_cmp);
    times[times.len() / 2]
}

/// The mean of a batch, in nanoseconds: a clock that goes by tens of them still tells single ones apart.
fn mean(calls: u32, mut call: impl FnMut() -> Duration) -> f64 {
    let whole: Duration = (0..calls).map(|_| call()).sum();
    whole.as_nanos() as f64 / f64::from(calls)
}

impl Stopwatch {
    pub fn new() -> Stopwatch {
        let filter = std::env::args().skip(1).filter(|word| !word.starts_with("--")).collect();
        let reading = median((0..RUNS).map(|_| mean(10_000, || timed(|| ()))).collect());
        println!("reading the clock: {reading:.1} ns, taken off; medians of {RUNS} runs");
        Stopwatch { filter, reading }
    }

    /// Begins a table of proved and twin, and of the owner where it has a part.
    pub fn table(&self, title: &str, owner: bool) {
        let (names, lines) = if owner { (" owner, ns | ratio |", "---|---|") } else { ("", "") };
        println!("\n{title}\n\n| | proved, ns | twin, ns | ratio |{names}\n|---|---|---|---|{lines}");
    }

    /// Whether a row was asked for.
    pub fn wants(&self, name: &str) -> bool {
        self.filter.iter().all(|word| name.contains(word.as_str()))
    }

    /// Measures a row of the table: the proved call first, then the twin's, then the owner's where there is one.
    pub fn row(&mut self, name: &str, sides: Vec<Side>) {
        if self.wants(name) {
            print_row(name, &self.medians(sides));
        }
    }

    /// Measures by how much a call takes longer than another, on each side.
    pub fn difference<'a>(&mut self, name: &str, mut longer: Vec<Side<'a>>, shorter: Vec<Side<'a>>) {
        if self.wants(name) {
            let sides = longer.len();
            longer.extend(shorter);
            let medians = self.medians(longer);
            let (longer, shorter) = medians.split_at(sides);
            print_row(name, &longer.iter().zip(shorter).map(|(long, short)| long - short).collect::<Vec<_>>());
        }
    }

    fn medians(&self, mut sides: Vec<Side>) -> Vec<f64> {
        let batches: Vec<u32> = sides.iter_mut().map(batch).collect();
        let mut times = vec![Vec::with_capacity(RUNS); sides.len()];
        for run in 0..RUNS {
            for turn in 0..sides.len() {
                let place = (run + turn) % sides.len();
                times[place].push(mean(batches[place], &mut sides[place]) - self.reading);
            }
        }
        times.into_iter().map(median).collect()
    }
}

fn print_row(name: &str, medians: &[f64]) {
    let others: Vec<String> =
        medians[1..].iter().map(|other| format!("{other:.0} | {:.1}", medians[0] / other)).collect();
    println!("| {name} | {:.0} | {} |", medians[0], others.join(" | "));
}

/// How many calls of a side make a batch.
fn batch(side: &mut Side) -> u32 {
    let fastest = (0..4).map(|_| side()).min().unwrap_or_default().max(Duration::from_nanos(1));
    ((BATCH.0.as_nanos() / fastest.as_nanos()) as u32).clamp(1, BATCH.1)
}

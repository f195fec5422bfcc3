//! A whole run: steps, checks after each of them, and what came of it.
use crate::net::{Net, Tally};
use crate::show::{self, Snapshot};
use crate::world::{Message, Step, World};
use crate::{claims, plan, progress};
use chance::Chance;
use roosteryore::{Date, Day};
use std::collections::BTreeMap;
use std::fmt;

/// Both ends' totals of a settled day.
#[derive(Clone, Copy, Debug, PartialEq, Eq)]
pub struct DayTotal {
    /// The day.
    pub day: Day,
    /// How many payments the book calls credited, and what they come to.
    pub book: (usize, u64),
    /// How many payments are done in the table, and what they come to.
    pub table: (usize, u64),
}

/// What came of a run.
#[derive(Clone, Debug)]
pub struct Summary {
    /// How many steps were taken.
    pub steps: usize,
    /// The settled days.
    pub days: Vec<DayTotal>,
    /// What became of the messages.
    pub messages: Tally,
    /// How often each code but 0 was returned.
    pub refused: BTreeMap<u64, usize>,
}

/// A run that broke a sentence of the demand.
#[derive(Clone, Debug)]
pub struct Broken {
    /// The place of the step after which it was broken, from 1.
    pub step: usize,
    /// The step in words.
    pub taken: String,
    /// The sentence, and how it was broken.
    pub how: String,
}

impl fmt::Display for Broken {
    fn fmt(&self, f: &mut fmt::Formatter<'_>) -> fmt::Result {
        write!(f, "after step {} ({}): {}", self.step, self.taken, self.how)
    }
}

/// A clock that is always a date, for what is tried on copies.
const CLOCK: &Date = b"2050-01-01T00:00:00";

/// Who listens to the steps, in words.
pub type Listener<'a> = &'a mut dyn FnMut(String);

/// Runs so many steps from a seed; each of them is told, in words, where there is somebody to listen.
///
/// # Errors
/// The first step after which a sentence of demand 3 does not hold.
pub fn run(seed: u64, steps: usize, mut listener: Option<Listener>) -> Result<Summary, Broken> {
    let mut run = Run::new(seed);
    for now in 0..steps {
        let step = run.choose(now);
        let code = match &mut listener {
            Some(listener) => run.take_aloud(now, &step, listener),
            None => run.world.take(&step),
        };
        if code != 0 {
            *run.refused.entry(code).or_default() += 1;
        }
        let broken = |how| Broken { step: now + 1, taken: show::step(&run.world, &step), how };
        check(&run.world, &step, code).map_err(broken)?;
    }
    Ok(run.summary(steps))
}

/// Both ends and the net, in the middle of a run.
struct Run {
    chance: Chance,
    world: World,
    net: Net,
    refused: BTreeMap<u64, usize>,
}

impl Run {
    fn new(seed: u64) -> Run {
        let mut chance = Chance::new(seed);
        let world = plan::start(&mut chance);
        Run { chance, world, net: Net::default(), refused: BTreeMap::new() }
    }

    /// The next step; the net has taken what the last one sent, and gives what this one brings.
    fn choose(&mut self, now: usize) -> Step {
        self.net.carry(self.world.sent.len(), now, &mut self.chance);
        let step = plan::choose(&self.world, &self.net, now, &mut self.chance);
        if let Step::Deliver { message, .. } = step {
            self.net.arrived(message);
        }
        step
    }

    /// Takes a step and tells it, with its code and what it changes.
    fn take_aloud(&mut self, now: usize, step: &Step, listener: &mut Listener) -> u64 {
        let (words, before) = (show::step(&self.world, step), Snapshot::of(&self.world));
        let code = self.world.take(step);
        listener(format!("{:>5}  {code:>2}  {words}{}", now + 1, Snapshot::of(&self.world).since(&before)));
        code
    }

    fn summary(mut self, steps: usize) -> Summary {
        self.net.carry(self.world.sent.len(), steps, &mut self.chance);
        Summary { steps, days: day_totals(&self.world), messages: self.net.tally(), refused: self.refused }
    }
}

/// Whether every sentence holds after a step.
fn check(world: &World, step: &Step, code: u64) -> Result<(), String> {
    readable(world, step, code)?;
    claims::check(world)?;
    progress::check(world, CLOCK)
}

/// What the gate has sent never meets a fault at the agent.
fn readable(world: &World, step: &Step, code: u64) -> Result<(), String> {
    match *step {
        Step::Deliver { message, .. } if code != 0 => match world.sent[message] {
            Message::Answer { .. } | Message::Report { .. } => {
                Err(format!("the agent takes every answer and report that the gate has sent: code {code}"))
            }
            Message::Request { .. } | Message::Registry { .. } => Ok(()),
        },
        _ => Ok(()),
    }
}

fn day_totals(world: &World) -> Vec<DayTotal> {
    let (credited, done) = (claims::credited(world), claims::done(world));
    let sum = |days: &claims::Days, day| (days.get(day).map_or(0, Vec::len), claims::total(days.get(day)));
    world.settled.iter().map(|day| DayTotal { day: *day, book: sum(&credited, day), table: sum(&done, day) }).collect()
}

impl fmt::Display for Summary {
    fn fmt(&self, f: &mut fmt::Formatter<'_>) -> fmt::Result {
        writeln!(f, "settled day       in the book             in the table")?;
        for DayTotal { day, book, table } in &self.days {
            let column = |(count, kopecks)| format!("{count:>4} {:>16}", show::roubles(kopecks));
            writeln!(f, "{day}  {}   {}", column(*book), column(*table))?;
        }
        let Tally { sent, lost, under_way, repeated, overtaken } = self.messages;
        writeln!(
            f,
            "messages: {sent} sent, {lost} lost, {under_way} under way, {repeated} repeated, {overtaken} overtaken"
        )?;
        let refused: Vec<String> = self.refused.iter().map(|(code, times)| format!("{code}: {times}")).collect();
        writeln!(f, "refused by code: {}", refused.join(", "))?;
        write!(f, "each sentence of demand 3 held after each of {} steps", self.steps)
    }
}

#[cfg(test)]
mod tests {
    use super::*;

    #[test]
    fn runs_settle_days_and_break_nothing() {
        let (mut days, mut lost, mut repeated) = (0, 0, 0);
        for seed in 1..=8 {
            let summary = run(seed, 500, None).unwrap_or_else(|broken| panic!("seed {seed}: {broken}"));
            assert!(summary.days.iter().all(|day| day.book == day.table));
            days += summary.days.iter().filter(|day| day.book.0 > 0).count();
            lost += summary.messages.lost;
            repeated += summary.messages.repeated;
            assert!(!summary.refused.is_empty());
        }
        assert!(days > 8 && lost > 8 && repeated > 8, "{days} days, {lost} lost, {repeated} repeated");
    }

    #[test]
    fn an_answer_that_the_agent_cannot_read_is_told() {
        let mut world = World::new(Day::new(2005, 9, 19), 7, 1, 1);
        let (action, text) = (roosteryore::Action::Check, b"<response>".to_vec());
        world.sent.push(Message::Answer { action, receipt: 0, text: text.clone() });
        world.sent.push(Message::Request { action, receipt: 0, text });
        for (message, held) in [(0, false), (1, true)] {
            let step = Step::Deliver { message, clock: *CLOCK, room: 512 };
            let code = world.take(&step);
            assert_ne!(code, 0);
            assert_eq!(readable(&world, &step, code).is_ok(), held, "a request may be refused, an answer not");
        }
    }

    #[test]
    fn a_seed_gives_the_same_run() {
        let told = |seed| {
            let mut lines = Vec::new();
            run(seed, 200, Some(&mut |line| lines.push(line))).expect("the demand holds");
            lines
        };
        assert_eq!(told(3), told(3));
        assert_eq!(told(3).len(), 200);
        assert_ne!(told(3), told(4));
    }
}

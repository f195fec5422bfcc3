//! Scripts of random steps: run, counted and, where the two sides differ, cut down.
use chance::Chance;
use std::collections::BTreeMap;
use std::fmt::{self, Debug};

/// Two implementations that take the same steps.
pub trait Pair: Clone + Debug {
    /// A step with all of its values, so that it can be taken again.
    type Step: Clone + Debug;

    /// Both sides as a script finds them.
    fn start(chance: &mut Chance) -> Self;

    /// What a reader has to know of them at the start, in a line.
    fn words(&self) -> String;

    /// A step to take next.
    fn choose(&self, chance: &mut Chance) -> Self::Step;

    /// Takes a step on both sides: the code that both return, or how they differ.
    fn take(&mut self, step: &Self::Step) -> Result<u64, String>;
}

/// How often each code was returned.
#[derive(Clone, Debug, Default)]
pub struct Codes(BTreeMap<u64, u64>);

impl Codes {
    /// How often a code was returned.
    pub fn of(&self, code: u64) -> u64 {
        self.0.get(&code).copied().unwrap_or(0)
    }
}

impl fmt::Display for Codes {
    fn fmt(&self, f: &mut fmt::Formatter<'_>) -> fmt::Result {
        let each: Vec<String> = self.0.iter().map(|(code, times)| format!("{code}: {times}")).collect();
        f.write_str(&each.join(", "))
    }
}

/// A script after which the two sides differ, cut down to the steps that this takes.
#[derive(Debug)]
pub struct Difference<P: Pair> {
    /// The seed of the whole script.
    pub seed: u64,
    /// Both sides at its start.
    pub start: P,
    /// The steps that are left; the last one tells the sides apart.
    pub steps: Vec<P::Step>,
    /// How they differ.
    pub how: String,
}

impl<P: Pair> fmt::Display for Difference<P> {
    fn fmt(&self, f: &mut fmt::Formatter<'_>) -> fmt::Result {
        writeln!(f, "seed {}: the sides differ after {} steps", self.seed, self.steps.len())?;
        writeln!(f, "  from {}", self.start.words())?;
        for step in &self.steps {
            writeln!(f, "  {step:?}")?;
        }
        f.write_str(&self.how)
    }
}

/// Runs a script of so many steps from a seed.
///
/// # Errors
/// Where the two sides differ.
pub fn run<P: Pair>(seed: u64, length: usize, codes: &mut Codes) -> Result<(), Difference<P>> {
    let mut chance = Chance::new(seed);
    let start = P::start(&mut chance);
    let (mut pair, mut steps) = (start.clone(), Vec::new());
    for _ in 0..length {
        let step = pair.choose(&mut chance);
        let taken = pair.take(&step);
        steps.push(step);
        match taken {
            Ok(code) => *codes.0.entry(code).or_default() += 1,
            Err(_) => return Err(cut_down(seed, start, steps)),
        }
    }
    Ok(())
}

/// The place of the first step that tells the sides apart, and how.
fn failure<P: Pair>(start: &P, steps: &[P::Step]) -> Option<(usize, String)> {
    let mut pair = start.clone();
    steps.iter().enumerate().find_map(|(place, step)| Some((place, pair.take(step).err()?)))
}

/// Leaves steps out, many at a time and then fewer, as long as the rest still tells the sides apart.
fn cut_down<P: Pair>(seed: u64, start: P, mut steps: Vec<P::Step>) -> Difference<P> {
    let (_, mut how) = failure(&start, &steps).expect("the script fails again as it did");
    let mut part = steps.len();
    while part > 0 {
        let mut from = 0;
        while from < steps.len() {
            let mut fewer = steps.clone();
            fewer.drain(from..(from + part).min(steps.len()));
            match failure(&start, &fewer) {
                Some((last, said)) => {
                    fewer.truncate(last + 1);
                    (steps, how) = (fewer, said);
                }
                None => from += part,
            }
        }
        part /= 2;
    }
    Difference { seed, start, steps, how }
}

#[cfg(test)]
mod tests {
    use super::*;

    /// Differs once a 3 and later a 7 were taken.
    #[derive(Clone, Debug)]
    struct Toy {
        seen_three: bool,
    }

    impl Pair for Toy {
        type Step = usize;

        fn start(_: &mut Chance) -> Toy {
            Toy { seen_three: false }
        }

        fn words(&self) -> String {
            "no 3".into()
        }

        fn choose(&self, chance: &mut Chance) -> usize {
            chance.below(10)
        }

        fn take(&mut self, step: &usize) -> Result<u64, String> {
            self.seen_three |= *step == 3;
            if self.seen_three && *step == 7 {
                return Err("a 7 after a 3".into());
            }
            Ok(0)
        }
    }

    #[test]
    fn a_failing_script_is_cut_down() {
        let difference = run::<Toy>(1, 500, &mut Codes::default()).expect_err("500 steps have a 3 and a 7");
        assert_eq!(difference.steps, [3, 7]);
        let told = "seed 1: the sides differ after 2 steps\n  from no 3\n  3\n  7\na 7 after a 3";
        assert_eq!(difference.to_string(), told);
    }

    #[test]
    fn codes_are_counted() {
        let mut codes = Codes::default();
        run::<Toy>(1, 1, &mut codes).expect("one step cannot differ");
        assert_eq!((codes.of(0), codes.of(1), codes.to_string().as_str()), (1, 0, "0: 1"));
    }
}

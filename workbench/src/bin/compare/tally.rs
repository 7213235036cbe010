//! What came of the inputs, counted and printed.

use std::fmt::Write;

use crate::duel::Outcome;
use crate::inputs::{Input, CATEGORIES};

/// Differing inputs that are shown in full.
const SHOWN: usize = 3;
/// Characters of an answer, or of an input in hex, that are shown.
const CUT: usize = 1_200;
const REFUSALS: usize = 17;

/// What is kept of one outcome.
pub struct Seen {
    differs: bool,
    /// Both answers, kept only where they differ.
    answers: Option<[Vec<u8>; 2]>,
    ending: Ending,
}

/// What the second simulator made of an input.
enum Ending {
    Refused {
        number: usize,
        /// At a task other than the first.
        later: bool,
    },
    /// Not refused; whether anything was blocked, missed or stuck.
    Accepted {
        blocked: bool,
        missed: bool,
        stuck: bool,
    },
}

pub fn look(outcome: &Outcome) -> Seen {
    let differs = outcome.differs();
    Seen {
        differs,
        answers: differs.then(|| [outcome.theirs.text.clone(), outcome.second.text.clone()]),
        ending: ending(&String::from_utf8_lossy(&outcome.second.text)),
    }
}

fn ending(answer: &str) -> Ending {
    if let Some(refusal) = answer.strip_prefix("refused ") {
        let mut words = refusal.split_ascii_whitespace();
        let number = words.next().and_then(|number| number.parse().ok());
        return Ending::Refused {
            number: number.unwrap_or(0),
            later: words.nth(1) != Some("0"),
        };
    }
    let counts = |name: &str| {
        let mut words = answer.split_ascii_whitespace();
        let mut any = false;
        while words.any(|word| word == name) {
            any |= words.next() != Some("0");
        }
        any
    };
    Ending::Accepted {
        blocked: counts("blocked"),
        missed: counts("missed"),
        stuck: answer.starts_with("runner 254") || answer.contains(" !"),
    }
}

#[derive(Default)]
pub struct Tally {
    /// Inputs and differences by category.
    by_category: Vec<(usize, usize)>,
    /// Refused inputs, and those of them at a later task, by number.
    refused: [(usize, usize); REFUSALS + 1],
    accepted: usize,
    blocked: usize,
    missed: usize,
    stuck: usize,
}

impl Tally {
    pub fn of(inputs: &[Input], seen: &[Seen]) -> Self {
        let mut tally = Tally {
            by_category: vec![(0, 0); CATEGORIES.len()],
            ..Tally::default()
        };
        for (input, seen) in inputs.iter().zip(seen) {
            let (compared, different) = &mut tally.by_category[input.category];
            *compared += 1;
            *different += usize::from(seen.differs);
            tally.count(&seen.ending);
        }
        tally
    }

    fn count(&mut self, ending: &Ending) {
        match ending {
            Ending::Refused { number, later } => {
                let (all, at_later) = &mut self.refused[(*number).min(REFUSALS)];
                *all += 1;
                *at_later += usize::from(*later);
            }
            Ending::Accepted {
                blocked,
                missed,
                stuck,
            } => {
                self.accepted += 1;
                self.blocked += usize::from(*blocked);
                self.missed += usize::from(*missed);
                self.stuck += usize::from(*stuck);
            }
        }
    }

    pub fn differences(&self) -> usize {
        self.by_category
            .iter()
            .map(|(_, different)| different)
            .sum()
    }

    pub fn print(&self) {
        for (category, (compared, different)) in CATEGORIES.iter().zip(&self.by_category) {
            if *compared > 0 {
                let name = category.name;
                println!("{name:<30} {compared:>6} compared {different:>6} differences");
            }
        }
        println!("refused, number:inputs/at later tasks{}", self.refusals());
        println!(
            "not refused {}, with blocking {}, with misses {}, stuck {}",
            self.accepted, self.blocked, self.missed, self.stuck
        );
    }

    fn refusals(&self) -> String {
        let mut text = String::new();
        for (number, (all, at_later)) in self.refused.iter().enumerate() {
            // Writing to a string cannot fail.
            let _ = match (all, at_later) {
                (0, _) => Ok(()),
                (_, 0) => write!(text, " {number}:{all}"),
                _ => write!(text, " {number}:{all}/{at_later}"),
            };
        }
        text
    }
}

/// Shows the first inputs whose answers differ.
pub fn dump_first(inputs: &[Input], seen: &[Seen]) {
    let differing = inputs
        .iter()
        .zip(seen)
        .enumerate()
        .filter_map(|(index, (input, seen))| Some((index, input, seen.answers.as_ref()?)));
    for (index, input, [theirs, second]) in differing.take(SHOWN) {
        println!("input {index} ({})", CATEGORIES[input.category].name);
        println!("{}", cut(&hex(&input.bytes)));
        println!("theirs:\n{}", cut(&String::from_utf8_lossy(theirs)));
        println!("second:\n{}", cut(&String::from_utf8_lossy(second)));
    }
}

fn hex(bytes: &[u8]) -> String {
    bytes.iter().map(|byte| format!("{byte:02x}")).collect()
}

fn cut(text: &str) -> String {
    let mut shown: String = text.chars().take(CUT).collect();
    if shown.len() < text.len() {
        shown.push_str("...");
    }
    shown
}

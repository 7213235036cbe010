//! Ceilings, blocking bounds with the sections behind them, and laxities.

use std::fmt;

use crate::sheet::{Sheet, Step, Task};
use crate::{wrong, SIXTEEN};

/// The ceiling of a semaphore that nobody locks.
pub const NO_CEILING: u8 = if wrong::NO_CEILING { 254 } else { 255 };

/// The smallest rank with a lock of each semaphore.
pub fn ceilings(sheet: &Sheet) -> [u8; SIXTEEN] {
    let mut ceilings = [NO_CEILING; SIXTEEN];
    for (rank, task) in sheet.tasks.iter().enumerate() {
        for step in &task.steps {
            if let Step::Lock(semaphore) = step {
                let ceiling = &mut ceilings[usize::from(*semaphore)];
                *ceiling = (*ceiling).min(rank as u8);
            }
        }
    }
    ceilings
}

/// The section behind a bound: its task's rank and the step of its lock.
#[derive(Clone, Copy, Debug, PartialEq, Eq)]
pub struct Place {
    pub rank: u8,
    pub step: u8,
}

impl fmt::Display for Place {
    fn fmt(&self, f: &mut fmt::Formatter<'_>) -> fmt::Result {
        write!(f, "{}/{}", self.rank, self.step)
    }
}

/// A bound B, and the section that gives it if there is one.
#[derive(Clone, Copy, Debug, Default, PartialEq, Eq)]
pub struct Bound {
    pub length: u32,
    pub by: Option<Place>,
}

/// The bound B of every task, by rank.
pub fn bounds(sheet: &Sheet) -> Vec<Bound> {
    let ceilings = ceilings(sheet);
    let sections: Vec<Section> = sheet
        .tasks
        .iter()
        .enumerate()
        .flat_map(|(rank, task)| sections(rank, task, &ceilings))
        .collect();
    (0..sheet.tasks.len())
        .map(|rank| bound(rank, &sections))
        .collect()
}

/// The bound of one task; `sections` go by rank, and by lock step in a task.
fn bound(rank: usize, sections: &[Section]) -> Bound {
    let of_ranks_from = |first| {
        let lower = sections.iter().filter(move |section| section.rank >= first);
        lower.filter(|section| section.reaches(rank))
    };
    let lengths = of_ranks_from(rank + 1).map(|section| section.length);
    let named = of_ranks_from(rank + usize::from(!wrong::BY_OWN)).reduce(|best, next| {
        if next.outdoes(best) {
            next
        } else {
            best
        }
    });
    Bound {
        length: lengths.max().unwrap_or(0),
        by: named.map(Section::place),
    }
}

struct Section {
    rank: usize,
    /// Index of its lock.
    step: usize,
    /// Inside another section.
    inner: bool,
    /// That of its semaphore.
    ceiling: usize,
    length: u32,
}

impl Section {
    /// Whether its ceiling lets it keep a task of that rank waiting.
    fn reaches(&self, rank: usize) -> bool {
        let left_out = wrong::BOUND_OUTERMOST && self.inner;
        self.ceiling + usize::from(wrong::BOUND_BELOW) <= rank && !left_out
    }

    /// Whether it is named rather than `best`, which comes before it.
    fn outdoes(&self, best: &Section) -> bool {
        if self.length != best.length {
            return self.length > best.length && !wrong::BY_FIRST;
        }
        if self.rank == best.rank {
            wrong::BY_LATER_STEP
        } else {
            wrong::BY_LARGER_RANK
        }
    }

    fn place(&self) -> Place {
        Place {
            rank: self.rank as u8,
            step: self.step as u8,
        }
    }
}

/// All sections of a task, by lock step.
fn sections(rank: usize, task: &Task, ceilings: &[u8; SIXTEEN]) -> Vec<Section> {
    let mut sections: Vec<Section> = Vec::new();
    // Those not yet unlocked, outermost first.
    let mut open: Vec<usize> = Vec::new();
    for (index, step) in task.steps.iter().enumerate() {
        match step {
            Step::Run(length) => {
                for section in &open {
                    sections[*section].length += u32::from(*length);
                }
            }
            Step::Lock(semaphore) => {
                sections.push(Section {
                    rank,
                    step: index,
                    inner: !open.is_empty(),
                    ceiling: usize::from(ceilings[usize::from(*semaphore)]),
                    length: 0,
                });
                open.push(sections.len() - 1);
            }
            Step::Unlock(_) => {
                open.pop();
            }
        }
    }
    sections
}

/// C: the sum of a task's runs.
fn whole_length(task: &Task) -> i64 {
    task.steps
        .iter()
        .map(|step| match step {
            Step::Run(length) => i64::from(*length),
            Step::Lock(_) | Step::Unlock(_) => 0,
        })
        .sum()
}

/// A laxity, and the section behind the bound in it.
#[derive(Clone, Copy, Debug, PartialEq, Eq)]
pub struct Laxity {
    pub ticks: i64,
    pub by: Option<Place>,
}

/// The laxity of every task, by rank.
pub fn laxities(sheet: &Sheet) -> Vec<Laxity> {
    bounds(sheet)
        .into_iter()
        .enumerate()
        .map(|(rank, bound)| Laxity {
            ticks: laxity(&sheet.tasks[..=rank], i64::from(bound.length)),
            by: bound.by,
        })
        .collect()
}

/// One task's multiples, walked along in step with the others'.
struct Multiples {
    period: i64,
    cost: i64,
    /// The first multiple not yet passed.
    next: i64,
}

/// The laxity of the last of `tasks` under blocking of at most `bound`.
///
/// Walks the points upwards. At a point t the next multiple of each period is
/// the first at or above t, so the demand counts every multiple up to it, and
/// changes only where a multiple is passed.
fn laxity(tasks: &[Task], bound: i64) -> i64 {
    let mut walk: Vec<Multiples> = tasks
        .iter()
        .map(|task| Multiples {
            period: i64::from(task.period),
            cost: whole_length(task),
            next: i64::from(task.period),
        })
        .collect();
    let end = walk.last().map_or(0, |own| own.period);
    let mut demand: i64 = walk.iter().map(|multiples| multiples.cost).sum();
    let mut best = i64::MIN;
    loop {
        let point = walk.iter().map(|multiples| multiples.next).min();
        let t = match point.filter(|t| *t <= end) {
            Some(t) => t,
            None => return best,
        };
        if wrong::POINT_SHORT && t == end && best != i64::MIN {
            return best;
        }
        best = best.max(t - bound - demand + rounded_down(&walk, t));
        for multiples in &mut walk {
            if multiples.next == t {
                multiples.next += multiples.period;
                demand += multiples.cost;
            }
        }
    }
}

/// What demand loses at `t` where it is wrongly rounded down; else nothing.
fn rounded_down(walk: &[Multiples], t: i64) -> i64 {
    if !wrong::ROUND_DOWN {
        return 0;
    }
    walk.iter()
        .filter(|multiples| multiples.next != t)
        .map(|multiples| multiples.cost)
        .sum()
}

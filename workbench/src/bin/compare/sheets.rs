//! Valid sheets, made so that their jobs get in each other's way.

use workbench::draft::{lock, run, unlock, Draft, DraftTask, RawStep};
use workbench::{LAST_TICK, SIXTEEN};

use crate::chance::Chance;

/// A horizon: mostly some hundreds of ticks, at times none or all.
pub fn horizon(chance: &mut Chance) -> u16 {
    match chance.below(100) {
        0..=2 => 0,
        3..=5 => 1,
        6..=35 => chance.word(2, 60),
        36..=97 => chance.word(61, 900),
        98 => LAST_TICK - 1,
        _ => LAST_TICK,
    }
}

/// A sheet of any size with sections one inside another.
pub fn busy(chance: &mut Chance, mode: u8) -> Draft {
    let task_count = chance.between(1, SIXTEEN);
    sized(chance, mode, task_count)
}

/// A busy sheet of so many tasks.
pub fn sized(chance: &mut Chance, mode: u8, task_count: usize) -> Draft {
    let semaphores = semaphore_count(chance);
    let load = chance.pick(&[50, 80, 100, 150, 300]);
    let stagger = chance.between(0, 4);
    let tasks = (0..task_count)
        .map(|rank| {
            let steps = Body::of(chance, semaphores);
            let period = period(chance, &steps, task_count, load);
            let behind = task_count - 1 - rank;
            let offset = (behind * stagger + chance.below(4)) as u16;
            DraftTask::new(period, offset.min(period - 1), &steps)
        })
        .collect();
    Draft::new(semaphores as u8, mode, tasks)
}

/// Few semaphores make for much waiting; many are seen now and then.
fn semaphore_count(chance: &mut Chance) -> usize {
    match chance.below(20) {
        0 => 0,
        1..=11 => chance.between(1, 3),
        12..=16 => chance.between(4, 8),
        _ => chance.between(9, SIXTEEN),
    }
}

/// A period that gives all tasks together about `load` hundredths of the
/// processor; now and then one that cannot be kept.
fn period(chance: &mut Chance, steps: &[RawStep], task_count: usize, load: usize) -> u16 {
    if chance.percent(5) {
        return chance.word(1, 12);
    }
    let fair = total(steps) * task_count * 100 / load;
    let period = fair * chance.between(50, 200) / 100;
    period.clamp(1, 10_000) as u16
}

/// C: the sum of the runs.
fn total(steps: &[RawStep]) -> usize {
    let runs = steps.iter().filter(|(kind, _)| *kind == run(1).0);
    runs.map(|(_, ticks)| usize::from(*ticks)).sum()
}

/// A body being written.
struct Body<'a> {
    chance: &'a mut Chance,
    semaphores: usize,
    steps: Vec<RawStep>,
    held: Vec<u16>,
}

impl Body<'_> {
    fn of(chance: &mut Chance, semaphores: usize) -> Vec<RawStep> {
        let room = match chance.below(10) {
            0 => 64,
            1..=3 => 20,
            _ => 10,
        };
        let mut body = Body {
            chance,
            semaphores,
            steps: Vec::new(),
            held: Vec::new(),
        };
        body.items(room);
        body.steps
    }

    /// At least one item, within so many steps.
    fn items(&mut self, room: usize) {
        let end = self.steps.len() + room;
        let most = if room > 20 { 20 } else { 3 };
        for _ in 0..self.chance.between(1, most) {
            let left = end - self.steps.len();
            match self.new_semaphore() {
                Some(semaphore) if left >= 3 && self.chance.percent(65) => {
                    self.section(semaphore, left - 2)
                }
                _ if left >= 1 => self.run(),
                _ => return,
            }
        }
    }

    fn section(&mut self, semaphore: u16, room: usize) {
        self.steps.push(lock(semaphore));
        self.held.push(semaphore);
        // Not all of the room, so that something can still follow.
        let room = if room > 20 { room / 3 } else { room };
        self.items(room);
        self.held.pop();
        self.steps.push(unlock(semaphore));
    }

    fn run(&mut self) {
        let ticks = match self.chance.below(12) {
            0 => self.chance.word(4, 12),
            _ => self.chance.word(1, 3),
        };
        self.steps.push(run(ticks));
    }

    /// A semaphore that may be locked here, if there is any.
    fn new_semaphore(&mut self) -> Option<u16> {
        let choices: Vec<u16> = (0..self.semaphores as u16)
            .filter(|semaphore| !self.held.contains(semaphore))
            .collect();
        (self.held.len() < 4 && !choices.is_empty()).then(|| self.chance.pick(&choices))
    }
}

/// Every task holds one semaphore and asks for a second, of few.
pub fn crossing(chance: &mut Chance) -> Draft {
    let semaphores = chance.word(2, 5);
    let tasks = (0..chance.between(2, 6))
        .map(|_| {
            let first = chance.word(0, semaphores - 1);
            let second = (first + chance.word(1, semaphores - 1)) % semaphores;
            let mut steps = vec![lock(first), run(chance.word(1, 3))];
            steps.extend([lock(second), run(chance.word(1, 3))]);
            steps.extend([unlock(second), unlock(first)]);
            if chance.percent(40) {
                steps.insert(0, run(chance.word(1, 3)));
            }
            if chance.percent(30) {
                steps.push(run(1));
            }
            periodic(chance, &steps)
        })
        .collect();
    Draft::new(semaphores as u8, chance.word(0, 1) as u8, tasks)
}

/// A task with these steps that is released now and then.
pub fn periodic(chance: &mut Chance, steps: &[RawStep]) -> DraftTask {
    let period = chance.word(5, 60);
    DraftTask::new(period, chance.word(0, period - 1), steps)
}

/// Rank 0 locks everything, so that all ceilings are equal.
pub fn level(chance: &mut Chance) -> Draft {
    let semaphores = chance.word(2, 9);
    let one = |semaphore, ticks| [lock(semaphore), run(ticks), unlock(semaphore)];
    let top: Vec<RawStep> = (0..semaphores).flat_map(|s| one(s, 1)).collect();
    let mut tasks = vec![periodic(chance, &top)];
    for _ in 0..chance.between(2, 8) {
        let outer = chance.word(0, semaphores - 1);
        let inner = (outer + chance.word(1, semaphores - 1)) % semaphores;
        let mut steps = one(outer, chance.word(1, 4)).to_vec();
        if chance.percent(50) {
            steps.splice(1..1, one(inner, chance.word(1, 4)));
        }
        tasks.push(periodic(chance, &steps));
    }
    Draft::new(semaphores as u8, chance.word(0, 1) as u8, tasks)
}

/// For the preemption rule: first steps of every kind, and later sections.
pub fn starters(chance: &mut Chance) -> Draft {
    let tasks = (0..chance.between(2, 6))
        .map(|_| {
            let (own, other) = chance.pick(&[(0, 1), (1, 0), (0, 2), (2, 1)]);
            let ticks = chance.word(1, 4);
            let steps = match chance.below(4) {
                0 => vec![run(ticks)],
                1 => vec![run(ticks), lock(own), run(ticks), unlock(own)],
                2 => vec![lock(own), run(ticks), unlock(own), run(ticks)],
                _ => vec![
                    lock(own),
                    lock(other),
                    run(ticks),
                    unlock(other),
                    run(ticks),
                    unlock(own),
                ],
            };
            periodic(chance, &steps)
        })
        .collect();
    Draft::new(3, 1, tasks)
}

/// Periods of 1 and 10,000 and the longest bodies, for the laxities.
pub fn extreme(chance: &mut Chance) -> Draft {
    let semaphores = chance.pick(&[0, 1, 16]);
    let tasks = (0..chance.between(1, SIXTEEN))
        .map(|_| {
            let period = match chance.below(6) {
                0 | 1 => 1,
                2 | 3 => 10_000,
                4 => chance.word(2, 9),
                _ => chance.word(9_000, 9_999),
            };
            let ticks = chance.pick(&[1, 1, 999, 1_000]);
            let mut steps = vec![run(ticks); chance.pick(&[1, 2, 62, 64])];
            if semaphores > 0 && steps.len() < 64 {
                let semaphore = chance.word(0, semaphores - 1);
                steps.insert(0, lock(semaphore));
                steps.push(unlock(semaphore));
            }
            DraftTask::new(period, chance.word(0, period - 1), &steps)
        })
        .collect();
    Draft::new(semaphores as u8, chance.word(0, 1) as u8, tasks)
}

/// The longest sheet there is, of 3,160 bytes.
pub fn longest(chance: &mut Chance) -> Draft {
    let tasks = (0..SIXTEEN)
        .map(|_| {
            let mut steps: Vec<RawStep> = Vec::new();
            while steps.len() < 64 {
                let semaphore = chance.word(0, 15);
                steps.extend([lock(semaphore), run(chance.word(1, 5))]);
                steps.extend([unlock(semaphore), run(1)]);
            }
            let period = chance.word(900, 10_000);
            DraftTask::new(period, chance.word(0, 200), &steps)
        })
        .collect();
    Draft::new(16, chance.word(0, 1) as u8, tasks)
}

//! The task sheet, and reading it from bytes.

use crate::refusal::Refusal;
use crate::{wrong, SIXTEEN};

/// Most sections that may stand one inside another.
pub const DEEPEST: usize = 4;

const MARK: &[u8; 3] = b"LTS";
const HEADER: usize = 8;
const TASK_HEAD: usize = 5;
const STEP: usize = 3;
const LONGEST_PERIOD: u16 = 10_000;
const LONGEST_RUN: u16 = 1_000;
const MOST_STEPS: usize = 64;

#[derive(Clone, Copy, Debug, PartialEq, Eq)]
pub enum Step {
    /// Run for that many ticks.
    Run(u16),
    /// Lock the semaphore of that number.
    Lock(u8),
    /// Unlock the semaphore of that number.
    Unlock(u8),
}

#[derive(Clone, Debug, PartialEq, Eq)]
pub struct Task {
    pub period: u16,
    pub offset: u16,
    pub steps: Vec<Step>,
}

/// A sheet that keeps all the rules; the task at index i has rank i.
#[derive(Clone, Debug, PartialEq, Eq)]
pub struct Sheet {
    pub semaphores: u8,
    pub preemption_rule: bool,
    pub tasks: Vec<Task>,
}

impl Sheet {
    /// Reads a sheet, or gives the first refusal in the order of the rules.
    pub fn read(bytes: &[u8]) -> Result<Sheet, Refusal> {
        let mut unread = Unread(bytes);
        let header = unread.take(HEADER).ok_or(Refusal::plain(1))?;
        let task_count = check_header(header)?;
        let semaphores = header[6];
        let mut tasks = Vec::with_capacity(task_count);
        for rank in 0..task_count {
            tasks.push(read_task(&mut unread, rank, semaphores)?);
        }
        if !unread.0.is_empty() {
            return Err(Refusal::plain(13));
        }
        Ok(Sheet {
            semaphores,
            preemption_rule: header[7] == 1,
            tasks,
        })
    }
}

/// The bytes not yet read.
struct Unread<'a>(&'a [u8]);

impl<'a> Unread<'a> {
    /// The next `count` bytes, if there are so many.
    fn take(&mut self, count: usize) -> Option<&'a [u8]> {
        let taken = self.0.get(..count)?;
        self.0 = &self.0[count..];
        Some(taken)
    }
}

fn big_endian(high: u8, low: u8) -> u16 {
    u16::from_be_bytes([high, low])
}

/// Refusals 2 to 6; answers the task count.
fn check_header(header: &[u8]) -> Result<usize, Refusal> {
    let task_count = usize::from(header[5]);
    let faults = [
        (2, header[..3] != MARK[..]),
        (3, big_endian(header[3], header[4]) != 1),
        (4, !(1..=SIXTEEN).contains(&task_count)),
        (5, usize::from(header[6]) > SIXTEEN),
        (6, header[7] > 1),
    ];
    match faults.iter().find(|(_, wrong)| *wrong) {
        Some((number, _)) => Err(Refusal::plain(*number)),
        None => Ok(task_count),
    }
}

fn read_task(unread: &mut Unread, rank: usize, semaphores: u8) -> Result<Task, Refusal> {
    let cut = Refusal::at_task(7, rank);
    let head = unread.take(TASK_HEAD).ok_or(cut)?;
    let period = big_endian(head[0], head[1]);
    let offset = big_endian(head[2], head[3]);
    let count = usize::from(head[4]);
    check_head(rank, period, offset, count)?;
    let bytes = unread.take(count * STEP).ok_or(cut)?;
    Ok(Task {
        period,
        offset,
        steps: read_steps(bytes, rank, semaphores)?,
    })
}

/// Refusals 8 to 10.
fn check_head(rank: usize, period: u16, offset: u16, count: usize) -> Result<(), Refusal> {
    let refuse = |number| Err(Refusal::at_task(number, rank));
    if wrong::ORDER_8_9 && offset >= period {
        return refuse(9);
    }
    if period == 0 || period > LONGEST_PERIOD {
        return refuse(8);
    }
    if offset >= period {
        return refuse(9);
    }
    if count == 0 || count > MOST_STEPS {
        return refuse(10);
    }
    Ok(())
}

/// Refusals 11 and 12, step by step.
fn read_steps(bytes: &[u8], rank: usize, semaphores: u8) -> Result<Vec<Step>, Refusal> {
    let mut steps = Vec::with_capacity(bytes.len() / STEP);
    let mut nesting = Nesting::default();
    for (index, raw) in bytes.chunks_exact(STEP).enumerate() {
        let step = read_step(raw, semaphores).ok_or(Refusal::at_step(11, rank, index))?;
        if !nesting.accepts(step) {
            return Err(Refusal::at_step(12, rank, index));
        }
        steps.push(step);
    }
    if !nesting.open.is_empty() {
        let index = steps.len() - usize::from(wrong::OPEN_STEP);
        return Err(Refusal::at_step(12, rank, index));
    }
    Ok(steps)
}

/// A step, unless its kind is unknown or its value out of range.
fn read_step(raw: &[u8], semaphores: u8) -> Option<Step> {
    let value = big_endian(raw[1], raw[2]);
    let semaphore = (value < u16::from(semaphores)).then_some(raw[2]);
    match raw[0] {
        1 => (1..=LONGEST_RUN)
            .contains(&value)
            .then_some(Step::Run(value)),
        2 => semaphore.map(Step::Lock),
        3 => semaphore.map(Step::Unlock),
        _ => None,
    }
}

/// The sections open so far, outermost first.
#[derive(Default)]
struct Nesting {
    open: Vec<u8>,
    just_locked: bool,
}

impl Nesting {
    /// Takes the step in, or answers false if it may not stand here.
    fn accepts(&mut self, step: Step) -> bool {
        let after_lock = std::mem::replace(&mut self.just_locked, matches!(step, Step::Lock(_)));
        match step {
            Step::Run(_) => true,
            Step::Lock(semaphore) => {
                let fits = self.open.len() < DEEPEST && !self.open.contains(&semaphore);
                self.open.push(semaphore);
                fits
            }
            Step::Unlock(semaphore) => self.open.pop() == Some(semaphore) && !after_lock,
        }
    }
}

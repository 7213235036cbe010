//! The record of a run, its byte form, and whether it is possible.

use crate::sheet::{Sheet, Step, Task, DEEPEST};
use crate::{wrong, LAST_TICK, SIXTEEN};

/// The runner of a tick in which every candidate waits for another.
pub const STUCK: u8 = 254;
/// The runner of a tick in which nobody is pending.
pub const IDLE: u8 = 255;

/// Bytes of a record before those of its tasks.
pub const RECORD_HEAD: usize = 7;
const TASK_BYTES: usize = 22;
/// Bytes of a whole record.
pub const RECORD_BYTES: usize = RECORD_HEAD + SIXTEEN * TASK_BYTES;

#[derive(Clone, Copy, Debug, Default, PartialEq, Eq)]
pub struct TaskRecord {
    pub pending: bool,
    /// Index of the next step.
    pub position: u8,
    /// Ticks left of that step.
    pub left: u16,
    /// Tick of release.
    pub release: u16,
    /// Ticks blocked of the present job.
    pub present: u16,
    pub releases: u16,
    pub completions: u16,
    pub misses: u16,
    pub ran: u16,
    pub blocked: u16,
    /// Worst response.
    pub worst: u16,
    /// The most ticks that any job was blocked.
    pub most: u16,
}

/// A job, told apart from the others of its task by its tick of release.
#[derive(Clone, Copy, Debug, Default, PartialEq, Eq)]
pub struct Job {
    pub rank: u8,
    pub release: u16,
}

/// What is remembered while no job has run.
pub const NO_JOB: Job = Job {
    rank: 255,
    release: 0,
};

impl Job {
    /// Whether this can be the job remembered before tick `t`, of `n` tasks.
    fn possible(&self, n: usize, t: u16) -> bool {
        let ran_before = self.release < t || wrong::REMEMBERED_TICK;
        *self == NO_JOB || (usize::from(self.rank) < n && ran_before)
    }
}

#[derive(Clone, Copy, Debug, Default, PartialEq, Eq)]
pub struct Record {
    pub t: u16,
    pub switches: u16,
    /// The job that ran last, however long ago.
    pub last: Job,
    pub tasks: [TaskRecord; SIXTEEN],
}

/// What a job holds, oldest first.
#[derive(Clone, Copy, Debug, Default, PartialEq, Eq)]
pub struct LockStack {
    semaphores: [u8; DEEPEST],
    depth: usize,
}

impl LockStack {
    pub fn push(&mut self, semaphore: u8) {
        self.semaphores[self.depth] = semaphore;
        self.depth += 1;
    }

    pub fn pop(&mut self) {
        self.depth -= 1;
    }

    pub fn held(&self) -> &[u8] {
        &self.semaphores[..self.depth]
    }

    /// What the first `position` steps of a task have locked and not unlocked.
    pub fn before(task: &Task, position: usize) -> Self {
        let mut stack = Self::default();
        for step in &task.steps[..position] {
            match step {
                Step::Run(_) => {}
                Step::Lock(semaphore) => stack.push(*semaphore),
                Step::Unlock(_) => stack.pop(),
            }
        }
        stack
    }
}

impl TaskRecord {
    fn counts(&self) -> [u16; 7] {
        [
            self.releases,
            self.completions,
            self.misses,
            self.ran,
            self.blocked,
            self.worst,
            self.most,
        ]
    }

    /// Makes the task not pending.
    pub fn rest(&mut self) {
        self.pending = false;
        self.position = 0;
        self.left = 0;
        self.release = 0;
        if !wrong::PRESENT_LATE && !wrong::PRESENT_KEPT {
            self.present = 0;
        }
    }

    /// One tick more in which the present job is blocked.
    pub fn block(&mut self) {
        let before = self.present;
        self.blocked += 1;
        self.present += 1;
        if wrong::MOST_BEFORE {
            self.most = self.most.max(before);
        } else if !wrong::MOST_AT_END {
            self.most = self.most.max(self.present);
        }
    }

    /// Whether this can be the record of `task` before tick `t`.
    fn possible(&self, task: &Task, t: u16) -> bool {
        self.counts().iter().all(|count| *count <= t)
            && self.present <= t
            && (self.present <= self.most || wrong::PRESENT_FREE)
            && if self.pending {
                self.release < t && self.stands_well(task)
            } else {
                self.position == 0 && self.left == 0 && self.release == 0 && self.present == 0
            }
    }

    /// At a run with 1 to its full length left, or at a lock with 0 left.
    fn stands_well(&self, task: &Task) -> bool {
        match task.steps.get(usize::from(self.position)) {
            Some(Step::Run(length)) => (1..=*length).contains(&self.left),
            Some(Step::Lock(_)) => self.left == 0,
            Some(Step::Unlock(_)) | None => false,
        }
    }

    fn from_bytes(bytes: &[u8]) -> Self {
        let word = |at: usize| u16::from_be_bytes([bytes[at], bytes[at + 1]]);
        Self {
            pending: bytes[0] != 0,
            position: bytes[1],
            left: word(2),
            release: word(4),
            present: word(6),
            releases: word(8),
            completions: word(10),
            misses: word(12),
            ran: word(14),
            blocked: word(16),
            worst: word(18),
            most: word(20),
        }
    }

    fn write_to(&self, bytes: &mut Vec<u8>) {
        bytes.extend([u8::from(self.pending), self.position]);
        let of_job = [self.left, self.release, self.present];
        for word in of_job.into_iter().chain(self.counts()) {
            bytes.extend(word.to_be_bytes());
        }
    }
}

impl Record {
    /// The record a run starts from.
    pub fn start() -> Self {
        Self {
            t: 0,
            switches: 0,
            last: NO_JOB,
            tasks: [TaskRecord::default(); SIXTEEN],
        }
    }

    pub fn from_bytes(bytes: &[u8; RECORD_BYTES]) -> Self {
        let (head, rest) = bytes.split_at(RECORD_HEAD);
        let mut tasks = [TaskRecord::default(); SIXTEEN];
        for (task, raw) in tasks.iter_mut().zip(rest.chunks_exact(TASK_BYTES)) {
            *task = TaskRecord::from_bytes(raw);
        }
        Self {
            t: u16::from_be_bytes([head[0], head[1]]),
            switches: u16::from_be_bytes([head[2], head[3]]),
            last: Job {
                rank: head[4],
                release: u16::from_be_bytes([head[5], head[6]]),
            },
            tasks,
        }
    }

    pub fn to_bytes(&self) -> Vec<u8> {
        let mut bytes = Vec::with_capacity(RECORD_BYTES);
        bytes.extend(self.t.to_be_bytes());
        bytes.extend(self.switches.to_be_bytes());
        bytes.push(self.last.rank);
        bytes.extend(self.last.release.to_be_bytes());
        for task in &self.tasks {
            task.write_to(&mut bytes);
        }
        bytes
    }

    /// Whether the record is possible for the sheet.
    pub fn possible(&self, sheet: &Sheet) -> bool {
        let n = sheet.tasks.len();
        let (used, unused) = self.tasks.split_at(n);
        self.t <= LAST_TICK
            && (self.switches <= self.t || wrong::SWITCHES_FREE)
            && self.last.possible(n, self.t)
            && unused.iter().all(|task| *task == TaskRecord::default())
            && used
                .iter()
                .zip(&sheet.tasks)
                .all(|(record, task)| record.possible(task, self.t))
            && self.held_by_one_each(sheet)
    }

    /// Whether no semaphore is held by two; positions must be inside the
    /// steps already.
    fn held_by_one_each(&self, sheet: &Sheet) -> bool {
        let mut taken = [false; SIXTEEN];
        for (record, task) in self.tasks.iter().zip(&sheet.tasks) {
            let stack = LockStack::before(task, usize::from(record.position));
            for semaphore in stack.held() {
                if std::mem::replace(&mut taken[usize::from(*semaphore)], true) {
                    return false;
                }
            }
        }
        true
    }
}

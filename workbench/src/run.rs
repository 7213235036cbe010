//! A run, tick by tick.

use crate::bounds::ceilings;
use crate::record::{Job, LockStack, Record, IDLE, NO_JOB, STUCK};
use crate::refusal::Refusal;
use crate::sheet::{Sheet, Step, Task};
use crate::{wrong, LAST_TICK, SIXTEEN};

/// A run under way. Beside the record it keeps along what the record only
/// implies: who holds what, and when each task is released next.
pub struct Run<'a> {
    sheet: &'a Sheet,
    traits: [Traits; SIXTEEN],
    ceilings: [u8; SIXTEEN],
    record: Record,
    locks: [LockStack; SIXTEEN],
    next_release: [u32; SIXTEEN],
    /// The smallest of the next releases.
    soonest_release: u32,
}

/// What the preemption rule asks of a task's steps.
#[derive(Clone, Copy, Default)]
struct Traits {
    first_run: u8,
    has_lock: bool,
}

impl Traits {
    fn of(task: &Task) -> Self {
        let is_run = |step: &Step| matches!(step, Step::Run(_));
        let is_lock = |step: &Step| matches!(step, Step::Lock(_));
        Self {
            // Every body has a run, so there is a first.
            first_run: task.steps.iter().position(is_run).unwrap_or(0) as u8,
            has_lock: task.steps.iter().any(is_lock),
        }
    }
}

/// A semaphore in the way of a candidate.
#[derive(Clone, Copy)]
struct Obstacle {
    ceiling: u8,
    semaphore: u8,
    holder: usize,
}

impl Obstacle {
    /// Whether this one decides who comes next, rather than `other`.
    fn before(&self, other: &Obstacle) -> bool {
        if self.ceiling != other.ceiling {
            return self.ceiling < other.ceiling;
        }
        if wrong::TIE_LARGEST {
            return self.semaphore > other.semaphore;
        }
        self.semaphore < other.semaphore
    }
}

/// The ticks left of a step when it is reached: a run's full length, else 0.
fn full_length(step: Option<Step>) -> u16 {
    match step {
        Some(Step::Run(length)) => length,
        Some(Step::Lock(_) | Step::Unlock(_)) | None => 0,
    }
}

/// The first release of a task at or after tick `t`.
fn release_from(task: &Task, t: u16) -> u32 {
    let (period, offset, t) = (u32::from(task.period), u32::from(task.offset), u32::from(t));
    let since = t.saturating_sub(offset);
    offset + (since + period - 1) / period * period
}

impl<'a> Run<'a> {
    /// A run at its start.
    pub fn start(sheet: &'a Sheet) -> Self {
        Self::at(sheet, Record::start())
    }

    /// A run that goes on from a record handed in; refusals 16 and 17.
    pub fn resume(sheet: &'a Sheet, record: Record) -> Result<Self, Refusal> {
        if wrong::ORDER_16_17 && record.t == LAST_TICK {
            return Err(Refusal::plain(17));
        }
        if !record.possible(sheet) {
            return Err(Refusal::plain(16));
        }
        if record.t == LAST_TICK {
            return Err(Refusal::plain(17));
        }
        Ok(Self::at(sheet, record))
    }

    fn at(sheet: &'a Sheet, record: Record) -> Self {
        let mut run = Self {
            sheet,
            traits: [Traits::default(); SIXTEEN],
            ceilings: ceilings(sheet),
            record,
            locks: [LockStack::default(); SIXTEEN],
            next_release: [u32::MAX; SIXTEEN],
            soonest_release: u32::MAX,
        };
        for (rank, task) in sheet.tasks.iter().enumerate() {
            run.traits[rank] = Traits::of(task);
            let position = usize::from(record.tasks[rank].position);
            run.locks[rank] = LockStack::before(task, position);
            run.next_release[rank] = release_from(task, record.t);
            run.soonest_release = run.soonest_release.min(run.next_release[rank]);
        }
        run
    }

    pub fn record(&self) -> &Record {
        &self.record
    }

    /// One tick; answers the runner. The tick must be below 60,000.
    pub fn tick(&mut self) -> u8 {
        if u32::from(self.record.t) == self.soonest_release {
            self.release_jobs();
        }
        let runner = self.choose_runner();
        self.count_blocked(runner);
        if usize::from(runner) < self.sheet.tasks.len() {
            self.load(runner);
            self.execute(usize::from(runner));
        } else {
            self.pass_over(runner);
        }
        self.record.t += 1;
        runner
    }

    /// Rule 1, at a tick that has a release.
    fn release_jobs(&mut self) {
        let t = self.record.t;
        self.soonest_release = u32::MAX;
        for (rank, task) in self.sheet.tasks.iter().enumerate() {
            if self.next_release[rank] == u32::from(t) {
                self.next_release[rank] += u32::from(task.period);
                self.release(rank, t);
            }
            self.soonest_release = self.soonest_release.min(self.next_release[rank]);
        }
    }

    fn release(&mut self, rank: usize, t: u16) {
        let job = &mut self.record.tasks[rank];
        if !(wrong::MISSED_RELEASE && job.pending) {
            job.releases += 1;
        }
        if job.pending {
            job.misses += 1;
            return;
        }
        job.pending = true;
        job.position = 0;
        job.left = full_length(self.sheet.tasks[rank].steps.first().copied());
        job.release = t;
        if !wrong::PRESENT_KEPT {
            job.present = 0;
        }
    }

    fn top_pending(&self) -> Option<usize> {
        let used = &self.record.tasks[..self.sheet.tasks.len()];
        used.iter().position(|job| job.pending)
    }

    /// Rule 4: hands the candidacy on until one may go.
    fn choose_runner(&self) -> u8 {
        let top = match self.top_pending() {
            Some(top) => top,
            None => return IDLE,
        };
        let mut candidate = top;
        let mut seen = [false; SIXTEEN];
        loop {
            seen[candidate] = true;
            if self.asks_nothing(candidate) {
                return candidate as u8;
            }
            match self.obstacle(candidate) {
                Some(obstacle) if !self.passes(candidate, top, obstacle) => {
                    candidate = obstacle.holder;
                }
                _ => return candidate as u8,
            }
            if seen[candidate] {
                return STUCK;
            }
        }
    }

    /// The step a task stands at; none at the end of its steps.
    fn step(&self, rank: usize) -> Option<Step> {
        let position = usize::from(self.record.tasks[rank].position);
        self.sheet.tasks[rank].steps.get(position).copied()
    }

    /// Rule 3 as far as ceilings do not come into it: at a run, and not held
    /// back by the preemption rule.
    fn asks_nothing(&self, rank: usize) -> bool {
        let at_lock = matches!(self.step(rank), Some(Step::Lock(_)));
        !at_lock && !self.held_back(rank)
    }

    /// Whether the preemption rule makes this job wait for ceilings.
    fn held_back(&self, rank: usize) -> bool {
        self.sheet.preemption_rule
            && !wrong::MODE1_IGNORED
            && (self.traits[rank].has_lock || wrong::FRESH_LOCKLESS)
            && self.fresh(rank)
    }

    fn fresh(&self, rank: usize) -> bool {
        let job = &self.record.tasks[rank];
        let untouched = wrong::FRESH_LEFT || job.left == full_length(self.step(rank));
        job.position <= self.traits[rank].first_run && untouched
    }

    /// Among the semaphores that other jobs hold, the one of smallest ceiling
    /// and then of smallest number.
    fn obstacle(&self, rank: usize) -> Option<Obstacle> {
        let mut nearest: Option<Obstacle> = None;
        for holder in 0..self.sheet.tasks.len() {
            if holder == rank {
                continue;
            }
            for &semaphore in self.locks[holder].held() {
                let found = Obstacle {
                    ceiling: self.ceilings[usize::from(semaphore)],
                    semaphore,
                    holder,
                };
                if nearest.map_or(true, |nearest| found.before(&nearest)) {
                    nearest = Some(found);
                }
            }
        }
        nearest
    }

    /// Rule 2: whether a job is free of ceilings although others hold
    /// something; the nearest obstacle stands for all.
    fn passes(&self, candidate: usize, top: usize, obstacle: Obstacle) -> bool {
        let ceiling = usize::from(obstacle.ceiling);
        let rank = if wrong::INHERITED_RANK {
            candidate.min(top)
        } else {
            candidate
        };
        if wrong::EQUAL_GOES && rank == ceiling {
            return true;
        }
        if wrong::FREE_SEMAPHORE && self.next_locks_free(candidate) {
            return true;
        }
        rank < ceiling
    }

    /// Whether nobody else holds what the job is about to lock. Asked only
    /// under a wrong rule.
    fn next_locks_free(&self, rank: usize) -> bool {
        let position = usize::from(self.record.tasks[rank].position);
        let ahead = &self.sheet.tasks[rank].steps[position..];
        let others = || (0..self.sheet.tasks.len()).filter(|other| *other != rank);
        let taken = |semaphore| others().any(|other| self.locks[other].held().contains(semaphore));
        let wanted_free = ahead
            .iter()
            .map_while(|step| match step {
                Step::Lock(semaphore) => Some(semaphore),
                Step::Run(_) | Step::Unlock(_) => None,
            })
            .all(|semaphore| !taken(semaphore));
        wanted_free && !self.held_back(rank)
    }

    /// Rule 5, and the runner's part of rule 6.
    fn execute(&mut self, rank: usize) {
        if wrong::LATE_UNLOCK {
            self.take_unlocks(rank);
        }
        self.take_locks(rank);
        let job = &mut self.record.tasks[rank];
        job.ran += 1;
        job.left -= 1;
        if job.left > 0 {
            return;
        }
        self.advance(rank);
        if !wrong::LATE_UNLOCK || self.only_unlocks_ahead(rank) {
            self.take_unlocks(rank);
        }
        if self.step(rank).is_none() {
            self.complete(rank);
        }
    }

    fn take_locks(&mut self, rank: usize) {
        while let Some(Step::Lock(semaphore)) = self.step(rank) {
            self.locks[rank].push(semaphore);
            self.advance(rank);
        }
    }

    fn take_unlocks(&mut self, rank: usize) {
        while let Some(Step::Unlock(_)) = self.step(rank) {
            // The sheet unlocks only what was locked last.
            self.locks[rank].pop();
            self.advance(rank);
        }
    }

    fn only_unlocks_ahead(&self, rank: usize) -> bool {
        let position = usize::from(self.record.tasks[rank].position);
        let ahead = &self.sheet.tasks[rank].steps[position..];
        ahead.iter().all(|step| matches!(step, Step::Unlock(_)))
    }

    fn advance(&mut self, rank: usize) {
        self.record.tasks[rank].position += 1;
        self.record.tasks[rank].left = full_length(self.step(rank));
    }

    fn complete(&mut self, rank: usize) {
        let t = self.record.t;
        let job = &mut self.record.tasks[rank];
        let response = t + 1 - job.release;
        job.completions += 1;
        job.worst = job.worst.max(response);
        if wrong::END_MISS && response == self.sheet.tasks[rank].period {
            job.misses += 1;
        }
        if wrong::MOST_AT_END {
            job.most = job.most.max(job.present);
        }
        job.rest();
        if wrong::RELEASE_AFTER {
            self.record.last.release = 0;
        }
    }

    /// The waiting jobs' part of rule 6: whoever is pending above the runner.
    /// Idle ticks have nobody pending.
    fn count_blocked(&mut self, runner: u8) {
        let n = self.sheet.tasks.len();
        let mut above = usize::from(runner);
        if above >= n {
            above = if wrong::STUCK_BLOCKED { n } else { 0 };
        }
        for job in &mut self.record.tasks[..above] {
            if job.pending {
                job.block();
                if wrong::ONLY_ASKER {
                    return;
                }
            }
        }
    }

    /// Rule 7, before the runner may complete: a switch unless this job is the
    /// one that ran last.
    fn load(&mut self, runner: u8) {
        let job = Job {
            rank: runner,
            release: self.record.tasks[usize::from(runner)].release,
        };
        let last = std::mem::replace(&mut self.record.last, job);
        let same = job == last || (wrong::RANK_ALONE && job.rank == last.rank);
        let free = wrong::FIRST_FREE && last == NO_JOB;
        if !same && !free {
            self.record.switches += 1;
        }
    }

    /// An idle or a stuck tick leaves what is remembered as it is, but for
    /// wrong rules.
    fn pass_over(&mut self, runner: u8) {
        let idle = runner == IDLE;
        if wrong::IDLE_COUNTS && idle && self.record.last != NO_JOB {
            self.record.switches += 1;
        }
        let forgotten = if idle {
            wrong::IDLE_FORGETS || wrong::IDLE_COUNTS
        } else {
            wrong::STUCK_FORGETS
        };
        if forgotten {
            self.record.last = NO_JOB;
        }
    }
}

/// A whole run from the start: one runner per tick goes into the first
/// `horizon` bytes of the trace. Answers the record at the end.
pub fn whole_run(sheet: &Sheet, horizon: u16, trace: &mut [u8]) -> Result<Record, Refusal> {
    let mut ticks = usize::from(horizon);
    if wrong::ORDER_14_15 && trace.len() < ticks {
        return Err(Refusal::plain(15));
    }
    if horizon > LAST_TICK {
        return Err(Refusal::plain(14));
    }
    if wrong::SHORT_RUN {
        ticks = ticks.min(trace.len());
    }
    if trace.len() < ticks {
        return Err(Refusal::plain(15));
    }
    let (trace, later) = trace.split_at_mut(ticks);
    let mut run = Run::start(sheet);
    for runner in trace {
        *runner = run.tick();
    }
    if wrong::LATER_BYTES {
        later.fill(0);
    }
    Ok(run.record)
}

//! Records made by hand: possible ones, and ones with something wrong.

use workbench::record::{Job, LockStack, Record, TaskRecord, NO_JOB};
use workbench::run::Run;
use workbench::sheet::{Sheet, Step, Task};
use workbench::LAST_TICK;

use crate::chance::Chance;

/// A possible record for the sheet with about `crowd` hundredths of its tasks
/// pending, wherever they can stand together.
pub fn possible(chance: &mut Chance, sheet: &Sheet, crowd: usize) -> Record {
    let mut record = Record::start();
    record.t = match chance.below(20) {
        0 => LAST_TICK - 1,
        1 => chance.word(1, LAST_TICK - 1),
        _ => chance.word(1, 120),
    };
    record.switches = count(chance, record.t);
    let mut order: Vec<usize> = (0..sheet.tasks.len()).collect();
    chance.shuffle(&mut order);
    let mut taken = Vec::new();
    for rank in order {
        let task = &sheet.tasks[rank];
        record.tasks[rank] = resting(chance, record.t);
        if chance.percent(crowd) {
            stand_somewhere(chance, &mut record, rank, task, &mut taken);
        }
    }
    record.last = remembered(chance, sheet, &record);
    record
}

/// A count of at most so many, often the largest.
fn count(chance: &mut Chance, most: u16) -> u16 {
    match chance.below(8) {
        0 => most,
        1 => 0,
        _ => chance.word(0, most),
    }
}

/// A job that may have run last: a pending one, another of its task, one of
/// any task, or none.
fn remembered(chance: &mut Chance, sheet: &Sheet, record: &Record) -> Job {
    let any_rank = chance.below(sheet.tasks.len());
    let any_tick = chance.word(0, record.t - 1);
    let pending: Vec<usize> = (0..sheet.tasks.len())
        .filter(|rank| record.tasks[*rank].pending)
        .collect();
    let rank = match chance.below(10) {
        0 => return NO_JOB,
        1..=3 => any_rank,
        // The first pending job is often the one that runs.
        4 | 5 => pending.first().copied().unwrap_or(any_rank),
        _ if pending.is_empty() => any_rank,
        _ => chance.pick(&pending),
    };
    let own = record.tasks[rank].release;
    Job {
        rank: rank as u8,
        release: chance.pick(&[own, own, any_tick, record.t - 1]),
    }
}

fn resting(chance: &mut Chance, t: u16) -> TaskRecord {
    TaskRecord {
        releases: count(chance, t),
        completions: count(chance, t),
        misses: count(chance, t),
        ran: count(chance, t),
        blocked: count(chance, t),
        worst: count(chance, t),
        most: count(chance, t),
        ..TaskRecord::default()
    }
}

/// Makes the task pending at a place where it holds nothing that is taken.
fn stand_somewhere(
    chance: &mut Chance,
    record: &mut Record,
    rank: usize,
    task: &Task,
    taken: &mut Vec<u8>,
) {
    for _ in 0..6 {
        let position = chance.below(task.steps.len());
        let stack = LockStack::before(task, position);
        let clash = stack.held().iter().any(|held| taken.contains(held));
        if clash || matches!(task.steps[position], Step::Unlock(_)) {
            continue;
        }
        taken.extend(stack.held());
        stand(chance, record, rank, task, position);
        return;
    }
}

/// Makes the task pending at a run or a lock.
fn stand(chance: &mut Chance, record: &mut Record, rank: usize, task: &Task, position: usize) {
    let left = match task.steps[position] {
        Step::Run(length) if chance.percent(50) => length,
        Step::Run(length) => chance.word(1, length),
        Step::Lock(_) | Step::Unlock(_) => 0,
    };
    let job = &mut record.tasks[rank];
    job.pending = true;
    job.position = position as u8;
    job.left = left;
    job.release = chance.word(0, record.t - 1);
    job.present = count(chance, job.most);
}

/// The record of a run from the start, some way along it.
pub fn along(chance: &mut Chance, sheet: &Sheet) -> Record {
    let ticks = match chance.below(40) {
        0 => LAST_TICK,
        1 => LAST_TICK - 1,
        2 => 0,
        _ => chance.word(1, 400),
    };
    let mut run = Run::start(sheet);
    for _ in 0..ticks {
        run.tick();
    }
    *run.record()
}

/// A step of the wanted kind in any task, if there is one.
fn find(chance: &mut Chance, sheet: &Sheet, wanted: fn(&Step) -> bool) -> Option<(usize, usize)> {
    let mut places = Vec::new();
    for (rank, task) in sheet.tasks.iter().enumerate() {
        for (position, step) in task.steps.iter().enumerate() {
            if wanted(step) {
                places.push((rank, position));
            }
        }
    }
    (!places.is_empty()).then(|| chance.pick(&places))
}

/// Puts a task at a step of the wanted kind and then changes its record.
fn stand_and(
    chance: &mut Chance,
    sheet: &Sheet,
    record: &mut Record,
    wanted: fn(&Step) -> bool,
    change: impl FnOnce(&mut TaskRecord),
) {
    if let Some((rank, position)) = find(chance, sheet, wanted) {
        stand(chance, record, rank, &sheet.tasks[rank], position);
        change(&mut record.tasks[rank]);
    }
}

fn is_run(step: &Step) -> bool {
    matches!(step, Step::Run(_))
}

fn is_lock(step: &Step) -> bool {
    matches!(step, Step::Lock(_))
}

fn is_unlock(step: &Step) -> bool {
    matches!(step, Step::Unlock(_))
}

fn any_used<'r>(chance: &mut Chance, sheet: &Sheet, record: &'r mut Record) -> &'r mut TaskRecord {
    &mut record.tasks[chance.below(sheet.tasks.len())]
}

/// The first record that no task uses; with sixteen tasks, the last one.
fn any_unused<'r>(
    chance: &mut Chance,
    sheet: &Sheet,
    record: &'r mut Record,
) -> &'r mut TaskRecord {
    let first = sheet.tasks.len().min(15);
    &mut record.tasks[chance.between(first, 15)]
}

/// Something that makes a record impossible, or only just does not.
type Spoil = fn(&mut Chance, &Sheet, &mut Record);

/// Just above `t`, far above, or at it, which is still possible.
fn about(chance: &mut Chance, t: u16) -> u16 {
    chance.pick(&[t.saturating_add(1), t.saturating_add(1), t, 65_535])
}

/// Every reason for refusal 16, and the tick of refusal 17.
pub const SPOILS: [Spoil; 43] = [
    |_, _, r| r.t = LAST_TICK,
    |c, _, r| r.t = c.pick(&[60_001, 60_002, 65_535]),
    |c, _, r| r.switches = about(c, r.t),
    |c, s, r| any_used(c, s, r).releases = about(c, r.t),
    |c, s, r| any_used(c, s, r).completions = about(c, r.t),
    |c, s, r| any_used(c, s, r).misses = about(c, r.t),
    |c, s, r| any_used(c, s, r).ran = about(c, r.t),
    |c, s, r| any_used(c, s, r).blocked = about(c, r.t),
    |c, s, r| any_used(c, s, r).worst = about(c, r.t),
    |c, s, r| any_used(c, s, r).most = about(c, r.t),
    // Blocked ticks of the present job: above t, above the most, of nobody.
    |c, s, r| {
        let blocked = about(c, r.t);
        stand_and(c, s, r, is_run, |job| {
            job.present = blocked;
            job.most = blocked;
        })
    },
    |c, s, r| {
        let more = c.below(2) as u16;
        stand_and(c, s, r, is_run, |job| job.present = job.most + more)
    },
    |c, s, r| {
        let present = c.below(2) as u16;
        let task = any_used(c, s, r);
        task.rest();
        task.most = task.most.max(1);
        task.present = present;
    },
    |_, s, r| r.last.rank = s.tasks.len() as u8,
    |_, s, r| r.last.rank = s.tasks.len() as u8 + 1,
    |c, s, r| r.last.rank = c.pick(&[s.tasks.len() as u8 - 1, 16, 17, 253, 254]),
    |c, _, r| {
        let (rank, t) = (c.pick(&[254, 255, 255]), r.t);
        let release = c.pick(&[0, 1, t - 1, t, 65_535]);
        r.last = Job { rank, release };
    },
    // A remembered release tick just below t, at t and above.
    |c, s, r| {
        r.last.rank = c.below(s.tasks.len()) as u8;
        r.last.release = r.t - 1 + c.below(3) as u16;
    },
    |c, s, r| {
        r.last.rank = s.tasks.len() as u8 - 1;
        r.last.release = c.pick(&[r.t, 65_535]);
    },
    |c, s, r| any_unused(c, s, r).pending = true,
    |c, s, r| any_unused(c, s, r).position = 1,
    |c, s, r| any_unused(c, s, r).left = 1,
    |c, s, r| any_unused(c, s, r).release = 1,
    |c, s, r| any_unused(c, s, r).releases = 1,
    |c, s, r| any_unused(c, s, r).completions = 1,
    |c, s, r| any_unused(c, s, r).misses = 1,
    |c, s, r| any_unused(c, s, r).ran = 1,
    |c, s, r| any_unused(c, s, r).blocked = 1,
    |c, s, r| any_unused(c, s, r).worst = 1,
    |c, s, r| any_unused(c, s, r).most = 1,
    |c, s, r| any_unused(c, s, r).present = 1,
    |c, s, r| {
        let task = any_used(c, s, r);
        task.rest();
        task.position = c.pick(&[1, 2, 255]);
    },
    |c, s, r| {
        let task = any_used(c, s, r);
        task.rest();
        task.left = c.pick(&[1, 65_535]);
    },
    |c, s, r| {
        let task = any_used(c, s, r);
        task.rest();
        task.release = c.pick(&[1, 65_535]);
    },
    // A release tick just below t, at t and above.
    |c, s, r| {
        let (t, step) = (r.t, c.below(3) as u16);
        stand_and(c, s, r, is_run, |job| job.release = t - 1 + step)
    },
    |c, s, r| stand_and(c, s, r, is_run, |job| job.left = 0),
    |c, s, r| {
        if let Some((rank, position)) = find(c, s, is_run) {
            stand(c, r, rank, &s.tasks[rank], position);
            if let Step::Run(length) = s.tasks[rank].steps[position] {
                r.tasks[rank].left = c.pick(&[length, length + 1, length + 1, 65_535]);
            }
        }
    },
    |c, s, r| {
        let left = c.pick(&[0, 1, 1, 2, 65_535]);
        stand_and(c, s, r, is_lock, |job| job.left = left)
    },
    |c, s, r| {
        let left = c.pick(&[0, 0, 1]);
        stand_and(c, s, r, is_unlock, |job| job.left = left)
    },
    // Behind the last step.
    |c, s, r| {
        let rank = c.below(s.tasks.len());
        stand(c, r, rank, &s.tasks[rank], 0);
        let count = s.tasks[rank].steps.len() as u8;
        r.tasks[rank].position = c.pick(&[count, count + 1, 255]);
        r.tasks[rank].left = c.pick(&[0, 1]);
    },
    |c, s, r| two_holders(c, s, r),
    |c, s, r| two_holders(c, s, r),
    // Impossible at the last tick: 16 comes before 17.
    |c, _, r| {
        r.t = LAST_TICK;
        r.last.rank = c.pick(&[16, 253, 254]);
    },
];

/// Puts two tasks inside sections of the same semaphore.
fn two_holders(chance: &mut Chance, sheet: &Sheet, record: &mut Record) {
    let mut ranks: Vec<usize> = (0..sheet.tasks.len()).collect();
    chance.shuffle(&mut ranks);
    let semaphore = chance.below(usize::from(sheet.semaphores.max(1))) as u8;
    let mut holders = 0;
    for rank in ranks {
        let task = &sheet.tasks[rank];
        let inside = (0..task.steps.len()).find(|position| {
            let held = LockStack::before(task, *position);
            held.held().contains(&semaphore)
        });
        if let Some(position) = inside {
            stand(chance, record, rank, task, position);
            holders += 1;
        }
        if holders == 2 {
            return;
        }
    }
}

/// Changes one number of a record a little.
pub fn nudge(chance: &mut Chance, sheet: &Sheet, record: &mut Record) {
    let t = record.t;
    let nudged = |chance: &mut Chance, old: u16| {
        let near = [old.wrapping_add(1), old.wrapping_sub(1)];
        chance.pick(&[near[0], near[1], 0, 1, t, t.wrapping_add(1)])
    };
    let rank = chance.below(sheet.tasks.len());
    let job = &mut record.tasks[rank];
    match chance.below(15) {
        0 => record.t = nudged(chance, t),
        1 => record.switches = nudged(chance, record.switches),
        2 => record.last.rank = chance.pick(&[0, 1, 2, 15, 16, 253, 254, 255]),
        12 => record.last.release = nudged(chance, record.last.release),
        13 => job.present = nudged(chance, job.present),
        14 => job.most = nudged(chance, job.most),
        3 => job.pending = !job.pending,
        4 => job.position = job.position.wrapping_add(1),
        5 => job.position = job.position.wrapping_sub(1),
        6 => job.left = nudged(chance, job.left),
        7 => job.release = nudged(chance, job.release),
        8 => job.releases = nudged(chance, job.releases),
        9 => job.ran = nudged(chance, job.ran),
        10 => job.blocked = nudged(chance, job.blocked),
        _ => job.worst = nudged(chance, job.worst),
    }
}

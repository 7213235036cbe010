//! Records that remember every kind of job as the one that ran last.

use workbench::draft::{case_a, case_e, with_record, Draft};
use workbench::record::{Job, Record, TaskRecord};

fn job(rank: u8, release: u16) -> Job {
    Job { rank, release }
}

/// Nobody pending in case A, before the first ticks, before the last and after.
fn resting() -> Vec<(Draft, Record)> {
    let mut states = Vec::new();
    for t in [0, 1, 2, 9, 59_999, 60_000, 60_001_u16] {
        let (before, behind) = (t.saturating_sub(1), t.saturating_add(1));
        let mut jobs = vec![job(255, 0), job(255, 1), job(255, t), job(255, before)];
        jobs.extend([job(254, 0), job(254, before), job(253, 0), job(16, 0)]);
        // Rank 1 is the last there is.
        jobs.extend([job(0, 0), job(0, before), job(0, t), job(0, behind)]);
        jobs.extend([job(1, 0), job(1, before), job(1, t)]);
        jobs.extend([job(2, 0), job(2, before), job(3, before)]);
        for last in jobs {
            let tasks = [TaskRecord::default(); 16];
            let record = Record {
                t,
                last,
                tasks,
                ..Record::start()
            };
            states.push((case_a(0), record));
        }
    }
    states
}

fn pending(position: u8, left: u16, release: u16) -> TaskRecord {
    TaskRecord {
        pending: true,
        position,
        left,
        release,
        ..TaskRecord::default()
    }
}

/// States of the first two tasks in which one runs on, one completes, one
/// has just been released, or both wait for each other.
fn running() -> Vec<(Draft, Record)> {
    let rest = TaskRecord::default();
    let states = [
        (case_a(0), 5, [pending(1, 0, 2), pending(2, 2, 0)]),
        (case_a(0), 5, [pending(1, 0, 2), pending(4, 1, 0)]),
        (case_a(0), 7, [rest, pending(4, 1, 3)]),
        (case_a(0), 12, [rest, pending(2, 1, 3)]),
        (case_a(0), 20, [rest, rest]),
        (case_a(0), 30, [rest, pending(0, 1, 29)]),
        (case_e(), 7, [pending(2, 0, 3), pending(2, 0, 4)]),
    ];
    let mut all = Vec::new();
    for (draft, t, [first, second]) in states {
        let mut jobs = vec![job(255, 0)];
        for rank in 0..2 {
            jobs.extend([0, 1, 2, 3, 4, t - 1].map(|release| job(rank, release)));
        }
        for last in jobs {
            let mut record = Record::start();
            record.t = t;
            record.last = last;
            record.tasks[0] = first;
            record.tasks[1] = second;
            all.push((draft.clone(), record));
        }
    }
    all
}

/// The tick program's input for each of them.
pub fn by_hand() -> Vec<Vec<u8>> {
    let input =
        |(draft, record): &(Draft, Record)| with_record(&draft.to_bytes(), &record.to_bytes());
    resting().iter().chain(&running()).map(input).collect()
}

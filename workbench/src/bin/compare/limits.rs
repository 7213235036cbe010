//! Records with one number of them at its limit, and one past it.

use workbench::draft::{case_a, with_record};
use workbench::record::{Record, TaskRecord};

const T: u16 = 9;

/// The first two tasks of case A before tick 9.
fn record(tasks: [TaskRecord; 2]) -> Record {
    let mut record = Record::start();
    record.t = T;
    record.tasks[..2].copy_from_slice(&tasks);
    record
}

fn pending(position: u8, left: u16) -> TaskRecord {
    TaskRecord {
        pending: true,
        position,
        left,
        release: 3,
        ..TaskRecord::default()
    }
}

/// Rank 0 waits at its lock for rank 1.
fn waiting() -> Record {
    record([pending(1, 0), pending(2, 2)])
}

/// Rank 0 completes; rank 1 is behind its section.
fn completing() -> Record {
    record([pending(2, 1), pending(4, 1)])
}

fn resting() -> Record {
    record([TaskRecord::default(); 2])
}

type Set = fn(&mut TaskRecord, u16);

const COUNTS: [Set; 7] = [
    |task, count| task.releases = count,
    |task, count| task.completions = count,
    |task, count| task.misses = count,
    |task, count| task.ran = count,
    |task, count| task.blocked = count,
    |task, count| task.worst = count,
    |task, count| task.most = count,
];

/// Every count at t and above it, and above zero where there is no task.
fn counts() -> Vec<Record> {
    let mut list = Vec::new();
    for count in [T, T + 1] {
        for base in [waiting(), resting()] {
            list.push(Record {
                switches: count,
                ..base
            });
            for rank in 0..2 {
                list.extend(COUNTS.map(|set| changed(base, rank, |task| set(task, count))));
            }
        }
    }
    for rank in [2, 15] {
        list.extend(COUNTS.map(|set| changed(resting(), rank, |task| set(task, 1))));
    }
    list
}

fn changed(mut record: Record, rank: usize, change: impl FnOnce(&mut TaskRecord)) -> Record {
    change(&mut record.tasks[rank]);
    record
}

/// Blocked ticks of the present job beside the most of any.
fn blocked() -> Vec<Record> {
    let blocked = |record, rank, present, most| {
        changed(record, rank, |task| {
            task.present = present;
            task.most = most;
        })
    };
    let pairs = [
        (0, 0),
        (1, 0),
        (3, 3),
        (3, 4),
        (3, 5),
        (4, 3),
        (0, T),
        (T, T),
    ];
    let past = [(0, T + 1), (T, T + 1), (T + 1, T), (T + 1, T + 1)];
    let mut list = Vec::new();
    for (present, most) in pairs.iter().chain(&past).copied() {
        for rank in 0..2 {
            for base in [waiting(), completing(), resting()] {
                list.push(blocked(base, rank, present, most));
            }
        }
    }
    for rank in [2, 15] {
        list.push(blocked(resting(), rank, 1, 0));
        list.push(blocked(resting(), rank, 1, 1));
    }
    list
}

/// The tick program's input for each of them.
pub fn by_hand() -> Vec<Vec<u8>> {
    let sheet = case_a(0).to_bytes();
    let records = [counts(), blocked()].concat();
    let input = |record: &Record| with_record(&sheet, &record.to_bytes());
    records.iter().map(input).collect()
}

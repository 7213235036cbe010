//! One tick on records made by hand.

mod common;

use common::{field, resting, second_tick, standing, tick, written};
use workbench::draft::{case_a, case_e, lock, run, unlock, with_record, Draft, DraftTask};
use workbench::record::{Job, Record, TaskRecord, NO_JOB, RECORD_HEAD};

/// A refused tick's answer: nothing else, and the record comes back as it came.
fn turned_away(number: u8, task: u8, record: &Record) -> String {
    let refusal = format!("refused {number} task {task} step 0\nrunner 0\n");
    refusal + &written(record)
}

/// Something done to a record.
type Change = fn(&mut Record);

fn runner(answer: &str) -> &str {
    answer.lines().next().unwrap()
}

fn job(rank: u8, release: u16) -> Job {
    Job { rank, release }
}

/// Case A at tick 5 as its run leaves it: rank 0 waits at its lock.
fn case_a_at_5() -> Record {
    let mut record = resting(5);
    record.last = job(1, 0);
    record.switches = 3;
    record.tasks[0] = TaskRecord {
        release: 2,
        releases: 1,
        ran: 1,
        blocked: 2,
        present: 2,
        most: 2,
        ..standing(1, 0)
    };
    record.tasks[1] = TaskRecord {
        releases: 1,
        ran: 4,
        ..standing(4, 1)
    };
    record
}

#[test]
fn whole_answer() {
    let rest = (2..16)
        .map(|rank| {
            format!(
                "{rank} pending 0 position 0 left 0 release 0 present 0 releases 0 done 0 \
                 missed 0 ran 0 blocked 0 worst 0 most 0\n"
            )
        })
        .collect::<String>();
    assert_eq!(
        tick(&case_a(0), &case_a_at_5()),
        "runner 0\nt 6 switches 4 last 0 2\n\
         0 pending 0 position 0 left 0 release 0 present 0 releases 1 done 1 missed 0 ran 2 \
         blocked 2 worst 4 most 2\n\
         1 pending 1 position 4 left 1 release 0 present 0 releases 1 done 0 missed 0 ran 4 \
         blocked 0 worst 0 most 0\n"
            .to_string()
            + &rest
    );
}

#[test]
fn missing_bytes_are_zero() {
    let sheet = case_a(0).to_bytes();
    // A record of zeros remembers a job released at 0, which is not below t.
    let zeros = Record::default();
    let answer = second_tick(&with_record(&sheet, &[]));
    assert_eq!(answer, turned_away(16, 0, &zeros));
    let start = &Record::start().to_bytes()[..RECORD_HEAD];
    let answer = second_tick(&with_record(&sheet, start));
    assert!(answer.starts_with("runner 1\nt 1 switches 1 last 1 0\n"));
    assert_eq!(second_tick(&[]), turned_away(1, 0, &zeros));
    assert_eq!(second_tick(&[9]), turned_away(1, 0, &zeros));
    let cut = &with_record(&sheet, &[])[..30];
    assert_eq!(second_tick(cut), turned_away(7, 1, &zeros));
    // Whatever follows the record is not looked at.
    let mut long = with_record(&sheet, &case_a_at_5().to_bytes());
    long.extend([255; 40]);
    assert_eq!(second_tick(&long), tick(&case_a(0), &case_a_at_5()));
}

#[test]
fn any_byte_but_zero_is_pending() {
    let mut bytes = case_a_at_5().to_bytes();
    bytes[RECORD_HEAD] = 200;
    let answer = second_tick(&with_record(&case_a(0).to_bytes(), &bytes));
    assert_eq!(answer, tick(&case_a(0), &case_a_at_5()));
}

#[test]
fn number_16_each_reason() {
    let reasons: [(&str, Change); 32] = [
        ("t", |r| r.t = 60_001),
        ("switches", |r| r.switches = 6),
        ("releases", |r| r.tasks[1].releases = 6),
        ("completions", |r| r.tasks[0].completions = 6),
        ("misses", |r| r.tasks[0].misses = 6),
        ("ran", |r| r.tasks[0].ran = 6),
        ("blocked", |r| r.tasks[1].blocked = 6),
        ("worst", |r| r.tasks[0].worst = 6),
        ("most", |r| r.tasks[1].most = 6),
        ("present above t", |r| {
            r.tasks[0].present = 6;
            r.tasks[0].most = 6;
        }),
        ("present above the most", |r| r.tasks[0].present = 3),
        ("present above the most of none", |r| r.tasks[1].present = 1),
        ("resting present", |r| {
            r.tasks[1] = TaskRecord {
                present: 1,
                most: 1,
                ..TaskRecord::default()
            }
        }),
        ("unused record's most", |r| r.tasks[2].most = 1),
        ("remembered rank n", |r| r.last.rank = 2),
        ("remembered rank 253", |r| r.last = job(253, 0)),
        ("remembered rank 254", |r| r.last = job(254, 0)),
        ("nobody remembered, with a tick", |r| r.last = job(255, 1)),
        ("remembered tick at t", |r| r.last.release = 5),
        ("remembered tick above t", |r| r.last.release = 6),
        ("unused record", |r| r.tasks[2].worst = 1),
        ("unused record pending", |r| r.tasks[15].pending = true),
        ("release tick at t", |r| r.tasks[0].release = 5),
        ("left at a lock", |r| r.tasks[0].left = 1),
        ("nothing left of a run", |r| r.tasks[1].left = 0),
        ("more left than there is", |r| r.tasks[1].left = 2),
        ("at an unlock", |r| r.tasks[0] = standing(3, 0)),
        ("behind the steps", |r| r.tasks[0] = standing(4, 0)),
        ("two holders", |r| {
            r.tasks[0] = standing(2, 1);
            r.tasks[1] = standing(2, 1);
        }),
        ("resting position", |r| r.tasks[0].pending = false),
        ("resting left", |r| {
            r.tasks[1] = TaskRecord {
                left: 1,
                ..TaskRecord::default()
            }
        }),
        ("resting release", |r| {
            r.tasks[1] = TaskRecord {
                release: 1,
                ..TaskRecord::default()
            }
        }),
    ];
    for (name, spoil) in reasons {
        let mut record = case_a_at_5();
        spoil(&mut record);
        let wanted = turned_away(16, 0, &record);
        assert_eq!(tick(&case_a(0), &record), wanted, "{name}");
    }
}

#[test]
fn just_possible() {
    let kinds: [Change; 10] = [
        |r| r.switches = 5,
        |r| r.tasks[1].blocked = 5,
        |r| r.tasks[1].worst = 5,
        |r| r.tasks[0].most = 5,
        |r| r.tasks[0].present = 0,
        |r| {
            r.tasks[0].present = 5;
            r.tasks[0].most = 5;
        },
        |r| r.last = NO_JOB,
        |r| r.last = job(0, 4),
        |r| r.last = job(1, 4),
        |r| r.tasks[0].release = 4,
    ];
    for change in kinds {
        let mut record = case_a_at_5();
        change(&mut record);
        assert_eq!(runner(&tick(&case_a(0), &record)), "runner 0");
    }
}

#[test]
fn number_17_after_16() {
    let mut record = resting(60_000);
    assert_eq!(tick(&case_a(0), &record), turned_away(17, 0, &record));
    record.last = job(2, 0);
    assert_eq!(tick(&case_a(0), &record), turned_away(16, 0, &record));
    record.last = job(0, 60_000);
    assert_eq!(tick(&case_a(0), &record), turned_away(16, 0, &record));
    record.last = job(0, 59_999);
    assert_eq!(tick(&case_a(0), &record), turned_away(17, 0, &record));
    record = resting(59_999);
    let answer = tick(&case_a(0), &record);
    assert_eq!(runner(&answer), "runner 255");
    assert!(answer.contains("\nt 60000 switches 0 last 255 0\n"));
}

#[test]
fn the_most_follows_the_present() {
    // Rank 0 waits at its lock while rank 1 runs on.
    for (present, most, after) in [(0, 0, 1), (2, 2, 3), (2, 3, 3), (2, 5, 5), (5, 5, 6)] {
        let mut record = resting(5);
        record.tasks[0] = TaskRecord {
            present,
            most,
            ..standing(1, 0)
        };
        record.tasks[1] = TaskRecord {
            present: 1,
            most: 4,
            ..standing(2, 3)
        };
        let answer = tick(&case_a(0), &record);
        assert_eq!(runner(&answer), "runner 1");
        assert_eq!(field(&answer, 0, "present"), i64::from(present) + 1);
        assert_eq!(field(&answer, 0, "most"), after);
        // Nothing of the runner's changes.
        assert_eq!(field(&answer, 1, "present"), 1);
        assert_eq!(field(&answer, 1, "most"), 4);
    }
}

#[test]
fn a_release_that_is_missed_leaves_the_present() {
    let mut record = resting(12);
    record.tasks[0] = TaskRecord {
        present: 3,
        most: 3,
        ..standing(1, 0)
    };
    let answer = tick(&case_a(0), &record);
    assert_eq!(runner(&answer), "runner 0");
    assert_eq!(field(&answer, 0, "missed"), 1);
    assert_eq!(field(&answer, 0, "present"), 0, "it completes");
    record.tasks[1] = standing(2, 3);
    let answer = tick(&case_a(0), &record);
    assert_eq!(runner(&answer), "runner 1");
    assert_eq!(field(&answer, 0, "missed"), 1);
    assert_eq!(field(&answer, 0, "present"), 4);
}

#[test]
fn a_switch_is_another_job() {
    // Rank 1 runs on inside its section, or to its end, released at 3.
    let draft = case_a(0);
    for (position, left) in [(2, 3), (4, 1)] {
        let cases = [
            (NO_JOB, 1),
            (job(1, 3), 0),
            (job(1, 2), 1),
            (job(1, 0), 1),
            (job(0, 3), 1),
        ];
        for (last, switches) in cases {
            let mut record = resting(5);
            record.last = last;
            record.tasks[1] = TaskRecord {
                release: 3,
                ..standing(position, left)
            };
            let wanted = format!("runner 1\nt 6 switches {switches} last 1 3\n");
            let answer = tick(&draft, &record);
            assert!(answer.starts_with(&wanted), "{last:?}: {answer}");
        }
    }
}

#[test]
fn a_job_released_now_is_another() {
    let mut record = resting(20);
    record.last = job(1, 19);
    let answer = tick(&case_a(0), &record);
    assert!(answer.starts_with("runner 1\nt 21 switches 1 last 1 20\n"));
}

#[test]
fn idle_ticks_are_passed_over() {
    for last in [NO_JOB, job(0, 0), job(1, 8)] {
        let mut record = resting(9);
        record.last = last;
        let wanted = format!(
            "runner 255\nt 10 switches 0 last {} {}\n",
            last.rank, last.release
        );
        assert!(tick(&case_a(0), &record).starts_with(&wanted));
    }
}

#[test]
fn sheet_refusals_before_the_record() {
    let mut draft = case_a(0);
    draft.tail = vec![0];
    let record = resting(60_001);
    assert_eq!(tick(&draft, &record), turned_away(13, 0, &record));
}

/// Rank 0 locks all of 0 to 2 once; the others hold one each while they run.
fn equal_ceilings() -> Draft {
    let one = |s| [lock(s), run(5), unlock(s)];
    let top = [one(0), one(1), one(2)].concat();
    let tasks = vec![
        DraftTask::new(100, 0, &top),
        DraftTask::new(100, 0, &one(2)),
        DraftTask::new(100, 0, &one(0)),
        DraftTask::new(100, 0, &one(1)),
    ];
    Draft::new(3, 0, tasks)
}

#[test]
fn ties_go_to_the_smallest_semaphore() {
    let mut record = resting(9);
    record.tasks[0] = standing(0, 0);
    record.tasks[1] = standing(1, 3);
    record.tasks[3] = standing(1, 3);
    let answer = tick(&equal_ceilings(), &record);
    assert_eq!(runner(&answer), "runner 3");
    let blocked: Vec<i64> = (0..4).map(|rank| field(&answer, rank, "blocked")).collect();
    assert_eq!(blocked, [1, 1, 0, 0]);
    record.tasks[2] = standing(1, 3);
    assert_eq!(runner(&tick(&equal_ceilings(), &record)), "runner 2");
}

/// Three tasks each of which may wait for the next one.
fn chain(mode: u8) -> Draft {
    let tasks = vec![
        DraftTask::new(100, 0, &[lock(0), run(1), unlock(0)]),
        DraftTask::new(
            100,
            0,
            &[lock(0), run(4), lock(1), run(4), unlock(1), unlock(0)],
        ),
        DraftTask::new(100, 0, &[run(2), lock(1), run(4), unlock(1)]),
    ];
    Draft::new(2, mode, tasks)
}

#[test]
fn candidacy_is_handed_on() {
    let mut record = resting(9);
    record.tasks[0] = standing(0, 0);
    record.tasks[1] = standing(2, 0);
    record.tasks[2] = standing(2, 4);
    // Rank 0 waits for rank 1, which waits for rank 2 by its own rank.
    let answer = tick(&chain(0), &record);
    assert_eq!(runner(&answer), "runner 2");
    assert_eq!(field(&answer, 0, "blocked"), 1);
    assert_eq!(field(&answer, 1, "blocked"), 1);
}

#[test]
fn two_wait_for_each_other_below_a_third() {
    let mut draft = case_e();
    draft.tasks.insert(0, draft.tasks[0].clone());
    let mut record = resting(2);
    record.tasks[0] = standing(0, 0);
    record.tasks[1] = standing(2, 0);
    record.tasks[2] = standing(2, 0);
    assert_eq!(runner(&tick(&draft, &record)), "runner 254");
}

#[test]
fn fresh_only_while_untouched() {
    // In mode 1, rank 1 runs first and locks later; rank 2 holds what rank 1
    // may lock.
    let tasks = vec![
        DraftTask::new(100, 99, &[run(1)]),
        DraftTask::new(100, 99, &[run(3), lock(0), run(1), unlock(0)]),
        DraftTask::new(100, 99, &[lock(0), run(4), unlock(0)]),
    ];
    let draft = Draft::new(1, 1, tasks);
    let mut record = resting(9);
    record.tasks[2] = standing(1, 2);
    record.tasks[1] = standing(0, 3);
    assert_eq!(runner(&tick(&draft, &record)), "runner 2");
    record.tasks[1] = standing(0, 2);
    assert_eq!(runner(&tick(&draft, &record)), "runner 1");
    // Without any lock, a fresh job is not held back.
    record.tasks[0] = standing(0, 1);
    assert_eq!(runner(&tick(&draft, &record)), "runner 0");
    // The preemption rule belongs to mode 1.
    record.tasks[0] = TaskRecord::default();
    record.tasks[1] = standing(0, 3);
    let mut mode_0 = draft.clone();
    mode_0.mode = 0;
    assert_eq!(runner(&tick(&mode_0, &record)), "runner 1");
}

#[test]
fn a_fresh_holder_may_be_held_back() {
    // Rank 1 has locked and not yet run, which no run from the start shows.
    let tasks = vec![
        DraftTask::new(100, 99, &[lock(0), run(2), unlock(0)]),
        DraftTask::new(100, 99, &[lock(1), run(2), unlock(1)]),
        DraftTask::new(100, 99, &[lock(0), run(2), unlock(0)]),
    ];
    let draft = Draft::new(2, 1, tasks);
    let mut record = resting(9);
    record.tasks[1] = standing(1, 2);
    record.tasks[2] = standing(1, 1);
    assert_eq!(runner(&tick(&draft, &record)), "runner 2");
    record.tasks[1] = standing(1, 1);
    assert_eq!(runner(&tick(&draft, &record)), "runner 1");
    // With both fresh, each waits for the other's ceiling.
    record.tasks[1] = standing(1, 2);
    record.tasks[2] = standing(1, 2);
    assert_eq!(runner(&tick(&draft, &record)), "runner 254");
}

#[test]
fn all_locks_before_the_run_are_taken() {
    let steps = [lock(0), lock(1), run(2), unlock(1), unlock(0), run(1)];
    let draft = Draft::new(2, 0, vec![DraftTask::new(100, 99, &steps)]);
    let mut record = resting(9);
    record.tasks[0] = standing(0, 0);
    let answer = tick(&draft, &record);
    assert_eq!(field(&answer, 0, "position"), 2);
    assert_eq!(field(&answer, 0, "left"), 1);
    record.tasks[0] = standing(2, 1);
    let answer = tick(&draft, &record);
    assert_eq!(field(&answer, 0, "position"), 5);
    assert_eq!(field(&answer, 0, "left"), 1);
}

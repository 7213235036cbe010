//! The numbers the scope document gives, and a few of the kind.

mod common;

use common::{field, resting, second, standing, switches, tick, trace};
use workbench::draft::{case_a, case_e, lock, run, unlock, Draft, DraftTask};
use workbench::record::{Job, Record};
use workbench::run::{whole_run, Run};
use workbench::sheet::Sheet;

#[test]
fn case_a_whole() {
    assert_eq!(case_a(0).to_bytes().len(), 45);
    assert_eq!(
        second(&case_a(0).with_horizon(10)),
        "ticks 10 switches 5\n\
         0 releases 1 done 1 missed 0 ran 2 blocked 2 worst 4 bound 3 laxity 5 most 2 by 1/1\n\
         1 releases 1 done 1 missed 0 ran 5 blocked 0 worst 7 bound 0 laxity 11 most 0 by -\n\
         trace 1 1 0 1 1 0 1 - - -\n"
    );
}

#[test]
fn case_a2_preemption_rule() {
    let answer = second(&case_a(1).with_horizon(10));
    assert_eq!(trace(&answer), "1 1 1 1 0 0 1 - - -");
    assert_eq!(switches(&answer), 3);
    assert_eq!(field(&answer, 0, "blocked"), 2);
    assert_eq!(field(&answer, 0, "worst"), 4);
}

#[test]
fn case_a3_bystander() {
    let mut draft = case_a(0);
    draft.semaphores = 2;
    let bystander = [lock(1), run(2), unlock(1)];
    draft.tasks.push(DraftTask::new(20, 0, &bystander));
    let answer = second(&draft.with_horizon(10));
    assert_eq!(trace(&answer), "1 1 0 1 1 0 1 2 2 -");
    assert_eq!(switches(&answer), 6);
    let plain = second(&case_a(0).with_horizon(10));
    let of_both = |answer: &str| answer.lines().skip(1).take(2).map(String::from).collect();
    let (ours, expected): (Vec<_>, Vec<_>) = (of_both(&answer), of_both(&plain));
    assert_eq!(ours, expected);
}

#[test]
fn case_b_bounds_and_laxities() {
    let sharing = |period, own, held| {
        let steps = [run(own), lock(0), run(held), unlock(0)];
        DraftTask::new(period, 0, &steps)
    };
    let tasks = vec![
        DraftTask::new(10, 0, &[run(4)]),
        sharing(15, 2, 2),
        sharing(30, 2, 2),
        sharing(100, 6, 4),
    ];
    let answer = second(&Draft::new(1, 0, tasks).with_horizon(0));
    let of_all = |name| (0..4).map(|rank| field(&answer, rank, name)).collect();
    let (bounds, laxities): (Vec<_>, Vec<_>) = (of_all("bound"), of_all("laxity"));
    assert_eq!(bounds, [0, 4, 4, 0]);
    assert_eq!(laxities, [6, -1, 2, 8]);
}

fn one_task(period: u16, length: u16) -> Draft {
    Draft::new(0, 0, vec![DraftTask::new(period, 0, &[run(length)])])
}

#[test]
fn case_d_miss() {
    let answer = second(&one_task(2, 3).with_horizon(5));
    assert_eq!(trace(&answer), "0 0 0 - 0");
    assert_eq!(switches(&answer), 2);
    for (name, expected) in [("releases", 3), ("missed", 1), ("done", 1), ("worst", 3)] {
        assert_eq!(field(&answer, 0, name), expected, "{name}");
    }
}

#[test]
fn case_d2_completion_at_the_end_is_no_miss() {
    let answer = second(&one_task(3, 3).with_horizon(6));
    assert_eq!(field(&answer, 0, "missed"), 0);
    assert_eq!(field(&answer, 0, "done"), 2);
    assert_eq!(trace(&answer), "0 0 0 0 0 0");
    // The second job starts at once, and is another.
    assert_eq!(switches(&answer), 2);
}

#[test]
fn case_e_stuck() {
    let mut record = resting(2);
    record.tasks[0] = standing(2, 0);
    record.tasks[1] = standing(2, 0);
    let answer = tick(&case_e(), &record);
    assert!(answer.starts_with("runner 254\nt 3 switches 0 last 255 0\n"));
    // Nobody runs, so nobody is blocked by a running job.
    assert_eq!(field(&answer, 0, "blocked"), 0);
    assert_eq!(field(&answer, 0, "position"), 2);
    record.last = Job {
        rank: 1,
        release: 1,
    };
    record.switches = 2;
    assert!(tick(&case_e(), &record).starts_with("runner 254\nt 3 switches 2 last 1 1\n"));
}

#[test]
fn case_f_nothing_run() {
    let zero = "releases 0 done 0 missed 0 ran 0 blocked 0 worst 0";
    assert_eq!(
        second(&case_a(0).with_horizon(0)),
        format!(
            "ticks 0 switches 0\n0 {zero} bound 3 laxity 5 most 0 by 1/1\n\
             1 {zero} bound 0 laxity 11 most 0 by -\ntrace\n"
        )
    );
}

#[test]
fn going_idle_is_no_switch() {
    let draft = Draft::new(0, 0, vec![DraftTask::new(4, 1, &[run(1)])]);
    let answer = second(&draft.with_horizon(8));
    assert_eq!(trace(&answer), "- 0 - - - 0 - -");
    assert_eq!(switches(&answer), 2);
}

#[test]
fn most_is_of_one_job() {
    // Each job of rank 0 waits two ticks at its lock; there are three of them.
    let tasks = vec![
        DraftTask::new(10, 1, &[lock(0), run(1), unlock(0)]),
        DraftTask::new(10, 0, &[lock(0), run(3), unlock(0)]),
    ];
    let draft = Draft::new(1, 0, tasks);
    let answer = second(&draft.with_horizon(30));
    assert_eq!(field(&answer, 0, "blocked"), 6);
    assert_eq!(field(&answer, 0, "most"), 2);
    assert_eq!(field(&answer, 0, "bound"), 3);
    // At tick 2 the first of them has waited one tick, and is still pending.
    let answer = second(&draft.with_horizon(2));
    assert_eq!(field(&answer, 0, "done"), 0);
    assert_eq!(field(&answer, 0, "most"), 1);
}

#[test]
fn equal_rank_waits_at_a_ceiling() {
    // Rank 1 shares semaphore 0 with rank 2, so its ceiling is 1, and wants
    // only semaphore 1, which is free.
    let tasks = vec![
        DraftTask::new(50, 40, &[run(1)]),
        DraftTask::new(
            50,
            1,
            &[lock(1), run(1), unlock(1), lock(0), run(1), unlock(0)],
        ),
        DraftTask::new(50, 0, &[lock(0), run(3), unlock(0), run(1)]),
    ];
    let answer = second(&Draft::new(2, 0, tasks).with_horizon(7));
    assert_eq!(trace(&answer), "2 2 2 1 1 2 -");
    assert_eq!(field(&answer, 1, "blocked"), 2);
}

#[test]
fn ranks_between_are_blocked_too() {
    let tasks = vec![
        DraftTask::new(50, 1, &[lock(0), run(1), unlock(0)]),
        DraftTask::new(50, 1, &[run(1)]),
        DraftTask::new(50, 0, &[lock(0), run(3), unlock(0)]),
    ];
    let answer = second(&Draft::new(1, 0, tasks).with_horizon(6));
    assert_eq!(trace(&answer), "2 2 2 0 1 -");
    assert_eq!(field(&answer, 0, "blocked"), 2);
    assert_eq!(field(&answer, 1, "blocked"), 2);
}

#[test]
fn inner_sections_count_with_their_own_length() {
    // The outer section's ceiling is rank 1's own; only the inner one, of
    // ceiling 0, can keep rank 0 waiting.
    let tasks = vec![
        DraftTask::new(100, 0, &[lock(1), run(1), unlock(1)]),
        DraftTask::new(
            200,
            0,
            &[
                lock(0),
                run(5),
                lock(1),
                run(2),
                unlock(1),
                run(4),
                unlock(0),
            ],
        ),
    ];
    let answer = second(&Draft::new(2, 0, tasks).with_horizon(0));
    assert_eq!(field(&answer, 0, "bound"), 2);
    assert_eq!(field(&answer, 1, "bound"), 0);
}

#[test]
fn demand_beyond_32_bits() {
    // At the last point the demand is 9,600,064,000; the best point is the
    // first, with one job of each task.
    let mut tasks = vec![DraftTask::new(1, 0, &[run(1_000); 64]); 15];
    tasks.push(DraftTask::new(10_000, 0, &[run(1_000); 64]));
    let answer = second(&Draft::new(0, 0, tasks).with_horizon(0));
    for rank in 0..16 {
        let jobs = rank as i64 + 1;
        assert_eq!(field(&answer, rank, "laxity"), 1 - jobs * 64_000);
    }
}

#[test]
fn laxity_at_a_period_no_other_divides() {
    let tasks = vec![
        DraftTask::new(10_000, 0, &[run(7)]),
        DraftTask::new(3, 0, &[run(2)]),
        DraftTask::new(8, 0, &[run(1)]),
    ];
    let answer = second(&Draft::new(0, 0, tasks).with_horizon(0));
    assert_eq!(field(&answer, 0, "laxity"), 10_000 - 7);
    assert_eq!(field(&answer, 1, "laxity"), 3 - 7 - 2);
    // Points 3, 6 and 8: 3 - 7 - 2 - 1, 6 - 7 - 4 - 1, 8 - 7 - 6 - 1.
    assert_eq!(field(&answer, 2, "laxity"), -6);
}

#[test]
fn a_run_is_its_ticks_one_by_one() {
    for draft in [case_a(0), case_a(1), case_e(), one_task(2, 3)] {
        let sheet = Sheet::read(&draft.to_bytes()).unwrap();
        let mut trace = [7; 300];
        let end = whole_run(&sheet, 200, &mut trace).unwrap();
        let mut record = Record::start();
        for runner in &trace[..200] {
            let mut run = Run::resume(&sheet, record).unwrap();
            assert_eq!(run.tick(), *runner);
            let bytes = run.record().to_bytes().try_into().unwrap();
            record = Record::from_bytes(&bytes);
        }
        assert_eq!(record, end);
        assert_eq!(trace[200..], [7; 100], "later bytes stay");
    }
}

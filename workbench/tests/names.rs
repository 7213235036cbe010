//! Which section is named behind a bound.

mod common;

use common::{field, second, second_calls};
use workbench::draft::{lock, run, unlock, with_call, Draft, DraftTask, RawStep};

fn held(semaphore: u16, ticks: u16) -> [RawStep; 3] {
    [lock(semaphore), run(ticks), unlock(semaphore)]
}

/// Tasks with these steps; two semaphores.
fn draft(bodies: &[&[RawStep]]) -> Draft {
    let task = |steps: &&[RawStep]| DraftTask::new(50, 0, steps);
    Draft::new(2, 0, bodies.iter().map(task).collect())
}

/// The names of all tasks, which the printed lines, the bounds and the
/// laxities have in common.
fn names(draft: &Draft) -> Vec<String> {
    let answer = second(&draft.with_horizon(0));
    let lines = answer.lines().skip(1).take(draft.tasks.len());
    let names: Vec<String> = lines
        .map(|line| line.split(" by ").nth(1).unwrap().to_string())
        .collect();
    let sheet = draft.to_bytes();
    for call in [3, 4] {
        let answer = second_calls(&with_call(call, [0, 0], 0, &sheet));
        let mut row: Vec<&str> = answer.lines().last().unwrap().split(' ').collect();
        assert_eq!(row.remove(0), "by");
        assert_eq!(row.len(), 16);
        let rest = row.split_off(names.len());
        assert_eq!(row, names);
        assert!(rest.iter().all(|name| *name == "-"));
    }
    names
}

#[test]
fn the_longest_is_named() {
    let twice = [held(0, 2), held(0, 4), held(0, 3)].concat();
    let draft = draft(&[&held(0, 1), &held(0, 3), &twice, &held(0, 3)]);
    assert_eq!(names(&draft), ["2/3", "2/3", "3/0", "-"]);
}

#[test]
fn ties_go_to_the_smallest_rank() {
    let later = [&[run(1)], &held(0, 4)[..]].concat();
    let draft = draft(&[&held(0, 1), &later, &held(0, 4), &held(0, 4)]);
    // Not the smaller step: the rank comes first.
    assert_eq!(names(&draft), ["1/1", "2/0", "3/0", "-"]);
}

#[test]
fn then_to_the_smallest_step() {
    let twice = [held(0, 4), held(0, 4), held(1, 4)].concat();
    assert_eq!(names(&draft(&[&held(0, 1), &twice])), ["1/0", "-"]);
    let split = [lock(0), run(1), run(3), unlock(0)];
    let twice = [&held(0, 3)[..], &split, &held(0, 4)].concat();
    assert_eq!(names(&draft(&[&held(0, 1), &twice])), ["1/3", "-"]);
}

#[test]
fn a_section_and_the_one_around_it() {
    let both = [lock(0), lock(1), run(4), unlock(1), unlock(0)];
    let locks_both = [held(0, 1), held(1, 1)].concat();
    assert_eq!(names(&draft(&[&locks_both, &both])), ["1/0", "-"]);
    // With the outer one out of reach, the inner one gives the bound.
    assert_eq!(names(&draft(&[&held(1, 1), &both])), ["1/1", "-"]);
    // A run between makes the outer one longer.
    let longer = [lock(0), run(1), lock(1), run(4), unlock(1), unlock(0)];
    assert_eq!(names(&draft(&[&locks_both, &longer])), ["1/0", "-"]);
    assert_eq!(names(&draft(&[&held(1, 1), &longer])), ["1/2", "-"]);
}

#[test]
fn nobody_s_own_sections() {
    let draft = draft(&[&[run(1)], &held(0, 9), &held(1, 9), &held(0, 1)]);
    let answer = second(&draft.with_horizon(0));
    let bounds: Vec<i64> = (0..4).map(|rank| field(&answer, rank, "bound")).collect();
    assert_eq!(bounds, [0, 1, 1, 0]);
    assert_eq!(names(&draft), ["-", "3/0", "3/0", "-"]);
}

#[test]
fn the_last_rank_and_lock() {
    let late = [&vec![run(1); 61], &held(0, 9)[..]].concat();
    let top = held(0, 1);
    let mut bodies: Vec<&[RawStep]> = vec![&top; 15];
    bodies.push(&late);
    assert_eq!(names(&draft(&bodies))[14], "15/61");
}

//! Sheets in which it matters which section is named behind a bound.

use workbench::draft::{lock, run, unlock, Draft, DraftTask, RawStep};

use crate::chance::Chance;
use crate::sheets::periodic;

/// A section of one run.
fn held(semaphore: u16, ticks: u16) -> Vec<RawStep> {
    vec![lock(semaphore), run(ticks), unlock(semaphore)]
}

/// Steps inside a section.
fn inside(semaphore: u16, body: &[RawStep]) -> Vec<RawStep> {
    [&[lock(semaphore)], body, &[unlock(semaphore)]].concat()
}

/// Rank 0 locks all that `bodies` lock, and the ranks behind it have those.
fn below_one_that_locks(semaphores: u16, bodies: &[Vec<RawStep>]) -> Draft {
    let top: Vec<RawStep> = (0..semaphores).flat_map(|s| held(s, 1)).collect();
    let tasks = [&[top], bodies].concat();
    let task = |steps: &Vec<RawStep>| DraftTask::new(90, 0, steps);
    Draft::new(semaphores as u8, 0, tasks.iter().map(task).collect())
}

/// Ties between ranks, between steps and between a section and the one around
/// it; a longer one first, last and between; names that none or one may bear.
pub fn by_hand() -> Vec<Draft> {
    let (short, long) = (held(0, 2), held(0, 3));
    let split = inside(0, &[run(1), run(2)]);
    let same = inside(1, &inside(0, &[run(3)]));
    let longer = inside(1, &[&[run(1)], &long[..]].concat());
    let bodies: [&[Vec<RawStep>]; 12] = [
        &[long.clone(), long.clone()],
        &[long.clone(), split.clone(), short.clone()],
        &[short.clone(), long.clone(), long.clone()],
        &[short.clone(), long.clone(), short.clone()],
        &[[&long[..], &long].concat()],
        &[[&short[..], &long, &split].concat(), long.clone()],
        &[[&short[..], &[run(9)], &short].concat(), short.clone()],
        &[same.clone(), long.clone()],
        &[long.clone(), same.clone()],
        &[inside(2, &same), longer.clone()],
        &[longer.clone(), short.clone(), inside(2, &longer)],
        &[vec![run(7)], vec![run(8)]],
    ];
    let mut drafts: Vec<Draft> = bodies
        .iter()
        .map(|bodies| below_one_that_locks(3, bodies))
        .collect();
    drafts.extend(reaching_some());
    drafts
}

/// Sections that count for some ranks only, and the last lock there can be.
fn reaching_some() -> Vec<Draft> {
    let task = |steps: &[RawStep]| DraftTask::new(90, 0, steps);
    // Only the inner section reaches rank 0; to rank 1 both are as long.
    let inner_alone = vec![
        task(&held(1, 1)),
        task(&held(0, 5)),
        task(&inside(0, &held(1, 4))),
        task(&inside(1, &held(0, 4))),
    ];
    // Nobody else has a lock of rank 1's semaphore, so none is named for it.
    let own_alone = vec![task(&[run(1)]), task(&held(0, 4)), task(&held(1, 6))];
    let mut last = vec![task(&held(15, 1)); 15];
    let late: Vec<RawStep> = [vec![run(1); 61], held(15, 9)].concat();
    last.push(task(&late));
    vec![
        Draft::new(2, 0, inner_alone),
        Draft::new(2, 1, own_alone),
        Draft::new(16, 0, last),
    ]
}

/// Sections of few lengths, so that mostly several are the longest.
pub fn tied(chance: &mut Chance) -> Draft {
    let semaphores = chance.word(2, 5);
    let length = chance.word(2, 4);
    let tasks = (0..chance.between(2, 9))
        .map(|_| {
            let items = (0..chance.between(1, 4)).map(|_| item(chance, semaphores, length));
            let steps: Vec<RawStep> = items.collect::<Vec<_>>().concat();
            periodic(chance, &steps)
        })
        .collect();
    Draft::new(semaphores as u8, chance.word(0, 1) as u8, tasks)
}

/// A run, or a section of about the length, in one of the ways to fill it.
fn item(chance: &mut Chance, semaphores: u16, length: u16) -> Vec<RawStep> {
    let outer = chance.word(0, semaphores - 1);
    let inner = (outer + chance.word(1, semaphores - 1)) % semaphores;
    match chance.below(7) {
        0 => vec![run(length)],
        1 => held(outer, length - 1),
        2 | 3 => held(outer, length),
        4 => inside(outer, &held(inner, length)),
        5 => inside(outer, &[run(length - 1), run(1)]),
        _ => inside(outer, &[&held(inner, length - 1)[..], &[run(1)]].concat()),
    }
}

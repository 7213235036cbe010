//! Damage to valid sheets, one way for every refusal they can meet.

use workbench::draft::{lock, run, unlock, Draft, RawStep};

use crate::chance::Chance;

/// What can be done to a draft at a task; cutting comes last of all.
type Damage = fn(&mut Chance, &mut Draft, usize);

/// Refusals 2 to 13 but for 7, several ways each.
pub const DAMAGES: [Damage; 24] = [
    |chance, draft, _| draft.mark[chance.below(3)] ^= 1 << chance.below(8),
    |chance, draft, _| draft.version = chance.pick(&[0, 2, 0x0100, 0x0101, 0xffff]),
    |chance, draft, _| draft.count = Some(chance.pick(&[0, 17, 18, 255])),
    |chance, draft, _| draft.semaphores = chance.pick(&[17, 18, 255]),
    |chance, draft, _| draft.mode = chance.pick(&[2, 3, 128, 255]),
    |chance, draft, rank| draft.tasks[rank].period = chance.pick(&[0, 10_001, 65_535]),
    |chance, draft, rank| {
        let period = draft.tasks[rank].period;
        draft.tasks[rank].offset = chance.pick(&[period, period.saturating_add(1), 65_535]);
    },
    |_, draft, rank| draft.tasks[rank].steps.clear(),
    |chance, draft, rank| draft.tasks[rank].count = Some(chance.pick(&[0, 65, 128, 255])),
    |_, draft, rank| draft.tasks[rank].steps.resize(65, run(1)),
    // A wrong count shifts everything behind it.
    |chance, draft, rank| draft.tasks[rank].count = Some(chance.word(1, 64) as u8),
    |chance, draft, _| draft.count = Some(chance.word(1, 16) as u8),
    // Fewer semaphores than the steps name.
    |chance, draft, _| draft.semaphores = chance.below(usize::from(draft.semaphores) + 1) as u8,
    |chance, draft, rank| {
        let step = chance.below(draft.tasks[rank].steps.len().max(1));
        if let Some((kind, _)) = draft.tasks[rank].steps.get_mut(step) {
            *kind = chance.pick(&[0, 4, 5, 255]);
        }
    },
    |chance, draft, rank| {
        let ticks = chance.pick(&[0, 1_001, 1_024, 65_535]);
        insert(chance, draft, rank, &[run(ticks)])
    },
    |chance, draft, rank| {
        let semaphores = u16::from(draft.semaphores);
        let number = chance.pick(&[semaphores, semaphores + 1, 255, 256, 65_535]);
        let step = chance.pick(&[lock(number), unlock(number)]);
        insert(chance, draft, rank, &[step])
    },
    // A lock or an unlock too many, wherever it falls.
    |chance, draft, rank| {
        let semaphore = any_semaphore(chance, draft);
        insert(chance, draft, rank, &[lock(semaphore)])
    },
    |chance, draft, rank| {
        let semaphore = any_semaphore(chance, draft);
        insert(chance, draft, rank, &[unlock(semaphore)])
    },
    // An empty section.
    |chance, draft, rank| {
        let semaphore = any_semaphore(chance, draft);
        insert(chance, draft, rank, &[lock(semaphore), unlock(semaphore)])
    },
    // A fifth level, or a semaphore locked twice, or unlocks crossed.
    |chance, draft, rank| {
        draft.semaphores = draft.semaphores.max(5);
        let levels = [lock(0), lock(1), lock(2), lock(3), lock(4), run(1)];
        insert(chance, draft, rank, &levels)
    },
    |chance, draft, rank| {
        draft.semaphores = draft.semaphores.max(2);
        insert(chance, draft, rank, &[lock(0), lock(1), run(1), lock(0)])
    },
    |chance, draft, rank| {
        draft.semaphores = draft.semaphores.max(2);
        let crossed = [lock(0), lock(1), run(1), unlock(0), unlock(1)];
        insert(chance, draft, rank, &crossed)
    },
    // A section left open at the end.
    |chance, draft, rank| {
        let semaphore = any_semaphore(chance, draft);
        let steps = &mut draft.tasks[rank].steps;
        steps.truncate(62);
        steps.extend([lock(semaphore), run(1)]);
    },
    |chance, draft, _| {
        let count = chance.pick(&[1, 1, 2, 3, 8, 100]);
        draft.tail = (0..count).map(|_| chance.byte()).collect();
    },
];

/// Puts steps in at any place, and keeps the count within its range.
fn insert(chance: &mut Chance, draft: &mut Draft, rank: usize, new: &[RawStep]) {
    let steps = &mut draft.tasks[rank].steps;
    let at = chance.below(steps.len() + 1);
    steps.splice(at..at, new.iter().copied());
    steps.truncate(64);
}

fn any_semaphore(chance: &mut Chance, draft: &mut Draft) -> u16 {
    draft.semaphores = draft.semaphores.max(1);
    chance.below(usize::from(draft.semaphores)) as u16
}

/// A first task or a later one.
fn any_task(chance: &mut Chance, draft: &Draft) -> usize {
    if chance.percent(40) {
        0
    } else {
        chance.below(draft.tasks.len())
    }
}

/// The draft's bytes with one damage; the index goes through all kinds.
pub fn damaged_once(chance: &mut Chance, mut draft: Draft, index: usize) -> Vec<u8> {
    let rank = any_task(chance, &draft);
    match DAMAGES.get(index % (DAMAGES.len() + 3)) {
        Some(damage) => {
            damage(chance, &mut draft, rank);
            draft.to_bytes()
        }
        None => cut(chance, &draft, index % 3),
    }
}

/// The draft's bytes with two to four damages.
pub fn damaged_often(chance: &mut Chance, mut draft: Draft) -> Vec<u8> {
    for _ in 0..chance.between(2, 4) {
        let rank = any_task(chance, &draft);
        let damage = chance.pick(&DAMAGES);
        damage(chance, &mut draft, rank);
    }
    if chance.percent(25) {
        let way = chance.below(3);
        return cut(chance, &draft, way);
    }
    draft.to_bytes()
}

/// Refusals 1 and 7: cut short in the header, in a task's head or anywhere.
fn cut(chance: &mut Chance, draft: &Draft, way: usize) -> Vec<u8> {
    let mut bytes = draft.to_bytes();
    let rank = any_task(chance, draft);
    let length = match way {
        0 => chance.below(8),
        1 => draft.head_at(rank) + chance.below(5),
        _ => chance.between(8, bytes.len() - 1),
    };
    bytes.truncate(length);
    bytes
}

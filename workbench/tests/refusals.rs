//! Every refusal at a first and a later task, and both sides of every limit.

mod common;

use common::second;
use workbench::draft::{case_a, lock, run, unlock, with_horizon, Draft, DraftTask, RawStep};
use workbench::refusal::Refusal;
use workbench::run::whole_run;
use workbench::sheet::Sheet;
use workbench::{INPUT_TAKEN, LONGEST_SHEET};

/// Something done to a draft.
type Change = fn(&mut Draft);
/// A number set in a draft.
type Setting = fn(&mut Draft, u16);

fn refused(number: u8, task: u8, step: u8) -> String {
    format!("refused {number} task {task} step {step}\n")
}

/// Case A with something done to it.
fn spoilt(spoil: impl FnOnce(&mut Draft)) -> String {
    let mut draft = case_a(0);
    spoil(&mut draft);
    second(&draft.with_horizon(10))
}

/// Case A with the steps of a task replaced.
fn with_steps(rank: usize, steps: &[RawStep]) -> String {
    spoilt(|draft| {
        draft.semaphores = 5;
        draft.tasks[rank].steps = steps.to_vec();
    })
}

fn runs(answer: &str) -> bool {
    answer.starts_with("ticks ")
}

#[test]
fn number_1_too_short() {
    let input = case_a(0).with_horizon(10);
    for length in 0..10 {
        assert_eq!(second(&input[..length]), refused(1, 0, 0), "{length} bytes");
    }
    assert_eq!(second(&input[..10]), refused(7, 0, 0));
}

#[test]
fn numbers_2_to_6_header() {
    for at in 0..3 {
        assert_eq!(spoilt(|draft| draft.mark[at] ^= 1), refused(2, 0, 0));
    }
    for version in [0, 2, 0x0100, 0x0101] {
        assert_eq!(spoilt(|draft| draft.version = version), refused(3, 0, 0));
    }
    for count in [0, 17, 255] {
        assert_eq!(spoilt(|draft| draft.count = Some(count)), refused(4, 0, 0));
    }
    for semaphores in [17, 255] {
        assert_eq!(
            spoilt(|draft| draft.semaphores = semaphores),
            refused(5, 0, 0)
        );
    }
    assert!(runs(&spoilt(|draft| draft.semaphores = 16)));
    for mode in [2, 255] {
        assert_eq!(spoilt(|draft| draft.mode = mode), refused(6, 0, 0));
    }
}

#[test]
fn header_faults_come_in_turn() {
    let mut draft = case_a(2);
    draft.semaphores = 17;
    draft.count = Some(17);
    draft.version = 2;
    draft.mark[2] = 0;
    let mends: [(u8, Change); 5] = [
        (2, |draft| draft.mark[2] = b'S'),
        (3, |draft| draft.version = 1),
        (4, |draft| draft.count = None),
        (5, |draft| draft.semaphores = 1),
        (6, |draft| draft.mode = 0),
    ];
    for (number, mend) in mends {
        assert_eq!(second(&draft.with_horizon(10)), refused(number, 0, 0));
        mend(&mut draft);
    }
    assert!(runs(&second(&draft.with_horizon(10))));
}

#[test]
fn number_7_cut() {
    let bytes = case_a(0).to_bytes();
    for length in 8..bytes.len() {
        let rank = u8::from(length >= case_a(0).head_at(1));
        let answer = second(&with_horizon(10, &bytes[..length]));
        assert_eq!(answer, refused(7, rank, 0), "{length} bytes");
    }
    // A task more than there is.
    assert_eq!(spoilt(|draft| draft.count = Some(3)), refused(7, 2, 0));
}

#[test]
fn numbers_8_to_10_task_head() {
    for rank in 0..2 {
        let task = rank as u8;
        for period in [0, 10_001, 65_535] {
            let answer = spoilt(|draft| draft.tasks[rank].period = period);
            assert_eq!(answer, refused(8, task, 0));
        }
        let answer = spoilt(|draft| draft.tasks[rank].offset = draft.tasks[rank].period);
        assert_eq!(answer, refused(9, task, 0));
        for count in [0, 65, 255] {
            let answer = spoilt(|draft| draft.tasks[rank].count = Some(count));
            assert_eq!(answer, refused(10, task, 0));
        }
    }
}

#[test]
fn numbers_8_to_10_before_the_steps() {
    // All of it wrong, and the steps cut off.
    let mut draft = case_a(0);
    draft.tasks[1] = DraftTask::new(10_001, 10_002, &[(9, 9)]);
    draft.tasks[1].count = Some(65);
    assert_eq!(second(&draft.with_horizon(60_001)), refused(8, 1, 0));
    draft.tasks[1].period = 10_000;
    assert_eq!(second(&draft.with_horizon(60_001)), refused(9, 1, 0));
    draft.tasks[1].offset = 0;
    assert_eq!(second(&draft.with_horizon(60_001)), refused(10, 1, 0));
    draft.tasks[1].count = Some(64);
    assert_eq!(second(&draft.with_horizon(60_001)), refused(7, 1, 0));
    draft.tasks[1].count = None;
    assert_eq!(second(&draft.with_horizon(60_001)), refused(11, 1, 0));
    draft.tasks[1].steps = vec![lock(0)];
    assert_eq!(second(&draft.with_horizon(60_001)), refused(12, 1, 1));
    draft.tasks[1].steps = vec![run(1)];
    draft.tail = vec![0];
    assert_eq!(second(&draft.with_horizon(60_001)), refused(13, 0, 0));
    draft.tail.clear();
    assert_eq!(second(&draft.with_horizon(60_001)), refused(14, 0, 0));
    assert!(runs(&second(&draft.with_horizon(60_000))));
}

#[test]
fn number_11_step() {
    let faults = [
        (0, 1),
        (4, 1),
        (255, 0),
        run(0),
        run(1_001),
        run(65_535),
        lock(5),
        lock(256),
        unlock(5),
        unlock(0x0104),
    ];
    for rank in 0..2 {
        for fault in faults {
            assert_eq!(with_steps(rank, &[fault]), refused(11, rank as u8, 0));
            let later = [run(1), lock(4), run(2), fault];
            assert_eq!(with_steps(rank, &later), refused(11, rank as u8, 3));
        }
    }
}

#[test]
fn number_12_nesting() {
    let faults: [(&[RawStep], u8); 12] = [
        (&[lock(0), run(1), lock(0)], 2),
        (&[lock(0), lock(1), lock(0), run(1)], 2),
        (&[lock(0), lock(1), lock(2), lock(3), lock(4)], 4),
        (&[lock(0), lock(1), run(1), unlock(0)], 3),
        (&[lock(0), run(1), unlock(1)], 2),
        (&[unlock(0)], 0),
        (&[run(1), unlock(0)], 1),
        (&[lock(0), run(1), unlock(0), unlock(0)], 3),
        (&[run(1), lock(0), unlock(0)], 2),
        (&[lock(0), run(1), lock(1), unlock(1), unlock(0)], 3),
        (&[lock(0), run(1)], 2),
        (&[lock(0), lock(1), run(1), unlock(1)], 4),
    ];
    for rank in 0..2 {
        for (steps, step) in faults {
            let answer = with_steps(rank, steps);
            assert_eq!(answer, refused(12, rank as u8, step), "{steps:?}");
        }
    }
}

#[test]
fn number_12_open_after_64_steps() {
    let mut steps = vec![lock(0)];
    steps.resize(64, run(1));
    assert_eq!(with_steps(0, &steps), refused(12, 0, 64));
}

#[test]
fn numbers_11_and_12_step_by_step() {
    assert_eq!(with_steps(0, &[unlock(0), run(0)]), refused(12, 0, 0));
    assert_eq!(with_steps(0, &[run(0), unlock(0)]), refused(11, 0, 0));
    // One step that is both.
    assert_eq!(with_steps(0, &[lock(0), unlock(5)]), refused(11, 0, 1));
}

#[test]
fn earlier_tasks_come_first() {
    let answer = spoilt(|draft| {
        draft.tasks[0].steps = vec![lock(0), run(1)];
        draft.tasks[1].period = 0;
        draft.tail = vec![1];
    });
    assert_eq!(answer, refused(12, 0, 2));
}

#[test]
fn number_13_bytes_after() {
    assert_eq!(spoilt(|draft| draft.tail = vec![0]), refused(13, 0, 0));
    assert_eq!(
        spoilt(|draft| draft.tail = vec![1; 9_000]),
        refused(13, 0, 0)
    );
    // The written count is too small, so the last task is left over.
    assert_eq!(spoilt(|draft| draft.count = Some(1)), refused(13, 0, 0));
}

#[test]
fn numbers_14_and_15_horizon() {
    let sheet = Sheet::read(&case_a(0).to_bytes()).unwrap();
    let run = |horizon, length| whole_run(&sheet, horizon, &mut vec![0; length]);
    assert_eq!(run(60_001, 0), Err(Refusal::plain(14)));
    assert_eq!(run(65_535, 65_535), Err(Refusal::plain(14)));
    assert_eq!(run(60_000, 59_999), Err(Refusal::plain(15)));
    assert_eq!(run(1, 0), Err(Refusal::plain(15)));
    assert!(run(60_000, 60_000).is_ok());
    assert!(run(0, 0).is_ok());
}

#[test]
fn two_sided_list() {
    let sides: [(Setting, u16, u8); 3] = [
        (|draft, period| draft.tasks[1].period = period, 10_000, 8),
        (
            |draft, length| draft.tasks[1].steps[0] = run(length),
            1_000,
            11,
        ),
        (
            |draft, offset| {
                draft.tasks[1].period = 10;
                draft.tasks[1].offset = offset
            },
            9,
            9,
        ),
    ];
    for (set, good, number) in sides {
        assert!(runs(&spoilt(|draft| set(draft, good))));
        assert_eq!(spoilt(|draft| set(draft, good + 1)), refused(number, 1, 0));
    }
    assert!(runs(&with_steps(1, &nested(4))));
    assert_eq!(with_steps(1, &nested(5)), refused(12, 1, 4));
    assert!(runs(&second(&case_a(0).with_horizon(60_000))));
    assert_eq!(second(&case_a(0).with_horizon(60_001)), refused(14, 0, 0));
    let bytes = case_a(0).to_bytes();
    let cut = with_horizon(10, &bytes[..bytes.len() - 1]);
    assert_eq!(second(&cut), refused(7, 1, 0));
    assert_eq!(spoilt(|draft| draft.tail = vec![0]), refused(13, 0, 0));
}

/// One run inside so many sections.
fn nested(levels: u16) -> Vec<RawStep> {
    let locks = (0..levels).map(lock);
    let unlocks = (0..levels).rev().map(unlock);
    locks.chain([run(1)]).chain(unlocks).collect()
}

#[test]
fn longest_sheet() {
    let tasks = vec![DraftTask::new(10_000, 9_999, &[run(1_000); 64]); 16];
    let mut draft = Draft::new(16, 1, tasks);
    assert_eq!(draft.to_bytes().len(), LONGEST_SHEET);
    assert!(runs(&second(&draft.with_horizon(60_000))));
    draft.tail = vec![0];
    assert_eq!(draft.with_horizon(10).len(), INPUT_TAKEN);
    assert_eq!(second(&draft.with_horizon(10)), refused(13, 0, 0));
    draft.tail = vec![0; 100_000];
    assert_eq!(second(&draft.with_horizon(10)), refused(13, 0, 0));
}

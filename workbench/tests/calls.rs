//! Each public call, on sheets that are accepted and refused.

mod common;

use common::{second_calls, written};
use workbench::draft::{case_a, lock, run, unlock, with_call, Draft, DraftTask};
use workbench::record::Record;
use workbench::report::BUFFER_MARK;
use workbench::run::whole_run;
use workbench::sheet::Sheet;

const CUT: &str = "refused 7 task 1 step 0\n";

/// A call that has neither numbers nor a buffer.
fn plain(call: u8, sheet: &[u8]) -> String {
    second_calls(&with_call(call, [0, 0], 0, sheet))
}

/// A run of case A, or of what is left of it, into a buffer.
fn run_into(horizon: u16, room: u16, sheet_bytes: usize) -> String {
    let sheet = &case_a(0).to_bytes()[..sheet_bytes];
    second_calls(&with_call(5, [horizon, 0], room, sheet))
}

/// The answer of a run: the refusal's line if there is one, a record, the
/// buffer.
fn answer(refusal: &str, record: &Record, buffer: &[u8]) -> String {
    let bytes: String = buffer.iter().map(|byte| format!(" {byte}")).collect();
    format!("{refusal}{}buffer{bytes}\n", written(record))
}

#[test]
fn check() {
    let sheet = case_a(1).to_bytes();
    assert_eq!(plain(1, &sheet), "tasks 2 semaphores 1 mode 1\n");
    let zero = "tasks 0 semaphores 0 mode 0\n";
    assert_eq!(plain(1, &sheet[..44]), CUT.to_string() + zero);
}

#[test]
fn sixteen_ceilings() {
    let mut draft = case_a(0);
    draft.semaphores = 16;
    draft.tasks[1].steps.extend([lock(15), run(1), unlock(15)]);
    let none = " 255".repeat(14);
    let sheet = draft.to_bytes();
    assert_eq!(plain(2, &sheet), format!("ceilings 0{none} 1\n"));
    let zeros = " 0".repeat(16);
    assert_eq!(plain(2, &sheet[..44]), format!("{CUT}ceilings{zeros}\n"));
}

#[test]
fn case_b_bounds_and_laxities() {
    let sharing = |period, own, held| {
        let steps = [run(own), lock(0), run(held), unlock(0)];
        DraftTask::new(period, 0, &steps)
    };
    let tasks = vec![
        DraftTask::new(10, 0, &[run(4)]),
        sharing(15, 2, 2),
        sharing(30, 2, 2),
        sharing(100, 6, 4),
    ];
    let sheet = Draft::new(1, 0, tasks).to_bytes();
    let (zeros, none) = (" 0".repeat(12), " -".repeat(12));
    let by = format!("by - 3/1 3/1 -{none}\n");
    assert_eq!(plain(3, &sheet), format!("bounds 0 4 4 0{zeros}\n{by}"));
    assert_eq!(plain(4, &sheet), format!("laxities 6 -1 2 8{zeros}\n{by}"));
}

#[test]
fn refused_bounds_have_no_names() {
    let sheet = &case_a(0).to_bytes()[..44];
    let (zeros, none) = (" 0".repeat(16), " -".repeat(16));
    for (call, title) in [(3, "bounds"), (4, "laxities")] {
        let answer = format!("{CUT}{title}{zeros}\nby{none}\n");
        assert_eq!(plain(call, sheet), answer);
    }
}

#[test]
fn later_bytes_stay() {
    let sheet = Sheet::read(&case_a(0).to_bytes()).unwrap();
    let end = |horizon| whole_run(&sheet, horizon, &mut vec![0; usize::from(horizon)]).unwrap();
    let mark = BUFFER_MARK;
    let trace = [1, 1, 0, 1, 1, 0, 1, 255, 255, 255, mark, mark];
    assert_eq!(run_into(10, 12, 45), answer("", &end(10), &trace));
    assert_eq!(run_into(10, 10, 45), answer("", &end(10), &trace[..10]));
    assert_eq!(run_into(0, 3, 45), answer("", &Record::start(), &[mark; 3]));
    assert_eq!(run_into(0, 0, 45), answer("", &Record::start(), &[]));
}

#[test]
fn a_refused_run_leaves_the_buffer() {
    let zeros = Record::default();
    for (number, horizon, room) in [(15, 10, 9), (15, 1, 0), (14, 60_001, 5), (14, 65_535, 0)] {
        let refusal = format!("refused {number} task 0 step 0\n");
        let buffer = vec![BUFFER_MARK; usize::from(room)];
        assert_eq!(
            run_into(horizon, room, 45),
            answer(&refusal, &zeros, &buffer)
        );
        assert_eq!(run_into(horizon, room, 44), answer(CUT, &zeros, &buffer));
    }
}

#[test]
fn start_and_no_such_call() {
    let sheet = case_a(0).to_bytes();
    assert_eq!(plain(6, &sheet), written(&Record::start()));
    for call in [0, 7, 255] {
        assert_eq!(plain(call, &sheet), "no such call\n");
    }
}

#[test]
fn missing_bytes_are_zero() {
    assert_eq!(second_calls(&[]), "no such call\n");
    let zeros = Record::default();
    let refusal = "refused 1 task 0 step 0\n";
    assert_eq!(second_calls(&[5]), answer(refusal, &zeros, &[]));
    // A sheet is read as far as it goes, and what follows it is not.
    let mut input = with_call(1, [0, 0], 0, &case_a(0).to_bytes());
    input.push(9);
    assert_eq!(second_calls(&input), "tasks 2 semaphores 1 mode 0\n");
    input.truncate(53);
    assert!(second_calls(&input).starts_with(CUT));
}

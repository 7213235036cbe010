//! The inputs, by category.

use workbench::draft::{
    case_a, case_e, lock, run, unlock, with_call, with_horizon, with_record, Draft, DraftTask,
    RawStep,
};
use workbench::record::{Record, TaskRecord, RECORD_HEAD};
use workbench::sheet::Sheet;

use crate::chance::Chance;
use crate::{damage, limits, names, records, remembered, sheets};

#[derive(Clone, Copy, PartialEq, Eq)]
pub enum Kind {
    /// A horizon and a sheet, for the printing programs.
    Run,
    /// A sheet and a record, for the tick programs.
    Tick,
    /// A call and what it takes, for the call programs.
    Call,
}

pub struct Input {
    /// Index into the categories.
    pub category: usize,
    pub kind: Kind,
    pub bytes: Vec<u8>,
}

/// Where a category's inputs come from.
enum Source {
    /// A list of its own; sampled by chance if the lists are too long.
    List(fn(&mut Chance) -> Vec<Vec<u8>>),
    /// As many as wanted, by weight against the other weights; the number says
    /// how many came before.
    Endless(usize, fn(&mut Chance, usize) -> Vec<u8>),
}

pub struct Category {
    pub name: &'static str,
    kind: Kind,
    source: Source,
}

use Kind::{Call, Run, Tick};
use Source::{Endless, List};

const fn category(name: &'static str, kind: Kind, source: Source) -> Category {
    Category { name, kind, source }
}

pub const CATEGORIES: [Category; 35] = [
    category("cases of the scope document", Run, List(scope_cases)),
    category("both sides of the limits", Run, List(two_sided)),
    category("horizons", Run, List(horizons)),
    category("longest sheets, longer inputs", Run, List(longest)),
    category("every truncation", Run, List(truncations)),
    category("every bit flipped", Run, List(bit_flips)),
    category("valid sheets, mode 0", Run, Endless(16, valid_mode_0)),
    category("valid sheets, mode 1", Run, Endless(16, valid_mode_1)),
    category("one damage", Run, Endless(12, one_damage)),
    category("several damages", Run, Endless(8, several_damages)),
    category("random bytes", Run, Endless(4, random_bytes)),
    category("extreme laxities", Run, Endless(4, extreme_laxities)),
    category("names by hand", Run, List(names_by_hand)),
    category("names on ties", Run, Endless(4, tied_names)),
    category("tick: made by hand", Tick, List(by_hand)),
    category("tick: both sides of limits", Tick, List(record_limits)),
    category("tick: remembered by hand", Tick, List(last_by_hand)),
    category("tick: cut and long inputs", Tick, List(tick_lengths)),
    category("tick: records along runs", Tick, Endless(6, along_runs)),
    category("tick: any possible record", Tick, Endless(6, any_possible)),
    category("tick: two and two locks", Tick, Endless(8, crossed)),
    category("tick: equal ceilings", Tick, Endless(5, equal_ceilings)),
    category("tick: fresh jobs, mode 1", Tick, Endless(6, fresh_jobs)),
    category("tick: impossible records", Tick, Endless(12, impossible)),
    category("tick: nudged records", Tick, Endless(6, nudged)),
    category("tick: damaged sheets", Tick, Endless(2, damaged_sheets)),
    category("tick: flipped bits", Tick, Endless(4, flipped)),
    category("call: made by hand", Call, List(calls_by_hand)),
    category("call: cut and long inputs", Call, List(call_lengths)),
    category("call: any on valid sheets", Call, Endless(6, call_valid)),
    category(
        "call: any on damaged sheets",
        Call,
        Endless(4, call_damaged),
    ),
    category("call: names by hand", Call, List(call_names)),
    category("call: names on ties", Call, Endless(3, call_tied)),
    category("call: runs, all buffers", Call, Endless(6, call_run)),
    category("call: flipped bits", Call, Endless(3, call_flipped)),
];

/// So many inputs of the kinds wanted, the same for the same seed. The lists
/// take at most half of them.
pub fn generate(seed: u64, count: usize, wanted: impl Fn(Kind) -> bool) -> Vec<Input> {
    let mut chance = Chance::new(seed);
    let used = || {
        let all = CATEGORIES.iter().enumerate();
        all.filter(|(_, category)| wanted(category.kind))
    };
    let mut lists: Vec<(usize, Vec<Vec<u8>>)> = Vec::new();
    for (index, category) in used() {
        if let List(make) = category.source {
            lists.push((index, make(&mut chance)));
        }
    }
    cut_to(&mut chance, &mut lists, count / 2);
    let mut parts = lists;
    let mut left = count - total(&parts);
    let mut weight_left: usize = used().map(|(_, category)| category.weight()).sum();
    for (index, category) in used() {
        if let Endless(weight, make) = category.source {
            let share = left * weight / weight_left;
            left -= share;
            weight_left -= weight;
            let made = (0..share).map(|index| make(&mut chance, index)).collect();
            parts.push((index, made));
        }
    }
    parts.into_iter().flat_map(inputs_of).collect()
}

impl Category {
    fn weight(&self) -> usize {
        match self.source {
            List(_) => 0,
            Endless(weight, _) => weight,
        }
    }
}

fn total(lists: &[(usize, Vec<Vec<u8>>)]) -> usize {
    lists.iter().map(|(_, list)| list.len()).sum()
}

/// Leaves each list its part of the room, if they do not fit into it whole.
fn cut_to(chance: &mut Chance, lists: &mut [(usize, Vec<Vec<u8>>)], room: usize) {
    let all = total(lists);
    if all <= room {
        return;
    }
    for (_, list) in lists {
        chance.shuffle(list);
        list.truncate(list.len() * room / all);
    }
}

/// The inputs of one category.
fn inputs_of((category, list): (usize, Vec<Vec<u8>>)) -> impl Iterator<Item = Input> {
    let kind = CATEGORIES[category].kind;
    list.into_iter().map(move |bytes| Input {
        category,
        kind,
        bytes,
    })
}

// Whole runs.

fn case_a3() -> Draft {
    let mut draft = case_a(0);
    draft.semaphores = 2;
    let bystander = [lock(1), run(2), unlock(1)];
    draft.tasks.push(DraftTask::new(20, 0, &bystander));
    draft
}

fn case_b() -> Draft {
    let sharing =
        |period, own, held| DraftTask::new(period, 0, &[run(own), lock(0), run(held), unlock(0)]);
    let tasks = vec![
        DraftTask::new(10, 0, &[run(4)]),
        sharing(15, 2, 2),
        sharing(30, 2, 2),
        sharing(100, 6, 4),
    ];
    Draft::new(1, 0, tasks)
}

fn one_task(period: u16, offset: u16, ticks: u16) -> Draft {
    Draft::new(0, 0, vec![DraftTask::new(period, offset, &[run(ticks)])])
}

fn scope_cases(_: &mut Chance) -> Vec<Vec<u8>> {
    let drafts = [
        case_a(0),
        case_a(1),
        case_a3(),
        case_b(),
        one_task(2, 0, 3),
        one_task(3, 0, 3),
        case_e(),
    ];
    let lengths = [0, 1, 5, 6, 10, 200];
    let of_each = |draft: &Draft| lengths.map(|horizon| draft.with_horizon(horizon));
    drafts.iter().flat_map(of_each).collect()
}

/// One run inside so many sections.
fn nested(levels: u16) -> Vec<RawStep> {
    let unlocks = (0..levels).rev().map(unlock);
    (0..levels)
        .map(lock)
        .chain([run(1)])
        .chain(unlocks)
        .collect()
}

fn two_sided(_: &mut Chance) -> Vec<Vec<u8>> {
    let mut list = Vec::new();
    for rank in 0..2 {
        let mut set = |change: &dyn Fn(&mut Draft)| {
            let mut draft = case_a(0);
            change(&mut draft);
            list.push(draft.with_horizon(40));
        };
        for period in [0, 1, 10_000, 10_001] {
            set(&|draft| draft.tasks[rank].period = period);
            set(&|draft| {
                draft.tasks[rank].offset = 0;
                draft.tasks[rank].period = period;
            });
        }
        for ticks in [0, 1, 1_000, 1_001] {
            set(&|draft| draft.tasks[rank].steps[0] = run(ticks));
        }
        for levels in 1..=6 {
            set(&|draft| {
                draft.semaphores = 6;
                draft.tasks[rank].steps = nested(levels);
            });
        }
        for offset in [0, 9, 10, 11] {
            set(&|draft| {
                draft.tasks[rank].period = 10;
                draft.tasks[rank].offset = offset;
            });
        }
        for count in [0, 1, 63, 64, 65, 66] {
            set(&|draft| draft.tasks[rank].steps = vec![run(1); count]);
        }
        for semaphore in [0, 1, 2, 256] {
            set(&|draft| draft.tasks[rank].steps = vec![lock(semaphore), run(1), unlock(0)]);
            set(&|draft| draft.tasks[rank].steps = vec![lock(0), run(1), unlock(semaphore)]);
        }
    }
    list.extend(whole_sheet_sides());
    list
}

/// The limits that belong to the sheet as a whole.
fn whole_sheet_sides() -> Vec<Vec<u8>> {
    let bytes = case_a(0).to_bytes();
    let one_more = [&bytes[..], &[0]].concat();
    let mut list = vec![
        with_horizon(40, &bytes[..bytes.len() - 1]),
        with_horizon(40, &one_more),
        with_horizon(60_000, &bytes),
        with_horizon(60_001, &bytes),
        with_horizon(60_001, &one_more),
    ];
    for count in [1, 15, 16, 17] {
        let task = case_a(0).tasks[1].clone();
        list.push(Draft::new(1, 0, vec![task; count]).with_horizon(40));
    }
    for semaphores in [0, 1, 15, 16, 17] {
        let mut draft = case_a(0);
        draft.semaphores = semaphores;
        list.push(draft.with_horizon(40));
    }
    for (version, mode) in [(0, 0), (1, 0), (1, 1), (1, 2), (2, 0), (256, 0)] {
        let mut draft = case_a(mode);
        draft.version = version;
        list.push(draft.with_horizon(40));
    }
    list
}

fn horizons(_: &mut Chance) -> Vec<Vec<u8>> {
    let lengths = [0, 1, 59_999, 60_000, 60_001, 65_535];
    let drafts = [case_a(0), case_a(1), case_a3(), one_task(10_000, 9_999, 1)];
    let of_each = |draft: &Draft| lengths.map(|horizon| draft.with_horizon(horizon));
    drafts.iter().flat_map(of_each).collect()
}

fn longest(chance: &mut Chance) -> Vec<Vec<u8>> {
    let mut list = Vec::new();
    for tail in [0, 0, 0, 1, 2, 3, 1_000, 6_000] {
        for horizon in [0, 900, 60_000] {
            let mut draft = sheets::longest(chance);
            draft.tail = vec![chance.byte(); tail];
            list.push(draft.with_horizon(horizon));
        }
    }
    // A short sheet with a tail beyond what is read.
    for tail in [3_115, 3_116, 3_117, 5_000] {
        let mut draft = case_a(0);
        draft.tail = vec![0; tail];
        list.push(draft.with_horizon(10));
    }
    // One byte short of the longest.
    let mut bytes = sheets::longest(chance).with_horizon(10);
    bytes.pop();
    list.push(bytes);
    list
}

/// Two small inputs: case A, and one with sections inside others.
fn small_inputs() -> [Vec<u8>; 2] {
    let tasks = vec![
        DraftTask::new(9, 3, &[lock(1), run(1), unlock(1)]),
        DraftTask::new(16, 0, &nested(3)),
    ];
    [
        case_a(0).with_horizon(30),
        Draft::new(4, 1, tasks).with_horizon(30),
    ]
}

fn truncations(_: &mut Chance) -> Vec<Vec<u8>> {
    let cuts = |input: &Vec<u8>| -> Vec<Vec<u8>> {
        (0..=input.len())
            .map(|length| input[..length].to_vec())
            .collect()
    };
    small_inputs().iter().flat_map(cuts).collect()
}

fn bit_flips(_: &mut Chance) -> Vec<Vec<u8>> {
    let input = &small_inputs()[0];
    let flip = |bit: usize| {
        let mut flipped = input.clone();
        flipped[bit / 8] ^= 1 << (bit % 8);
        flipped
    };
    (0..8 * input.len()).map(flip).collect()
}

fn valid_mode_0(chance: &mut Chance, _: usize) -> Vec<u8> {
    valid(chance, 0)
}

fn valid_mode_1(chance: &mut Chance, _: usize) -> Vec<u8> {
    valid(chance, 1)
}

fn valid(chance: &mut Chance, mode: u8) -> Vec<u8> {
    let mut draft = match chance.below(8) {
        0 => sheets::crossing(chance),
        1 => sheets::level(chance),
        2 => sheets::starters(chance),
        _ => sheets::busy(chance, mode),
    };
    draft.mode = mode;
    draft.with_horizon(sheets::horizon(chance))
}

/// A horizon that is itself too long now and then.
fn any_horizon(chance: &mut Chance) -> u16 {
    if chance.percent(15) {
        return chance.word(60_001, 65_535);
    }
    chance.word(0, 100)
}

fn one_damage(chance: &mut Chance, index: usize) -> Vec<u8> {
    let draft = sheets::busy(chance, 0);
    let bytes = damage::damaged_once(chance, draft, index);
    with_horizon(any_horizon(chance), &bytes)
}

fn several_damages(chance: &mut Chance, _: usize) -> Vec<u8> {
    let draft = sheets::busy(chance, 1);
    let bytes = damage::damaged_often(chance, draft);
    with_horizon(any_horizon(chance), &bytes)
}

/// Nothing but chance, or chance behind a right header.
fn random_bytes(chance: &mut Chance, index: usize) -> Vec<u8> {
    let mut bytes: Vec<u8> = (0..chance.below(200)).map(|_| chance.byte()).collect();
    if index % 2 == 1 {
        let header = [0, 50, b'L', b'T', b'S', 0, 1];
        let counts = [
            chance.word(1, 16) as u8,
            chance.word(0, 16) as u8,
            chance.byte() & 1,
        ];
        bytes = [&header[..], &counts[..], &bytes[..]].concat();
    }
    bytes
}

fn extreme_laxities(chance: &mut Chance, _: usize) -> Vec<u8> {
    sheets::extreme(chance).with_horizon(chance.pick(&[0, 1, 20, 300]))
}

fn names_by_hand(_: &mut Chance) -> Vec<Vec<u8>> {
    let drafts = names::by_hand();
    drafts.iter().map(|draft| draft.with_horizon(30)).collect()
}

fn tied_names(chance: &mut Chance, _: usize) -> Vec<u8> {
    names::tied(chance).with_horizon(sheets::horizon(chance))
}

// Single ticks.

fn read(draft: &Draft) -> Sheet {
    Sheet::read(&draft.to_bytes()).expect("the generator makes valid sheets")
}

fn tick_input(draft: &Draft, record: &Record) -> Vec<u8> {
    with_record(&draft.to_bytes(), &record.to_bytes())
}

/// A record at tick 9 with jobs at these ranks, positions and ticks left.
fn standing(jobs: &[(usize, u8, u16)]) -> Record {
    let mut record = Record::start();
    record.t = 9;
    for (rank, position, left) in jobs {
        record.tasks[*rank] = TaskRecord {
            pending: true,
            position: *position,
            left: *left,
            ..TaskRecord::default()
        };
    }
    record
}

/// One of everything that no run from the start shows.
fn by_hand(_: &mut Chance) -> Vec<Vec<u8>> {
    let mut list = Vec::new();
    list.push(tick_input(&case_e(), &standing(&[(0, 2, 0), (1, 2, 0)])));
    list.extend(hand_overs());
    list.extend(held_back());
    list.extend(ties());
    list.extend(pending_bytes());
    for t in [0, 59_999, 60_000, 60_001, 65_535] {
        let mut record = Record::start();
        record.t = t;
        list.push(tick_input(&case_a(0), &record));
    }
    list
}

fn record_limits(_: &mut Chance) -> Vec<Vec<u8>> {
    limits::by_hand()
}

fn last_by_hand(_: &mut Chance) -> Vec<Vec<u8>> {
    remembered::by_hand()
}

/// Rank 0 waits for rank 1, and rank 1 for rank 2 or for nobody.
fn hand_overs() -> Vec<Vec<u8>> {
    let tasks = vec![
        DraftTask::new(100, 0, &[lock(0), run(1), unlock(0)]),
        DraftTask::new(
            100,
            0,
            &[lock(0), run(4), lock(2), run(4), unlock(2), unlock(0)],
        ),
        // Semaphore 2's ceiling is 1: it stops rank 1 by its own rank, and
        // would not by an inherited rank 0.
        DraftTask::new(
            100,
            0,
            &[lock(2), run(4), lock(3), run(4), unlock(3), unlock(2)],
        ),
        DraftTask::new(100, 0, &[lock(3), run(4), unlock(3)]),
    ];
    let mut list = Vec::new();
    for mode in 0..2 {
        let draft = Draft::new(4, mode, tasks.clone());
        for third in [(2, 1, 3), (2, 1, 4), (2, 2, 0), (2, 3, 2), (3, 1, 2)] {
            let jobs = [(0, 0, 0), (1, 2, 0), third];
            list.push(tick_input(&draft, &standing(&jobs)));
            list.push(tick_input(&draft, &standing(&jobs[1..])));
            let waiting_last = [jobs[0], jobs[1], third, (3, 0, 0)];
            list.push(tick_input(&draft, &standing(&waiting_last)));
        }
    }
    list
}

/// Fresh jobs at locks and at runs, untouched and touched, in both modes.
fn held_back() -> Vec<Vec<u8>> {
    let tasks = vec![
        DraftTask::new(100, 99, &[run(3), lock(0), run(1), unlock(0)]),
        DraftTask::new(
            100,
            99,
            &[lock(1), lock(2), run(3), unlock(2), unlock(1), run(2)],
        ),
        DraftTask::new(100, 99, &[run(3)]),
        DraftTask::new(100, 99, &[lock(0), run(4), unlock(0)]),
    ];
    let mut list = Vec::new();
    for mode in 0..2 {
        let draft = Draft::new(3, mode, tasks.clone());
        for holder in [(3, 1, 4), (3, 1, 3)] {
            for job in [
                (0, 0, 3),
                (0, 0, 2),
                (0, 1, 0),
                (1, 0, 0),
                (1, 1, 0),
                (1, 2, 3),
                (1, 2, 2),
                (1, 5, 2),
                (2, 0, 3),
                (2, 0, 1),
            ] {
                list.push(tick_input(&draft, &standing(&[job, holder])));
            }
        }
    }
    list
}

/// Several semaphores of equal ceiling in different hands.
fn ties() -> Vec<Vec<u8>> {
    let one = |semaphore| [lock(semaphore), run(5), unlock(semaphore)];
    let top = [one(0), one(1), one(2)].concat();
    let mut list = Vec::new();
    for order in [
        [0, 1, 2],
        [0, 2, 1],
        [1, 0, 2],
        [1, 2, 0],
        [2, 0, 1],
        [2, 1, 0],
    ] {
        let mut tasks = vec![DraftTask::new(100, 0, &top)];
        tasks.extend(order.map(|semaphore| DraftTask::new(100, 0, &one(semaphore))));
        let draft = Draft::new(3, 0, tasks);
        let jobs = [(0, 0, 0), (1, 1, 5), (2, 1, 4), (3, 1, 1)];
        list.push(tick_input(&draft, &standing(&jobs)));
        list.push(tick_input(&draft, &standing(&jobs[..3])));
        list.push(tick_input(&draft, &standing(&[jobs[0], jobs[1], jobs[3]])));
    }
    list
}

/// Pending written as something other than 1.
fn pending_bytes() -> Vec<Vec<u8>> {
    let sheet = case_a(0).to_bytes();
    let record = standing(&[(0, 1, 0), (1, 2, 3)]);
    let written = |byte| {
        let mut bytes = record.to_bytes();
        bytes[RECORD_HEAD] = byte;
        with_record(&sheet, &bytes)
    };
    [0, 1, 2, 128, 255].map(written).to_vec()
}

/// The tick program's input of any length, and with tails.
fn tick_lengths(chance: &mut Chance) -> Vec<Vec<u8>> {
    let draft = case_a(0);
    let input = tick_input(&draft, &records::along(chance, &read(&draft)));
    let mut list: Vec<Vec<u8>> = (0..60)
        .chain((60..input.len()).step_by(9))
        .map(|length| input[..length].to_vec())
        .collect();
    for tail in [1, 2, 500] {
        list.push([&input[..], &vec![255; tail]].concat());
    }
    // A length that takes in the record, or stops inside the sheet.
    let all = input.len() as u16 - 2;
    for length in [0, 1, 7, 8, 44, 46, 60, all, all + 1, 65_535] {
        let mut other = input.clone();
        other[..2].copy_from_slice(&length.to_be_bytes());
        list.push(other);
    }
    list
}

fn any_mode(chance: &mut Chance) -> u8 {
    chance.word(0, 1) as u8
}

fn along_runs(chance: &mut Chance, _: usize) -> Vec<u8> {
    let mode = any_mode(chance);
    let draft = sheets::busy(chance, mode);
    let record = records::along(chance, &read(&draft));
    tick_input(&draft, &record)
}

/// A draft with a possible record, much or little pending.
fn placed(chance: &mut Chance, draft: Draft) -> (Draft, Record) {
    let crowd = chance.pick(&[40, 80, 95]);
    let record = records::possible(chance, &read(&draft), crowd);
    (draft, record)
}

fn any_possible(chance: &mut Chance, _: usize) -> Vec<u8> {
    let mode = any_mode(chance);
    let draft = sheets::busy(chance, mode);
    let (draft, record) = placed(chance, draft);
    tick_input(&draft, &record)
}

fn crossed(chance: &mut Chance, _: usize) -> Vec<u8> {
    let draft = sheets::crossing(chance);
    let (draft, record) = placed(chance, draft);
    tick_input(&draft, &record)
}

fn equal_ceilings(chance: &mut Chance, _: usize) -> Vec<u8> {
    let draft = sheets::level(chance);
    let (draft, record) = placed(chance, draft);
    tick_input(&draft, &record)
}

fn fresh_jobs(chance: &mut Chance, _: usize) -> Vec<u8> {
    let draft = sheets::starters(chance);
    let (draft, record) = placed(chance, draft);
    tick_input(&draft, &record)
}

fn impossible(chance: &mut Chance, index: usize) -> Vec<u8> {
    let draft = match chance.below(3) {
        0 => sheets::crossing(chance),
        1 => sheets::level(chance),
        _ => {
            let task_count = chance.between(2, 16);
            sheets::sized(chance, 0, task_count)
        }
    };
    let (draft, mut record) = placed(chance, draft);
    let spoil = records::SPOILS[index % records::SPOILS.len()];
    spoil(chance, &read(&draft), &mut record);
    tick_input(&draft, &record)
}

fn any_tick(chance: &mut Chance) -> (Draft, Record) {
    let draft = match chance.below(4) {
        0 => sheets::crossing(chance),
        1 => sheets::level(chance),
        2 => sheets::starters(chance),
        _ => {
            let mode = any_mode(chance);
            sheets::busy(chance, mode)
        }
    };
    placed(chance, draft)
}

fn nudged(chance: &mut Chance, _: usize) -> Vec<u8> {
    let (draft, mut record) = any_tick(chance);
    for _ in 0..chance.between(1, 2) {
        records::nudge(chance, &read(&draft), &mut record);
    }
    tick_input(&draft, &record)
}

/// A refusal of the sheet goes before any of the record.
fn damaged_sheets(chance: &mut Chance, _: usize) -> Vec<u8> {
    let (draft, record) = any_tick(chance);
    let bytes = damage::damaged_often(chance, draft);
    with_record(&bytes, &record.to_bytes())
}

fn flipped(chance: &mut Chance, _: usize) -> Vec<u8> {
    let (draft, record) = any_tick(chance);
    let mut input = tick_input(&draft, &record);
    for _ in 0..chance.between(1, 3) {
        let at = chance.below(input.len());
        input[at] ^= 1 << chance.below(8);
    }
    input
}

// Any call.

/// The calls that take a sheet.
const CALLS: [u8; 5] = [1, 2, 3, 4, RUN_INTO];
/// Those that name the section behind a bound.
const NAMING: [u8; 2] = [3, 4];
/// The call that has a horizon and a buffer.
const RUN_INTO: u8 = 5;
/// The call that takes nothing, and numbers that are no call's.
const OTHERS: [u8; 4] = [6, 0, 7, 255];

/// Horizons with buffers that are too short, just long enough and longer.
const ROOMS: [(u16, u16); 17] = [
    (0, 0),
    (0, 1),
    (0, 7),
    (1, 0),
    (1, 1),
    (10, 0),
    (10, 9),
    (10, 10),
    (10, 11),
    (10, 40),
    (60_000, 59_999),
    (60_000, 60_000),
    (60_000, 65_535),
    (60_001, 60_000),
    (60_001, 60_001),
    (60_001, 0),
    (65_535, 65_535),
];

fn calls_by_hand(_: &mut Chance) -> Vec<Vec<u8>> {
    let drafts = [case_a(0), case_a(1), case_b(), case_a3(), case_e()];
    let mut list = Vec::new();
    for draft in &drafts {
        let sheet = draft.to_bytes();
        let on_it = |call| with_call(call, [10, 0], 12, &sheet);
        list.extend(CALLS.map(on_it));
        list.extend(OTHERS.map(on_it));
    }
    let sheet = case_a(0).to_bytes();
    for (horizon, room) in ROOMS {
        list.push(with_call(RUN_INTO, [horizon, 0], room, &sheet));
        // A sheet's refusal goes before those of the horizon and the buffer.
        list.push(with_call(RUN_INTO, [horizon, 0], room, &sheet[..44]));
    }
    list
}

/// The call program's input of any length, and with tails.
fn call_lengths(chance: &mut Chance) -> Vec<Vec<u8>> {
    let call = chance.pick(&CALLS);
    let input = with_call(call, [20, 0], 25, &case_a(0).to_bytes());
    let mut list: Vec<Vec<u8>> = (0..=input.len())
        .map(|length| input[..length].to_vec())
        .collect();
    for tail in [1, 2, 500] {
        list.push([&input[..], &vec![255; tail]].concat());
    }
    // A length that is not the sheet's.
    for length in [0, 1, 7, 8, 44, 46, 65_535_u16] {
        let mut other = input.clone();
        other[7..9].copy_from_slice(&length.to_be_bytes());
        list.push(other);
    }
    list
}

/// A valid sheet of any kind.
fn any_sheet(chance: &mut Chance) -> Draft {
    match chance.below(7) {
        0 => sheets::crossing(chance),
        1 => sheets::level(chance),
        2 => sheets::starters(chance),
        3 => sheets::extreme(chance),
        4 => names::tied(chance),
        _ => {
            let mode = any_mode(chance);
            sheets::busy(chance, mode)
        }
    }
}

/// A horizon, and a buffer somewhat shorter, as long, or somewhat longer.
fn any_room(chance: &mut Chance) -> (u16, u16) {
    if chance.percent(2) {
        return chance.pick(&ROOMS);
    }
    if chance.percent(6) {
        return (chance.word(60_001, 65_535), chance.word(0, 150));
    }
    let horizon = chance.word(0, 150);
    let room = match chance.below(8) {
        0 => chance.word(0, horizon),
        1 => horizon.saturating_sub(1),
        2..=4 => horizon,
        _ => horizon + chance.word(1, 60),
    };
    (horizon, room)
}

fn call_on(chance: &mut Chance, call: u8, sheet: &[u8]) -> Vec<u8> {
    let (horizon, room) = any_room(chance);
    let other = chance.word(0, 300);
    with_call(call, [horizon, other], room, sheet)
}

fn call_valid(chance: &mut Chance, index: usize) -> Vec<u8> {
    let sheet = any_sheet(chance).to_bytes();
    call_on(chance, CALLS[index % CALLS.len()], &sheet)
}

fn call_damaged(chance: &mut Chance, index: usize) -> Vec<u8> {
    let draft = any_sheet(chance);
    let sheet = damage::damaged_once(chance, draft, index);
    call_on(chance, CALLS[index % CALLS.len()], &sheet)
}

fn call_names(_: &mut Chance) -> Vec<Vec<u8>> {
    let of_each = |draft: &Draft| NAMING.map(|call| with_call(call, [0, 0], 0, &draft.to_bytes()));
    names::by_hand().iter().flat_map(of_each).collect()
}

fn call_tied(chance: &mut Chance, index: usize) -> Vec<u8> {
    let sheet = names::tied(chance).to_bytes();
    call_on(chance, NAMING[index % 2], &sheet)
}

fn call_run(chance: &mut Chance, _: usize) -> Vec<u8> {
    let sheet = any_sheet(chance).to_bytes();
    call_on(chance, RUN_INTO, &sheet)
}

fn call_flipped(chance: &mut Chance, index: usize) -> Vec<u8> {
    let mut input = if chance.percent(30) {
        call_damaged(chance, index)
    } else {
        call_run(chance, index)
    };
    for _ in 0..chance.between(1, 3) {
        let at = chance.below(input.len());
        input[at] ^= 1 << chance.below(8);
    }
    input
}

#[cfg(test)]
mod tests {
    use super::*;

    /// With as many inputs as are made where nothing is said, every list is
    /// taken whole.
    #[test]
    fn lists_are_whole() {
        let inputs = generate(1, 6_000, |_| true);
        assert_eq!(inputs.len(), 6_000);
        for (index, category) in CATEGORIES.iter().enumerate() {
            if let List(make) = category.source {
                let taken = inputs.iter().filter(|input| input.category == index);
                let all = make(&mut Chance::new(1));
                assert_eq!(taken.count(), all.len(), "{}", category.name);
            }
        }
    }
}

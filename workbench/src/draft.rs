//! Sheets being written, right or wrong: what the tests, the comparer and the
//! benchmark make their inputs from. The simulator itself does not use this.

/// A step as its kind and its value stand in the bytes.
pub type RawStep = (u8, u16);

pub const RUN: u8 = 1;
pub const LOCK: u8 = 2;
pub const UNLOCK: u8 = 3;

pub fn run(ticks: u16) -> RawStep {
    (RUN, ticks)
}

pub fn lock(semaphore: u16) -> RawStep {
    (LOCK, semaphore)
}

pub fn unlock(semaphore: u16) -> RawStep {
    (UNLOCK, semaphore)
}

#[derive(Clone, Debug)]
pub struct DraftTask {
    pub period: u16,
    pub offset: u16,
    /// The step count as written, where it is not the true one.
    pub count: Option<u8>,
    pub steps: Vec<RawStep>,
}

impl DraftTask {
    pub fn new(period: u16, offset: u16, steps: &[RawStep]) -> Self {
        Self {
            period,
            offset,
            count: None,
            steps: steps.to_vec(),
        }
    }

    fn byte_count(&self) -> usize {
        5 + 3 * self.steps.len()
    }

    fn write_to(&self, bytes: &mut Vec<u8>) {
        bytes.extend(self.period.to_be_bytes());
        bytes.extend(self.offset.to_be_bytes());
        bytes.push(self.count.unwrap_or(self.steps.len() as u8));
        for (kind, value) in &self.steps {
            bytes.push(*kind);
            bytes.extend(value.to_be_bytes());
        }
    }
}

#[derive(Clone, Debug)]
pub struct Draft {
    pub mark: [u8; 3],
    pub version: u16,
    /// The task count as written, where it is not the true one.
    pub count: Option<u8>,
    pub semaphores: u8,
    pub mode: u8,
    pub tasks: Vec<DraftTask>,
    /// Bytes after the last task.
    pub tail: Vec<u8>,
}

impl Draft {
    pub fn new(semaphores: u8, mode: u8, tasks: Vec<DraftTask>) -> Self {
        Self {
            mark: *b"LTS",
            version: 1,
            count: None,
            semaphores,
            mode,
            tasks,
            tail: Vec::new(),
        }
    }

    /// Where the head of a task begins in the bytes.
    pub fn head_at(&self, rank: usize) -> usize {
        8 + self.tasks[..rank]
            .iter()
            .map(DraftTask::byte_count)
            .sum::<usize>()
    }

    pub fn to_bytes(&self) -> Vec<u8> {
        let mut bytes = self.mark.to_vec();
        bytes.extend(self.version.to_be_bytes());
        bytes.push(self.count.unwrap_or(self.tasks.len() as u8));
        bytes.extend([self.semaphores, self.mode]);
        for task in &self.tasks {
            task.write_to(&mut bytes);
        }
        bytes.extend(&self.tail);
        bytes
    }

    /// The printing program's input: a horizon, then the sheet.
    pub fn with_horizon(&self, horizon: u16) -> Vec<u8> {
        with_horizon(horizon, &self.to_bytes())
    }
}

/// The printing program's input for a sheet already in bytes.
pub fn with_horizon(horizon: u16, sheet: &[u8]) -> Vec<u8> {
    let mut input = horizon.to_be_bytes().to_vec();
    input.extend(sheet);
    input
}

/// The tick program's input: the sheet's length, the sheet, a record.
pub fn with_record(sheet: &[u8], record: &[u8]) -> Vec<u8> {
    let mut input = (sheet.len() as u16).to_be_bytes().to_vec();
    input.extend(sheet);
    input.extend(record);
    input
}

/// The call program's input: the call's number, its two numbers, the length of
/// the buffer, the sheet's length, the sheet.
pub fn with_call(call: u8, numbers: [u16; 2], room: u16, sheet: &[u8]) -> Vec<u8> {
    let mut input = vec![call];
    for word in [numbers[0], numbers[1], room, sheet.len() as u16] {
        input.extend(word.to_be_bytes());
    }
    input.extend(sheet);
    input
}

/// Case A: two tasks that share a semaphore.
pub fn case_a(mode: u8) -> Draft {
    Draft::new(
        1,
        mode,
        vec![
            DraftTask::new(10, 2, &[run(1), lock(0), run(1), unlock(0)]),
            DraftTask::new(20, 0, &[run(1), lock(0), run(3), unlock(0), run(1)]),
        ],
    )
}

/// Case E: two tasks that lock the same two semaphores the other way round.
pub fn case_e() -> Draft {
    let body = |first, second| {
        [
            lock(first),
            run(1),
            lock(second),
            run(1),
            unlock(second),
            unlock(first),
        ]
    };
    Draft::new(
        2,
        0,
        vec![
            DraftTask::new(20, 0, &body(0, 1)),
            DraftTask::new(20, 0, &body(1, 0)),
        ],
    )
}

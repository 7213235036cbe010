//! Runs two programs on the same inputs and holds their answers together.

use std::io::{self, Read, Write};
use std::path::{Path, PathBuf};
use std::process::{Command, Stdio};
use std::sync::atomic::{AtomicUsize, Ordering};
use std::thread;

use crate::inputs::{Input, Kind};

const WORKERS: usize = 2;

/// The program under test, and the second simulator's.
pub struct Pair {
    pub theirs: PathBuf,
    pub second: PathBuf,
}

/// The programs that take whole runs, those that take one tick, and those that
/// take any call.
pub struct Programs {
    pub run: Pair,
    pub tick: Option<Pair>,
    pub call: Option<Pair>,
}

impl Programs {
    pub fn pair(&self, kind: Kind) -> Option<&Pair> {
        match kind {
            Kind::Run => Some(&self.run),
            Kind::Tick => self.tick.as_ref(),
            Kind::Call => self.call.as_ref(),
        }
    }
}

/// What one program answered.
pub struct Answer {
    pub text: Vec<u8>,
    /// Ended by a signal rather than by itself.
    pub killed: bool,
}

/// Both answers to one input.
pub struct Outcome {
    pub theirs: Answer,
    pub second: Answer,
}

impl Outcome {
    /// Whether the answers differ. No answer at all is never right.
    pub fn differs(&self) -> bool {
        let broken = |answer: &Answer| answer.killed || answer.text.is_empty();
        self.theirs.text != self.second.text || broken(&self.theirs) || broken(&self.second)
    }
}

/// Runs all inputs and hands every outcome to `look`, in no certain order;
/// keeps what `look` answers, by index.
pub fn run_all<T: Send>(
    programs: &Programs,
    inputs: &[Input],
    look: impl Fn(&Outcome) -> T + Sync,
) -> io::Result<Vec<T>> {
    let next = AtomicUsize::new(0);
    let work = || -> io::Result<Vec<(usize, T)>> {
        let mut done = Vec::new();
        loop {
            let index = next.fetch_add(1, Ordering::Relaxed);
            match inputs.get(index) {
                Some(input) => done.push((index, look(&outcome(programs, input)?))),
                None => return Ok(done),
            }
        }
    };
    let mut all = thread::scope(|scope| {
        let workers: Vec<_> = (0..WORKERS).map(|_| scope.spawn(work)).collect();
        let mut all = Vec::new();
        for worker in workers {
            all.extend(worker.join().expect("a worker does not panic")?);
        }
        io::Result::Ok(all)
    })?;
    all.sort_by_key(|(index, _)| *index);
    Ok(all.into_iter().map(|(_, seen)| seen).collect())
}

fn outcome(programs: &Programs, input: &Input) -> io::Result<Outcome> {
    let pair = programs
        .pair(input.kind)
        .expect("inputs come with programs");
    Ok(Outcome {
        theirs: answer(&pair.theirs, &input.bytes)?,
        second: answer(&pair.second, &input.bytes)?,
    })
}

fn answer(program: &Path, input: &[u8]) -> io::Result<Answer> {
    let mut child = Command::new(program)
        .stdin(Stdio::piped())
        .stdout(Stdio::piped())
        .stderr(Stdio::null())
        .spawn()
        .map_err(|error| io::Error::new(error.kind(), format!("{}: {error}", program.display())))?;
    // Inputs fit into a pipe, so that writing all before reading cannot block.
    // A program that has read enough may have closed its end: no fault.
    if let Some(mut stdin) = child.stdin.take() {
        let _ = stdin.write_all(input);
    }
    let mut text = Vec::new();
    if let Some(mut stdout) = child.stdout.take() {
        stdout.read_to_end(&mut text)?;
    }
    let killed = child.wait()?.code().is_none();
    Ok(Answer { text, killed })
}

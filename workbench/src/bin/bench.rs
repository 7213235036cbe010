//! Times the second simulator and, beside it, the programs named.

use std::io::{self, Read, Write};
use std::path::{Path, PathBuf};
use std::process::{Command, ExitCode, Stdio};
use std::time::{Duration, Instant};

use workbench::bounds::{laxities, Laxity};
use workbench::draft::{case_a, lock, run, unlock, Draft, DraftTask};
use workbench::record::Record;
use workbench::refusal::Refusal;
use workbench::run::whole_run;
use workbench::sheet::Sheet;
use workbench::{LAST_TICK, SIXTEEN};

const USAGE: &str = "usage: bench [--ours PATH] [--lts PATH] [--second PATH]
--ours    reads a 16-bit repeat count, a horizon and a sheet, and makes that
          many whole runs
--lts     the printing program to be timed against the second simulator's
--second  the second simulator's printing program, if not beside this one";

/// Repetitions of a timing inside this process of which the best counts.
const TRIES: usize = 100;
/// Repetitions of a timing of `--ours`, and the whole runs in each.
const OURS_TRIES: usize = 9;
const REPEATS: u16 = 40;
/// Starts of a whole program of which the median counts.
const STARTS: usize = 21;

#[derive(Default)]
struct Options {
    ours: Option<PathBuf>,
    lts: Option<PathBuf>,
    second: PathBuf,
}

fn main() -> ExitCode {
    let done = match parse(std::env::args().skip(1)) {
        Ok(options) => measure(&options).map_err(|error| error.to_string()),
        Err(fault) => Err(format!("{fault}\n{USAGE}")),
    };
    match done {
        Ok(()) => ExitCode::SUCCESS,
        Err(fault) => {
            eprintln!("{fault}");
            ExitCode::FAILURE
        }
    }
}

fn parse(mut words: impl Iterator<Item = String>) -> Result<Options, String> {
    let beside = std::env::current_exe().map_err(|error| error.to_string())?;
    let mut options = Options {
        second: beside.with_file_name("second"),
        ..Options::default()
    };
    while let Some(word) = words.next() {
        let value = words.next().ok_or(format!("{word} lacks its value"))?;
        match word.as_str() {
            "--ours" => options.ours = Some(value.into()),
            "--lts" => options.lts = Some(value.into()),
            "--second" => options.second = value.into(),
            _ => return Err(format!("unknown word {word}")),
        }
    }
    Ok(options)
}

fn measure(options: &Options) -> io::Result<()> {
    let (two, sixteen, laxity) = (case_a(0), sixteen_tasks(), far_apart());
    per_tick("2 tasks", &two, options.ours.as_deref())?;
    per_tick("16 tasks", &sixteen, options.ours.as_deref())?;
    let input = sixteen.with_horizon(LAST_TICK);
    whole_program("16 tasks, horizon 60000", &input, options)?;
    laxity_time(&laxity);
    let input = laxity.with_horizon(0);
    whole_program("periods 1 and 10000, horizon 0", &input, options)
}

/// Sixteen tasks of four steps that share four semaphores; about seven tenths
/// of the processor.
fn sixteen_tasks() -> Draft {
    let task = |rank: u16| {
        let semaphore = rank % 4;
        let steps = [run(1), lock(semaphore), run(2), unlock(semaphore)];
        DraftTask::new(40 + 4 * rank, 2 * (15 - rank), &steps)
    };
    Draft::new(4, 0, (0..SIXTEEN as u16).map(task).collect())
}

/// Periods of 1 and of 10,000: the most points a sheet can have.
fn far_apart() -> Draft {
    let task = |rank| {
        let period = if rank < 8 { 1 } else { 10_000 };
        DraftTask::new(period, 0, &[run(1_000); 64])
    };
    Draft::new(0, 0, (0..SIXTEEN).map(task).collect())
}

fn read(draft: &Draft) -> Sheet {
    Sheet::read(&draft.to_bytes()).expect("the sheets here are valid")
}

/// The value itself, of which the optimiser knows nothing: a function that
/// comes back from here is called, whatever becomes of its result.
fn hidden<T: Copy>(value: T) -> T {
    // A reference to a local is valid for reads, and `T` is copied anyway.
    unsafe { std::ptr::read_volatile(&value) }
}

fn timed(work: impl FnOnce()) -> Duration {
    let start = Instant::now();
    work();
    start.elapsed()
}

/// The best of several times.
fn best(mut work: impl FnMut()) -> Duration {
    let times = (0..TRIES).map(|_| timed(&mut work));
    times.min().unwrap_or_default()
}

fn nanoseconds(time: Duration, ticks: u32) -> f64 {
    time.as_secs_f64() * 1e9 / f64::from(ticks)
}

type WholeRun = fn(&Sheet, u16, &mut [u8]) -> Result<Record, Refusal>;

/// Nanoseconds per tick of whole runs inside one process.
fn per_tick(name: &str, draft: &Draft, ours: Option<&Path>) -> io::Result<()> {
    let sheet = read(draft);
    let mut trace = vec![0; usize::from(LAST_TICK)];
    let run = hidden(whole_run as WholeRun);
    let time = best(|| {
        let _ = run(&sheet, LAST_TICK, &mut trace);
    });
    let second = nanoseconds(time, u32::from(LAST_TICK));
    println!("{name}: second {second:.2} ns per tick");
    if let Some(program) = ours {
        let ours = ours_per_tick(program, draft)?;
        println!(
            "{name}: ours {ours:.2} ns per tick, ratio {:.2}",
            ours / second
        );
    }
    Ok(())
}

/// The same of a program that repeats whole runs; starting it and reading the
/// sheet are in both of its times and cancel out.
fn ours_per_tick(program: &Path, draft: &Draft) -> io::Result<f64> {
    let input = |repeats: u16| {
        let mut bytes = repeats.to_be_bytes().to_vec();
        bytes.extend(draft.with_horizon(LAST_TICK));
        bytes
    };
    let (mut with, mut without) = (Duration::MAX, Duration::MAX);
    for _ in 0..OURS_TRIES {
        with = with.min(start(program, &input(REPEATS))?);
        without = without.min(start(program, &input(0))?);
    }
    let ticks = u32::from(REPEATS) * u32::from(LAST_TICK);
    Ok(nanoseconds(with.saturating_sub(without), ticks))
}

/// Wall time of a program from its start to its end, its answer thrown away.
fn start(program: &Path, input: &[u8]) -> io::Result<Duration> {
    let begin = Instant::now();
    let mut child = Command::new(program)
        .stdin(Stdio::piped())
        .stdout(Stdio::piped())
        .spawn()?;
    if let Some(mut stdin) = child.stdin.take() {
        // A program may close its input when it has read enough.
        let _ = stdin.write_all(input);
    }
    let mut answer = Vec::new();
    if let Some(mut stdout) = child.stdout.take() {
        stdout.read_to_end(&mut answer)?;
    }
    child.wait()?;
    Ok(begin.elapsed())
}

fn median(mut times: Vec<Duration>) -> f64 {
    times.sort();
    times[times.len() / 2].as_secs_f64() * 1e3
}

/// Milliseconds of the printing programs, by turns so that both meet the same
/// disturbances.
fn whole_program(name: &str, input: &[u8], options: &Options) -> io::Result<()> {
    let (mut second, mut lts) = (Vec::new(), Vec::new());
    for _ in 0..STARTS {
        second.push(start(&options.second, input)?);
        if let Some(program) = &options.lts {
            lts.push(start(program, input)?);
        }
    }
    let second = median(second);
    println!("{name}: second prints in {second:.3} ms");
    if options.lts.is_some() {
        let lts = median(lts);
        println!(
            "{name}: lts prints in {lts:.3} ms, ratio {:.2}",
            lts / second
        );
    }
    Ok(())
}

fn laxity_time(draft: &Draft) {
    let sheet = read(draft);
    let find = hidden(laxities as fn(&Sheet) -> Vec<Laxity>);
    let time = best(|| {
        let _ = find(&sheet);
    });
    let milliseconds = time.as_secs_f64() * 1e3;
    println!("periods 1 and 10000: second finds the laxities in {milliseconds:.3} ms");
}

//! Holds a simulator against the second one: makes inputs of every kind, runs
//! both programs on each and compares what they print, byte for byte.

mod chance;
mod damage;
mod duel;
mod inputs;
mod limits;
mod names;
mod records;
mod remembered;
mod sheets;
mod tally;

use std::path::PathBuf;
use std::process::ExitCode;

use duel::{Pair, Programs};
use tally::Tally;

const USAGE: &str = "usage: compare --lts PATH --second PATH \
[--tick PATH --second-tick PATH] [--calls PATH --second-calls PATH] \
[--seed N] [--count N] [--expect-differences]";

struct Options {
    programs: Programs,
    seed: u64,
    count: usize,
    expect_differences: bool,
}

fn main() -> ExitCode {
    let options = match parse(std::env::args().skip(1)) {
        Ok(options) => options,
        Err(fault) => {
            eprintln!("{fault}\n{USAGE}");
            return ExitCode::from(2);
        }
    };
    match compare(&options) {
        Ok(differ) if differ == options.expect_differences => ExitCode::SUCCESS,
        Ok(_) => ExitCode::FAILURE,
        Err(error) => {
            eprintln!("{error}");
            ExitCode::from(2)
        }
    }
}

/// Runs it all, prints the tally and answers whether anything differs.
fn compare(options: &Options) -> std::io::Result<bool> {
    let seed = options.seed;
    println!("seed {seed}");
    let there = |kind| options.programs.pair(kind).is_some();
    let inputs = inputs::generate(seed, options.count, there);
    let seen = duel::run_all(&options.programs, &inputs, tally::look)?;
    let tally = Tally::of(&inputs, &seen);
    if !options.expect_differences {
        tally::dump_first(&inputs, &seen);
    }
    tally.print();
    println!(
        "compared {} inputs, seed {seed}: {} differences",
        inputs.len(),
        tally.differences()
    );
    Ok(tally.differences() > 0)
}

fn parse(mut words: impl Iterator<Item = String>) -> Result<Options, String> {
    let (mut lts, mut second) = (None, None);
    let (mut tick, mut second_tick) = (None, None);
    let (mut calls, mut second_calls) = (None, None);
    let (mut seed, mut count, mut expect_differences) = (1, 6_000, false);
    while let Some(word) = words.next() {
        if word == "--expect-differences" {
            expect_differences = true;
            continue;
        }
        let value = words.next().ok_or(format!("{word} lacks its value"))?;
        match word.as_str() {
            "--lts" => lts = Some(PathBuf::from(value)),
            "--second" => second = Some(PathBuf::from(value)),
            "--tick" => tick = Some(PathBuf::from(value)),
            "--second-tick" => second_tick = Some(PathBuf::from(value)),
            "--calls" => calls = Some(PathBuf::from(value)),
            "--second-calls" => second_calls = Some(PathBuf::from(value)),
            "--seed" => seed = number(&value)?,
            "--count" => count = number(&value)?,
            _ => return Err(format!("unknown word {word}")),
        }
    }
    let run = pair(lts, second)?.ok_or("--lts and --second are both needed")?;
    let tick = pair(tick, second_tick)?;
    let call = pair(calls, second_calls)?;
    Ok(Options {
        programs: Programs { run, tick, call },
        seed,
        count,
        expect_differences,
    })
}

fn pair(theirs: Option<PathBuf>, second: Option<PathBuf>) -> Result<Option<Pair>, String> {
    match (theirs, second) {
        (Some(theirs), Some(second)) => Ok(Some(Pair { theirs, second })),
        (None, None) => Ok(None),
        _ => Err("programs go in pairs, the second simulator's with the other".to_string()),
    }
}

fn number<T: std::str::FromStr>(word: &str) -> Result<T, String> {
    word.parse().map_err(|_| format!("{word} is no number"))
}

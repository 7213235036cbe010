//! Runs the programs as they are shipped, over their standard streams.

#![allow(dead_code)] // Each test file uses its own share of these.

use std::io::Write;
use std::process::{Command, Stdio};

use workbench::draft::{with_record, Draft};
use workbench::record::{Record, TaskRecord};

/// What the printing program prints.
pub fn second(input: &[u8]) -> String {
    output(env!("CARGO_BIN_EXE_second"), input)
}

/// What the tick program prints of a tick by value; in place it is the same.
pub fn second_tick(input: &[u8]) -> String {
    let answer = output(env!("CARGO_BIN_EXE_second_tick"), input);
    let halves: Vec<&str> = answer.split("in place\n").collect();
    assert_eq!(halves.len(), 2, "{answer}");
    assert_eq!(halves[0], halves[1]);
    halves[0].to_string()
}

/// What the call program prints.
pub fn second_calls(input: &[u8]) -> String {
    output(env!("CARGO_BIN_EXE_second_calls"), input)
}

fn output(program: &str, input: &[u8]) -> String {
    let mut child = Command::new(program)
        .stdin(Stdio::piped())
        .stdout(Stdio::piped())
        .spawn()
        .expect("the program starts");
    // A program that has read enough may close its input early.
    let _ = child.stdin.take().expect("piped").write_all(input);
    let output = child.wait_with_output().expect("the program ends");
    String::from_utf8(output.stdout).expect("the answer is text")
}

/// The tick program's answer to a draft and a record.
pub fn tick(draft: &Draft, record: &Record) -> String {
    second_tick(&with_record(&draft.to_bytes(), &record.to_bytes()))
}

/// A record at tick `t` in which nobody is pending and nobody has run.
pub fn resting(t: u16) -> Record {
    Record {
        t,
        ..Record::start()
    }
}

/// A pending task's record, released at tick 0.
pub fn standing(position: u8, left: u16) -> TaskRecord {
    TaskRecord {
        pending: true,
        position,
        left,
        ..TaskRecord::default()
    }
}

/// A record as the programs print it.
pub fn written(record: &Record) -> String {
    let mut text = format!(
        "t {} switches {} last {} {}\n",
        record.t, record.switches, record.last.rank, record.last.release
    );
    for (rank, task) in record.tasks.iter().enumerate() {
        let fields = [
            ("pending", u16::from(task.pending)),
            ("position", u16::from(task.position)),
            ("left", task.left),
            ("release", task.release),
            ("present", task.present),
            ("releases", task.releases),
            ("done", task.completions),
            ("missed", task.misses),
            ("ran", task.ran),
            ("blocked", task.blocked),
            ("worst", task.worst),
            ("most", task.most),
        ];
        text += &rank.to_string();
        for (name, number) in fields {
            text += &format!(" {name} {number}");
        }
        text += "\n";
    }
    text
}

/// The last line of an answer without its first word.
pub fn trace(answer: &str) -> &str {
    answer.lines().last().unwrap().trim_start_matches("trace ")
}

/// The number after `field` in the line of a task.
pub fn field(answer: &str, rank: usize, field: &str) -> i64 {
    let start = format!("{rank} ");
    let line = answer.lines().find(|line| line.starts_with(&start));
    number_after(line.expect("a line for the rank"), field)
}

/// The number after `word` in a line.
pub fn number_after(line: &str, word: &str) -> i64 {
    let mut words = line.split(' ').skip_while(|found| *found != word);
    words.nth(1).expect("a field").parse().expect("a number")
}

/// The switch count of an answer.
pub fn switches(answer: &str) -> i64 {
    let line = answer.lines().find(|line| line.contains("switches"));
    number_after(line.expect("a line of switches"), "switches")
}

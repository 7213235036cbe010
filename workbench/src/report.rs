//! What the programs answer, as text.

use std::fmt::Write;

use crate::bounds::{bounds, ceilings, laxities, Place};
use crate::record::{Record, IDLE, RECORD_BYTES, STUCK};
use crate::refusal::Refusal;
use crate::run::{whole_run, Run};
use crate::sheet::Sheet;
use crate::{wrong, SIXTEEN};

/// What every byte of a buffer is before it is lent: no runner byte.
pub const BUFFER_MARK: u8 = 170;

/// The printing program's whole answer to its input: a horizon, then a sheet.
pub fn printed(input: &[u8]) -> String {
    report(input).unwrap_or_else(|refusal| format!("{refusal}\n"))
}

fn report(input: &[u8]) -> Result<String, Refusal> {
    let (horizon, bytes) = match input {
        [high, low, bytes @ ..] => (u16::from_be_bytes([*high, *low]), bytes),
        _ => return Err(Refusal::plain(1)),
    };
    let sheet = Sheet::read(bytes)?;
    let mut trace = vec![0; usize::from(horizon)];
    let record = whole_run(&sheet, horizon, &mut trace)?;
    let mut text = String::with_capacity(2_048 + 3 * trace.len());
    write_counts(&mut text, &sheet, &record);
    write_trace(&mut text, &trace);
    Ok(text)
}

fn write_counts(text: &mut String, sheet: &Sheet, record: &Record) {
    line(
        text,
        format_args!("ticks {} switches {}", record.t, record.switches),
    );
    let analysis = bounds(sheet).into_iter().zip(laxities(sheet));
    for ((rank, task), (bound, laxity)) in record.tasks.iter().enumerate().zip(analysis) {
        let (length, ticks, by) = (bound.length, laxity.ticks, name(laxity.by));
        line(
            text,
            format_args!(
                "{rank} releases {} done {} missed {} ran {} blocked {} worst {} \
                 bound {length} laxity {ticks} most {} by {by}",
                task.releases,
                task.completions,
                task.misses,
                task.ran,
                task.blocked,
                task.worst,
                task.most
            ),
        );
    }
}

/// The section behind a bound as its rank and step, or `-` if there is none.
fn name(by: Option<Place>) -> String {
    by.map_or("-".to_string(), |place| place.to_string())
}

fn write_trace(text: &mut String, trace: &[u8]) {
    text.push_str("trace");
    for runner in trace {
        match *runner {
            IDLE => text.push_str(" -"),
            STUCK => text.push_str(" !"),
            rank => {
                text.push(' ');
                // Ranks have at most two digits.
                if rank >= 10 {
                    text.push(char::from(b'0' + rank / 10));
                }
                text.push(char::from(b'0' + rank % 10));
            }
        }
    }
    text.push('\n');
}

/// An input as numbers and parts; what is missing is zero.
struct Input<'a>(&'a [u8]);

impl<'a> Input<'a> {
    fn byte(&self, at: usize) -> u8 {
        self.0.get(at).copied().unwrap_or(0)
    }

    fn word(&self, at: usize) -> u16 {
        u16::from_be_bytes([self.byte(at), self.byte(at + 1)])
    }

    /// So many bytes from a place on, or as many of them as there are.
    fn part(&self, at: usize, length: usize) -> &'a [u8] {
        let end = self.0.len().min(at + length);
        self.0.get(at..end).unwrap_or(&[])
    }

    fn record(&self, at: usize) -> Record {
        let bytes: [u8; RECORD_BYTES] = std::array::from_fn(|index| self.byte(at + index));
        Record::from_bytes(&bytes)
    }
}

/// The tick program's whole answer: the length of a sheet, the sheet, a
/// record. It comes twice, for a tick by value and for one in place.
pub fn ticked(input: &[u8]) -> String {
    let input = Input(input);
    let length = usize::from(input.word(0));
    let record = input.record(2 + length);
    let (told, after) = one_tick(input.part(2, length), record);
    let in_place = if wrong::IN_PLACE { record } else { after };
    let mut text = told.clone();
    write_record(&mut text, &after);
    text += "in place\n";
    text += &told;
    write_record(&mut text, &in_place);
    text
}

/// What one tick tells, its refusal if there is one and the runner, and the
/// record afterwards.
fn one_tick(bytes: &[u8], record: Record) -> (String, Record) {
    let ran = Sheet::read(bytes).and_then(|sheet| {
        let mut run = Run::resume(&sheet, record)?;
        Ok((run.tick(), *run.record()))
    });
    let back = if wrong::REFUSED_RECORD {
        Record::default()
    } else {
        record
    };
    let mut text = String::new();
    let (runner, after) = or_refused(&mut text, ran, (0, back));
    line(&mut text, format_args!("runner {runner}"));
    (text, after)
}

/// The call program's whole answer: the call's number, two numbers, the length
/// of a buffer, the length of a sheet, the sheet.
pub fn called(input: &[u8]) -> String {
    let input = Input(input);
    let (call, first) = (input.byte(0), input.word(1));
    let (room, length) = (usize::from(input.word(5)), usize::from(input.word(7)));
    let sheet = Sheet::read(input.part(9, length));
    let mut text = String::new();
    match call {
        1 => check(&mut text, sheet),
        2 => write_ceilings(&mut text, sheet),
        3 => write_bounds(&mut text, sheet),
        4 => write_laxities(&mut text, sheet),
        5 => run_into(&mut text, sheet, first, room),
        6 => write_record(&mut text, &Record::start()),
        _ => line(&mut text, format_args!("no such call")),
    }
    text
}

/// An answer, after a line for its refusal; if refused, `other`.
fn or_refused<T>(text: &mut String, answer: Result<T, Refusal>, other: T) -> T {
    answer.unwrap_or_else(|refusal| {
        line(text, format_args!("{refusal}"));
        other
    })
}

fn check(text: &mut String, sheet: Result<Sheet, Refusal>) {
    let fields = sheet.map(|sheet| {
        let mode = u8::from(sheet.preemption_rule);
        (sheet.tasks.len(), sheet.semaphores, mode)
    });
    let (tasks, semaphores, mode) = or_refused(text, fields, (0, 0, 0));
    line(
        text,
        format_args!("tasks {tasks} semaphores {semaphores} mode {mode}"),
    );
}

fn write_ceilings(text: &mut String, sheet: Result<Sheet, Refusal>) {
    let ceilings = sheet.map(|sheet| ceilings(&sheet));
    let ceilings = or_refused(text, ceilings, [0; SIXTEEN]);
    write_row(text, "ceilings", ceilings.iter().map(u8::to_string), "0");
}

fn write_bounds(text: &mut String, sheet: Result<Sheet, Refusal>) {
    let bounds = or_refused(text, sheet.map(|sheet| bounds(&sheet)), Vec::new());
    let lengths = bounds.iter().map(|bound| bound.length.to_string());
    write_row(text, "bounds", lengths, "0");
    write_row(text, "by", bounds.iter().map(|bound| name(bound.by)), "-");
}

fn write_laxities(text: &mut String, sheet: Result<Sheet, Refusal>) {
    let laxities = or_refused(text, sheet.map(|sheet| laxities(&sheet)), Vec::new());
    let ticks = laxities.iter().map(|laxity| laxity.ticks.to_string());
    write_row(text, "laxities", ticks, "0");
    let names = laxities.iter().map(|laxity| name(laxity.by));
    write_row(text, "by", names, "-");
}

/// Sixteen words behind a title; `none` where there are no more.
fn write_row(text: &mut String, title: &str, words: impl Iterator<Item = String>, none: &str) {
    text.push_str(title);
    let rest = std::iter::repeat(none.to_string());
    for word in words.chain(rest).take(SIXTEEN) {
        text.push(' ');
        text.push_str(&word);
    }
    text.push('\n');
}

fn run_into(text: &mut String, sheet: Result<Sheet, Refusal>, horizon: u16, room: usize) {
    let mut buffer = vec![BUFFER_MARK; room];
    let ran = sheet.and_then(|sheet| whole_run(&sheet, horizon, &mut buffer));
    let nothing = if wrong::REFUSED_RUN {
        Record::start()
    } else {
        Record::default()
    };
    let record = or_refused(text, ran, nothing);
    write_record(text, &record);
    text.push_str("buffer");
    for byte in buffer {
        // Writing to a string cannot fail.
        let _ = write!(text, " {byte}");
    }
    text.push('\n');
}

fn write_record(text: &mut String, record: &Record) {
    line(
        text,
        format_args!(
            "t {} switches {} last {} {}",
            record.t, record.switches, record.last.rank, record.last.release
        ),
    );
    for (rank, task) in record.tasks.iter().enumerate() {
        line(
            text,
            format_args!(
                "{rank} pending {} position {} left {} release {} present {} releases {} \
                 done {} missed {} ran {} blocked {} worst {} most {}",
                u8::from(task.pending),
                task.position,
                task.left,
                task.release,
                task.present,
                task.releases,
                task.completions,
                task.misses,
                task.ran,
                task.blocked,
                task.worst,
                task.most
            ),
        );
    }
}

fn line(text: &mut String, content: std::fmt::Arguments) {
    // Writing to a string cannot fail.
    let _ = text.write_fmt(content);
    text.push('\n');
}

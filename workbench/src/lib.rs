//! The second simulator of the priority ceiling protocol: what the first one
//! is held against, byte for byte. It keeps lock stacks and release times
//! along with the run and changes everything in place.

pub mod bounds;
pub mod draft;
pub mod record;
pub mod refusal;
pub mod report;
pub mod run;
pub mod sheet;
pub mod wrong;

/// Most tasks, and most semaphores, that a sheet can have.
pub const SIXTEEN: usize = 16;
/// The longest run, and the last tick a record can stand at.
pub const LAST_TICK: u16 = 60_000;
/// Bytes of the longest sheet.
pub const LONGEST_SHEET: usize = 3_160;
/// Bytes of standard input that the printing program takes: a horizon, the
/// longest sheet, and one more so that a byte too many is noticed.
pub const INPUT_TAKEN: usize = 2 + LONGEST_SHEET + 1;

//! Why a call is turned away.

use std::fmt;

/// A refusal's number, with the rank and the step it points at (else zero).
#[derive(Clone, Copy, Debug, PartialEq, Eq)]
pub struct Refusal {
    pub number: u8,
    pub task: u8,
    pub step: u8,
}

impl Refusal {
    /// A refusal of the call as a whole.
    pub fn plain(number: u8) -> Self {
        Self::at_task(number, 0)
    }

    /// A refusal that points at a task.
    pub fn at_task(number: u8, rank: usize) -> Self {
        Self::at_step(number, rank, 0)
    }

    /// A refusal that points at a step of a task.
    pub fn at_step(number: u8, rank: usize, step: usize) -> Self {
        // Ranks are below 16 and steps at most 64.
        Self {
            number,
            task: rank as u8,
            step: step as u8,
        }
    }
}

impl fmt::Display for Refusal {
    fn fmt(&self, f: &mut fmt::Formatter<'_>) -> fmt::Result {
        write!(
            f,
            "refused {} task {} step {}",
            self.number, self.task, self.step
        )
    }
}

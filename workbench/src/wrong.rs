//! The wrong rules that can be built in, one feature each. All are false in
//! an ordinary build, and then cost nothing.

/// A lock is granted because the semaphore itself is free.
pub const FREE_SEMAPHORE: bool = cfg!(feature = "wrong-free-semaphore");
/// A rank equal to the ceiling is let through.
pub const EQUAL_GOES: bool = cfg!(feature = "wrong-equal-goes");
/// Unlocks wait for the job's next tick.
pub const LATE_UNLOCK: bool = cfg!(feature = "wrong-late-unlock");
/// Only the pending job of smallest rank is counted as blocked.
pub const ONLY_ASKER: bool = cfg!(feature = "wrong-only-asker");
/// A completion at the period's end is a miss.
pub const END_MISS: bool = cfg!(feature = "wrong-end-miss");
/// A holder is measured by the rank of the job it keeps waiting.
pub const INHERITED_RANK: bool = cfg!(feature = "wrong-inherited-rank");
/// The preemption rule is left out.
pub const MODE1_IGNORED: bool = cfg!(feature = "wrong-mode1-ignored");
/// A job in the middle of its first run is still fresh.
pub const FRESH_LEFT: bool = cfg!(feature = "wrong-fresh-left");
/// The preemption rule also holds back jobs that never lock.
pub const FRESH_LOCKLESS: bool = cfg!(feature = "wrong-fresh-lockless");
/// Among equal ceilings the largest semaphore number counts.
pub const TIE_LARGEST: bool = cfg!(feature = "wrong-tie-largest");
/// Going idle is a switch.
pub const IDLE_COUNTS: bool = cfg!(feature = "wrong-idle-counts");
/// An idle tick forgets the job that ran last.
pub const IDLE_FORGETS: bool = cfg!(feature = "wrong-idle-forgets");
/// A stuck tick forgets the job that ran last.
pub const STUCK_FORGETS: bool = cfg!(feature = "wrong-stuck-forgets");
/// A next job of the same task is no switch.
pub const RANK_ALONE: bool = cfg!(feature = "wrong-rank-alone");
/// The first job to run is no switch.
pub const FIRST_FREE: bool = cfg!(feature = "wrong-first-free");
/// A job that completes is remembered with the release tick it has then, 0.
pub const RELEASE_AFTER: bool = cfg!(feature = "wrong-release-after");
/// The remembered release tick may be any.
pub const REMEMBERED_TICK: bool = cfg!(feature = "wrong-remembered-tick");
/// A stuck tick blocks every pending job.
pub const STUCK_BLOCKED: bool = cfg!(feature = "wrong-stuck-blocked");
/// A missed release is not counted among the releases.
pub const MISSED_RELEASE: bool = cfg!(feature = "wrong-missed-release");
/// The offset is looked at before the period.
pub const ORDER_8_9: bool = cfg!(feature = "wrong-order-8-9");
/// Open sections are reported at the last step, not after it.
pub const OPEN_STEP: bool = cfg!(feature = "wrong-open-step");
/// The last tick is looked at before the rest of the record.
pub const ORDER_16_17: bool = cfg!(feature = "wrong-order-16-17");
/// The switch count may be above the tick.
pub const SWITCHES_FREE: bool = cfg!(feature = "wrong-switches-free");
/// Only ceilings below the rank count for its bound.
pub const BOUND_BELOW: bool = cfg!(feature = "wrong-bound-below");
/// Sections inside other sections are left out of the bound.
pub const BOUND_OUTERMOST: bool = cfg!(feature = "wrong-bound-outermost");
/// The last of several laxity points is left out.
pub const POINT_SHORT: bool = cfg!(feature = "wrong-point-short");
/// Demand takes time over period rounded down.
pub const ROUND_DOWN: bool = cfg!(feature = "wrong-round-down");
/// The ceiling of a semaphore that nobody locks is 254.
pub const NO_CEILING: bool = cfg!(feature = "wrong-no-ceiling");
/// A run into a short buffer goes as far as the buffer does.
pub const SHORT_RUN: bool = cfg!(feature = "wrong-short-run");
/// The bytes behind the trace are cleared.
pub const LATER_BYTES: bool = cfg!(feature = "wrong-later-bytes");
/// The buffer is looked at before the horizon.
pub const ORDER_14_15: bool = cfg!(feature = "wrong-order-14-15");
/// A refused run answers the start record.
pub const REFUSED_RUN: bool = cfg!(feature = "wrong-refused-run");
/// A refused tick answers a record of zeros.
pub const REFUSED_RECORD: bool = cfg!(feature = "wrong-refused-record");
/// The tick in place leaves the record as it was.
pub const IN_PLACE: bool = cfg!(feature = "wrong-in-place");
/// Of sections of equal length, that of the largest rank is named.
pub const BY_LARGER_RANK: bool = cfg!(feature = "wrong-by-larger-rank");
/// Of sections of equal length in one task, the last is named.
pub const BY_LATER_STEP: bool = cfg!(feature = "wrong-by-later-step");
/// A task's own sections may be named as behind its bound.
pub const BY_OWN: bool = cfg!(feature = "wrong-by-own");
/// The first section that counts is named, not the longest.
pub const BY_FIRST: bool = cfg!(feature = "wrong-by-first");
/// A job's blocked ticks stand until the next job of its task starts.
pub const PRESENT_LATE: bool = cfg!(feature = "wrong-present-late");
/// A job starts with the blocked ticks of the one before.
pub const PRESENT_KEPT: bool = cfg!(feature = "wrong-present-kept");
/// The most that a job was blocked is looked at when it completes.
pub const MOST_AT_END: bool = cfg!(feature = "wrong-most-at-end");
/// The most that a job was blocked leaves out the tick just made.
pub const MOST_BEFORE: bool = cfg!(feature = "wrong-most-before");
/// The present job's blocked ticks may be above the most.
pub const PRESENT_FREE: bool = cfg!(feature = "wrong-present-free");

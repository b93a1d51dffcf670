//! The clock of an agent, or of the clients of servers: `Instant` has no number, and the library has times as numbers.

use std::time::{Duration, Instant};

/// The first instant that is passed, on the clock: late enough for earlier ones that are passed later.
const BEGINNING: Duration = Duration::from_secs(60);

/// A number of nanoseconds for each instant, by its distance to the first one that was passed.
#[derive(Clone, Copy, Debug, Default)]
pub(crate) struct Clock {
    /// The instant of time 0.
    zero: Option<Instant>,
}

pub(crate) fn nanoseconds(duration: Duration) -> u64 {
    u64::try_from(duration.as_nanos()).unwrap_or(u64::MAX)
}

/// The instant of time 0, if this is the first one that is passed: itself if the caller's clock has none that early.
fn zero_of(first: Instant) -> Instant {
    first.checked_sub(BEGINNING).unwrap_or(first)
}

impl Clock {
    /// The time of an instant. The first one starts the clock, at one minute.
    #[inline]
    pub(crate) fn start(&mut self, now: Instant) -> u64 {
        let zero = *self.zero.get_or_insert_with(|| zero_of(now));
        nanoseconds(now.saturating_duration_since(zero))
    }

    /// The time of an instant, for a query: it does not start the clock.
    pub(crate) fn time_of(&self, now: Instant) -> u64 {
        nanoseconds(now.saturating_duration_since(self.zero.unwrap_or_else(|| zero_of(now))))
    }

    /// The instant of a time, if the caller's clock can represent it.
    #[inline]
    pub(crate) fn instant(&self, at: u64) -> Option<Instant> {
        self.zero?.checked_add(Duration::from_nanos(at))
    }
}

//! The times of retransmissions, as a value.

use crate::all_settings::Settings;
use crate::clock::nanoseconds;
use crate::error::{CallError, found, or_panic};
use crate::ffi;
use std::time::Duration;

/// After how many checks in a row without a response the original removes a pair. An agent here begins with more:
/// [`Settings::modern`](crate::Settings::modern).
pub const DEFAULT_MAX_RETRANSMITS: usize = 9;

/// The settings of an agent that say when a check is sent again. An agent takes them by its methods, for example
/// [`IceAgent::set_initial_stun_rto`](crate::IceAgent::set_initial_stun_rto). The default is that of the original.
///
/// ```
/// use std::time::Duration;
///
/// let timing = is::stun::StunTiming { max_retransmits: 11, ..Default::default() };
/// let mut agent = is::IceAgent::new(is::IceCreds::new());
/// agent.set_initial_stun_rto(timing.initial_rto);
/// agent.set_max_stun_rto(timing.max_rto());
/// agent.set_max_stun_retransmits(timing.max_retransmits());
/// assert_eq!(agent.ice_timeout(), timing.timeout());
/// ```
#[derive(Debug)]
pub struct StunTiming {
    /// The time from a pair's first check until the second one is due.
    pub initial_rto: Duration,
    /// After how many checks in a row without a response a pair is removed.
    pub max_retransmits: usize,
    /// The longest time from one check until the next one is due.
    pub max_rto: Duration,
}

impl Default for StunTiming {
    fn default() -> StunTiming {
        let Settings { initial_rto, max_retransmits, max_rto, .. } = Settings::original();
        StunTiming { initial_rto, max_retransmits, max_rto }
    }
}

impl StunTiming {
    /// How long a pair's checks go on without a response: what [`IceAgent::ice_timeout`](crate::IceAgent::ice_timeout) returns with
    /// these settings.
    ///
    /// # Panics
    ///
    /// If the limit is 0. `try_timeout` returns an error then.
    #[track_caller]
    pub fn timeout(&self) -> Duration {
        or_panic(self.try_timeout())
    }

    /// As `timeout`.
    ///
    /// # Errors
    ///
    /// [`CallError::BadLimit`].
    pub fn try_timeout(&self) -> Result<Duration, CallError> {
        let (initial, most, mut timeout) = (nanoseconds(self.initial_rto), nanoseconds(self.max_rto), 0);
        found(ffi::is_ice_retransmit_timeout(initial, most, self.max_retransmits, &mut timeout))?;
        Ok(Duration::from_nanos(timeout))
    }

    /// How long to wait after the last of so many checks of a pair before the next one: nothing if none was sent.
    ///
    /// ```
    /// use std::time::Duration;
    ///
    /// let timing = is::stun::StunTiming::default();
    /// assert_eq!(timing.stun_resend_delay(1), Duration::from_millis(250));
    /// assert_eq!(timing.stun_resend_delay(3), Duration::from_secs(1));
    /// assert_eq!(timing.stun_last_resend_delay(), Duration::from_secs(3));
    /// ```
    pub fn stun_resend_delay(&self, send_count: usize) -> Duration {
        let (initial, most, mut delay) = (nanoseconds(self.initial_rto), nanoseconds(self.max_rto), 0);
        let code = ffi::is_ice_retransmit_delay(initial, most, self.max_retransmits, send_count, &mut delay);
        debug_assert_eq!(code, ffi::OK);
        Duration::from_nanos(delay)
    }

    /// How long to wait after the last check before the pair is removed.
    pub fn stun_last_resend_delay(&self) -> Duration {
        self.stun_resend_delay(self.max_retransmits)
    }

    /// After how many checks in a row without a response a pair is removed.
    pub fn max_retransmits(&self) -> usize {
        self.max_retransmits
    }

    /// The longest time from one check until the next one is due.
    pub fn max_rto(&self) -> Duration {
        self.max_rto
    }
}

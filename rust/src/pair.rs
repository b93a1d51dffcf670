//! Candidate pairs, as an agent lists them.

use crate::candidate::Candidate;
use crate::ffi;
use std::time::{Duration, Instant};

/// The state of a pair's checks (RFC 8445, section 6.1.2.6). No pair is frozen, and one that fails is removed.
#[derive(Clone, Copy, Debug, Default, PartialEq, Eq)]
pub enum CheckState {
    /// No check was sent.
    #[default]
    Waiting,
    /// A check was sent, and none had a response.
    InProgress,
    /// The pair is valid.
    Succeeded,
}

impl CheckState {
    pub(crate) fn of(number: i32) -> CheckState {
        match number {
            ffi::PAIR_WAITING => CheckState::Waiting,
            ffi::PAIR_IN_PROGRESS => CheckState::InProgress,
            _ => CheckState::Succeeded,
        }
    }
}

/// A candidate pair, with its figures since it was formed.
#[derive(Clone, Copy, Debug, PartialEq, Eq)]
pub struct CandidatePair {
    /// The index of its local candidate in [`crate::IceAgent::local_candidates`].
    pub local: usize,
    /// The index of its remote candidate in [`crate::IceAgent::remote_candidates`].
    pub remote: usize,
    /// Its priority (RFC 8445, section 6.1.2.3).
    pub priority: u64,
    /// The state of its checks.
    pub state: CheckState,
    /// Whether it is nominated.
    pub nominated: bool,
    /// Whether it is the pair of the last [`crate::IceAgentEvent::NominatedSend`].
    pub selected: bool,
    /// The number of checks that were sent on it.
    pub checks_sent: u64,
    /// The number of checks of the peer that arrived on it.
    pub requests_received: u64,
    /// The number of success responses to its checks.
    pub responses: u64,
    /// The sum of the round-trip times of its checks.
    pub total_rtt: Duration,
    /// The last round-trip time.
    pub rtt: Option<Duration>,
    /// When the last check of the peer arrived on it.
    pub last_request: Option<Instant>,
    /// When its next check is due, once the session has started.
    pub due: Option<Instant>,
}

/// Names of the original for the fields.
impl CandidatePair {
    /// The index of its local candidate in [`crate::IceAgent::local_candidates`].
    pub fn local_idx(&self) -> usize {
        self.local
    }

    /// The index of its remote candidate in [`crate::IceAgent::remote_candidates`].
    pub fn remote_idx(&self) -> usize {
        self.remote
    }

    /// Its local candidate, in the list of [`crate::IceAgent::local_candidates`].
    ///
    /// # Panics
    ///
    /// If the list is shorter. `try_local_candidate` returns `None` then.
    #[track_caller]
    pub fn local_candidate<'a>(&self, cs: &'a [Candidate]) -> &'a Candidate {
        &cs[self.local]
    }

    /// As `local_candidate`: `None` if the list is shorter, as that of an agent that changed since.
    pub fn try_local_candidate<'a>(&self, cs: &'a [Candidate]) -> Option<&'a Candidate> {
        cs.get(self.local)
    }

    /// Its remote candidate, in the list of [`crate::IceAgent::remote_candidates`].
    ///
    /// # Panics
    ///
    /// If the list is shorter. `try_remote_candidate` returns `None` then.
    #[track_caller]
    pub fn remote_candidate<'a>(&self, cs: &'a [Candidate]) -> &'a Candidate {
        &cs[self.remote]
    }

    /// As `remote_candidate`: `None` if the list is shorter.
    pub fn try_remote_candidate<'a>(&self, cs: &'a [Candidate]) -> Option<&'a Candidate> {
        cs.get(self.remote)
    }

    /// Its priority.
    pub fn prio(&self) -> u64 {
        self.priority
    }

    /// The state of its checks.
    pub fn state(&self) -> CheckState {
        self.state
    }

    /// Whether it is nominated.
    pub fn is_nominated(&self) -> bool {
        self.nominated
    }

    /// When the last check of the peer arrived on it.
    pub fn remote_binding_request_time(&self) -> Option<Instant> {
        self.last_request
    }

    /// The last round-trip time.
    pub fn last_successful_rtt(&self) -> Option<Duration> {
        self.rtt
    }

    /// The number of success responses to its checks.
    pub fn responses_received(&self) -> u64 {
        self.responses
    }

    /// The sum of the round-trip times of its checks.
    pub fn total_round_trip_time(&self) -> Duration {
        self.total_rtt
    }
}

impl CandidatePair {
    pub(crate) fn of(pair: &ffi::Pair, instant: impl Fn(u64) -> Option<Instant>) -> CandidatePair {
        CandidatePair {
            local: pair.local,
            remote: pair.remote,
            priority: pair.priority,
            state: CheckState::of(pair.state),
            nominated: pair.nominated,
            selected: pair.selected,
            checks_sent: pair.checks_sent,
            requests_received: pair.requests_received,
            responses: pair.responses,
            total_rtt: Duration::from_nanos(pair.total_rtt),
            rtt: pair.has_rtt.then(|| Duration::from_nanos(pair.rtt)),
            last_request: pair.has_request.then(|| instant(pair.last_request)).flatten(),
            due: pair.has_due.then(|| instant(pair.due)).flatten(),
        }
    }
}

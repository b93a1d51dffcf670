//! The pairs that were removed last, and why: for a program that asks why a session failed, or lost a path.

use crate::agent::IceAgent;
use crate::event::MediaPath;
use crate::ffi;
use crate::pair::CheckState;
use std::fmt;

/// Why a pair was removed.
#[derive(Clone, Copy, Debug, PartialEq, Eq)]
pub enum Removal {
    /// No check on it had a success response.
    NoResponse,
    /// A check had a response once, and then consent ended (RFC 7675, section 5.1), or the selected path fell silent while another one worked.
    ConsentLost,
    /// The agent is lite, and the peer's checks stopped.
    PeerSilent,
    /// There were more pairs than the limit (RFC 8445, section 6.1.2.5).
    Evicted,
    /// A pair of greater priority on the same path replaced it.
    Replaced,
    /// A candidate of it was invalidated.
    Invalidated,
}

impl Removal {
    fn of(number: i32) -> Removal {
        match number {
            ffi::REMOVED_NO_RESPONSE => Removal::NoResponse,
            ffi::REMOVED_CONSENT_LOST => Removal::ConsentLost,
            ffi::REMOVED_PEER_SILENT => Removal::PeerSilent,
            ffi::REMOVED_EVICTED => Removal::Evicted,
            ffi::REMOVED_REPLACED => Removal::Replaced,
            _ => Removal::Invalidated,
        }
    }
}

impl fmt::Display for Removal {
    fn fmt(&self, f: &mut fmt::Formatter<'_>) -> fmt::Result {
        f.write_str(match self {
            Removal::NoResponse => "no response",
            Removal::ConsentLost => "consent lost",
            Removal::PeerSilent => "peer silent",
            Removal::Evicted => "evicted",
            Removal::Replaced => "replaced",
            Removal::Invalidated => "invalidated",
        })
    }
}

/// A pair that was removed, as it was then. It prints as
/// `10.0.0.1:1000 -> 10.0.0.2:2000 in progress, 15 checks sent, 0 answered: no response`.
#[derive(Clone, Copy, Debug, PartialEq, Eq)]
pub struct RemovedPair {
    /// Its path, if the agent still lists its candidates.
    pub path: Option<MediaPath>,
    /// Its priority (RFC 8445, section 6.1.2.3).
    pub priority: u64,
    /// The state of its checks.
    pub state: CheckState,
    /// The number of checks that were sent on it.
    pub checks_sent: u64,
    /// The number of success responses to its checks.
    pub responses: u64,
    /// The code of the last error response (RFC 8489, section 14.8).
    pub error: Option<u16>,
    /// Why it was removed.
    pub reason: Removal,
}

impl RemovedPair {
    fn of(pair: &ffi::RemovedPair) -> RemovedPair {
        let path = &pair.path;
        RemovedPair {
            path: pair.has_path.then(|| MediaPath::of(path.protocol, &path.source, &path.destination)),
            priority: pair.priority,
            state: CheckState::of(pair.state),
            checks_sent: pair.checks_sent,
            responses: pair.responses,
            error: u16::try_from(pair.error).ok().filter(|&code| code != 0),
            reason: Removal::of(pair.reason),
        }
    }
}

impl fmt::Display for RemovedPair {
    fn fmt(&self, f: &mut fmt::Formatter<'_>) -> fmt::Result {
        match self.path {
            Some(path) => write!(f, "{} -> {}", path.source, path.destination)?,
            None => f.write_str("unknown path")?,
        }
        let state = match self.state {
            CheckState::Waiting => "waiting",
            CheckState::InProgress => "in progress",
            CheckState::Succeeded => "succeeded",
        };
        write!(f, " {state}, {} checks sent, {} answered", self.checks_sent, self.responses)?;
        if let Some(code) = self.error {
            write!(f, ", error response {code}")?;
        }
        write!(f, ": {}", self.reason)
    }
}

/// Those of the listed pairs that were not listed before.
pub(crate) fn new_ones<'a>(before: &'a [RemovedPair], listed: &'a [RemovedPair]) -> impl Iterator<Item = &'a RemovedPair> {
    let mut known = before.iter();
    listed.iter().skip_while(move |pair| known.any(|before| before == *pair))
}

impl IceAgent {
    /// The pairs that were removed since the last restart, and why: the last 32 at most. The one that was
    /// removed first comes first.
    pub fn removed_pairs(&self) -> impl Iterator<Item = RemovedPair> + '_ {
        let mut count = 0;
        self.ask(|agent| ffi::is_ice_removed_count(agent, &mut count));
        (0..count).map_while(|index| {
            let mut pair = ffi::RemovedPair::default();
            let is_some = self.ask(|agent| ffi::is_ice_removed_at(agent, index, &mut pair)) == ffi::OK;
            is_some.then(|| RemovedPair::of(&pair))
        })
    }
}

//! What a call did, for the events of `tracing`: it is read off what the agent lists before the call and after it. Nothing of this runs if
//! nobody listens.

use crate::agent::IceAgent;
use crate::candidate::{Candidate, CandidateKind};
use crate::event::{IceAgentStats, MediaPath};
use crate::logs::{Pii, is_heard, logged, role_name};
use crate::pair::CandidatePair;
use crate::removed::{Removal, RemovedPair, new_ones};
use crate::stun::{Class, Method, StunMessage, StunPacket};
use crate::types::{Protocol, Transmit};
use std::fmt;
use std::net::SocketAddr;

/// How many early requests an agent keeps.
const EARLY_LIMIT: usize = 100;

/// The code of Role Conflict (RFC 8445, section 7.3.1.1).
const ROLE_CONFLICT: u16 = 487;

/// What an agent lists.
pub(crate) struct Seen {
    controlling: bool,
    is_lite: bool,
    local: Vec<Candidate>,
    remote: Vec<Candidate>,
    pairs: Vec<CandidatePair>,
    removed: Vec<RemovedPair>,
    early: usize,
    stats: IceAgentStats,
    selected: Option<MediaPath>,
}

type Path = (Protocol, SocketAddr, SocketAddr);

/// A pair, with its path.
struct Shown<'a>(&'a Seen, &'a CandidatePair);

impl fmt::Debug for Shown<'_> {
    fn fmt(&self, f: &mut fmt::Formatter<'_>) -> fmt::Result {
        if let Some((_, source, destination)) = self.0.path(self.1) {
            write!(f, "{source} -> {destination} ")?;
        }
        self.1.fmt(f)
    }
}

/// Those of the candidates that are not among the others, with their indexes.
fn missing<'a>(candidates: &'a [Candidate], others: &'a [Candidate]) -> impl Iterator<Item = (usize, &'a Candidate)> {
    candidates.iter().enumerate().filter(|(_, candidate)| !others.contains(candidate))
}

impl Seen {
    /// What the agent lists, if anybody listens.
    pub(crate) fn heard(agent: &IceAgent) -> Option<Seen> {
        is_heard().then(|| Seen::of(agent))
    }

    fn of(agent: &IceAgent) -> Seen {
        Seen {
            controlling: agent.controlling(),
            is_lite: agent.ice_lite(),
            local: agent.try_local_candidates().unwrap_or_default(),
            remote: agent.try_remote_candidates().unwrap_or_default(),
            pairs: agent.pairs().collect(),
            removed: agent.removed_pairs().collect(),
            early: agent.early_requests(),
            stats: agent.stats(),
            selected: agent.selected_path(),
        }
    }

    fn path(&self, pair: &CandidatePair) -> Option<Path> {
        let (local, remote) = (self.local.get(pair.local)?, self.remote.get(pair.remote)?);
        Some((local.proto(), local.local(), remote.addr()))
    }

    fn pair_on(&self, path: Path) -> Option<&CandidatePair> {
        self.pairs.iter().find(|pair| self.path(pair) == Some(path))
    }

    /// Logs what changed of pairs that exist before and after, and those that were removed.
    fn log_pairs(&self, now: &Seen) {
        for pair in &now.pairs {
            if let Some(before) = now.path(pair).and_then(|path| self.pair_on(path)) {
                log_pair(before, pair, now);
            }
        }
        if let Some(pair) = now.pairs.iter().find(|pair| pair.selected).filter(|_| now.selected != self.selected) {
            logged!(trace, "Nominating best candidate: {:?}", Pii(Shown(now, pair)));
        }
        for pair in new_ones(&self.removed, &now.removed) {
            match pair.reason {
                Removal::NoResponse | Removal::ConsentLost | Removal::PeerSilent => logged!(debug, "Remove failed pair: {:?}", Pii(pair)),
                Removal::Evicted => {
                    logged!(warn, "Exceeded max number of candidate pairs");
                    logged!(debug, "Remove overflow pair {:?}", Pii(pair));
                }
                Removal::Replaced => {
                    logged!(debug, "Replace redundant pair, current: {:?}", Pii(pair));
                    if now.is_lite {
                        logged!(debug, "Retain incoming binding requests for pair");
                    }
                }
                Removal::Invalidated => logged!(trace, "Discard pair of an invalidated candidate: {:?}", Pii(pair)),
            }
        }
    }

    /// Logs the pairs that were formed.
    fn log_new_pairs(&self, now: &Seen, words: &str) {
        for pair in &now.pairs {
            if now.path(pair).is_none_or(|path| self.pair_on(path).is_none()) {
                logged!(debug, "{words} {:?}", Pii(Shown(now, pair)));
            }
        }
    }

    /// Logs what adding the local candidate of this index did.
    pub(crate) fn log_added_local(&self, agent: &IceAgent, c: &Candidate, index: usize) {
        let now = Seen::of(agent);
        for (place, gone) in missing(&self.local, &now.local) {
            logged!(debug, "Replace redundant candidate, current: {:?} replaced with: {:?}", Pii(gone), Pii(c));
            logged!(trace, "Discard pairs for local candidate index: {place:?}");
        }
        for remote in 0..now.remote.len() {
            self.log_pair_of(&now, (index, remote), |pair| pair.local == index);
        }
        self.log_formed(&now);
    }

    /// Logs what adding the remote candidate of this index did.
    pub(crate) fn log_added_remote(&self, agent: &IceAgent, c: &Candidate, index: usize) {
        let now = Seen::of(agent);
        for (_, gone) in missing(&self.remote, &now.remote) {
            logged!(debug, "Replace peer reflexive candidate, current: {:?} replaced with: {:?}", Pii(gone), Pii(c));
        }
        for local in 0..now.local.len() {
            self.log_pair_of(&now, (local, index), |pair| pair.remote == index);
        }
        self.log_formed(&now);
    }

    /// Logs that a pair of two candidates was formed, and whether it was redundant: another pair has its path, and `is_theirs` is false
    /// of that.
    fn log_pair_of(&self, now: &Seen, (local, remote): (usize, usize), is_theirs: impl Fn(&CandidatePair) -> bool) {
        let (Some(local), Some(remote)) = (now.local.get(local), now.remote.get(remote)) else { return };
        if local.proto() != remote.proto() || local.addr().is_ipv4() != remote.addr().is_ipv4() {
            return;
        }
        logged!(trace, "Form pair local: {:?} remote: {:?}", Pii(local), Pii(remote));
        let path = (local.proto(), local.local(), remote.addr());
        if let Some(pair) = now.pair_on(path).filter(|pair| self.pair_on(path).is_some() && !is_theirs(pair)) {
            logged!(debug, "Reject redundant pair, current: {:?} rejected: {:?} {:?}", Pii(Shown(now, pair)), Pii(local), Pii(remote));
        }
    }

    /// Logs the pairs that a call formed or removed.
    fn log_formed(&self, now: &Seen) {
        self.log_new_pairs(now, "Add new pair");
        self.log_pairs(now);
    }

    /// Logs what forming all pairs again did, or removing a candidate.
    pub(crate) fn log_reformed(&self, agent: &IceAgent) {
        self.log_formed(&Seen::of(agent));
    }

    /// Logs which side's candidate was removed.
    pub(crate) fn log_discarded(&self, agent: &IceAgent, c: &Candidate) {
        let now = Seen::of(agent);
        let (local, remote) = (missing(&self.local, &now.local).next(), missing(&self.remote, &now.remote).next());
        let side = if local.is_some() { "Local" } else { "Remote" };
        logged!(debug, "{side} candidate to discard {:?}", Pii(c));
        if let Some((index, _)) = local.or(remote) {
            logged!(trace, "Discard pairs for {} candidate index: {index:?}", side.to_lowercase());
        }
        self.log_pairs(&now);
    }

    /// Logs why a local candidate was not added.
    pub(crate) fn log_rejected_local(&self, c: &Candidate) {
        if self.is_lite && c.kind() != CandidateKind::Host {
            logged!(debug, "Reject non-host candidate due to ice-lite mode: {:?}", Pii(c));
            return;
        }
        let same = |other: &&Candidate| (other.addr(), other.local(), other.proto()) == (c.addr(), c.local(), c.proto());
        match self.local.iter().find(same) {
            Some(other) => logged!(debug, "Reject redundant candidate, current: {:?} rejected: {:?}", Pii(other), Pii(c)),
            None => logged!(debug, "Reject candidate, which is not for this agent: {:?}", Pii(c)),
        }
    }

    /// Logs what a `handle_timeout` call did.
    pub(crate) fn log_timeout(&self, agent: &IceAgent) {
        let now = Seen::of(agent);
        if now.early < self.early {
            for _ in 1..self.early - now.early {
                logged!(trace, "Drop too old enqueued STUN request: {} wait", now.early);
            }
            logged!(debug, "Handle enqueued STUN request: {} wait", now.early);
            self.log_new_pairs(&now, "Created new pair for STUN request:");
        } else if agent.remote_credentials().is_none() {
            logged!(trace, "Stop timeout due to missing remote credentials");
        } else if self.is_lite {
            logged!(trace, "Stop timeout since ice-lite do no checks");
        }
        self.log_pairs(&now);
    }

    /// Logs what a packet did that was accepted.
    pub(crate) fn log_accepted(&self, agent: &IceAgent, path: Path, bytes: &[u8]) {
        let (now, Ok(message)) = (Seen::of(agent), StunMessage::parse(bytes)) else { return };
        match message.class() {
            Class::Request => self.log_request(&now, path, &message, agent.remote_credentials().is_none()),
            Class::Success => self.log_success(&now, &message),
            _ => self.log_error(&now, message.error_code().map_or(0, |(code, _)| code)),
        }
        if now.controlling != self.controlling {
            logged!(debug, "Switch role: {} -> {}", role_name(self.controlling), role_name(now.controlling));
        }
        self.log_pairs(&now);
    }

    fn log_request(&self, now: &Seen, path: Path, message: &StunMessage<'_>, is_early: bool) {
        let (proto, destination, source) = path;
        if message.use_candidate() {
            logged!(trace, "Binding request sent USE-CANDIDATE");
        }
        if is_early {
            logged!(debug, "Enqueue STUN request due to missing remote credentials: {:?}", Pii(message));
            if self.early == EARLY_LIMIT {
                logged!(debug, "Remove overflow STUN request: {EARLY_LIMIT} wait");
            }
            return;
        }
        let is_destination = |c: &Candidate| {
            matches!(c.kind(), CandidateKind::Host | CandidateKind::Relayed) && (c.proto(), c.addr()) == (proto, destination)
        };
        if !self.local.iter().any(is_destination) {
            logged!(debug, "Discarding STUN request on unknown interface: {:?}", Pii(destination));
            return;
        }
        let theirs = if self.controlling { message.ice_controlling() } else { message.ice_controlled() };
        if let Some(peer) = theirs {
            logged!(debug, "Role conflict on {} role: peer={peer}", role_name(self.controlling));
        }
        if now.stats.bind_request_recv == self.stats.bind_request_recv {
            if message.use_candidate() && now.controlling && (theirs.is_none() || now.controlling != self.controlling) {
                logged!(debug, "STUN request rejected, USE-CANDIDATE when local is controlling");
            }
            return;
        }
        let is_source = |c: &&Candidate| (c.proto(), c.addr()) == (proto, source);
        if self.remote.iter().any(|c| is_source(&c)) {
            logged!(trace, "Remote candidate for STUN request found");
        } else if let Some(created) = now.remote.iter().find(is_source) {
            logged!(debug, "Created peer reflexive remote candidate from STUN request: {:?}", Pii(created));
        }
        if let Some(pair) = self.pair_on(path) {
            logged!(trace, "Found existing pair for STUN request: {:?}", Pii(Shown(self, pair)));
        }
        self.log_new_pairs(now, "Created new pair for STUN request:");
    }

    fn log_success(&self, now: &Seen, message: &StunMessage<'_>) {
        let Some(mapped) = message.mapped_address() else { return };
        if missing(&now.local, &self.local).next().is_some() {
            logged!(debug, "Created local peer reflexive candidate for mapped address: {:?}", Pii(mapped));
        } else if self.local.iter().any(|c| c.addr() == mapped) {
            logged!(trace, "Found local candidate for mapped address: {:?}", Pii(mapped));
        }
    }

    fn log_error(&self, now: &Seen, code: u16) {
        if code != ROLE_CONFLICT {
            logged!(debug, "Ignoring binding error response with code {code}");
        } else if now.controlling == self.controlling {
            logged!(debug, "Ignore stale 487 (we are {})", role_name(now.controlling));
        } else {
            logged!(debug, "Got 487 Role Conflict, switching from {}", role_name(self.controlling));
        }
    }
}

/// Logs what changed of a pair.
fn log_pair(before: &CandidatePair, pair: &CandidatePair, now: &Seen) {
    let shown = Pii(Shown(now, pair));
    if pair.requests_received > before.requests_received {
        logged!(pair trace, "Recorded binding request: {shown:?}");
    }
    if pair.nominated && !before.nominated {
        let words = if now.is_lite { "Force success nominated pair" } else { "Nominated pair:" };
        logged!(pair debug, "{words} {shown:?}");
    }
    if pair.state != before.state {
        logged!(pair trace, "Check state: {:?} -> {:?}", before.state, pair.state);
    }
    if pair.checks_sent > before.checks_sent {
        logged!(trace, "Handle next triggered pair: {shown:?}");
        logged!(pair trace, "Sending binding request: {shown:?}");
    }
    if pair.responses > before.responses {
        logged!(pair trace, "Recorded binding response: {shown:?}");
    }
}

/// Logs why a message is not for the agent, as far as its texts say so.
pub(crate) fn log_rejected(agent: &IceAgent, message: &StunMessage<'_>) {
    let (local, remote) = (agent.local_credentials(), agent.remote_credentials());
    match (message.method(), message.class()) {
        (Method::Unknown, _) => logged!(trace, "Message rejected, unknown STUN method"),
        (Method::Binding, Class::Unknown) => logged!(trace, "Message rejected, unknown STUN class"),
        (Method::Binding, Class::Success | Class::Failure) => match remote {
            Some(creds) if message.is_signed_by(creds.pass.as_bytes()) => {
                logged!(trace, "Message rejected, transaction ID does not belong to any of our candidate pairs");
            }
            _ => logged!(trace, "Message rejected, integrity check failed"),
        },
        (Method::Binding, _) => match (message.split_username(), remote) {
            (Some((to, _)), _) if to != local.ufrag => {
                logged!(trace, "Message rejected, local user mismatch: {:?} != {:?}", Pii(to), Pii(&local.ufrag));
            }
            (Some((_, from)), Some(creds)) if from != creds.ufrag => {
                logged!(trace, "Message rejected, remote user mismatch: {:?} != {:?}", Pii(from), Pii(&creds.ufrag));
            }
            _ => logged!(trace, "Message rejected, integrity check failed"),
        },
        (method, _) => logged!(trace, "Message rejected, TURN method({method:?}) unexpected in this context"),
    }
}

/// Logs why a packet was not accepted.
pub(crate) fn log_not_accepted(agent: &IceAgent, (proto, destination, source): Path, bytes: &[u8]) {
    let why = StunMessage::parse(bytes).ok().and_then(|message| agent.rejection(&StunPacket { proto, source, destination, message }));
    match why {
        Some(why) => logged!(debug, "Message not accepted: {why}, from {:?}", Pii(source)),
        None => logged!(debug, "Message not accepted"),
    }
}

/// Logs what a packet is that the agent sends.
pub(crate) fn log_sent(transmit: &Transmit, controlling: bool) {
    let Ok(message) = StunMessage::parse(&transmit.contents) else { return };
    let way = Pii((transmit.source, transmit.destination));
    match message.class() {
        Class::Request => logged!(trace, "Send STUN request: {way:?} {:?}", Pii(&message)),
        Class::Failure => logged!(debug, "Reply 487 Role Conflict (keep {} role): {way:?}", role_name(controlling)),
        _ => logged!(trace, "Send STUN reply: {way:?} {:?}", Pii(&message)),
    }
}

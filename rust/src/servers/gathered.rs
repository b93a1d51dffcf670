//! What a gatherer returns, and the candidates that its clients found.

use super::clients::{Datagram, Transport};
use super::event::{Happened, ServerEvent};
use crate::candidate::Candidate;
use crate::event::IceAgentEvent;
use crate::types::Protocol;
use std::net::SocketAddr;

/// What a datagram or a frame was.
#[derive(Clone, Copy, Debug, PartialEq, Eq)]
pub enum Received<'a> {
    /// A client's or the agent's, or nobody's: there is nothing to do with it.
    Taken,
    /// A STUN message that the agent does not take: of another agent, for example.
    Stun(Datagram<'a>),
    /// No STUN message: media, from the peer if [`IceAgent::takes_media_from`](crate::IceAgent::takes_media_from) its source. Through a
    /// server it is unwrapped.
    Media(Datagram<'a>),
}

/// Something that happened in a gatherer.
#[derive(Clone, Debug, PartialEq, Eq)]
pub enum GatherEvent {
    /// A client found a candidate, and the agent has it: signal it to the peer.
    LocalCandidate(Candidate),
    /// What a client reported, for a log: as that a server rejects the password.
    Server(ServerEvent),
    /// No server is waited for any more: signal the end of candidates. Another one follows if sockets or servers are added.
    GatheringComplete,
    /// An event of the agent.
    Agent(IceAgentEvent),
}

/// A client: over what, of which socket or connection, at which server.
pub(crate) type Client = (Transport, SocketAddr, SocketAddr);

/// A candidate that a client found.
#[derive(Clone, Debug)]
pub(crate) struct Found {
    pub(crate) of: Client,
    pub(crate) candidate: Candidate,
}

impl Found {
    /// Whether both found the same.
    pub(crate) fn is_alike(&self, other: &Found) -> bool {
        let of = |found: &Found| (found.candidate.kind(), found.candidate.addr(), found.candidate.local());
        of(self) == of(other)
    }
}

pub(crate) fn client_of(event: &ServerEvent) -> Client {
    (event.transport, event.local, event.server)
}

/// The candidates that an event says, without those that nobody may have.
pub(crate) fn found_in(event: &ServerEvent) -> Vec<Found> {
    let (of, local) = (client_of(event), event.local);
    let (relayed, mapped) = match event.what {
        Happened::Mapped(mapped) => (None, Some(mapped)),
        Happened::Allocated(allocation) => (Some(allocation.relayed), allocation.mapped),
        _ => (None, None),
    };
    let relayed = relayed.map(|relayed| Candidate::relayed(relayed, local, Protocol::Udp));
    let mapped = mapped.map(|mapped| Candidate::server_reflexive(mapped, local, Protocol::Udp));
    relayed.into_iter().chain(mapped).flatten().map(|candidate| Found { of, candidate }).collect()
}

//! What an agent returns: events, states, statistics, and packets to send.

use crate::creds::IceCreds;
use crate::ffi;
use crate::proto::{address_of, number_of, protocol_of, socket_of};
use crate::types::Protocol;
use std::net::SocketAddr;

/// The state of a connection.
#[derive(Clone, Copy, Debug, PartialEq, Eq)]
pub enum IceConnectionState {
    /// The session has not started.
    New,
    /// No valid pair is nominated, and one may yet be, or a side has no candidates yet.
    Checking,
    /// A valid pair is nominated, and another one may yet be found.
    Connected,
    /// A valid pair is nominated, and no other one may be found, or the agent is lite.
    Completed,
    /// No valid pair is nominated, and none may be. New candidates, checks of the peer and restarts may change that.
    Disconnected,
}

impl IceConnectionState {
    pub(crate) fn of(number: i32) -> IceConnectionState {
        match number {
            ffi::NEW => IceConnectionState::New,
            ffi::CHECKING => IceConnectionState::Checking,
            ffi::CONNECTED => IceConnectionState::Connected,
            ffi::COMPLETED => IceConnectionState::Completed,
            _ => IceConnectionState::Disconnected,
        }
    }

    fn number(self) -> i32 {
        match self {
            IceConnectionState::New => ffi::NEW,
            IceConnectionState::Checking => ffi::CHECKING,
            IceConnectionState::Connected => ffi::CONNECTED,
            IceConnectionState::Completed => ffi::COMPLETED,
            IceConnectionState::Disconnected => ffi::DISCONNECTED,
        }
    }

    /// Whether a valid pair is nominated.
    pub fn is_connected(&self) -> bool {
        matches!(self, IceConnectionState::Connected | IceConnectionState::Completed)
    }

    /// Whether no valid pair is nominated and none may be.
    pub fn is_disconnected(&self) -> bool {
        matches!(self, IceConnectionState::Disconnected)
    }
}

/// Counters since the last restart.
#[derive(Clone, Copy, Debug, Default, PartialEq, Eq)]
pub struct IceAgentStats {
    /// Connectivity checks sent.
    pub bind_request_sent: u64,
    /// Success responses received.
    pub bind_success_recv: u64,
    /// Requests of the peer that were served.
    pub bind_request_recv: u64,
    /// [`IceAgentEvent::DiscoveredRecv`] events.
    pub discovered_recv_count: u64,
    /// [`IceAgentEvent::NominatedSend`] events.
    pub nomination_send_count: u64,
}

impl IceAgentStats {
    pub(crate) fn of(stats: ffi::AgentStats) -> IceAgentStats {
        IceAgentStats {
            bind_request_sent: stats.bind_request_sent,
            bind_success_recv: stats.bind_success_recv,
            bind_request_recv: stats.bind_request_recv,
            discovered_recv_count: stats.discovered_recv_count,
            nomination_send_count: stats.nomination_send_count,
        }
    }
}

/// Something that happened.
#[derive(Clone, Debug, PartialEq, Eq)]
pub enum IceAgentEvent {
    /// A session starts or restarts with these local credentials.
    IceRestart(IceCreds),
    /// The state changed.
    IceConnectionStateChange(IceConnectionState),
    /// The first authentic packet from this address since the last restart.
    DiscoveredRecv {
        /// Its transport protocol.
        proto: Protocol,
        /// Its source.
        source: SocketAddr,
    },
    /// Send media on this path, until the next such event.
    NominatedSend {
        /// The transport protocol.
        proto: Protocol,
        /// The local address to send from.
        source: SocketAddr,
        /// The address to send to.
        destination: SocketAddr,
    },
}

impl IceAgentEvent {
    /// Converts the library's event; the credentials are those of a restart.
    pub(crate) fn of(event: &ffi::Event, creds: impl FnOnce() -> IceCreds) -> IceAgentEvent {
        let proto = protocol_of(event.protocol);
        let source = socket_of(&event.source);
        match event.kind {
            ffi::RESTARTED => IceAgentEvent::IceRestart(creds()),
            ffi::STATE_CHANGED => IceAgentEvent::IceConnectionStateChange(IceConnectionState::of(event.state)),
            ffi::DISCOVERED_RECV => IceAgentEvent::DiscoveredRecv { proto, source },
            _ => IceAgentEvent::NominatedSend { proto, source, destination: socket_of(&event.destination) },
        }
    }

    /// The library's event. It has no credentials.
    pub(crate) fn told(&self) -> ffi::Event {
        let path = |kind, proto: &Protocol, source: &SocketAddr| ffi::Event {
            kind,
            protocol: number_of(*proto),
            source: address_of(*source),
            ..Default::default()
        };
        match self {
            IceAgentEvent::IceRestart(_) => ffi::Event { kind: ffi::RESTARTED, ..Default::default() },
            IceAgentEvent::IceConnectionStateChange(state) => {
                ffi::Event { kind: ffi::STATE_CHANGED, state: state.number(), ..Default::default() }
            }
            IceAgentEvent::DiscoveredRecv { proto, source } => path(ffi::DISCOVERED_RECV, proto, source),
            IceAgentEvent::NominatedSend { proto, source, destination } => {
                ffi::Event { destination: address_of(*destination), ..path(ffi::NOMINATED_SEND, proto, source) }
            }
        }
    }
}

/// A path for media: of the selected pair, or of a valid one.
#[derive(Clone, Copy, Debug, PartialEq, Eq)]
pub struct MediaPath {
    /// The transport protocol.
    pub proto: Protocol,
    /// The local address to send from.
    pub source: SocketAddr,
    /// The address to send to.
    pub destination: SocketAddr,
}

impl MediaPath {
    pub(crate) fn of(protocol: u8, source: &ffi::Address, destination: &ffi::Address) -> MediaPath {
        MediaPath { proto: protocol_of(protocol), source: socket_of(source), destination: socket_of(destination) }
    }
}

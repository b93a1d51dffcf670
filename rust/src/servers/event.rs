//! What the clients of servers report.

use super::clients::Transport;
use crate::ffi;
use crate::proto::{address_of, socket_of};
use std::fmt;
use std::net::{IpAddr, SocketAddr};

/// Something that happened to a client. It prints as the line of a log that the library makes of it.
#[derive(Clone, Copy, Debug, PartialEq, Eq)]
pub struct ServerEvent {
    /// Over what the client reaches its server.
    pub transport: Transport,
    /// The client's socket, or its connection.
    pub local: SocketAddr,
    /// The server: another one after a redirection.
    pub server: SocketAddr,
    /// What happened.
    pub what: Happened,
}

/// What happened to a client.
#[derive(Clone, Copy, Debug, PartialEq, Eq)]
#[non_exhaustive]
pub enum Happened {
    /// A STUN server sees the socket at this address: that of a server-reflexive candidate.
    Mapped(SocketAddr),
    /// A TURN server made an allocation.
    Allocated(Allocation),
    /// The server lets in no packets of this peer. The code of its error response; `None`: there was no response.
    NotPermitted(IpAddr, Option<u16>),
    /// The client's last event.
    Ended(Ending),
}

/// What a TURN server allocated.
#[derive(Clone, Copy, Debug, PartialEq, Eq)]
pub struct Allocation {
    /// The relayed address: peers send to it.
    pub relayed: SocketAddr,
    /// The address at which the server sees the socket or the connection, if it says so.
    pub mapped: Option<SocketAddr>,
}

/// How a client ended.
#[derive(Clone, Copy, Debug, PartialEq, Eq)]
pub struct Ending {
    /// Why.
    pub why: Why,
    /// The code of the server's error response.
    pub code: Option<u16>,
    /// The code of a response that nobody signed: a hint for the log. 200: a success response.
    pub unverified: Option<u16>,
}

/// Why a client ended.
#[derive(Clone, Copy, Debug, PartialEq, Eq, Hash)]
pub enum Why {
    /// It never had a mapped or relayed address.
    Failed,
    /// The allocation is gone, or the socket or connection is.
    Lost,
    /// [`Servers::close`](super::Servers::close) was called.
    Closed,
}

impl Why {
    fn of(number: i32) -> Why {
        match number {
            ffi::ENDED_LOST => Why::Lost,
            ffi::ENDED_CLOSED => Why::Closed,
            _ => Why::Failed,
        }
    }

    fn number(self) -> i32 {
        match self {
            Why::Failed => ffi::ENDED_FAILED,
            Why::Lost => ffi::ENDED_LOST,
            Why::Closed => ffi::ENDED_CLOSED,
        }
    }
}

/// The library has 0 for no code.
fn some_code(code: u16) -> Option<u16> {
    (code != 0).then_some(code)
}

impl ServerEvent {
    /// Converts the library's event.
    pub(crate) fn of(event: &ffi::ServerEvent) -> ServerEvent {
        let what = match event.kind {
            ffi::SERVER_MAPPED => Happened::Mapped(socket_of(&event.mapped)),
            ffi::SERVER_ALLOCATED => Happened::Allocated(Allocation {
                relayed: socket_of(&event.relayed),
                mapped: event.has_mapped.then(|| socket_of(&event.mapped)),
            }),
            ffi::SERVER_NOT_PERMITTED => Happened::NotPermitted(socket_of(&event.peer).ip(), some_code(event.code)),
            _ => Happened::Ended(Ending { why: Why::of(event.why), code: some_code(event.code), unverified: some_code(event.unverified) }),
        };
        let (local, server) = (socket_of(&event.local), socket_of(&event.server));
        ServerEvent { transport: Transport::of(event.protocol), local, server, what }
    }

    /// The library's event.
    fn told(&self) -> ffi::ServerEvent {
        let (local, server) = (address_of(self.local), address_of(self.server));
        let mut event = ffi::ServerEvent { local, server, protocol: self.transport.number(), ..Default::default() };
        match self.what {
            Happened::Mapped(mapped) => {
                event.kind = ffi::SERVER_MAPPED;
                event.mapped = address_of(mapped);
            }
            Happened::Allocated(Allocation { relayed, mapped }) => {
                event.kind = ffi::SERVER_ALLOCATED;
                event.relayed = address_of(relayed);
                event.has_mapped = mapped.is_some();
                event.mapped = mapped.map_or(ffi::Address::default(), address_of);
            }
            Happened::NotPermitted(ip, code) => {
                event.kind = ffi::SERVER_NOT_PERMITTED;
                event.peer = address_of(SocketAddr::new(ip, 0));
                event.code = code.unwrap_or(0);
            }
            Happened::Ended(Ending { why, code, unverified }) => {
                event.kind = ffi::SERVER_ENDED;
                event.why = why.number();
                event.code = code.unwrap_or(0);
                event.unverified = unverified.unwrap_or(0);
            }
        }
        event
    }
}

impl fmt::Display for ServerEvent {
    fn fmt(&self, f: &mut fmt::Formatter<'_>) -> fmt::Result {
        let event = self.told();
        match ffi::text(|buffer, length| ffi::is_ice_servers_event_line(&event, buffer, length)) {
            Ok(line) => f.write_str(&line),
            Err(code) => f.write_str(ffi::text_of(code)),
        }
    }
}

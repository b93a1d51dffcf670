//! The clients of a program, between its sockets and its agent.

use super::event::ServerEvent;
use crate::clock::Clock;
use crate::error::{CallError, found};
use crate::ffi;
use crate::ids::TransIds;
use crate::proto::{address_of, protocol_of, socket_of};
use crate::types::{Protocol, Transmit};
use std::fmt;
use std::net::SocketAddr;
use std::time::Instant;

/// Over what a client reaches its server. TLS is `Tcp`: the program encrypts the stream.
#[derive(Clone, Copy, Debug, PartialEq, Eq, Hash)]
pub enum Transport {
    /// Datagrams.
    Udp,
    /// A stream, which the program cuts by [`Frames`](super::Frames).
    Tcp,
}

impl Transport {
    pub(crate) fn number(self) -> u8 {
        match self {
            Transport::Udp => ffi::UDP,
            Transport::Tcp => ffi::TCP,
        }
    }

    pub(crate) fn of(number: u8) -> Transport {
        if number == ffi::UDP { Transport::Udp } else { Transport::Tcp }
    }

    /// As [`Transmit`] has it.
    pub fn protocol(self) -> Protocol {
        protocol_of(self.number())
    }
}

/// An IP version.
#[derive(Clone, Copy, Debug, PartialEq, Eq, Hash)]
pub enum Family {
    /// IPv4.
    V4,
    /// IPv6.
    V6,
}

/// A TURN server, and what a client of it requests.
#[derive(Clone, Copy, PartialEq, Eq)]
pub struct TurnServer<'a> {
    /// Over what.
    pub transport: Transport,
    /// Its address.
    pub address: SocketAddr,
    /// The IP version of the relayed address. `None`: it is not requested, and the server allocates one of IPv4 (RFC 8656, section 7.2).
    pub family: Option<Family>,
    /// How many permissions and channels there may be, together: each IP address of a peer needs one, and each address that media goes to
    /// another one. See [`PLACES`].
    pub places: usize,
    /// The USERNAME. If it is empty, the client has no credentials.
    pub username: &'a str,
    /// The password. `{:?}` does not print it.
    pub password: &'a str,
}

impl fmt::Debug for TurnServer<'_> {
    fn fmt(&self, f: &mut fmt::Formatter<'_>) -> fmt::Result {
        let TurnServer { transport, address, family, places, username, .. } = self;
        let mut fields = f.debug_struct("TurnServer");
        fields.field("transport", transport).field("address", address).field("family", family).field("places", places);
        fields.field("username", username).field("password", &"..").finish()
    }
}

/// A datagram that arrived: at a socket, or at a relayed address.
#[derive(Clone, Copy, Debug, PartialEq, Eq)]
pub struct Datagram<'a> {
    /// Who sent it: through a TURN server the peer.
    pub source: SocketAddr,
    /// The socket, or the relayed address.
    pub destination: SocketAddr,
    /// Its bytes.
    pub contents: &'a [u8],
}

/// A packet for a server, at the start of the caller's buffer.
#[derive(Clone, Copy, Debug, PartialEq, Eq)]
pub struct ServerPacket {
    /// Over what.
    pub transport: Transport,
    /// The socket or the connection that sends it.
    pub local: SocketAddr,
    /// The server.
    pub server: SocketAddr,
    /// How many bytes it has.
    pub length: usize,
}

/// Where a packet goes.
#[derive(Clone, Copy, Debug, PartialEq, Eq)]
pub enum Outgoing {
    /// Its source is no relayed address: it goes as it is.
    AsItIs,
    /// Through a server: the buffer has what to send.
    Through(ServerPacket),
    /// The relayed address is gone, or no packet goes from it to this peer: drop it.
    Nowhere,
}

/// All clients of a program: one for each socket and STUN server, and one for each socket or connection and TURN server.
///
/// Pass each datagram of a socket and each frame of a connection to [`receive`](Self::receive) first, and what that returns to the agent. Pass
/// each packet of the agent, and media, to [`outgoing`](Self::outgoing) first. [`IceGatherer`](super::IceGatherer) does both.
pub struct Servers {
    held: Box<ffi::Servers>,
    clock: Clock,
    ids: TransIds,
}

/// By how many bytes a packet through a server is longer, at most.
pub const WRAPPING_LENGTH: usize = ffi::WRAPPING_LENGTH;

/// How many permissions and channels are enough for an agent whose peer has up to 60 candidates.
pub const PLACES: usize = ffi::SERVERS_PLACES;

// ---- creating

impl Servers {
    /// Without a client.
    ///
    /// # Errors
    ///
    /// [`CallError::OutOfMemory`].
    pub fn new() -> Result<Servers, CallError> {
        let held = ffi::Servers::new().map_err(CallError::of)?;
        Ok(Servers { held, clock: Clock::default(), ids: TransIds::default() })
    }

    /// Adds the client of a UDP socket at a STUN server. It requests the socket's server-reflexive address, and keeps the mapping.
    ///
    /// # Errors
    ///
    /// [`CallError::OutOfMemory`].
    pub fn add_stun(&mut self, now: Instant, local: SocketAddr, server: SocketAddr) -> Result<(), CallError> {
        let now = self.clock.start(now);
        found(ffi::is_ice_servers_add_stun(&mut self.held, now, &address_of(local), &address_of(server))).map(drop)
    }

    /// Adds the client of a socket or a connection at a TURN server, which requests an allocation.
    ///
    /// # Errors
    ///
    /// [`CallError::OutOfMemory`], [`CallError::CredentialsTooLong`].
    pub fn add_turn(&mut self, now: Instant, local: SocketAddr, turn: &TurnServer<'_>) -> Result<(), CallError> {
        let (now, local, server) = (self.clock.start(now), address_of(local), address_of(turn.address));
        let family = match turn.family {
            None => 0,
            Some(Family::V4) => 4,
            Some(Family::V6) => 6,
        };
        let (username, password) = (turn.username.as_bytes(), turn.password.as_bytes());
        let transport = turn.transport.number();
        let code = ffi::is_ice_servers_add_turn(&mut self.held, now, transport, &local, &server, family, turn.places, username, password);
        found(code).map(drop)
    }
}

impl fmt::Debug for Servers {
    fn fmt(&self, f: &mut fmt::Formatter<'_>) -> fmt::Result {
        f.debug_struct("Servers").finish_non_exhaustive()
    }
}

// ---- datagrams and packets

impl Servers {
    /// Takes any datagram of a socket, or frame of a connection. Returns what is for the agent, or media: as it is, or unwrapped, without a
    /// copy. `None`: it was a client's.
    pub fn receive<'a>(
        &mut self,
        now: Instant,
        transport: Transport,
        source: SocketAddr,
        local: SocketAddr,
        bytes: &'a [u8],
    ) -> Option<Datagram<'a>> {
        let (now, mut found) = (self.clock.start(now), ffi::Datagram::default());
        let (source, local) = (address_of(source), address_of(local));
        let code = ffi::is_ice_servers_receive(&mut self.held, now, transport.number(), &source, &local, bytes, &mut found);
        if code != ffi::OK {
            return None;
        }
        let contents = bytes.get(found.offset..).and_then(|rest| rest.get(..found.length))?;
        Some(Datagram { source: socket_of(&found.source), destination: socket_of(&found.destination), contents })
    }

    /// Takes any packet of the agent, or media, with the address that it comes from. What goes through a server is written to the buffer,
    /// which is long enough if it is longer than the contents by [`WRAPPING_LENGTH`].
    ///
    /// # Errors
    ///
    /// [`CallError::NoRandomBytes`], [`CallError::MessageTooLong`]; [`CallError::Other`] if the buffer is too short.
    pub fn outgoing(
        &mut self,
        now: Instant,
        source: SocketAddr,
        destination: SocketAddr,
        contents: &[u8],
        buffer: &mut [u8],
    ) -> Result<Outgoing, CallError> {
        let id = self.ids.next().ok_or(CallError::NoRandomBytes)?;
        let (now, mut packet) = (self.clock.start(now), ffi::Packet::default());
        let (source, destination) = (address_of(source), address_of(destination));
        let code = ffi::is_ice_servers_outgoing(&mut self.held, now, &source, &destination, contents, &id, buffer, &mut packet);
        match code {
            ffi::OK => Ok(Outgoing::Through(packet_of(&packet))),
            ffi::NOTHING => {
                self.ids.keep();
                Ok(Outgoing::AsItIs)
            }
            ffi::NO_RELAY => Ok(Outgoing::Nowhere),
            code => Err(CallError::of(code)),
        }
    }

    /// Asks each TURN server to let in packets of this peer: of its IP address, from any port. Call it for each remote candidate, and again for
    /// all of them after [`Happened::Allocated`](super::Happened::Allocated): a client whose Allocate request is pending asks once it has the
    /// allocation, and one that has ended does nothing.
    pub fn permit(&mut self, now: Instant, peer: SocketAddr) {
        let now = self.clock.start(now);
        let code = ffi::is_ice_servers_permit(&mut self.held, now, &address_of(peer));
        debug_assert_eq!(code, ffi::OK);
    }

    /// Each TURN client asks its server now whether it still has the allocation: after sleep, or if a path is lost.
    pub fn probe(&mut self, now: Instant) {
        let now = self.clock.start(now);
        let code = ffi::is_ice_servers_probe(&mut self.held, now);
        debug_assert_eq!(code, ffi::OK);
    }

    /// Frees all allocations, and ends each client. Go on until [`poll_timeout`](Self::poll_timeout) returns nothing.
    pub fn close(&mut self, now: Instant) {
        let now = self.clock.start(now);
        let code = ffi::is_ice_servers_close(&mut self.held, now);
        debug_assert_eq!(code, ffi::OK);
    }

    /// A socket or a connection is gone: its clients end at once.
    pub fn lose(&mut self, transport: Transport, local: SocketAddr) {
        let code = ffi::is_ice_servers_lose(&mut self.held, transport.number(), &address_of(local));
        debug_assert_eq!(code, ffi::OK);
    }
}

// ---- polls

impl Servers {
    /// The time at which to call `handle_timeout` next. A query. `None`: no client has anything to do.
    pub fn poll_timeout(&mut self) -> Option<Instant> {
        let mut at = 0;
        let is_some = ffi::is_ice_servers_poll_timeout(&mut self.held, &mut at) == ffi::OK;
        is_some.then(|| self.clock.instant(at)).flatten()
    }

    /// Passes the current time. One client does what is due, and sends one packet at most.
    ///
    /// # Errors
    ///
    /// [`CallError::NoRandomBytes`].
    pub fn handle_timeout(&mut self, now: Instant) -> Result<(), CallError> {
        let id = self.ids.next().ok_or(CallError::NoRandomBytes)?;
        let now = self.clock.start(now);
        found(ffi::is_ice_servers_handle_timeout(&mut self.held, now, &id)).map(drop)
    }

    /// The next packet for a server: a datagram, or bytes for the stream of the connection that is its source.
    ///
    /// If its destination is another server, the client was redirected (RFC 8489, section 10): open a connection to that one for it, and
    /// close the other. In all calls and events the address of the first one stands for it.
    pub fn poll_transmit(&mut self) -> Option<Transmit> {
        let (mut room, mut packet) = ([0; ffi::SERVERS_PACKET_LENGTH], ffi::Packet::default());
        let code = ffi::is_ice_servers_poll_transmit(&mut self.held, &mut room, &mut packet);
        debug_assert!(matches!(code, ffi::OK | ffi::NOTHING), "{}", ffi::text_of(code));
        (code == ffi::OK).then(|| transmit_of(&packet_of(&packet), room[..packet.length].to_vec()))
    }

    /// The next event.
    pub fn poll_event(&mut self) -> Option<ServerEvent> {
        let mut event = ffi::ServerEvent::default();
        let is_some = ffi::is_ice_servers_poll_event(&mut self.held, &mut event) == ffi::OK;
        is_some.then(|| ServerEvent::of(&event))
    }

    /// Whether a client waits for its first answer.
    pub fn is_gathering(&mut self) -> bool {
        ffi::is_ice_servers_gathering(&mut self.held) == ffi::OK
    }
}

fn packet_of(packet: &ffi::Packet) -> ServerPacket {
    ServerPacket {
        transport: Transport::of(packet.protocol),
        local: socket_of(&packet.source),
        server: socket_of(&packet.destination),
        length: packet.length,
    }
}

/// The packet with its bytes.
pub(crate) fn transmit_of(packet: &ServerPacket, contents: Vec<u8>) -> Transmit {
    #[allow(clippy::useless_conversion)] // the contents are a type of its own in str0m_proto
    let contents = contents.into();
    Transmit { proto: packet.transport.protocol(), source: packet.local, destination: packet.server, contents }
}

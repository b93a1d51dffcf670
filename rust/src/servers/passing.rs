//! What passes through a gatherer: datagrams, packets and media.

use super::clients::{Datagram, Outgoing, Transport, WRAPPING_LENGTH, transmit_of};
use super::gathered::Received;
use super::gatherer::IceGatherer;
use crate::candidate::Candidate;
use crate::error::CallError;
use crate::ffi;
use crate::stun::{StunMessage, StunPacket};
use crate::types::{Protocol, Transmit};
use std::net::SocketAddr;
use std::time::Instant;

impl IceGatherer {
    /// Adds a candidate of the peer, and has the TURN servers let in its packets. Returns whether the agent added it.
    ///
    /// # Errors
    ///
    /// As [`IceAgent::try_add_remote_candidate`].
    pub fn add_remote_candidate(&mut self, now: Instant, candidate: Candidate) -> Result<bool, CallError> {
        let peer = candidate.addr();
        let is_added = self.agent.try_add_remote_candidate(candidate)?;
        if is_added || self.agent.try_remote_candidates()?.iter().any(|known| known.addr() == peer) {
            self.clients.permit(now, peer);
        }
        Ok(is_added)
    }

    /// Takes any datagram of a socket.
    ///
    /// # Errors
    ///
    /// As [`IceAgent::try_handle_packet`].
    pub fn handle_packet<'a>(
        &mut self,
        now: Instant,
        source: SocketAddr,
        local: SocketAddr,
        bytes: &'a [u8],
    ) -> Result<Received<'a>, CallError> {
        match self.receive(now, Transport::Udp, source, local, bytes)? {
            Some(datagram) => self.take(now, datagram),
            None => Ok(Received::Taken),
        }
    }

    /// Takes a frame of a connection to a server, from this address to the local one.
    ///
    /// # Errors
    ///
    /// As [`IceAgent::try_handle_packet`].
    pub fn handle_frame<'a>(
        &mut self,
        now: Instant,
        server: SocketAddr,
        local: SocketAddr,
        frame: &'a [u8],
    ) -> Result<Received<'a>, CallError> {
        match self.receive(now, Transport::Tcp, server, local, frame)? {
            // A connection has no other frames than its client's.
            Some(datagram) if datagram.destination != local => self.take(now, datagram),
            _ => Ok(Received::Taken),
        }
    }

    fn receive<'a>(
        &mut self,
        now: Instant,
        transport: Transport,
        source: SocketAddr,
        local: SocketAddr,
        bytes: &'a [u8],
    ) -> Result<Option<Datagram<'a>>, CallError> {
        let datagram = self.clients.receive(now, transport, source, local, bytes);
        if datagram.is_none() {
            self.take_events(now)?;
        }
        Ok(datagram)
    }

    /// Passes what no client took to the agent.
    fn take<'a>(&mut self, now: Instant, datagram: Datagram<'a>) -> Result<Received<'a>, CallError> {
        let Datagram { source, destination, contents } = datagram;
        if ffi::is_ice_is_stun(contents) != ffi::OK {
            return Ok(Received::Media(datagram));
        }
        let Ok(message) = StunMessage::parse(contents) else { return Ok(Received::Stun(datagram)) };
        let packet = StunPacket { proto: Protocol::Udp, source, destination, message };
        let is_taken = self.agent.try_handle_packet(now, packet)?;
        Ok(if is_taken { Received::Taken } else { Received::Stun(datagram) })
    }

    /// What to send for a packet with this source, as media: to its destination, or to the server that relays it. `None`: nothing, since the
    /// relayed address is gone, or no packet goes from it to this peer. A packet over TCP goes into the connection that is its source.
    ///
    /// # Errors
    ///
    /// [`CallError::NoRandomBytes`], [`CallError::MessageTooLong`].
    pub fn outgoing(
        &mut self,
        now: Instant,
        source: SocketAddr,
        destination: SocketAddr,
        contents: &[u8],
    ) -> Result<Option<Transmit>, CallError> {
        self.buffer.resize(contents.len() + WRAPPING_LENGTH, 0);
        match self.clients.outgoing(now, source, destination, contents, &mut self.buffer)? {
            Outgoing::Through(packet) => Ok(Some(transmit_of(&packet, self.buffer[..packet.length].to_vec()))),
            Outgoing::Nowhere => Ok(None),
            Outgoing::AsItIs => {
                #[allow(clippy::useless_conversion)] // the contents are a type of its own in str0m_proto
                let contents = contents.to_vec().into();
                Ok(Some(Transmit { proto: Protocol::Udp, source, destination, contents }))
            }
        }
    }

    /// The next packet to send: of the agent, or of a client.
    ///
    /// # Errors
    ///
    /// [`CallError::NoRandomBytes`]: the packet is lost, as on the network. Poll again.
    pub fn poll_transmit(&mut self, now: Instant) -> Result<Option<Transmit>, CallError> {
        while let Some(packet) = self.agent.poll_transmit() {
            if let Some(sent) = self.outgoing(now, packet.source, packet.destination, &packet.contents)? {
                return Ok(Some(sent));
            }
        }
        Ok(self.clients.poll_transmit())
    }
}

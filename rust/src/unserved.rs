//! Why an accepted request gets no response: for a program that says what is wrong, as a destination that is no candidate's address.

use crate::agent::IceAgent;
use crate::ffi;
use crate::proto::{address_of, number_of};
use crate::stun::StunPacket;
use std::fmt;

/// Why an accepted request gets no response: the first reason that applies. It prints as
/// `request to an address that no local candidate has`.
#[derive(Clone, Copy, Debug, PartialEq, Eq)]
#[repr(i32)]
pub enum Unserved {
    /// The remote credentials are not set yet. The request waits for them.
    Early = ffi::UNSERVED_EARLY,
    /// The destination of the packet is not the address of a local candidate. Often the program passed the address to which its socket is
    /// bound, as 0.0.0.0, in place of that of the candidate.
    Destination = ffi::UNSERVED_DESTINATION,
    /// The request has USE-CANDIDATE, and the agent is controlling, after a role conflict was resolved.
    UseCandidate = ffi::UNSERVED_USE_CANDIDATE,
    /// Only remote candidates that were invalidated have the sender's address.
    Sender = ffi::UNSERVED_SENDER,
    /// No remote candidate has the sender's address, and there is no place for another one: see `set_max_discovered`.
    Limit = ffi::UNSERVED_LIMIT,
    /// The local candidate was invalidated, and has no pair with the sender.
    Local = ffi::UNSERVED_LOCAL,
}

impl Unserved {
    fn of(code: i32) -> Option<Unserved> {
        match code {
            ffi::UNSERVED_EARLY => Some(Unserved::Early),
            ffi::UNSERVED_DESTINATION => Some(Unserved::Destination),
            ffi::UNSERVED_USE_CANDIDATE => Some(Unserved::UseCandidate),
            ffi::UNSERVED_SENDER => Some(Unserved::Sender),
            ffi::UNSERVED_LIMIT => Some(Unserved::Limit),
            ffi::UNSERVED_LOCAL => Some(Unserved::Local),
            _ => None,
        }
    }
}

impl fmt::Display for Unserved {
    fn fmt(&self, f: &mut fmt::Formatter<'_>) -> fmt::Result {
        f.write_str(ffi::text_of(*self as i32))
    }
}

impl IceAgent {
    /// Why `handle_packet` would accept the packet, a request, and send no response to it. `None` if it would send one, and for a response
    /// or a packet that it would not accept: see [`rejection`](IceAgent::rejection). Ask before `handle_packet`.
    pub fn unserved(&self, packet: &StunPacket<'_>) -> Option<Unserved> {
        let (source, destination) = (address_of(packet.source), address_of(packet.destination));
        let bytes = packet.message.bytes();
        Unserved::of(self.ask(|agent| ffi::is_ice_unserved(agent, number_of(packet.proto), &source, &destination, bytes)))
    }
}

//! Why a packet is not accepted: for a program that says what is wrong, as a password that the peer does not know.

use crate::agent::IceAgent;
use crate::ffi;
use crate::proto::{address_of, number_of};
use crate::stun::StunPacket;
use std::fmt;

/// Why an agent does not accept a packet: the first reason that applies. It prints as
/// `request signed with another password than the agent's`.
#[derive(Clone, Copy, Debug, PartialEq, Eq)]
#[repr(i32)]
pub enum Rejection {
    /// The message was built, or lacks an attribute that ICE requires.
    Unparsed = ffi::UNPARSED,
    /// The method of the message is not Binding.
    Method = ffi::REJECTED_METHOD,
    /// It is neither a request nor a response.
    Class = ffi::REJECTED_CLASS,
    /// A request whose USERNAME does not begin with the agent's username fragment. It is for another agent, or from before an ICE restart.
    LocalUfrag = ffi::REJECTED_LOCAL_UFRAG,
    /// A request whose USERNAME does not end with the peer's username fragment. The peer has new credentials, or it is a third agent.
    RemoteUfrag = ffi::REJECTED_REMOTE_UFRAG,
    /// A request that is not signed with the agent's password: the peer has a wrong one.
    LocalPassword = ffi::REJECTED_LOCAL_PASSWORD,
    /// A response to no pending transaction, as one from before an ICE restart.
    NoCheck = ffi::REJECTED_NO_CHECK,
    /// A response that was not received on the reverse of its check's path.
    Path = ffi::REJECTED_PATH,
    /// A response that is not signed with the peer's password.
    RemotePassword = ffi::REJECTED_REMOTE_PASSWORD,
}

impl Rejection {
    fn of(code: i32) -> Option<Rejection> {
        match code {
            ffi::UNPARSED => Some(Rejection::Unparsed),
            ffi::REJECTED_METHOD => Some(Rejection::Method),
            ffi::REJECTED_CLASS => Some(Rejection::Class),
            ffi::REJECTED_LOCAL_UFRAG => Some(Rejection::LocalUfrag),
            ffi::REJECTED_REMOTE_UFRAG => Some(Rejection::RemoteUfrag),
            ffi::REJECTED_LOCAL_PASSWORD => Some(Rejection::LocalPassword),
            ffi::REJECTED_NO_CHECK => Some(Rejection::NoCheck),
            ffi::REJECTED_PATH => Some(Rejection::Path),
            ffi::REJECTED_REMOTE_PASSWORD => Some(Rejection::RemotePassword),
            _ => None,
        }
    }
}

impl fmt::Display for Rejection {
    fn fmt(&self, f: &mut fmt::Formatter<'_>) -> fmt::Result {
        f.write_str(ffi::text_of(*self as i32))
    }
}

impl IceAgent {
    /// Why `handle_packet` would not accept the packet, or `None` if it would. So a program says after the first packet that the peer has a
    /// wrong password.
    ///
    /// Anybody can send a packet that is rejected: show the reason, and end no session for it.
    pub fn rejection(&self, packet: &StunPacket<'_>) -> Option<Rejection> {
        let (source, destination) = (address_of(packet.source), address_of(packet.destination));
        let bytes = packet.message.bytes();
        Rejection::of(self.ask(|agent| ffi::is_ice_rejection(agent, number_of(packet.proto), &source, &destination, bytes)))
    }
}

//! What a session logs, as text: the lines of the logger `is_ice` in Python. The library makes them.

use crate::agent::IceAgent;
use crate::error::{CallError, or_panic};
use crate::event::{IceAgentEvent, MediaPath};
use crate::ffi;
use crate::media::SilenceEvent;
use crate::proto::{address_of, number_of};
use crate::removed::{RemovedPair, new_ones};
use crate::stun::StunPacket;
use crate::types::Protocol;
use std::net::SocketAddr;

/// The lines that a program may log of one agent: of each event, of each pair that is removed, and of packets that the agent does not take.
/// A line begins with the local username fragment. What is logged, and where, is the program's choice.
///
/// ```
/// let mut agent = is::IceAgent::new(is::IceCreds { ufrag: "evtj".to_owned(), pass: "h".repeat(22) });
/// let mut log = is::SessionLog::new();
/// agent.handle_timeout(std::time::Instant::now());
/// let mut lines = log.removals(&agent);
/// while let Some(event) = agent.poll_event() {
///     lines.push(log.event(&agent, &event));
/// }
/// assert_eq!(lines, ["evtj: session begins", "evtj: state Checking"]);
/// ```
#[derive(Clone, Debug, Default)]
pub struct SessionLog {
    /// The removed pairs that the agent listed last. Those after them are new.
    removed: Vec<RemovedPair>,
}

impl SessionLog {
    /// The log of a new agent.
    pub fn new() -> SessionLog {
        SessionLog::default()
    }

    /// The line of an event. In Python that of [`IceAgentEvent::DiscoveredRecv`] has the level of debugging.
    ///
    /// # Panics
    ///
    /// If out of memory, as the calls below.
    #[track_caller]
    pub fn event(&self, agent: &IceAgent, event: &IceAgentEvent) -> String {
        let told = event.told();
        line(agent, |agent, buffer, length| ffi::is_ice_event_line(agent, &told, buffer, length))
    }

    /// The line of a packet that the agent does not accept, or to which it sends no response: the kind of message, the reason of
    /// [`rejection`](IceAgent::rejection) or [`unserved`](IceAgent::unserved), and both addresses.
    #[track_caller]
    pub fn packet(&self, agent: &IceAgent, packet: &StunPacket<'_>) -> String {
        let (source, destination, bytes) = (address_of(packet.source), address_of(packet.destination), packet.message.bytes());
        let proto = number_of(packet.proto);
        line(agent, |agent, buffer, length| ffi::is_ice_packet_line(agent, proto, &source, &destination, bytes, buffer, length))
    }

    /// The line of an event of silence.
    #[track_caller]
    pub fn silence(&self, agent: &IceAgent, event: &SilenceEvent) -> String {
        let told = event.told();
        line(agent, |agent, buffer, length| ffi::is_ice_event_line(agent, &told, buffer, length))
    }

    /// The line of a datagram that the system did not send, if it is the first one on its path for its reason since the last restart.
    pub fn failed_send(
        &self,
        agent: &IceAgent,
        proto: Protocol,
        source: SocketAddr,
        destination: SocketAddr,
        reason: u32,
    ) -> Option<String> {
        let path = MediaPath { proto, source, destination };
        let failed = agent.failed_sends().find(|failed| (failed.path, failed.reason, failed.times) == (path, reason, 1))?;
        Some(format!("{}: not sent {failed}", agent.local_credentials().ufrag))
    }

    /// A line for each pair that was removed since the last call. Call it after each call that changes the agent, before events are polled:
    /// so that no more pairs are removed in between than the agent lists, and a removal comes before the state that it causes.
    #[track_caller]
    pub fn removals(&mut self, agent: &IceAgent) -> Vec<String> {
        let listed: Vec<RemovedPair> = agent.removed_pairs().collect();
        let first = listed.len() - new_ones(&self.removed, &listed).count();
        let mut lines = Vec::new();
        for index in first..listed.len() {
            lines.push(line(agent, |agent, buffer, length| ffi::is_ice_removed_line(agent, index, buffer, length)));
        }
        self.removed = listed;
        lines
    }
}

#[track_caller]
fn line(agent: &IceAgent, mut call: impl FnMut(&mut ffi::Agent, &mut [u8], &mut usize) -> i32) -> String {
    or_panic(ffi::text(|buffer, length| agent.ask(|agent| call(agent, buffer, length))).map_err(CallError::of))
}

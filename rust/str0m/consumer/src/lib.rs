//! One side of a session, as str0m has it: the types of `str0m_proto` meet those of `is`, and HMAC-SHA1 is a provider of its own.

use is::stun::{StunMessage, StunPacket};
use is::{Candidate, IceAgent, IceAgentEvent, IceConnectionState, IceCreds};
use std::net::SocketAddr;
use std::time::Instant;
use str0m_proto::{Protocol, Sha1HmacProvider, Transmit};

/// In place of the provider of the program's crypto backend.
#[derive(Debug)]
struct Backend;

impl Sha1HmacProvider for Backend {
    fn sha1_hmac(&self, key: &[u8], payloads: &[&[u8]]) -> [u8; 20] {
        is::DefaultSha1HmacProvider.sha1_hmac(key, payloads)
    }
}

/// What the program does next.
pub enum Output {
    Timeout(Instant),
    Transmit(Transmit),
    State(IceConnectionState),
}

/// A datagram that arrived.
pub struct Receive<'a> {
    pub proto: Protocol,
    pub source: SocketAddr,
    pub destination: SocketAddr,
    pub contents: &'a [u8],
}

pub struct Rtc {
    pub ice: IceAgent,
    path: Option<(Protocol, SocketAddr, SocketAddr)>,
}

impl Rtc {
    pub fn new(controlling: bool) -> Rtc {
        let mut ice = IceAgent::with_hmac(IceCreds::new(), &Backend);
        ice.set_controlling(controlling);
        Rtc { ice, path: None }
    }

    pub fn add_host(&mut self, addr: SocketAddr, proto: Protocol) -> Option<&Candidate> {
        self.ice.add_local_candidate(Candidate::host(addr, proto).ok()?)
    }

    pub fn handle(&mut self, now: Instant, received: Receive<'_>) -> bool {
        let Ok(message) = StunMessage::parse(received.contents) else { return false };
        let Receive { proto, source, destination, .. } = received;
        self.ice.accepts_message(&message) && self.ice.handle_packet(now, StunPacket { proto, source, destination, message })
    }

    pub fn poll(&mut self, now: Instant) -> Output {
        while let Some(event) = self.ice.poll_event() {
            match event {
                IceAgentEvent::IceConnectionStateChange(state) => return Output::State(state),
                IceAgentEvent::NominatedSend { proto, source, destination } => self.path = Some((proto, source, destination)),
                IceAgentEvent::IceRestart(_) | IceAgentEvent::DiscoveredRecv { .. } => {}
            }
        }
        let next = self.ice.poll_timeout().unwrap_or(now);
        self.ice.poll_transmit().map_or(Output::Timeout(next), Output::Transmit)
    }

    pub fn media(&self, contents: Vec<u8>) -> Option<Transmit> {
        self.path.map(|(proto, source, destination)| Transmit { proto, source, destination, contents: contents.into() })
    }
}

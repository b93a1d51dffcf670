//! Two agents, a simulated clock, and a simulated network that carries their packets: with a delay, NATs and loss.
#![allow(dead_code)]

use is::stun::{StunMessage, StunPacket};
use is::{Candidate, IceAgent, IceAgentEvent, IceConnectionState, IceCreds, Protocol};
use std::net::SocketAddr;
use std::time::{Duration, Instant};

/// The delay of a packet.
pub const TRIP: Duration = Duration::from_millis(10);
/// The addresses of [`World::hosts`].
pub const LEFT: &str = "10.0.0.1:1000";
pub const RIGHT: &str = "10.0.0.2:2000";

pub fn at(text: &str) -> SocketAddr {
    text.parse().expect("a socket address")
}

pub fn ms(number: u64) -> Duration {
    Duration::from_millis(number)
}

pub fn host(text: &str) -> Candidate {
    Candidate::host(at(text), "udp").expect("a host candidate")
}

pub fn creds(ufrag: &str) -> IceCreds {
    IceCreds { ufrag: ufrag.to_owned(), pass: format!("password-of-{ufrag}") }
}

/// Gives the agent the delays from which the times in a test follow, whatever a new agent has: an RTO of 250 ms doubles up to 2.9 s, and
/// there are 11 checks.
pub fn set_delays(agent: &mut IceAgent) {
    agent.set_initial_stun_rto(ms(250));
    agent.set_max_stun_rto(ms(2900));
    agent.set_max_stun_retransmits(11);
}

/// How long a response keeps a pair, by the RTOs (RFC 7675).
pub fn consent(agent: &IceAgent) -> Duration {
    agent.settings().max_rto + agent.ice_timeout()
}

/// An agent, and its events so far.
pub struct Side {
    pub agent: IceAgent,
    pub events: Vec<(Duration, IceAgentEvent)>,
    pub sent: usize,
    has_begun: bool,
}

impl Side {
    fn new(ufrag: &str) -> Side {
        Side { agent: IceAgent::new(creds(ufrag)), events: Vec::new(), sent: 0, has_begun: false }
    }

    /// The path of the selected pair.
    pub fn path(&self) -> Option<(SocketAddr, SocketAddr)> {
        self.events.iter().rev().find_map(|(_, event)| match event {
            IceAgentEvent::NominatedSend { source, destination, .. } => Some((*source, *destination)),
            _ => None,
        })
    }

    /// When the state was first reported.
    pub fn when(&self, state: IceConnectionState) -> Option<Duration> {
        let wanted = IceAgentEvent::IceConnectionStateChange(state);
        self.events.iter().find(|(_, event)| *event == wanted).map(|(when, _)| *when)
    }

    pub fn sources(&self) -> Vec<SocketAddr> {
        let source = |event: &IceAgentEvent| match event {
            IceAgentEvent::DiscoveredRecv { source, .. } => Some(*source),
            _ => None,
        };
        self.events.iter().filter_map(|(_, event)| source(event)).collect()
    }

    pub fn local_addresses(&self) -> Vec<SocketAddr> {
        self.agent.local_candidates().map(|candidate| candidate.addr()).collect()
    }
}

/// A packet in flight to a side.
struct Flight {
    when: Duration,
    to: usize,
    source: SocketAddr,
    destination: SocketAddr,
    contents: Vec<u8>,
}

/// A NAT in front of a side, which maps the socket at `inner` to `outer`.
pub struct Nat {
    pub side: usize,
    pub inner: SocketAddr,
    pub outer: SocketAddr,
}

pub struct World {
    began: Instant,
    pub now: Duration,
    pub sides: [Side; 2],
    flights: Vec<Flight>,
    pub nats: Vec<Nat>,
    /// Whether a packet between these addresses is lost.
    pub lost: Box<dyn Fn(SocketAddr, SocketAddr) -> bool>,
}

impl World {
    /// Two agents with each other's credentials; the first one is controlling.
    pub fn new() -> World {
        let mut world = World {
            began: Instant::now(),
            now: Duration::ZERO,
            sides: [Side::new("left"), Side::new("rght")],
            flights: Vec::new(),
            nats: Vec::new(),
            lost: Box::new(|_, _| false),
        };
        world.sides[0].agent.set_controlling(true);
        world.meet();
        world
    }

    /// Two such agents with one host candidate each, which was signaled to the other.
    pub fn hosts() -> World {
        let mut world = World::new();
        world.add(0, host(LEFT));
        world.add(1, host(RIGHT));
        world
    }

    /// Signals the credentials both ways.
    pub fn meet(&mut self) {
        let [left, right] = &mut self.sides;
        left.agent.set_remote_credentials(right.agent.local_credentials().clone());
        right.agent.set_remote_credentials(left.agent.local_credentials().clone());
    }

    /// Adds the candidate to the side, and signals it to the other one.
    pub fn add(&mut self, side: usize, candidate: Candidate) {
        let line = self.add_secretly(side, candidate);
        self.sides[1 - side].agent.add_remote_candidate(Candidate::from_sdp_string(&line).expect("a line"));
    }

    /// Adds the candidate to the side without signaling it. Returns its text.
    pub fn add_secretly(&mut self, side: usize, candidate: Candidate) -> String {
        self.sides[side].agent.add_local_candidate(candidate).expect("a new candidate").to_sdp_string()
    }

    pub fn now(&self) -> Instant {
        self.began + self.now
    }

    pub fn left(&self) -> &IceAgent {
        &self.sides[0].agent
    }

    pub fn right(&self) -> &IceAgent {
        &self.sides[1].agent
    }

    // ---- time

    /// Lets this time pass.
    pub fn pass(&mut self, time: Duration) {
        let end = self.now + time;
        while self.step(end) {}
        self.now = end;
    }

    /// Lets time pass until the fact holds, at most a minute.
    pub fn pass_until(&mut self, what: &str, fact: impl Fn(&World) -> bool) {
        let end = self.now + Duration::from_secs(60);
        while !fact(self) {
            assert!(self.step(end), "{what}: not within a minute");
        }
    }

    pub fn connect(&mut self) {
        self.pass_until("connected", |world| world.sides.iter().all(|side| side.agent.state().is_connected() && side.path().is_some()));
    }

    /// The next arrival of a packet or timeout until then, if any.
    fn step(&mut self, end: Duration) -> bool {
        let wakes = [self.wake(0), self.wake(1)];
        self.collect(0);
        self.collect(1);
        let flight = (0..self.flights.len()).min_by_key(|&place| self.flights[place].when);
        let side = usize::from(wakes[1] < wakes[0]);
        let comes = flight.map_or(Duration::MAX, |place| self.flights[place].when);
        if comes.min(wakes[side]) > end {
            return false;
        }
        if let Some(place) = flight.filter(|_| comes <= wakes[side]) {
            let flight = self.flights.remove(place);
            self.now = self.now.max(flight.when);
            self.land(flight);
        } else {
            self.now = self.now.max(wakes[side]);
            let now = self.now();
            self.sides[side].has_begun = true;
            self.sides[side].agent.handle_timeout(now);
        }
        true
    }

    /// The next timeout of the side: the first one at once, and none while it waits for the peer's credentials.
    fn wake(&mut self, side: usize) -> Duration {
        let side = &mut self.sides[side];
        let never = if side.has_begun { Duration::MAX } else { self.now };
        side.agent.poll_timeout().map_or(never, |at| at.saturating_duration_since(self.began))
    }

    /// Polls packets and events.
    fn collect(&mut self, side: usize) {
        while let Some(event) = self.sides[side].agent.poll_event() {
            self.sides[side].events.push((self.now, event));
        }
        while let Some(packet) = self.sides[side].agent.poll_transmit() {
            assert_eq!(packet.proto, Protocol::Udp);
            self.sides[side].sent += 1;
            let outer = self.nats.iter().find(|nat| nat.side == side && nat.inner == packet.source);
            let source = outer.map_or(packet.source, |nat| nat.outer);
            let inner = self.nats.iter().find(|nat| nat.side != side && nat.outer == packet.destination);
            let destination = inner.map_or(packet.destination, |nat| nat.inner);
            if !(self.lost)(source, destination) {
                self.flights.push(Flight { when: self.now + TRIP, to: 1 - side, source, destination, contents: packet.contents });
            }
        }
    }

    fn land(&mut self, flight: Flight) {
        let message = StunMessage::parse(&flight.contents).expect("agents send STUN messages");
        let packet = StunPacket { proto: Protocol::Udp, source: flight.source, destination: flight.destination, message };
        let now = self.now();
        self.sides[flight.to].agent.handle_packet(now, packet);
    }
}

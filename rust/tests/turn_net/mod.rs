//! Two gatherers in model time, each behind a NAT that lets packets pass to and from the server only.

use crate::turn::{At, Sent, Server};
use is::servers::{Frames, GatherEvent, IceGatherer, IceServer, Received, Transport};
use is::{Candidate, IceAgent, IceCreds, Protocol};
use std::net::SocketAddr;
use std::time::{Duration, Instant};

/// The delay of a packet.
const TRIP: Duration = Duration::from_millis(20);

pub fn at(text: &str) -> SocketAddr {
    text.parse().expect("a socket address")
}

pub struct Side {
    pub gatherer: IceGatherer,
    pub socket: SocketAddr,
    /// As the server sees it.
    pub mapped: SocketAddr,
    /// The local end of its connection, if it has one.
    pub connection: Option<SocketAddr>,
    frames: Frames,
    pub events: Vec<GatherEvent>,
    pub heard: Vec<Vec<u8>>,
}

enum To {
    Server(At),
    Side(usize, Transport),
}

struct Flight {
    when: Duration,
    to: To,
    bytes: Vec<u8>,
}

pub struct Net {
    began: Instant,
    pub now: Duration,
    pub server: Server,
    pub sides: [Side; 2],
    flights: Vec<Flight>,
}

pub fn turn_at(url: &str, password: &str) -> IceServer {
    IceServer { urls: vec![url.to_owned()], username: crate::turn::USERNAME.to_owned(), credential: password.to_owned() }
}

fn side(number: u8, servers: &[IceServer]) -> Side {
    let gatherer = IceGatherer::new(IceAgent::new(IceCreds::new()), servers).expect("a gatherer");
    let socket = at(&format!("10.0.{number}.1:5000"));
    let mapped = at(&format!("203.0.113.{number}:61000"));
    Side { gatherer, socket, mapped, connection: None, frames: Frames::new(), events: Vec::new(), heard: Vec::new() }
}

impl Net {
    /// The sides have added their sockets; the first one is controlling.
    pub fn new(servers: &[IceServer]) -> Net {
        let sides = [side(1, servers), side(2, servers)];
        let server = Server::new("192.0.2.1:3478");
        let mut net = Net { began: Instant::now(), now: Duration::ZERO, server, sides, flights: Vec::new() };
        net.sides[0].gatherer.agent_mut().set_controlling(true);
        let (now, address) = (net.began, net.server.address);
        for (number, side) in (1..).zip(&mut net.sides) {
            side.gatherer.add_socket(now, side.socket).expect("a socket").expect("a host candidate");
            for server in side.gatherer.to_reach().to_vec() {
                let local = at(&format!("10.0.{number}.1:40000"));
                side.gatherer.add_connection(now, &server, local, address).expect("a connection");
                side.gatherer.reached(&server);
                side.connection = Some(local);
            }
            side.gatherer.handle_timeout(now).expect("a session");
        }
        net
    }

    pub fn instant(&self) -> Instant {
        self.began + self.now
    }

    /// Signals credentials, and the candidates of each side to the other one.
    pub fn meet(&mut self) {
        let now = self.instant();
        let told = self.sides.each_ref().map(|side| {
            let agent = side.gatherer.agent();
            (agent.local_credentials().clone(), agent.local_candidates().collect::<Vec<_>>())
        });
        for (side, (creds, candidates)) in self.sides.iter_mut().zip(told.into_iter().rev()) {
            side.gatherer.agent_mut().set_remote_credentials(creds);
            for candidate in candidates {
                let read = Candidate::from_sdp_string(&candidate.to_sdp_string()).expect("a candidate");
                side.gatherer.add_remote_candidate(now, read).expect("a remote candidate");
            }
        }
    }

    // ---- time

    pub fn pass(&mut self, time: Duration) {
        let end = self.now + time;
        while self.step(end) {}
        self.now = end;
    }

    /// Lets time pass until the fact holds.
    pub fn pass_until(&mut self, what: &str, fact: impl Fn(&mut Net) -> bool) {
        let end = self.now + Duration::from_secs(60);
        loop {
            self.collect();
            if fact(self) {
                return;
            }
            assert!(self.step(end), "{what}: not within a minute; {:?}", self.sides.each_ref().map(|side| &side.events));
        }
    }

    pub fn gather(&mut self) {
        self.pass_until("gathered", |net| net.sides.iter().all(|side| side.events.contains(&GatherEvent::GatheringComplete)));
    }

    pub fn connect(&mut self) {
        self.pass_until("connected", |net| {
            let now = net.instant();
            net.sides.iter().all(|side| side.gatherer.agent().state().is_connected() && side.gatherer.agent().media_path(now).is_some())
        });
    }

    /// What comes next until then, if anything does.
    fn step(&mut self, end: Duration) -> bool {
        self.collect();
        let wakes: [Duration; 2] = [0, 1].map(|place| {
            let at = self.sides[place].gatherer.poll_timeout();
            at.map_or(Duration::MAX, |at| at.saturating_duration_since(self.began))
        });
        let side = usize::from(wakes[1] < wakes[0]);
        let flight = (0..self.flights.len()).min_by_key(|&place| self.flights[place].when);
        let comes = flight.map_or(Duration::MAX, |place| self.flights[place].when);
        if comes.min(wakes[side]) > end {
            return false;
        }
        self.now = self.now.max(comes.min(wakes[side]));
        if let Some(place) = flight.filter(|_| comes <= wakes[side]) {
            let flight = self.flights.remove(place);
            self.land(flight);
        } else {
            let now = self.instant();
            self.sides[side].gatherer.handle_timeout(now).expect("a timeout");
        }
        true
    }

    /// Polls events and packets. Packets that do not go to the server are lost.
    fn collect(&mut self) {
        let now = self.instant();
        for side in &mut self.sides {
            while let Some(event) = side.gatherer.poll_event() {
                side.events.push(event);
            }
            while let Some(packet) = side.gatherer.poll_transmit(now).expect("a packet") {
                if packet.destination == self.server.address {
                    let client = match packet.proto {
                        Protocol::Udp => (Transport::Udp, side.mapped),
                        _ => (Transport::Tcp, side.mapped),
                    };
                    let source = if packet.proto == Protocol::Udp { Some(side.socket) } else { side.connection };
                    assert_eq!(Some(packet.source), source);
                    self.flights.push(Flight { when: self.now + TRIP, to: To::Server(client), bytes: packet.contents });
                }
            }
        }
    }

    fn land(&mut self, flight: Flight) {
        match flight.to {
            To::Server(client) => {
                let sent = self.server.take(self.now, client, &flight.bytes);
                self.pass_on(sent);
            }
            To::Side(place, transport) => self.arrive(place, transport, &flight.bytes),
        }
    }

    /// What leaves the server. A peer at a relayed address of it is reached at once.
    fn pass_on(&mut self, sent: Vec<Sent>) {
        for sent in sent {
            match sent {
                Sent::ToClient((transport, mapped), bytes) => {
                    let place = self.sides.iter().position(|side| side.mapped == mapped).expect("a side");
                    self.flights.push(Flight { when: self.now + TRIP, to: To::Side(place, transport), bytes });
                }
                Sent::ToPeer(relayed, peer, bytes) if self.server.has_relayed(peer) => {
                    let sent = self.server.take_at(self.now, peer, relayed, &bytes);
                    self.pass_on(sent);
                }
                Sent::ToPeer(..) => {}
            }
        }
    }

    /// Over TCP in chunks of 7 bytes.
    fn arrive(&mut self, place: usize, transport: Transport, bytes: &[u8]) {
        let (now, server, side) = (self.instant(), self.server.address, &mut self.sides[place]);
        if transport == Transport::Udp {
            let received = side.gatherer.handle_packet(now, server, side.socket, bytes).expect("a datagram");
            hear(&mut side.heard, received);
            return;
        }
        let Some(local) = side.connection else { return };
        for chunk in bytes.chunks(7) {
            for frame in side.frames.take(chunk).expect("frames") {
                let received = side.gatherer.handle_frame(now, server, local, &frame).expect("a frame");
                hear(&mut side.heard, received);
            }
        }
    }

    // ---- media

    /// Sends media from one side on its path.
    pub fn say(&mut self, place: usize, said: &[u8]) {
        let (now, side) = (self.instant(), &mut self.sides[place]);
        let path = side.gatherer.agent().media_path(now).expect("a path");
        let packet = side.gatherer.outgoing(now, path.source, path.destination, said).expect("media").expect("through the server");
        let transport = if packet.proto == Protocol::Udp { Transport::Udp } else { Transport::Tcp };
        assert_eq!(packet.destination, self.server.address);
        let client = (transport, side.mapped);
        self.flights.push(Flight { when: self.now + TRIP, to: To::Server(client), bytes: packet.contents });
    }
}

fn hear(heard: &mut Vec<Vec<u8>>, received: Received<'_>) {
    if let Received::Media(datagram) = received {
        heard.push(datagram.contents.to_vec());
    }
}

//! Random sessions over all calls of clients and gatherers, with bytes from a server and from anybody: no call panics.
//!
//! `IS_ICE_SESSIONS=100000 cargo test --release --test random_servers` runs as many.

mod turn;

use is::servers::{Family, Frames, IceGatherer, IceServer, Outgoing, Servers, Transport, TurnServer, WRAPPING_LENGTH};
use is::{Candidate, IceAgent, IceCreds};
use std::net::SocketAddr;
use std::time::{Duration, Instant};
use turn::{PASSWORD, Sent, Server, USERNAME};

/// The numbers of Knuth's generator (MMIX).
struct Draws(u64);

impl Draws {
    fn below(&mut self, n: usize) -> usize {
        self.0 = self.0.wrapping_mul(6364136223846793005).wrapping_add(1442695040888963407);
        (self.0 >> 33) as usize % n
    }

    fn bytes(&mut self) -> Vec<u8> {
        let length = self.below(60);
        (0..length).map(|_| self.below(256) as u8).collect()
    }

    fn address(&mut self) -> SocketAddr {
        let all = ["10.0.0.1:5000", "10.0.0.1:5001", "192.0.2.1:3478", "192.0.2.1:50000", "198.51.100.9:7000", "[2001:db8::1]:3478"];
        all[self.below(all.len())].parse().expect("an address")
    }

    fn transport(&mut self) -> Transport {
        [Transport::Udp, Transport::Tcp][self.below(2)]
    }
}

/// What goes to the server, and what comes back: as it is, changed or lost.
fn answered(draws: &mut Draws, server: &mut Server, transport: Transport, bytes: &[u8]) -> Vec<Vec<u8>> {
    let sent = server.take(Duration::ZERO, (transport, "203.0.113.1:61000".parse().unwrap()), bytes);
    let replies = sent.into_iter().filter_map(|sent| if let Sent::ToClient(_, bytes) = sent { Some(bytes) } else { None });
    let change = |mut bytes: Vec<u8>| {
        if draws.below(4) == 0 {
            let place = draws.below(bytes.len());
            bytes[place] ^= 1 << draws.below(8);
        }
        bytes
    };
    replies.map(change).collect()
}

fn sessions() -> u64 {
    std::env::var("IS_ICE_SESSIONS").ok().and_then(|text| text.parse().ok()).unwrap_or(300)
}

#[test]
fn clients_take_anything() {
    for seed in 0..sessions() {
        let (mut draws, began) = (Draws(seed), Instant::now());
        let (mut servers, mut server, mut now) = (Servers::new().unwrap(), Server::new("192.0.2.1:3478"), began);
        for _ in 0..120 {
            now += Duration::from_millis(draws.below(300) as u64);
            let (one, other, transport, bytes) = (draws.address(), draws.address(), draws.transport(), draws.bytes());
            match draws.below(11) {
                0 => servers.add_stun(now, one, other).unwrap(),
                1 => {
                    let family = [None, Some(Family::V4), Some(Family::V6)][draws.below(3)];
                    let places = draws.below(5);
                    let turn = TurnServer { transport, address: server.address, family, places, username: USERNAME, password: PASSWORD };
                    servers.add_turn(now, one, &turn).unwrap();
                }
                2 => assert!(servers.receive(now, transport, one, other, &bytes).is_none_or(|it| it.contents.len() <= bytes.len())),
                3 => {
                    let mut buffer = vec![0; bytes.len() + WRAPPING_LENGTH];
                    if let Outgoing::Through(packet) = servers.outgoing(now, one, other, &bytes, &mut buffer).unwrap() {
                        answered(&mut draws, &mut server, packet.transport, &buffer[..packet.length]);
                    }
                }
                4 => servers.permit(now, one),
                5 => servers.probe(now),
                6 if draws.below(20) == 0 => servers.close(now),
                7 if draws.below(9) == 0 => servers.lose(transport, one),
                _ => servers.handle_timeout(now).unwrap(),
            }
            while let Some(packet) = servers.poll_transmit() {
                let transport = if packet.proto == Transport::Udp.protocol() { Transport::Udp } else { Transport::Tcp };
                for bytes in answered(&mut draws, &mut server, transport, &packet.contents) {
                    servers.receive(now, transport, packet.destination, packet.source, &bytes);
                }
            }
            while let Some(event) = servers.poll_event() {
                assert!(!event.to_string().is_empty());
            }
            assert!(servers.poll_timeout().is_some() || !servers.is_gathering());
        }
    }
}

#[test]
fn gatherers_take_anything() {
    let urls = ["turn:192.0.2.1", "turn:192.0.2.1?transport=tcp", "stun:192.0.2.1", "stun:[2001:db8::1]", "turns:example.org"];
    let given = IceServer { urls: urls.map(str::to_owned).to_vec(), username: USERNAME.to_owned(), credential: PASSWORD.to_owned() };
    for seed in 0..sessions() {
        let (mut draws, mut now) = (Draws(seed), Instant::now());
        let mut gatherer = IceGatherer::new(IceAgent::new(IceCreds::new()), std::slice::from_ref(&given)).unwrap();
        let (mut server, mut frames) = (Server::new("192.0.2.1:3478"), Frames::new());
        for _ in 0..80 {
            now += Duration::from_millis(draws.below(300) as u64);
            let (one, other, bytes) = (draws.address(), draws.address(), draws.bytes());
            match draws.below(12) {
                0 => drop(gatherer.add_socket(now, one).unwrap()),
                1 if draws.below(5) == 0 => gatherer.remove_socket(now, one).unwrap(),
                2 => {
                    for of in gatherer.to_reach().to_vec() {
                        gatherer.add_connection(now, &of, one, other).unwrap();
                        gatherer.add_server(now, &of, other.ip()).unwrap();
                        gatherer.reached(&of);
                    }
                }
                3 if draws.below(5) == 0 => gatherer.lose_connection(now, one).unwrap(),
                4 => drop(gatherer.add_remote_candidate(now, Candidate::host(one, "udp").unwrap()).unwrap()),
                5 => assert!(gatherer.handle_packet(now, one, other, &bytes).is_ok()),
                6 => drop(gatherer.outgoing(now, one, other, &bytes).unwrap()),
                7 => match frames.take(&bytes) {
                    Ok(found) => {
                        for frame in found {
                            gatherer.handle_frame(now, one, other, &frame).unwrap();
                        }
                    }
                    Err(_) => frames = Frames::new(),
                },
                8 if draws.below(30) == 0 => gatherer.close(now).unwrap(),
                9 if draws.below(9) == 0 => gatherer.agent_mut().ice_restart(IceCreds::new(), true),
                _ => gatherer.handle_timeout(now).unwrap(),
            }
            while let Some(packet) = gatherer.poll_transmit(now).unwrap() {
                let is_udp = packet.proto == Transport::Udp.protocol();
                let transport = if is_udp { Transport::Udp } else { Transport::Tcp };
                for bytes in answered(&mut draws, &mut server, transport, &packet.contents) {
                    let received = if is_udp {
                        gatherer.handle_packet(now, packet.destination, packet.source, &bytes)
                    } else {
                        gatherer.handle_frame(now, packet.destination, packet.source, &bytes)
                    };
                    received.unwrap();
                }
            }
            while gatherer.poll_event().is_some() {}
            assert!(gatherer.is_gathering() || gatherer.is_over() || gatherer.poll_timeout().is_some());
        }
    }
}

//! What an agent keeps at most of requests that come before the peer is known, and of events that nobody polls.

mod world;

use is::stun::{StunMessage, StunPacket, TransId};
use is::{IceAgent, IceAgentEvent, Protocol, Settings};
use std::net::SocketAddr;
use std::time::Instant;
use world::{at, creds, host};

/// Passes on a check of the peer `farr`, from a port of its own. Returns whether the agent accepts it.
fn receive(agent: &mut IceAgent, now: Instant, port: u16) -> bool {
    let (mut id, mut buffer) = ([0; 12], [0; 600]);
    id[..2].copy_from_slice(&port.to_be_bytes());
    let check = StunMessage::binding_request("near:farr", TransId(id), true, 1, 7, false);
    let length = check.write(Some(creds("near").pass.as_bytes()), &mut buffer).unwrap();
    let message = StunMessage::parse(&buffer[..length]).unwrap();
    let source = SocketAddr::new(at("10.0.0.2:0").ip(), port);
    agent.handle_packet(now, StunPacket { proto: Protocol::Udp, source, destination: at("10.0.0.1:1000"), message })
}

fn near() -> IceAgent {
    let mut agent = IceAgent::new(creds("near"));
    agent.add_local_candidate(host("10.0.0.1:1000")).expect("a candidate");
    agent
}

/// The ports to which responses go.
fn responses(agent: &mut IceAgent) -> Vec<u16> {
    let sent = std::iter::from_fn(|| agent.poll_transmit());
    let is_response = |bytes: &[u8]| StunMessage::parse(bytes).is_ok_and(|message| message.is_successful_binding_response());
    sent.filter(|packet| is_response(&packet.contents)).map(|packet| packet.destination.port()).collect()
}

/// Each `handle_timeout` serves one of them, the oldest first.
#[test]
fn the_last_100_early_requests_are_stored() {
    let (mut agent, now) = (near(), Instant::now());
    agent.set_max_discovered(None);
    for port in 2000..2150 {
        assert!(receive(&mut agent, now, port));
    }
    assert_eq!(responses(&mut agent), []);
    agent.set_remote_credentials(creds("farr"));
    let mut served = Vec::new();
    for _ in 0..120 {
        agent.handle_timeout(now);
        served.push(responses(&mut agent));
    }
    assert!(served.iter().all(|at_once| at_once.len() <= 1));
    assert_eq!(served.concat(), (2050..2150).collect::<Vec<_>>());
}

#[test]
fn few_sources_wait_to_be_polled() {
    let (mut agent, now) = (near(), Instant::now());
    agent.set_remote_credentials(creds("farr"));
    for port in 2000..3000 {
        assert!(receive(&mut agent, now, port));
        responses(&mut agent);
    }
    let events: Vec<_> = std::iter::from_fn(|| agent.poll_event()).collect();
    let sources = events.iter().filter(|event| matches!(event, IceAgentEvent::DiscoveredRecv { .. }));
    let limit = Settings::modern().max_discovered.expect("a limit");
    assert_eq!((sources.count(), agent.remote_candidates().count()), (limit, limit));
}

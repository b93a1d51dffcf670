//! A gatherer with STUN and TURN servers, in model time: what it finds, what passes through a server, and what ends.

mod turn;
mod turn_net;

use is::servers::{Ending, GatherEvent, Happened, IceGatherer, IceServer, Scheme, ServerEvent, Transport, Why};
use is::{CallError, Candidate, CandidateKind, IceAgent, IceCreds};
use std::time::{Duration, Instant};
use turn::PASSWORD;
use turn_net::{Net, Side, at, turn_at};

const SERVER: &str = "turn:192.0.2.1";

/// The kinds and addresses of the candidates that servers brought, in order.
fn brought(side: &Side) -> Vec<(CandidateKind, String)> {
    let told = |event: &GatherEvent| match event {
        GatherEvent::LocalCandidate(candidate) => Some((candidate.kind(), candidate.addr().to_string())),
        _ => None,
    };
    side.events.iter().filter_map(told).collect()
}

fn reports(side: &Side) -> Vec<Happened> {
    let told = |event: &GatherEvent| match event {
        GatherEvent::Server(event) => Some(event.what),
        _ => None,
    };
    side.events.iter().filter_map(told).collect()
}

fn kinds(side: &Side) -> Vec<CandidateKind> {
    side.gatherer.agent().local_candidates().map(|candidate| candidate.kind()).collect()
}

fn failed(code: Option<u16>, unverified: Option<u16>) -> Happened {
    Happened::Ended(Ending { why: Why::Failed, code, unverified })
}

// ---- what servers bring

#[test]
fn a_stun_server_brings_a_server_reflexive_candidate() {
    let mut net = Net::new(&[IceServer { urls: vec!["stun:192.0.2.1".to_owned()], ..Default::default() }]);
    net.gather();
    let mapped = (CandidateKind::ServerReflexive, "203.0.113.1:61000".to_owned());
    assert_eq!(brought(&net.sides[0]), [mapped]);
    assert_eq!(kinds(&net.sides[0]), [CandidateKind::Host, CandidateKind::ServerReflexive]);
    assert_eq!(net.server.allocations(), 0);
}

#[test]
fn a_turn_server_brings_a_relayed_one_too_and_needs_no_stun_client() {
    let servers = [IceServer { urls: vec!["stun:192.0.2.1".to_owned()], ..Default::default() }, turn_at(SERVER, PASSWORD)];
    let mut net = Net::new(&servers);
    net.gather();
    let all = [(CandidateKind::Relayed, "192.0.2.1:50000".to_owned()), (CandidateKind::ServerReflexive, "203.0.113.1:61000".to_owned())];
    assert_eq!(brought(&net.sides[0]), all);
    assert_eq!(reports(&net.sides[0]).len(), 1);
    assert_eq!(net.server.allocations(), 2);
}

#[test]
fn over_tcp_a_server_brings_only_the_relayed_one() {
    let mut net = Net::new(&[turn_at("turn:192.0.2.1?transport=tcp", PASSWORD)]);
    net.gather();
    assert_eq!(brought(&net.sides[1]).len(), 1);
    assert_eq!(kinds(&net.sides[1]), [CandidateKind::Host, CandidateKind::Relayed]);
}

#[test]
fn without_servers_gathering_is_complete_at_once() {
    let mut gatherer = IceGatherer::new(IceAgent::new(IceCreds::new()), &[]).unwrap();
    assert_eq!(gatherer.poll_event(), None);
    gatherer.add_socket(Instant::now(), at("10.0.0.1:5000")).unwrap().expect("a host candidate");
    assert_eq!((gatherer.poll_event(), gatherer.poll_event()), (Some(GatherEvent::GatheringComplete), None));
}

#[test]
fn a_wrong_password_is_reported() {
    let mut net = Net::new(&[turn_at(SERVER, "wrong")]);
    net.gather();
    assert_eq!(reports(&net.sides[0]), [failed(None, Some(401))]);
    assert_eq!(brought(&net.sides[0]), []);
}

#[test]
fn names_and_connections_are_the_programs() {
    let servers = [turn_at("turns:turn.example.org", PASSWORD), turn_at("turn:turn.example.org", PASSWORD)];
    let mut gatherer = IceGatherer::new(IceAgent::new(IceCreds::new()), &servers).unwrap();
    let now = Instant::now();
    gatherer.add_socket(now, at("10.0.0.1:5000")).unwrap();
    gatherer.handle_timeout(now).unwrap();
    assert_eq!((gatherer.poll_transmit(now), gatherer.is_gathering()), (Ok(None), true));
    let [tls, udp] = gatherer.to_reach().to_vec().try_into().expect("two servers");
    assert_eq!((tls.is_secure, tls.transport, tls.host.as_str(), tls.port), (true, Transport::Tcp, "turn.example.org", 5349));
    assert_eq!((udp.is_secure, udp.transport, udp.scheme, udp.port), (false, Transport::Udp, Scheme::Turn, 3478));
    gatherer.add_server(now, &udp, at("192.0.2.7:0").ip()).unwrap();
    gatherer.reached(&udp);
    gatherer.handle_timeout(now).unwrap();
    let sent = gatherer.poll_transmit(now).unwrap().expect("an Allocate request");
    assert_eq!((sent.source, sent.destination), (at("10.0.0.1:5000"), at("192.0.2.7:3478")));
    gatherer.reached(&tls);
    assert!(gatherer.to_reach().is_empty());
    assert!(!format!("{servers:?} {tls:?} {gatherer:?}").contains(PASSWORD));
}

#[test]
fn what_is_no_url_is_an_error() {
    let gatherer = IceGatherer::new(IceAgent::new(IceCreds::new()), &[turn_at("http://192.0.2.1", PASSWORD)]);
    assert_eq!(gatherer.map(drop), Err(CallError::BadUrl));
}

// ---- through a server

/// They connect by relayed addresses only, and talk for so long: nothing is lost, and permissions, channels and allocations are renewed.
fn talk(url: &str, seconds: u32) -> Net {
    let mut net = Net::new(&[turn_at(url, PASSWORD)]);
    net.gather();
    net.meet();
    net.connect();
    net.pass(Duration::from_secs(1)); // both may have selected another pair
    let dropped = net.server.dropped;
    for second in 0..seconds {
        for place in [0, 1] {
            net.say(place, &second.to_be_bytes().map(|byte| byte | 0x80)[..usize::from(second % 2 == 0) + 3]);
        }
        net.pass(Duration::from_secs(1));
    }
    assert_eq!(net.sides.each_ref().map(|side| side.heard.len()), [seconds as usize; 2]);
    assert_eq!(net.server.dropped, dropped);
    net
}

#[test]
fn media_passes_through_a_server_for_a_quarter_of_an_hour() {
    let mut net = talk(SERVER, 900);
    let path = net.sides[0].gatherer.agent().media_path(net.instant()).unwrap();
    assert!(path.source == at("192.0.2.1:50000") || path.destination == at("192.0.2.1:50001"));
    assert!(net.server.channels() > 0);
    net.server.nonce.push('!'); // from now on each request is answered by 438 once
    net.pass(Duration::from_secs(900));
    assert_eq!(net.server.allocations(), 2);
}

#[test]
fn media_passes_over_tcp_too() {
    talk("turn:192.0.2.1?transport=tcp", 60);
}

#[test]
fn a_server_may_bar_a_peer() {
    let mut net = Net::new(&[turn_at(SERVER, PASSWORD)]);
    net.gather();
    let (now, denied) = (net.instant(), at("198.51.100.9:7000"));
    net.server.denied = Some(denied.ip());
    let candidate = Candidate::host(denied, "udp").unwrap();
    assert_eq!(net.sides[0].gatherer.add_remote_candidate(now, candidate), Ok(true));
    net.pass(Duration::from_secs(1));
    assert_eq!(reports(&net.sides[0])[1..], [Happened::NotPermitted(denied.ip(), Some(403))]);
    assert_eq!(net.sides[0].gatherer.outgoing(now, at("192.0.2.1:50000"), denied, b"\x80"), Ok(None));
}

#[test]
fn packets_without_a_server_go_as_they_are() {
    let mut net = Net::new(&[turn_at(SERVER, PASSWORD)]);
    let (now, side) = (net.instant(), &mut net.sides[0]);
    let sent = side.gatherer.outgoing(now, side.socket, at("10.0.2.1:5000"), b"\x80media").unwrap().expect("a packet");
    assert_eq!((sent.source, sent.destination, &sent.contents[..]), (side.socket, at("10.0.2.1:5000"), &b"\x80media"[..]));
}

// ---- ends

#[test]
fn relayed_candidates_end_with_their_connection_or_socket() {
    let mut net = Net::new(&[turn_at("turn:192.0.2.1?transport=tcp", PASSWORD), turn_at(SERVER, PASSWORD)]);
    net.gather();
    let (now, side) = (net.instant(), &mut net.sides[0]);
    let relayed = |side: &Side| kinds(side).into_iter().filter(|kind| *kind == CandidateKind::Relayed).count();
    assert_eq!(relayed(side), 2);
    side.gatherer.lose_connection(now, side.connection.unwrap()).unwrap();
    assert_eq!(relayed(side), 1);
    side.gatherer.remove_socket(now, side.socket).unwrap();
    assert_eq!(kinds(side), []);
    net.pass(Duration::from_secs(1));
    let lost = Happened::Ended(Ending { why: Why::Lost, code: None, unverified: None });
    let ends = reports(&net.sides[0]).into_iter().filter(|what| *what == lost).count();
    assert_eq!(ends, 2);
}

#[test]
fn a_server_that_forgot_an_allocation_is_noticed() {
    let mut net = talk(SERVER, 2);
    net.server.restart();
    net.pass(Duration::from_secs(700));
    let lost = Happened::Ended(Ending { why: Why::Lost, code: Some(437), unverified: None });
    assert!(net.sides.iter().all(|side| reports(side).contains(&lost)));
    assert!(net.sides.iter().all(|side| !kinds(side).contains(&CandidateKind::Relayed)));
}

#[test]
fn at_the_end_allocations_are_freed() {
    let mut net = talk(SERVER, 2);
    for place in [0, 1] {
        let now = net.instant();
        net.sides[place].gatherer.close(now).unwrap();
    }
    net.pass_until("freed", |net| net.sides.iter_mut().all(|side| side.gatherer.is_over()));
    assert_eq!(net.server.allocations(), 0);
    let closed = Happened::Ended(Ending { why: Why::Closed, code: None, unverified: None });
    assert!(net.sides.iter().all(|side| reports(side).last() == Some(&closed)));
}

#[test]
fn an_ice_restart_keeps_allocations() {
    let mut net = talk(SERVER, 2);
    for side in &mut net.sides {
        side.gatherer.agent_mut().ice_restart(IceCreds::new(), true);
    }
    net.meet();
    net.connect();
    net.say(0, b"\x80after");
    net.pass(Duration::from_secs(1));
    assert_eq!(net.sides[1].heard.last().map(Vec::as_slice), Some(&b"\x80after"[..]));
    assert_eq!(net.server.allocations(), 2);
}

#[test]
fn events_are_lines_of_a_log() {
    let mut net = Net::new(&[turn_at(SERVER, PASSWORD)]);
    net.gather();
    let event = net.sides[0].events.iter().find_map(|event| match event {
        GatherEvent::Server(event) => Some(*event),
        _ => None,
    });
    let event: ServerEvent = event.expect("an event");
    let line = "server 192.0.2.1:3478 udp 10.0.1.1:5000: allocated 192.0.2.1:50000, mapped 203.0.113.1:61000";
    assert_eq!(event.to_string(), line);
}

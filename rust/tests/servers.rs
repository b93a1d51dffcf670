//! The clients of servers call by call, without an agent: URLs, frames, datagrams in both directions, timeouts and errors.

mod turn;

use is::CallError;
use is::servers::{
    Allocation, Datagram, Ending, Family, Frame, Frames, Happened, Outgoing, PLACES, Scheme, ServerEvent, ServerUrl, Servers,
};
use is::servers::{Transport, TurnServer, WRAPPING_LENGTH, Why, frame_length};
use is::stun::StunMessage;
use std::net::SocketAddr;
use std::time::{Duration, Instant};
use turn::{KEY, PASSWORD, Sent, Server, USERNAME};

fn at(text: &str) -> SocketAddr {
    text.parse().expect("a socket address")
}

const LOCAL: &str = "10.0.0.1:5000";
const SERVER: &str = "192.0.2.1:3478";
const PEER: &str = "198.51.100.9:7000";

fn account(transport: Transport) -> TurnServer<'static> {
    TurnServer { transport, address: at(SERVER), family: None, places: PLACES, username: USERNAME, password: PASSWORD }
}

// ---- URLs (RFC 7064 and RFC 7065, sections 3.1 and 3.2)

#[test]
fn urls_say_what_the_rfcs_say() {
    let rows = [
        ("stun:example.org", Scheme::Stun, false, Transport::Udp, "example.org", 3478),
        ("stuns:example.org", Scheme::Stun, true, Transport::Tcp, "example.org", 5349),
        ("stun:example.org:8000", Scheme::Stun, false, Transport::Udp, "example.org", 8000),
        ("turn:example.org", Scheme::Turn, false, Transport::Udp, "example.org", 3478),
        ("turns:example.org", Scheme::Turn, true, Transport::Tcp, "example.org", 5349),
        ("turn:example.org:8000", Scheme::Turn, false, Transport::Udp, "example.org", 8000),
        ("turn:example.org?transport=udp", Scheme::Turn, false, Transport::Udp, "example.org", 3478),
        ("turn:example.org?transport=tcp", Scheme::Turn, false, Transport::Tcp, "example.org", 3478),
        ("turns:example.org?transport=tcp", Scheme::Turn, true, Transport::Tcp, "example.org", 5349),
        ("turn:[2001:db8::1]:80?transport=tcp", Scheme::Turn, false, Transport::Tcp, "2001:db8::1", 80),
        ("stun:192.0.2.1", Scheme::Stun, false, Transport::Udp, "192.0.2.1", 3478),
    ];
    for (text, scheme, is_secure, transport, host, port) in rows {
        assert_eq!(ServerUrl::parse(text), Ok(ServerUrl { scheme, is_secure, transport, host, port }), "{text}");
    }
    for text in ["", "example.org", "turn:", "stun:example.org?transport=udp", "turn:example.org:65536", "turn://example.org"] {
        assert_eq!(ServerUrl::parse(text), Err(CallError::BadUrl), "{text}");
    }
    assert_eq!(ServerUrl::parse("turns:example.org?transport=udp"), Err(CallError::BadUrl)); // DTLS
}

// ---- frames (RFC 8656, section 12.5)

/// A Binding request without attributes, and ChannelData of five bytes with its padding.
fn stream() -> Vec<Vec<u8>> {
    let request = [&[0, 1, 0, 0, 0x21, 0x12, 0xa4, 0x42][..], &[7; 12]].concat();
    vec![request, vec![0x40, 0, 0, 5, 1, 2, 3, 4, 5, 0, 0, 0], vec![0x4f, 0xff, 0, 0]]
}

#[test]
fn a_stream_is_cut_into_frames() {
    for chunk in 1..40 {
        let (mut frames, mut found) = (Frames::new(), Vec::new());
        for bytes in stream().concat().chunks(chunk) {
            found.extend(frames.take(bytes).unwrap());
        }
        assert_eq!(found, stream(), "in chunks of {chunk}");
    }
    assert_eq!(frame_length(&stream().concat()), Frame::Of(20));
    assert_eq!((frame_length(&[0, 1, 0]), frame_length(&[0x80, 0, 0, 0])), (Frame::TooShort, Frame::Neither));
    assert_eq!(Frames::new().take(&[0x80, 0, 0, 0]), Err(CallError::Unparsed));
}

// ---- a STUN client

#[test]
fn a_stun_client_reports_the_mapping_and_keeps_it() {
    let (mut servers, mut server, now) = (Servers::new().unwrap(), Server::new(SERVER), Instant::now());
    assert_eq!((servers.poll_timeout(), servers.poll_transmit(), servers.poll_event(), servers.is_gathering()), (None, None, None, false));
    servers.add_stun(now, at(LOCAL), at(SERVER)).unwrap();
    assert_eq!((servers.poll_timeout(), servers.is_gathering()), (Some(now), true));
    servers.handle_timeout(now).unwrap();
    let request = servers.poll_transmit().expect("a request");
    assert_eq!((request.proto, request.source, request.destination), (Transport::Udp.protocol(), at(LOCAL), at(SERVER)));
    assert!(StunMessage::parse_any(&request.contents).unwrap().is_binding_request());
    let mapped = at("203.0.113.1:61000");
    let sent = server.take(Duration::ZERO, (Transport::Udp, mapped), &request.contents);
    let [Sent::ToClient(_, response)] = &sent[..] else { panic!("{sent:?}") };
    assert_eq!(servers.receive(now, Transport::Udp, at(SERVER), at(LOCAL), response), None);
    let event = ServerEvent { transport: Transport::Udp, local: at(LOCAL), server: at(SERVER), what: Happened::Mapped(mapped) };
    assert_eq!((servers.poll_event(), servers.poll_event(), servers.is_gathering()), (Some(event), None, false));
    assert_eq!(servers.poll_timeout(), Some(now + Duration::from_secs(20))); // NATs forget a mapping otherwise
}

#[test]
fn what_is_for_no_client_is_returned_as_it_is() {
    let (mut servers, now, media) = (Servers::new().unwrap(), Instant::now(), [0x80; 30]);
    servers.add_stun(now, at(LOCAL), at(SERVER)).unwrap();
    let datagram = Datagram { source: at(PEER), destination: at(LOCAL), contents: &media };
    assert_eq!(servers.receive(now, Transport::Udp, at(PEER), at(LOCAL), &media), Some(datagram));
    let mut buffer = [0; 100];
    assert_eq!(servers.outgoing(now, at(LOCAL), at(PEER), &media, &mut buffer), Ok(Outgoing::AsItIs));
    assert_eq!(buffer, [0; 100]);
}

// ---- a TURN client

/// Lets a client and the server exchange what they have to say, and returns the events.
fn exchange(servers: &mut Servers, server: &mut Server, transport: Transport, now: Instant, until: Duration) -> Vec<Happened> {
    let (mut events, mut passed) = (Vec::new(), Duration::ZERO);
    while passed <= until {
        servers.handle_timeout(now + passed).unwrap();
        while let Some(packet) = servers.poll_transmit() {
            for sent in server.take(passed, (transport, at("203.0.113.1:61000")), &packet.contents) {
                let Sent::ToClient(_, bytes) = sent else { continue };
                servers.receive(now + passed, transport, at(SERVER), at(LOCAL), &bytes);
            }
        }
        events.extend(std::iter::from_fn(|| servers.poll_event()).map(|event| event.what));
        passed += Duration::from_millis(10);
    }
    events
}

/// With an allocation, and whose peer is permitted.
fn allocated(transport: Transport) -> (Servers, Server, Instant) {
    let (mut servers, mut server, now) = (Servers::new().unwrap(), Server::new(SERVER), Instant::now());
    servers.add_turn(now, at(LOCAL), &account(transport)).unwrap();
    let events = exchange(&mut servers, &mut server, transport, now, Duration::from_millis(500));
    let mapped = (transport == Transport::Udp).then_some(at("203.0.113.1:61000"));
    assert_eq!(events, [Happened::Allocated(Allocation { relayed: at("192.0.2.1:50000"), mapped })]);
    servers.permit(now + Duration::from_millis(500), at(PEER));
    let later = now + Duration::from_millis(500);
    assert_eq!(exchange(&mut servers, &mut server, transport, later, Duration::from_millis(500)), []);
    (servers, server, later + Duration::from_millis(500))
}

#[test]
fn data_goes_both_ways_through_a_server() {
    for transport in [Transport::Udp, Transport::Tcp] {
        let (mut servers, mut server, now) = allocated(transport);
        let (relayed, client) = (at("192.0.2.1:50000"), (transport, at("203.0.113.1:61000")));
        let sent = server.take_at(Duration::ZERO, relayed, at(PEER), b"\x80from the peer");
        let [Sent::ToClient(_, bytes)] = &sent[..] else { panic!("{sent:?}") };
        let datagram = Datagram { source: at(PEER), destination: relayed, contents: b"\x80from the peer" };
        assert_eq!(servers.receive(now, transport, at(SERVER), at(LOCAL), bytes), Some(datagram));
        let (media, mut buffer) = (b"\x80to the peer", [0; 12 + WRAPPING_LENGTH]);
        let Ok(Outgoing::Through(packet)) = servers.outgoing(now, relayed, at(PEER), media, &mut buffer) else { panic!() };
        assert_eq!((packet.transport, packet.local, packet.server), (transport, at(LOCAL), at(SERVER)));
        let sent = server.take(Duration::ZERO, client, &buffer[..packet.length]);
        let [Sent::ToPeer(from, to, bytes)] = &sent[..] else { panic!("{sent:?}") };
        assert_eq!((*from, *to, &bytes[..]), (relayed, at(PEER), &media[..]));
    }
}

#[test]
fn requests_are_signed_with_the_key_of_rfc_5389() {
    let (mut servers, mut server, now) = allocated(Transport::Udp);
    servers.probe(now);
    servers.handle_timeout(now).unwrap();
    let refresh = servers.poll_transmit().expect("a Refresh request");
    let message = StunMessage::parse_any(&refresh.contents).unwrap();
    assert!(message.is_refresh_request() && message.is_signed_by(&KEY));
    server.restart();
    let lost = Happened::Ended(Ending { why: Why::Lost, code: Some(437), unverified: None });
    assert_eq!(exchange(&mut servers, &mut server, Transport::Udp, now, Duration::from_secs(1)), [lost]);
    let mut buffer = [0; 100];
    assert_eq!(servers.outgoing(now, at("192.0.2.1:50000"), at(PEER), b"\x80", &mut buffer), Ok(Outgoing::Nowhere));
}

#[test]
fn clients_end_with_their_socket_and_by_close() {
    let (mut servers, mut server, now) = allocated(Transport::Tcp);
    servers.lose(Transport::Udp, at(LOCAL)); // it has none over UDP
    assert_eq!(servers.poll_event(), None);
    servers.lose(Transport::Tcp, at(LOCAL));
    let lost = Ending { why: Why::Lost, code: None, unverified: None };
    assert_eq!(servers.poll_event().map(|event| event.what), Some(Happened::Ended(lost)));
    let (mut others, mut other, _) = allocated(Transport::Udp);
    others.close(now);
    let closed = Happened::Ended(Ending { why: Why::Closed, code: None, unverified: None });
    assert_eq!(exchange(&mut others, &mut other, Transport::Udp, now, Duration::from_secs(1)), [closed]);
    assert_eq!((other.allocations(), others.poll_timeout(), server.allocations()), (0, None, 1));
    server.restart();
}

#[test]
fn an_address_of_ipv6_is_requested() {
    let (mut servers, mut server, now) = (Servers::new().unwrap(), Server::new(SERVER), Instant::now());
    servers.add_turn(now, at(LOCAL), &TurnServer { family: Some(Family::V6), ..account(Transport::Udp) }).unwrap();
    let events = exchange(&mut servers, &mut server, Transport::Udp, now, Duration::from_millis(500));
    let [Happened::Allocated(allocation)] = events[..] else { panic!("{events:?}") };
    assert_eq!(allocation.relayed, at("[2001:db8::9]:50000"));
}

// ---- errors

#[test]
fn credentials_have_a_limit() {
    let (mut servers, now, long) = (Servers::new().unwrap(), Instant::now(), "x".repeat(800));
    let long_name = TurnServer { username: &long[..509], ..account(Transport::Udp) };
    assert_eq!(servers.add_turn(now, at(LOCAL), &long_name), Err(CallError::CredentialsTooLong));
    let long_password = TurnServer { password: &long[..764], ..account(Transport::Udp) };
    assert_eq!(servers.add_turn(now, at(LOCAL), &long_password), Err(CallError::CredentialsTooLong));
    assert_eq!((servers.poll_timeout(), servers.is_gathering()), (None, false));
    assert!(!format!("{long_password:?} {servers:?}").contains("xxx\""));
}

#[test]
fn what_does_not_fit_is_an_error() {
    let (mut servers, _server, now) = allocated(Transport::Udp);
    let (relayed, long) = (at("192.0.2.1:50000"), vec![0x80; 65536]);
    let mut buffer = vec![0; long.len() + WRAPPING_LENGTH];
    assert_eq!(servers.outgoing(now, relayed, at(PEER), &long, &mut buffer), Err(CallError::MessageTooLong));
    let short = servers.outgoing(now, relayed, at(PEER), b"\x80", &mut [0; 3]);
    assert_eq!(short.map_err(|why| why.to_string()), Err("buffer too short".to_owned()));
}

#[test]
fn clients_may_move_between_threads() {
    let (mut servers, _server, _now) = allocated(Transport::Udp);
    assert!(std::thread::spawn(move || servers.poll_timeout().is_some()).join().unwrap());
}

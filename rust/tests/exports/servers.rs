//! The clients of STUN and TURN servers, as C calls them: a socket at 10.0.0.1:1000, servers at 10.0.0.9.

use super::{address, no_packet};
use crate::abi::{
    self, Datagram, ServerEvent, ServerUrl, Servers, is_ice_frame_length, is_ice_server_url_of, is_ice_servers_add_stun,
    is_ice_servers_add_turn, is_ice_servers_close, is_ice_servers_event_line, is_ice_servers_free, is_ice_servers_gathering,
    is_ice_servers_handle_timeout, is_ice_servers_lose, is_ice_servers_new, is_ice_servers_outgoing, is_ice_servers_permit,
    is_ice_servers_poll_event, is_ice_servers_poll_timeout, is_ice_servers_poll_transmit, is_ice_servers_probe, is_ice_servers_receive,
};
use crate::no_servers;
use is::stun::{StunMessage, StunMessageBuilder as Builder, TransId};
use std::net::{Ipv4Addr, SocketAddr, SocketAddrV4};

const ID: [u8; 12] = *b"twelve bytes";

const MEDIA: [u8; 3] = [0x80, 1, 2];

/// The address of the socket, and that of the server.
const LOCAL: (u8, u16) = (1, 1000);

const SERVER: (u8, u16) = (9, 3478);

/// The relayed address, and a peer.
const RELAYED: (u8, u16) = (9, 50000);

const PEER: (u8, u16) = (2, 2000);

fn socket(at: (u8, u16)) -> SocketAddr {
    SocketAddr::V4(SocketAddrV4::new(Ipv4Addr::new(10, 0, 0, at.0), at.1))
}

fn no_event() -> ServerEvent {
    let none = address(0, 0);
    ServerEvent {
        local: none,
        server: none,
        relayed: none,
        mapped: none,
        peer: none,
        kind: 0,
        why: 9,
        code: 9,
        unverified: 9,
        protocol: 9,
        has_mapped: true,
    }
}

fn no_arrival() -> Datagram {
    Datagram { source: address(0, 0), destination: address(0, 0), offset: 9, length: 9 }
}

/// Adds a TURN client without credentials. The code.
fn allocates_over(slot: &mut Servers, protocol: u8) -> i32 {
    let local = address(LOCAL.0, LOCAL.1);
    let server = address(SERVER.0, SERVER.1);
    is_ice_servers_add_turn(slot, 0, protocol, &local, &server, 0, 4, b"", b"")
}

/// Clients of servers, with a TURN client over this protocol. Whether they were made.
fn has_turn(slot: &mut Servers, protocol: u8) -> bool {
    let made = is_ice_servers_new(slot);
    made == abi::OK && allocates_over(slot, protocol) == abi::OK
}

/// Sends the request that is due at this time. How long it is, or 0.
fn sends(slot: &mut Servers, now: u64) -> usize {
    let mut packet = no_packet();
    let mut buffer = [0; 200];
    let ran = is_ice_servers_handle_timeout(slot, now, &ID);
    let sent = is_ice_servers_poll_transmit(slot, &mut buffer, &mut packet);
    if ran == abi::OK && sent == abi::OK && buffer[8..20] == ID[..] { packet.length } else { 0 }
}

/// This message of the server arrives at the socket. The code, and where the part for the agent begins.
fn arrives(slot: &mut Servers, protocol: u8, message: StunMessage<'_>) -> (i32, Datagram) {
    let mut buffer = [0; 200];
    let mut arrival = no_arrival();
    let length = message.write(None, &mut buffer).unwrap();
    let bytes = &buffer[..length];
    let server = address(SERVER.0, SERVER.1);
    let local = address(LOCAL.0, LOCAL.1);
    let code = is_ice_servers_receive(slot, 5, protocol, &server, &local, bytes, &mut arrival);
    (code, arrival)
}

/// The server's success response to an Allocate request.
fn allocation() -> StunMessage<'static> {
    Builder::new()
        .allocate()
        .success()
        .lifetime(600)
        .xor_relayed_address(socket(RELAYED))
        .xor_mapped_address(socket((77, 7)))
        .build(TransId(ID))
}

/// The next event; without one its kind is 0.
fn happens(slot: &mut Servers) -> ServerEvent {
    let mut event = no_event();
    match is_ice_servers_poll_event(slot, &mut event) {
        abi::OK => event,
        _ => no_event(),
    }
}

/// Clients of servers whose TURN client has its allocation. Whether they have.
fn is_allocated(slot: &mut Servers, protocol: u8) -> bool {
    let made = has_turn(slot, protocol);
    let asked = sends(slot, 0) > 0;
    let (taken, _) = arrives(slot, protocol, allocation());
    made && asked && taken == abi::NOTHING && happens(slot).kind == 2
}

/// Media from this address to the peer. The code, and the packet.
fn goes(slot: &mut Servers, from: (u8, u16)) -> (i32, usize, u8) {
    let mut packet = no_packet();
    let mut buffer = [0; 100];
    let source = address(from.0, from.1);
    let peer = address(PEER.0, PEER.1);
    let code = is_ice_servers_outgoing(slot, 20, &source, &peer, &MEDIA, &ID, &mut buffer, &mut packet);
    (code, packet.length, packet.protocol)
}

#[test]
fn a_slot_holds_clients_once() {
    let mut slot = no_servers();
    assert!(allocates_over(&mut slot, 0) == abi::NO_SERVERS);
    let made = is_ice_servers_new(&mut slot);
    assert!(made == abi::OK);
    let again = is_ice_servers_new(&mut slot);
    assert!(again == abi::HAS_SERVERS);
    assert!(allocates_over(&mut slot, 2) == abi::BAD_ADDRESS);
    is_ice_servers_free(&mut slot);
    assert!(allocates_over(&mut slot, 0) == abi::NO_SERVERS);
}

#[test]
fn a_stun_server_names_the_mapped_address() {
    let mut slot = no_servers();
    let made = is_ice_servers_new(&mut slot);
    assert!(made == abi::OK);
    let server = address(SERVER.0, SERVER.1);
    let local = address(LOCAL.0, LOCAL.1);
    let added = is_ice_servers_add_stun(&mut slot, 0, &local, &server);
    assert!(added == abi::OK);
    assert!(sends(&mut slot, 0) == 28);
    let mapped = socket((77, 7));
    let response = Builder::new().binding().success().xor_mapped_address(mapped);
    let (taken, _) = arrives(&mut slot, 0, response.build(TransId(ID)));
    assert!(taken == abi::NOTHING);
    let event = happens(&mut slot);
    assert!(event.kind == 1);
    assert!(event.mapped.port == 7);
    assert!(event.local.port == 1000);
    is_ice_servers_free(&mut slot);
}

#[test]
fn gathering_ends_with_the_first_answer() {
    let mut slot = no_servers();
    let mut at = 7;
    assert!(has_turn(&mut slot, 0));
    let waits = is_ice_servers_gathering(&mut slot);
    assert!(waits == abi::OK);
    let due = is_ice_servers_poll_timeout(&mut slot, &mut at);
    assert!(due == abi::OK);
    assert!(at == 0);
    assert!(sends(&mut slot, 0) > 0);
    let (taken, _) = arrives(&mut slot, 0, allocation());
    assert!(taken == abi::NOTHING);
    assert!(happens(&mut slot).relayed.port == 50000);
    let waits = is_ice_servers_gathering(&mut slot);
    assert!(waits == abi::NOTHING);
    is_ice_servers_free(&mut slot);
}

#[test]
fn a_packet_stays_until_it_fits() {
    let mut slot = no_servers();
    let mut packet = no_packet();
    let mut buffer = [0; 200];
    assert!(has_turn(&mut slot, 0));
    let few = is_ice_servers_handle_timeout(&mut slot, 0, &ID[..11]);
    assert!(few == abi::TOO_FEW_RANDOM_BYTES);
    let ran = is_ice_servers_handle_timeout(&mut slot, 0, &ID);
    assert!(ran == abi::OK);
    let short = is_ice_servers_poll_transmit(&mut slot, &mut buffer[..19], &mut packet);
    assert!(short == abi::BUFFER_TOO_SHORT);
    assert!(packet.protocol == 9);
    let sent = is_ice_servers_poll_transmit(&mut slot, &mut buffer, &mut packet);
    assert!(sent == abi::OK);
    assert!(packet.destination.port == 3478);
    let none = is_ice_servers_poll_transmit(&mut slot, &mut buffer, &mut packet);
    assert!(none == abi::NOTHING);
    is_ice_servers_free(&mut slot);
}

#[test]
fn media_goes_through_the_server() {
    let mut slot = no_servers();
    assert!(is_allocated(&mut slot, 0));
    let permitted = is_ice_servers_permit(&mut slot, 10, &address(PEER.0, PEER.1));
    assert!(permitted == abi::OK);
    assert!(goes(&mut slot, LOCAL) == (abi::NOTHING, 0, 9));
    // A Send indication: 20 bytes, XOR-PEER-ADDRESS of 12, DATA of 8, FINGERPRINT of 8.
    assert!(goes(&mut slot, RELAYED) == (abi::OK, 48, 0));
    is_ice_servers_free(&mut slot);
}

#[test]
fn data_of_a_peer_is_a_part_of_the_datagram() {
    let mut slot = no_servers();
    assert!(is_allocated(&mut slot, 0));
    assert!(goes(&mut slot, RELAYED).0 == abi::OK);
    let message = Builder::new().data().indication().xor_peer_address(socket(PEER));
    let (code, arrival) = arrives(&mut slot, 0, message.data(&MEDIA).build(TransId(ID)));
    assert!(code == abi::OK);
    // DATA is the first attribute.
    assert!((arrival.offset, arrival.length) == (24, 3));
    assert!(arrival.source.port == 2000);
    assert!(arrival.destination.port == 50000);
    is_ice_servers_free(&mut slot);
}

#[test]
fn a_datagram_of_no_server_is_all_for_the_agent() {
    let mut slot = no_servers();
    let mut arrival = no_arrival();
    let peer = address(PEER.0, PEER.1);
    let local = address(LOCAL.0, LOCAL.1);
    assert!(has_turn(&mut slot, 0));
    let code = is_ice_servers_receive(&mut slot, 5, 0, &peer, &local, &MEDIA, &mut arrival);
    assert!(code == abi::OK);
    assert!((arrival.offset, arrival.length) == (0, 3));
    assert!(arrival.source.port == 2000);
    let none = is_ice_servers_receive(&mut slot, 5, 0, &peer, &local, b"", &mut arrival);
    assert!(none == abi::OK);
    assert!((arrival.offset, arrival.length) == (0, 0));
    is_ice_servers_free(&mut slot);
}

#[test]
fn a_lost_connection_ends_its_client() {
    let mut slot = no_servers();
    assert!(is_allocated(&mut slot, 1));
    let lost = is_ice_servers_lose(&mut slot, 1, &address(LOCAL.0, LOCAL.1));
    assert!(lost == abi::OK);
    let event = happens(&mut slot);
    assert!((event.kind, event.why, event.code) == (4, 1, 0));
    assert!(event.protocol == 1);
    assert!(goes(&mut slot, RELAYED).0 == abi::NO_RELAY);
    is_ice_servers_free(&mut slot);
}

#[test]
fn the_mapped_address_of_a_connection_is_none() {
    let mut slot = no_servers();
    assert!(has_turn(&mut slot, 1));
    assert!(sends(&mut slot, 0) > 0);
    let (taken, _) = arrives(&mut slot, 1, allocation());
    assert!(taken == abi::NOTHING);
    let event = happens(&mut slot);
    assert!(event.kind == 2);
    assert!(!event.has_mapped);
    is_ice_servers_free(&mut slot);
}

#[test]
fn a_closed_client_frees_its_allocation() {
    let mut slot = no_servers();
    assert!(is_allocated(&mut slot, 0));
    let probed = is_ice_servers_probe(&mut slot, 1_000_000_000);
    assert!(probed == abi::OK);
    assert!(sends(&mut slot, 1_000_000_000) > 0);
    let closed = is_ice_servers_close(&mut slot, 2_000_000_000);
    assert!(closed == abi::OK);
    assert!(sends(&mut slot, 2_000_000_000) > 0);
    is_ice_servers_free(&mut slot);
}

#[test]
fn an_event_of_a_client_has_a_line() {
    let mut text = [0; 100];
    let mut length = 0;
    let mut event = no_event();
    let unknown = is_ice_servers_event_line(&event, &mut text, &mut length);
    assert!(unknown == abi::BAD_ADDRESS);
    event.kind = 2;
    event.protocol = 0;
    event.local = address(LOCAL.0, LOCAL.1);
    event.server = address(SERVER.0, SERVER.1);
    event.relayed = address(RELAYED.0, RELAYED.1);
    event.mapped = address(77, 7);
    let written = is_ice_servers_event_line(&event, &mut text, &mut length);
    assert!(written == abi::OK);
    let line = b"server 10.0.0.9:3478 udp 10.0.0.1:1000: allocated 10.0.0.9:50000, mapped 10.0.0.77:7";
    assert!(text.get(..length).is_some_and(|it| it == line.as_slice()));
}

/// The line of an event of this kind, after the addresses of the client.
fn says(kind: i32, code: u16, unverified: u16, words: &[u8]) -> bool {
    let mut text = [0; 100];
    let mut length = 0;
    let mut event = no_event();
    event.kind = kind;
    event.protocol = 1;
    event.why = 1;
    event.code = code;
    event.unverified = unverified;
    let written = is_ice_servers_event_line(&event, &mut text, &mut length);
    written == abi::OK && text.get(..length).is_some_and(|line| line.ends_with(words))
}

#[test]
fn a_line_says_how_a_client_ended() {
    assert!(says(1, 0, 0, b"tcp 10.0.0.0:0: mapped 10.0.0.0:0"));
    assert!(says(3, 403, 0, b": not permitted 10.0.0.0, 403"));
    assert!(says(4, 437, 0, b": ended, lost, 437"));
    assert!(says(4, 0, 401, b": ended, lost, unverified 401"));
    assert!(!says(5, 0, 0, b""));
}

/// The URL that this text is.
fn url_of(text: &[u8]) -> (i32, ServerUrl) {
    let mut url = ServerUrl { host_start: 9, host_length: 9, port: 9, scheme: 9, protocol: 9 };
    let code = is_ice_server_url_of(text, &mut url);
    (code, url)
}

#[test]
fn a_url_names_host_port_and_protocol() {
    let (code, url) = url_of(b"turn:turn.example.org?transport=tcp");
    assert!(code == abi::OK);
    assert!((url.host_start, url.host_length) == (5, 16));
    assert!((url.port, url.scheme, url.protocol) == (3478, 1, 1));
    let (code, url) = url_of(b"stuns:[2001:db8::1]");
    assert!(code == abi::OK);
    assert!((url.host_start, url.host_length) == (7, 11));
    assert!((url.port, url.scheme, url.protocol) == (5349, 0, 3));
    assert!(url_of(b"turns:turn.example.org?transport=udp").0 == abi::BAD_URL);
    assert!(url_of(b"stun:\xff").0 == abi::NOT_UTF8);
}

#[test]
fn a_frame_has_its_length() {
    let mut frame = 7;
    let short = is_ice_frame_length(&[0x40, 0, 0], &mut frame);
    assert!(short == abi::NOTHING);
    let none = is_ice_frame_length(&[0x80, 0, 0, 1], &mut frame);
    assert!(none == abi::UNPARSED);
    assert!(frame == 7);
    let data = is_ice_frame_length(&[0x40, 0, 0, 5], &mut frame);
    assert!(data == abi::OK);
    assert!(frame == 12);
    let message = is_ice_frame_length(&[0, 1, 0, 8], &mut frame);
    assert!(message == abi::OK);
    assert!(frame == 28);
}

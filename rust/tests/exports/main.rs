//! The library's calls one by one, as `abi` declares them for C: each code, each field that is written, and what an error leaves as it was.

#[rustfmt::skip]
#[path = "../../src/ffi/abi.rs"]
mod abi;

mod agent_settings;
mod alike;
mod early;
mod fields;
mod front_ends;
mod limits;
mod log_lines;
mod media;
mod removed;
mod selected;
mod servers;
mod stun;
mod texts;

use abi::Servers;
use abi::{
    Address, Agent, AgentStatus, Candidate, Event, KindPreferences, Packet, PreferenceTable, is_ice_accepts_message, is_ice_accepts_packet,
    is_ice_add_local, is_ice_add_remote, is_ice_agent_free, is_ice_agent_new, is_ice_candidate_refusal, is_ice_handle_packet,
    is_ice_handle_timeout, is_ice_has_viable_remote, is_ice_invalidate, is_ice_line_refusal, is_ice_local_candidate, is_ice_local_pass,
    is_ice_local_ufrag, is_ice_make_credentials, is_ice_poll_event, is_ice_poll_timeout, is_ice_poll_transmit, is_ice_rejection,
    is_ice_restart, is_ice_set_controlling, is_ice_set_max_discovered, is_ice_set_max_retransmits, is_ice_set_mtu,
    is_ice_set_preference_table, is_ice_set_remote_credentials, is_ice_status,
};
use early::{sent_to, takes};
use is as _; // links the library
use std::ptr;

/// The index of a candidate that is not added.
const NO_INDEX: usize = usize::MAX;

const REQUEST: [u8; 100] = [
    0x00, 0x01, 0x00, 0x50, 0x21, 0x12, 0xa4, 0x42, 0x6a, 0x75, 0x63, 0x31, 0x35, 0x75, 0x78, 0x55, 0x6e, 0x67, 0x47, 0x63, 0x00, 0x06,
    0x00, 0x09, 0x70, 0x39, 0x4b, 0x41, 0x3a, 0x53, 0x51, 0x41, 0x74, 0x00, 0x00, 0x00, 0xc0, 0x57, 0x00, 0x04, 0x00, 0x01, 0x00, 0x0a,
    0x80, 0x2a, 0x00, 0x08, 0x6e, 0xee, 0xc6, 0xe9, 0x7d, 0x18, 0x39, 0x5c, 0x00, 0x25, 0x00, 0x00, 0x00, 0x24, 0x00, 0x04, 0x6e, 0x7f,
    0x1e, 0xff, 0x00, 0x08, 0x00, 0x14, 0x5d, 0x04, 0x25, 0xa0, 0x20, 0x7a, 0xb1, 0xe0, 0x54, 0x10, 0x22, 0x99, 0xaa, 0xf9, 0x83, 0x9c,
    0xa0, 0x76, 0xc6, 0xd5, 0x80, 0x28, 0x00, 0x04, 0x36, 0x0e, 0x21, 0x9f,
];

const REPLY: [u8; 64] = [
    0x01, 0x01, 0x00, 0x2c, 0x21, 0x12, 0xa4, 0x42, 0x6a, 0x75, 0x63, 0x31, 0x35, 0x75, 0x78, 0x55, 0x6e, 0x67, 0x47, 0x63, 0x00, 0x20,
    0x00, 0x08, 0x00, 0x01, 0x26, 0xc2, 0x2b, 0x12, 0xa4, 0x40, 0x00, 0x08, 0x00, 0x14, 0x44, 0x65, 0xf0, 0x40, 0x54, 0x13, 0xb5, 0x25,
    0xdd, 0x2d, 0x57, 0x30, 0xe3, 0xe8, 0xc8, 0x03, 0xda, 0xec, 0xef, 0x75, 0x80, 0x28, 0x00, 0x04, 0x4a, 0x6e, 0x46, 0x96,
];

fn address(last: u8, port: u16) -> Address {
    Address { family: 4, bytes: [10, 0, 0, last, 0, 0, 0, 0, 0, 0, 0, 0, 0, 0, 0, 0], port, flow: 0, scope: 0 }
}

fn host(at: Address) -> Candidate {
    Candidate { address: at, base: at, kind: 0, protocol: 0, tcptype: 0 }
}

fn no_agent() -> Agent {
    Agent { is_held: false, at: ptr::null_mut() }
}

fn no_servers() -> Servers {
    Servers { is_held: false, at: ptr::null_mut() }
}

fn no_packet() -> Packet {
    Packet { source: address(0, 0), destination: address(0, 0), length: 0, protocol: 9 }
}

fn no_event() -> Event {
    Event { source: address(0, 0), destination: address(0, 0), kind: 0, state: 9, protocol: 9 }
}

/// Passes the first packet that an agent has to another one, to which it comes at this time. Whether that one accepted it.
fn passes(from: &mut Agent, to: &mut Agent, now: u64) -> bool {
    let mut packet = no_packet();
    let mut buffer = [0; 200];
    let sent = is_ice_poll_transmit(from, &mut buffer, &mut packet);
    let bytes = buffer.get(..packet.length).unwrap_or(&[]);
    let source = packet.source;
    let destination = packet.destination;
    let taken = is_ice_handle_packet(to, now, packet.protocol, &source, &destination, bytes);
    sent == abi::OK && taken == abi::OK
}

/// The agent that the request is for, at 10.0.0.1:1000. Whether it was made.
fn serves(slot: &mut Agent) -> bool {
    let mut index = 9;
    let made = is_ice_agent_new(slot, b"p9KA", b"xJcE9AQAR7kczUDVOXRUCl", 1);
    let known = is_ice_set_remote_credentials(slot, b"SQAt", b"x");
    let added = is_ice_add_local(slot, &host(address(1, 1000)), &mut index);
    made == abi::OK && known == abi::OK && added == abi::OK
}

/// An agent AAAA at no address. Whether it was made.
fn is_new(slot: &mut Agent) -> bool {
    is_ice_agent_new(slot, b"AAAA", b"PPPP", 1) == abi::OK
}

/// Adds the host candidate at 10.0.0.`last`:1000. The code, and the index.
fn gathers(slot: &mut Agent, last: u8) -> (i32, usize) {
    let mut index = 9;
    let code = is_ice_add_local(slot, &host(address(last, 1000)), &mut index);
    (code, index)
}

/// Adds the candidate of this line. The code, and the index.
fn signals(slot: &mut Agent, line: &[u8]) -> (i32, usize) {
    let mut index = 9;
    let code = is_ice_add_remote(slot, line, &mut index);
    (code, index)
}

#[test]
fn a_slot_holds_one_agent() {
    let mut slot = no_agent();
    let mut at = 7;
    assert!(serves(&mut slot));
    let again = is_ice_agent_new(&mut slot, b"p9KA", b"x", 1);
    assert!(again == abi::HAS_AGENT);
    assert!(gathers(&mut slot, 1) == (abi::NOTHING, 0));
    let deadline = is_ice_poll_timeout(&mut slot, &mut at);
    assert!(deadline == abi::NOTHING);
    is_ice_agent_free(&mut slot);
    let gone = is_ice_poll_timeout(&mut slot, &mut at);
    assert!(gone == abi::NO_AGENT);
    assert!(at == 7);
}

#[test]
fn a_packet_is_accepted_or_not() {
    let own = address(1, 1000);
    let peer = address(2, 2000);
    let mut slot = no_agent();
    assert!(serves(&mut slot));
    let cut = is_ice_handle_packet(&mut slot, 0, 0, &peer, &own, &REQUEST[..99]);
    assert!(cut == abi::UNPARSED);
    let mine = is_ice_accepts_packet(&mut slot, 0, &peer, &own, &REQUEST);
    assert!(mine == abi::OK);
    let answer = is_ice_accepts_message(&mut slot, &REPLY);
    assert!(answer == abi::NOTHING);
    is_ice_agent_free(&mut slot);
}

#[test]
fn a_rejected_packet_has_a_reason() {
    let own = address(1, 1000);
    let peer = address(2, 2000);
    let mut slot = no_agent();
    let none = is_ice_rejection(&mut slot, 0, &peer, &own, &REQUEST);
    assert!(none == abi::NO_AGENT);
    assert!(serves(&mut slot));
    let taken = is_ice_rejection(&mut slot, 0, &peer, &own, &REQUEST);
    assert!(taken == abi::OK);
    let cut = is_ice_rejection(&mut slot, 0, &peer, &own, &REQUEST[..99]);
    assert!(cut == abi::UNPARSED);
    let nowhere = is_ice_rejection(&mut slot, 9, &peer, &own, &REQUEST);
    assert!(nowhere == abi::BAD_ADDRESS);
    let stray = is_ice_rejection(&mut slot, 0, &peer, &own, &REPLY);
    assert!(stray == abi::REJECTED_NO_CHECK);
    is_ice_agent_free(&mut slot);
}

#[test]
fn a_wrong_password_is_named() {
    let own = address(1, 1000);
    let peer = address(2, 2000);
    let mut slot = no_agent();
    let made = is_ice_agent_new(&mut slot, b"p9KA", b"wrong", 1);
    assert!(made == abi::OK);
    let wrong = is_ice_rejection(&mut slot, 0, &peer, &own, &REQUEST);
    assert!(wrong == abi::REJECTED_LOCAL_PASSWORD);
    is_ice_agent_free(&mut slot);
}

#[test]
fn a_request_is_replied_to() {
    let mut slot = no_agent();
    let mut packet = no_packet();
    let mut event = no_event();
    let mut buffer = [0; 64];
    assert!(serves(&mut slot));
    assert!(takes(&mut slot, 0, 2000));
    let short = is_ice_poll_transmit(&mut slot, &mut buffer[..63], &mut packet);
    assert!(short == abi::BUFFER_TOO_SHORT);
    assert!(packet.length == 64);
    let given = is_ice_poll_transmit(&mut slot, &mut buffer, &mut packet);
    assert!(given == abi::OK);
    assert!(packet.destination.port == 2000);
    assert!(buffer[..] == REPLY[..]);
    let heard = is_ice_poll_event(&mut slot, &mut event);
    assert!(heard == abi::OK);
    assert!(event.kind == 3);
    assert!(event.source.port == 2000);
    let viable = is_ice_has_viable_remote(&mut slot, &address(2, 2000));
    assert!(viable == abi::NOTHING);
    is_ice_agent_free(&mut slot);
}

#[test]
fn requests_bring_as_many_candidates_as_the_limit() {
    let mut slot = no_agent();
    let none = is_ice_set_max_discovered(&mut slot, 1);
    assert!(none == abi::NO_AGENT);
    assert!(serves(&mut slot));
    let set = is_ice_set_max_discovered(&mut slot, 1);
    assert!(set == abi::OK);
    assert!(takes(&mut slot, 0, 2000));
    assert!(sent_to(&mut slot) == 2000);
    assert!(takes(&mut slot, 0, 2001));
    assert!(sent_to(&mut slot) == 0);
    let set = is_ice_set_max_discovered(&mut slot, usize::MAX);
    assert!(set == abi::OK);
    assert!(takes(&mut slot, 0, 2001));
    assert!(sent_to(&mut slot) == 2001);
    is_ice_agent_free(&mut slot);
}

#[test]
fn a_check_has_the_random_bytes_as_its_id() {
    let mut slot = no_agent();
    let mut packet = no_packet();
    let mut buffer = [0; 200];
    let id = *b"twelve bytes";
    let mut index = 9;
    let made = is_ice_agent_new(&mut slot, b"AAAA", b"PPPP", 10);
    assert!(made == abi::OK);
    let leads = is_ice_set_controlling(&mut slot, true);
    assert!(leads == abi::OK);
    let reported = is_ice_set_remote_credentials(&mut slot, b"BBBB", b"QQQQ");
    assert!(reported == abi::OK);
    let added = is_ice_add_local(&mut slot, &host(address(1, 1000)), &mut index);
    assert!(added == abi::OK);
    let line = b"candidate:1 1 udp 2130706175 10.0.0.2 2000 typ host";
    let known = is_ice_add_remote(&mut slot, line, &mut index);
    assert!(known == abi::OK);
    let few = is_ice_handle_timeout(&mut slot, 60_000_000_000, &id[..11]);
    assert!(few == abi::TOO_FEW_RANDOM_BYTES);
    let begun = is_ice_handle_timeout(&mut slot, 60_000_000_000, &id);
    assert!(begun == abi::OK);
    let given = is_ice_poll_transmit(&mut slot, &mut buffer, &mut packet);
    assert!(given == abi::OK);
    assert!(buffer[8..20] == id[..]);
    let gone = is_ice_invalidate(&mut slot, line);
    assert!(gone == abi::OK);
    is_ice_agent_free(&mut slot);
}

#[test]
fn credentials_are_made() {
    let mut ufrag = [0; 16];
    let mut pass = [0; 22];
    let few = is_ice_make_credentials(&[0; 37], &mut ufrag, &mut pass);
    assert!(few == abi::TOO_FEW_RANDOM_BYTES);
    let short = is_ice_make_credentials(&[26; 38], &mut ufrag, &mut pass[..21]);
    assert!(short == abi::BUFFER_TOO_SHORT);
    assert!(ufrag == [0; 16]);
    let drawn = is_ice_make_credentials(&[26; 38], &mut ufrag, &mut pass);
    assert!(drawn == abi::OK);
    assert!(ufrag[..] == b"aaaaaaaaaaaaaaaa"[..]);
    assert!(pass[..] == b"aaaaaaaaaaaaaaaaaaaaaa"[..]);
}

#[test]
fn credentials_are_reported() {
    let mut slot = no_agent();
    let mut length = 0;
    let pass = b"xJcE9AQAR7kczUDVOXRUCl";
    let made = is_ice_agent_new(&mut slot, b"p9KA", b"\xff", 1);
    assert!(made == abi::NOT_UTF8);
    assert!(serves(&mut slot));
    let mut text = [7; 22];
    let reported = is_ice_local_ufrag(&mut slot, &mut text, &mut length);
    assert!(reported == abi::OK);
    assert!(length == 4);
    assert!(text[..4] == b"p9KA"[..]);
    assert!(text[4..] == [7; 18]);
    let reported = is_ice_local_pass(&mut slot, &mut text, &mut length);
    assert!(reported == abi::OK);
    assert!(text[..] == pass[..]);
    let again = is_ice_restart(&mut slot, b"CCCCCC", b"RRRR", true);
    assert!(again == abi::OK);
    let reported = is_ice_local_ufrag(&mut slot, &mut text[..3], &mut length);
    assert!(reported == abi::BUFFER_TOO_SHORT);
    assert!(length == 6);
    is_ice_agent_free(&mut slot);
}

#[test]
fn settings_and_lines_are_reported() {
    let mut slot = no_agent();
    let mut line = [0; 100];
    let mut length = 0;
    let mut index = 9;
    let mut status = AgentStatus { state: 9, controlling: true, lite: true, mtu: 0, mtu_warn: 0, ice_timeout: 0, max_candidates: 0 };
    let made = is_ice_agent_new(&mut slot, b"AAAA", b"PPPP", 1);
    assert!(made == abi::OK);
    let none = is_ice_set_max_retransmits(&mut slot, 0);
    assert!(none == abi::BAD_LIMIT);
    let small = is_ice_set_mtu(&mut slot, 587, 1280);
    assert!(small == abi::MTU_TOO_SMALL);
    let asked = is_ice_status(&mut slot, &mut status);
    assert!(asked == abi::OK);
    assert!(status.state == 0);
    assert!(status.mtu == 1150);
    assert!(status.max_candidates == agent_settings::modern().max_candidates);
    let added = is_ice_add_local(&mut slot, &host(address(1, 1000)), &mut index);
    assert!(added == abi::OK);
    let reported = is_ice_local_candidate(&mut slot, 0, &mut line, &mut length);
    assert!(reported == abi::OK);
    assert!(length == 85);
    assert!(line[51..85] == b" 10.0.0.1 1000 typ host ufrag AAAA"[..]);
    let after = is_ice_local_candidate(&mut slot, 1, &mut line, &mut length);
    assert!(after == abi::NOTHING);
    is_ice_agent_free(&mut slot);
}

#[test]
fn a_rejected_line_returns_its_fault() {
    let mut text = [0; 40];
    let mut length = 0;
    let reported = is_ice_line_refusal(b"candidate:1 x", &mut text, &mut length);
    assert!(reported == abi::OK);
    assert!(text[..length] == b"candidate:1 x: bad component-id"[..]);
}

#[test]
fn a_failure_needs_a_message_and_room() {
    let mut text = [0; 30];
    let mut length = 0;
    let short = is_ice_line_refusal(b"candidate:1 x", &mut text, &mut length);
    assert!(short == abi::BUFFER_TOO_SHORT);
    assert!(length == 31);
    let unread = is_ice_line_refusal(b"\xff", &mut text, &mut length);
    assert!(unread == abi::NOT_UTF8);
    let line = b"candidate:1 1 udp 2130706175 10.0.0.2 2000 typ host";
    let read = is_ice_line_refusal(line, &mut text, &mut length);
    assert!(read == abi::NOTHING);
    let none = is_ice_candidate_refusal(&host(address(1, 1000)), &mut text, &mut length);
    assert!(none == abi::NOTHING);
}

/// Writes the local candidate with this index. Whether there is one.
fn lists(slot: &mut Agent, index: usize, line: &mut [u8; 100]) -> bool {
    let mut length = 0;
    is_ice_local_candidate(slot, index, line, &mut length) == abi::OK
}

#[test]
fn a_table_gives_the_preference() {
    let mut slot = no_agent();
    let mut line = [0; 100];
    let kinds = KindPreferences { host: 256, peer_reflexive: 0, server_reflexive: 0, relayed: 0 };
    let table = PreferenceTable { v4: kinds, v6: kinds };
    assert!(is_new(&mut slot));
    let set = is_ice_set_preference_table(&mut slot, &table);
    assert!(set == abi::OK);
    assert!(gathers(&mut slot, 1) == (abi::OK, 0));
    assert!(lists(&mut slot, 0, &mut line));
    assert!(line[41..51] == b"2113995007"[..]);
    assert!(gathers(&mut slot, 3) == (abi::OK, 1));
    assert!(lists(&mut slot, 1, &mut line));
    assert!(line[41..51] == b"2113994751"[..]);
    is_ice_agent_free(&mut slot);
}

const FIRST: &[u8] = b"candidate:1 1 udp 2130706175 10.0.0.2 2000 typ host";

const SECOND: &[u8] = b"candidate:2 1 udp 2130706174 10.0.0.3 2000 typ host";

#[test]
fn an_added_candidate_has_its_index() {
    let mut slot = no_agent();
    assert!(signals(&mut slot, FIRST) == (abi::NO_AGENT, 9));
    assert!(is_new(&mut slot));
    assert!(gathers(&mut slot, 1) == (abi::OK, 0));
    assert!(signals(&mut slot, FIRST) == (abi::OK, 0));
    assert!(signals(&mut slot, SECOND) == (abi::OK, 1));
    assert!(signals(&mut slot, FIRST) == (abi::NOTHING, 0));
    let gone = is_ice_invalidate(&mut slot, FIRST);
    assert!(gone == abi::OK);
    assert!(signals(&mut slot, SECOND) == (abi::NOTHING, 0));
    is_ice_agent_free(&mut slot);
}

#[test]
fn a_candidate_that_is_not_added_has_no_index() {
    let mut slot = no_agent();
    let other = b"candidate:1 2 udp 2130706175 10.0.0.4 2000 typ host";
    let old = b"candidate:1 1 udp 2130706175 10.0.0.4 2000 typ host ufrag CCCC";
    assert!(is_new(&mut slot));
    assert!(signals(&mut slot, other) == (abi::OTHER_COMPONENT, NO_INDEX));
    let met = is_ice_set_remote_credentials(&mut slot, b"BBBB", b"QQQQ");
    assert!(met == abi::OK);
    assert!(signals(&mut slot, old) == (abi::OTHER_UFRAG, NO_INDEX));
    // An error leaves the index.
    assert!(signals(&mut slot, &FIRST[..9]) == (abi::BAD_CANDIDATE, 9));
    is_ice_agent_free(&mut slot);
}

//! Candidates as texts and as JSON, without an agent, and the pair of one.

use super::{address, host};
use crate::abi::{
    self, Candidate, Pair, is_ice_add_local, is_ice_add_remote, is_ice_agent_free, is_ice_agent_new, is_ice_candidate_line,
    is_ice_candidate_preference, is_ice_find_pair, is_ice_json_refusal, is_ice_line_from_json, is_ice_line_preference, is_ice_line_to_json,
    is_ice_line_with_ufrag, is_ice_local_candidate,
};
use crate::no_agent;

// The example of the interface RTCIceCandidate in MDN, and its attribute with an RFC 8839 username fragment.
const LINE: &[u8] = b"candidate:4234997325 1 udp 2043278322 192.0.2.172 44323 typ host";

const NAMED: &[u8] = b"candidate:4234997325 1 udp 2043278322 192.0.2.172 44323 typ host ufrag EsAw";

const INFO: &[u8] =
    b"{\"candidate\":\"candidate:4234997325 1 udp 2043278322 192.0.2.172 44323 typ host\",\"sdpMLineIndex\":0,\"sdpMid\":null,\"usernameFragment\":null}";

fn over_tcp(tcptype: u8) -> Candidate {
    let mut candidate = host(address(1, 9));
    candidate.protocol = 1;
    candidate.tcptype = tcptype;
    candidate
}

fn no_pair() -> Pair {
    Pair {
        local: 9,
        remote: 9,
        priority: 0,
        checks_sent: 9,
        requests_received: 9,
        responses: 0,
        total_rtt: 0,
        rtt: 0,
        last_request: 0,
        due: 0,
        state: 9,
        nominated: true,
        selected: true,
        has_rtt: true,
        has_request: true,
        has_due: true,
    }
}

#[test]
fn a_line_is_written_as_json() {
    let mut text = [0; 200];
    let mut length = 0;
    let reported = is_ice_line_to_json(LINE, &mut text, &mut length);
    assert!(reported == abi::OK);
    assert!(text[..length] == INFO[..]);
    let short = is_ice_line_to_json(LINE, &mut text[..length - 1], &mut length);
    assert!(short == abi::BUFFER_TOO_SHORT);
    let unread = is_ice_line_to_json(b"\xff", &mut text, &mut length);
    assert!(unread == abi::NOT_UTF8);
    let bad = is_ice_line_to_json(b"candidate:1 x", &mut text, &mut length);
    assert!(bad == abi::BAD_CANDIDATE);
}

#[test]
fn json_is_read_as_a_line() {
    let mut text = [0; 100];
    let mut length = 0;
    let reported = is_ice_line_from_json(INFO, &mut text, &mut length);
    assert!(reported == abi::OK);
    assert!(text[..length] == LINE[..]);
    // An RTCIceCandidateInit has the fragment in a member of its own.
    let init =
        b"{\"candidate\":\"candidate:4234997325 1 udp 2043278322 192.0.2.172 44323 typ host\",\"sdpMid\":\"0\",\"sdpMLineIndex\":0,\"usernameFragment\":\"EsAw\"}";
    let reported = is_ice_line_from_json(init, &mut text, &mut length);
    assert!(reported == abi::OK);
    assert!(text[..length] == NAMED[..]);
}

#[test]
fn json_of_no_candidate_returns_its_fault() {
    let mut text = [0; 60];
    let mut length = 0;
    // The end of candidates: an empty candidate.
    let ended = b"{\"candidate\":\"\",\"sdpMid\":\"0\",\"sdpMLineIndex\":0}";
    let read = is_ice_line_from_json(ended, &mut text, &mut length);
    assert!(read == abi::BAD_CANDIDATE);
    let reported = is_ice_json_refusal(b"{}", &mut text, &mut length);
    assert!(reported == abi::OK);
    assert!(text[..length] == b"candidate info lacks candidate"[..]);
    let reported = is_ice_json_refusal(b"candidate:1", &mut text, &mut length);
    assert!(reported == abi::OK);
    assert!(text[..length] == b"candidate info is not JSON"[..]);
    let unread = is_ice_json_refusal(b"\xff", &mut text, &mut length);
    assert!(unread == abi::NOT_UTF8);
    let one = is_ice_json_refusal(INFO, &mut text, &mut length);
    assert!(one == abi::NOTHING);
}

#[test]
fn a_line_gets_a_username_fragment() {
    let mut text = [0; 100];
    let mut length = 0;
    let named = is_ice_line_with_ufrag(LINE, b"EsAw", &mut text, &mut length);
    assert!(named == abi::OK);
    assert!(text[..length] == NAMED[..]);
    let mut again = [0; 100];
    let named = is_ice_line_with_ufrag(&text[..length], b"9uB6", &mut again, &mut length);
    assert!(named == abi::OK);
    assert!(again[..length].ends_with(b" 9uB6"));
    let unread = is_ice_line_with_ufrag(LINE, b"\xff", &mut text, &mut length);
    assert!(unread == abi::NOT_UTF8);
    let bad = is_ice_line_with_ufrag(b"candidate:1 x", b"EsAw", &mut text, &mut length);
    assert!(bad == abi::BAD_CANDIDATE);
}

#[test]
fn a_gathered_candidate_has_a_line() {
    let mut text = [0; 120];
    let mut length = 0;
    let reported = is_ice_candidate_line(&over_tcp(2), &mut text, &mut length);
    assert!(reported == abi::OK);
    // RFC 8445, section 5.1.2.1, with the type preference 90 of a host over TCP: 90 * 2^24 + 65534 * 2^8 + 255.
    assert!(text[..length].ends_with(b" 1 tcp 1526726399 10.0.0.1 9 typ host tcptype passive"));
    let mut over_udp = over_tcp(2);
    over_udp.protocol = 0;
    let bad = is_ice_candidate_line(&over_udp, &mut text, &mut length);
    assert!(bad == abi::BAD_ADDRESS);
    let bad = is_ice_candidate_line(&over_tcp(4), &mut text, &mut length);
    assert!(bad == abi::BAD_ADDRESS);
    let none = is_ice_candidate_line(&host(address(0, 0)), &mut text, &mut length);
    assert!(none == abi::OK);
    let mut nowhere = over_tcp(1);
    let mut zeros = nowhere.address;
    zeros.bytes = [0; 16];
    nowhere.address = zeros;
    let none = is_ice_candidate_line(&nowhere, &mut text, &mut length);
    assert!(none == abi::BAD_CANDIDATE);
}

#[test]
fn an_agent_lists_the_tcp_type() {
    let mut slot = no_agent();
    let mut text = [0; 120];
    let mut length = 0;
    let mut index = 9;
    let made = is_ice_agent_new(&mut slot, b"AAAA", b"PPPP", 1);
    assert!(made == abi::OK);
    for tcptype in [1, 3] {
        let mut candidate = over_tcp(tcptype);
        candidate.address.port = u16::from(tcptype);
        let added = is_ice_add_local(&mut slot, &candidate, &mut index);
        assert!(added == abi::OK);
    }
    let reported = is_ice_local_candidate(&mut slot, 0, &mut text, &mut length);
    assert!(reported == abi::OK);
    assert!(text[..length].ends_with(b" tcptype active ufrag AAAA"));
    let reported = is_ice_local_candidate(&mut slot, 1, &mut text, &mut length);
    assert!(reported == abi::OK);
    assert!(text[..length].ends_with(b" tcptype so ufrag AAAA"));
    is_ice_agent_free(&mut slot);
}

#[test]
fn the_default_preference_is_reported() {
    let mut preference = 9;
    let reported = is_ice_candidate_preference(&host(address(1, 1)), 2, &mut preference);
    assert!(reported == abi::OK);
    assert!(preference == 65535 - 1 - 2 * 2);
    let unread = is_ice_line_preference(b"candidate:1 x", 0, &mut preference);
    assert!(unread == abi::BAD_CANDIDATE);
    assert!(preference == 65530);
    let reported = is_ice_line_preference(LINE, 0, &mut preference);
    assert!(reported == abi::OK);
    assert!(preference == 65534);
    let mut other = host(address(1, 1));
    other.kind = 3;
    let bad = is_ice_candidate_preference(&other, 0, &mut preference);
    assert!(bad == abi::BAD_ADDRESS);
}

#[test]
fn the_pair_of_a_candidate_is_found() {
    let mut slot = no_agent();
    let mut pair = no_pair();
    let mut index = 9;
    let none = is_ice_find_pair(&mut slot, LINE, &mut pair);
    assert!(none == abi::NO_AGENT);
    let made = is_ice_agent_new(&mut slot, b"AAAA", b"PPPP", 1);
    assert!(made == abi::OK);
    let none = is_ice_find_pair(&mut slot, LINE, &mut pair);
    assert!(none == abi::NOTHING);
    assert!(pair.local == 9);
    let bad = is_ice_find_pair(&mut slot, b"candidate:1 x", &mut pair);
    assert!(bad == abi::BAD_CANDIDATE);
    let added = is_ice_add_local(&mut slot, &host(address(1, 1000)), &mut index);
    assert!(added == abi::OK);
    let first = b"candidate:1 1 udp 2130706175 10.0.0.2 2000 typ host";
    let added = is_ice_add_remote(&mut slot, first, &mut index);
    assert!(added == abi::OK);
    let added = is_ice_add_remote(&mut slot, LINE, &mut index);
    assert!(added == abi::OK);
    let found = is_ice_find_pair(&mut slot, LINE, &mut pair);
    assert!(found == abi::OK);
    assert!((pair.local, pair.remote) == (0, 1));
    assert!(pair.state == 0);
    is_ice_agent_free(&mut slot);
}

//! The fields of a candidate, username fragments that are no word, and mDNS names.

use super::{address, gathers, host, is_new, signals};
use crate::abi::{
    self, Address, Fields, is_ice_agent_free, is_ice_candidate_fields, is_ice_json_refusal, is_ice_line_fields, is_ice_line_from_json,
    is_ice_line_name, is_ice_line_with_address, is_ice_line_with_ufrag, is_ice_local_fields, is_ice_remote_fields,
};
use crate::no_agent;

// The server-reflexive candidate of RFC 8839, appendix A, with two spaces, an extension and a username fragment.
const REFLEXIVE: &[u8] = b"candidate:2 1 UDP 1694498815  192.0.2.3 45664 typ srflx raddr 203.0.113.141 rport 8998 generation 0 ufrag EsAw";

const PRINTED: &[u8] = b"candidate:2 1 udp 1694498815 192.0.2.3 45664 typ srflx raddr 203.0.113.141 rport 8998 ufrag EsAw";

pub(super) const HOST: &[u8] = b"candidate:4234997325 1 udp 2043278322 192.0.2.172 44323 typ host";

// A host candidate of draft-ietf-mmusic-mdns-ice-candidates, section 3.
pub(super) const HIDDEN: &[u8] = b"candidate:1 1 udp 2122262783 1f4712db-ea17-4bcf-a596-105139dfd8bf.local 54596 typ host generation 0";

const NAME: &[u8] = b"1f4712db-ea17-4bcf-a596-105139dfd8bf.local";

pub(super) fn no_fields() -> Fields {
    Fields {
        address: address(0, 0),
        local: address(0, 0),
        related: address(0, 0),
        foundation_length: 99,
        ufrag_length: 99,
        priority: 99,
        component: 99,
        kind: 99,
        protocol: 99,
        tcptype: 99,
    }
}

pub(super) fn starts_with(address: &Address, octets: [u8; 4]) -> bool {
    address.bytes[..4] == octets[..]
}

#[test]
fn a_line_is_printed() {
    let mut text = [0; 120];
    let mut length = 0;
    let mut fields = no_fields();
    let read = is_ice_line_fields(REFLEXIVE, &mut text, &mut length, &mut fields);
    assert!(read == abi::OK);
    assert!(length == PRINTED.len());
    assert!(text.starts_with(PRINTED));
}

/// The fields of the candidate of a line; `no_fields` if it is none.
fn fields_of(line: &[u8]) -> Fields {
    let mut text = [0; 120];
    let mut length = 0;
    let mut fields = no_fields();
    match is_ice_line_fields(line, &mut text, &mut length, &mut fields) {
        abi::OK => fields,
        _ => no_fields(),
    }
}

#[test]
fn a_line_has_addresses() {
    let fields = fields_of(REFLEXIVE);
    assert!(fields.address.family == 4);
    assert!(fields.address.port == 45664);
    assert!(starts_with(&fields.address, [192, 0, 2, 3]));
    assert!(fields.local.family == 4);
    assert!(fields.local.port == 0);
    assert!(starts_with(&fields.local, [0, 0, 0, 0]));
    assert!(fields.related.port == 8998);
    assert!(starts_with(&fields.related, [203, 0, 113, 141]));
}

#[test]
fn a_line_has_fields() {
    let fields = fields_of(REFLEXIVE);
    assert!(fields.foundation_length == 1);
    assert!(fields.ufrag_length == 4);
    assert!(fields.priority == 1694498815);
    assert!(fields.component == 1);
    assert!(fields.kind == 1);
    assert!(fields.protocol == 0);
    assert!(fields.tcptype == 0);
}

#[test]
fn words_end_at_any_white_space() {
    let mut text = [0; 60];
    let mut length = 0;
    let mut fields = no_fields();
    // U+00A0 is white space of Unicode, so the words after "host" are extensions.
    let line = b"candidate:17\xc2\xa02\xc2\xa0udp\xc2\xa05\xc2\xa010.0.0.1\xc2\xa080\xc2\xa0typ\xc2\xa0relay 1 udp 1 9.9.9.9 5 typ host";
    let read = is_ice_line_fields(line, &mut text, &mut length, &mut fields);
    assert!(read == abi::OK);
    assert!(length == 42);
    assert!(text.starts_with(b"candidate:17 2 udp 5 10.0.0.1 80 typ relay"));
    assert!(fields.address.port == 80);
    assert!(fields.related.family == 0);
    assert!(fields.foundation_length == 2);
    assert!(fields.ufrag_length == 0);
    assert!(fields.component == 2);
    assert!(fields.kind == 2);
}

#[test]
fn an_error_leaves_the_fields() {
    let mut text = [7; 120];
    let mut length = 5;
    let mut fields = no_fields();
    let unread = is_ice_line_fields(b"\xff", &mut text, &mut length, &mut fields);
    assert!(unread == abi::NOT_UTF8);
    let bad = is_ice_line_fields(b"candidate:1 x", &mut text, &mut length, &mut fields);
    assert!(bad == abi::BAD_CANDIDATE);
    assert!(length == 5);
    assert!(fields.kind == 99);
}

#[test]
fn what_has_no_room_or_no_meaning_leaves_the_fields() {
    let mut brief = [7; 95];
    let mut length = 5;
    let mut fields = no_fields();
    let short = is_ice_line_fields(REFLEXIVE, &mut brief, &mut length, &mut fields);
    assert!(short == abi::BUFFER_TOO_SHORT);
    assert!(length == PRINTED.len());
    assert!(brief[0] == 7);
    let mut prflx = host(address(1, 1000));
    prflx.kind = 3;
    let unknown = is_ice_candidate_fields(&prflx, &mut brief, &mut length, &mut fields);
    assert!(unknown == abi::BAD_ADDRESS);
    assert!(fields.kind == 99);
}

#[test]
fn a_gathered_candidate_has_fields() {
    let mut text = [0; 120];
    let mut length = 0;
    let mut fields = no_fields();
    let mut candidate = host(address(1, 9));
    candidate.protocol = 1;
    candidate.tcptype = 2;
    let read = is_ice_candidate_fields(&candidate, &mut text, &mut length, &mut fields);
    assert!(read == abi::OK);
    assert!(fields.local.port == 9);
    assert!(starts_with(&fields.local, [10, 0, 0, 1]));
    assert!(fields.kind == 0);
    assert!(fields.protocol == 1);
    assert!(fields.tcptype == 2);
    // Type preference 90, local preference 65534, component 1 (RFC 8445, section 5.1.2.1).
    assert!(fields.priority == 1526726399);
    // The foundation ends before the component.
    let foundation = fields.foundation_length;
    assert!(foundation < 30);
    assert!(text[10 + foundation..10 + foundation + 7] == b" 1 tcp "[..]);
}

#[test]
fn what_is_not_listed_has_no_fields() {
    let mut slot = no_agent();
    let mut text = [0; 120];
    let mut length = 0;
    let mut fields = no_fields();
    let none = is_ice_local_fields(&mut slot, 0, &mut text, &mut length, &mut fields);
    assert!(none == abi::NO_AGENT);
    let none = is_ice_remote_fields(&mut slot, 0, &mut text, &mut length, &mut fields);
    assert!(none == abi::NO_AGENT);
    assert!(is_new(&mut slot));
    let none = is_ice_local_fields(&mut slot, 0, &mut text, &mut length, &mut fields);
    assert!(none == abi::NOTHING);
    let none = is_ice_remote_fields(&mut slot, 0, &mut text, &mut length, &mut fields);
    assert!(none == abi::NOTHING);
    assert!(fields.kind == 99);
    is_ice_agent_free(&mut slot);
}

#[test]
fn listed_candidates_have_fields() {
    let mut slot = no_agent();
    let mut text = [0; 120];
    let mut length = 0;
    let mut fields = no_fields();
    assert!(is_new(&mut slot));
    assert!(gathers(&mut slot, 1) == (abi::OK, 0));
    assert!(signals(&mut slot, HOST) == (abi::OK, 0));
    let read = is_ice_local_fields(&mut slot, 0, &mut text, &mut length, &mut fields);
    assert!(read == abi::OK);
    assert!(fields.address.port == 1000);
    assert!(fields.ufrag_length == 4);
    let read = is_ice_remote_fields(&mut slot, 0, &mut text, &mut length, &mut fields);
    assert!(read == abi::OK);
    assert!(length == HOST.len());
    assert!(text.starts_with(HOST));
    assert!(fields.address.port == 44323);
    assert!(fields.local.port == 44323);
    assert!(fields.foundation_length == 10);
    assert!(fields.ufrag_length == 0);
    is_ice_agent_free(&mut slot);
}

#[test]
fn a_username_fragment_is_one_word() {
    let mut text = [0; 100];
    let mut length = 0;
    let empty = is_ice_line_with_ufrag(HOST, b"", &mut text, &mut length);
    assert!(empty == abi::BAD_CANDIDATE);
    let spaced = is_ice_line_with_ufrag(HOST, b"Es Aw", &mut text, &mut length);
    assert!(spaced == abi::BAD_CANDIDATE);
    let ended = is_ice_line_with_ufrag(HOST, b"EsAw\r\n", &mut text, &mut length);
    assert!(ended == abi::BAD_CANDIDATE);
    let hidden = is_ice_line_with_ufrag(HOST, b"Es\xc2\xa0Aw", &mut text, &mut length);
    assert!(hidden == abi::BAD_CANDIDATE);
    // U+200B is no white space of Unicode.
    let joined = is_ice_line_with_ufrag(HOST, b"Es\xe2\x80\x8bAw", &mut text, &mut length);
    assert!(joined == abi::OK);
    let json = b"{\"candidate\":\"candidate:1 1 udp 7 10.0.0.1 80 typ host\",\"usernameFragment\":\"\"}";
    let blank = is_ice_line_from_json(json, &mut text, &mut length);
    assert!(blank == abi::BAD_CANDIDATE);
    let json = b"{\"candidate\":\"candidate:1 1 udp 7 10.0.0.1 80 typ host\",\"usernameFragment\":\"a\\u2003b\"}";
    let wide = is_ice_line_from_json(json, &mut text, &mut length);
    assert!(wide == abi::BAD_CANDIDATE);
    let said = is_ice_json_refusal(json, &mut text, &mut length);
    assert!(said == abi::OK);
    assert!(length == 33);
    assert!(text.starts_with(b"username fragment is not one word"));
}

#[test]
fn a_line_has_a_name() {
    let mut text = [0; 60];
    let mut length = 3;
    let named = is_ice_line_name(HIDDEN, &mut text, &mut length);
    assert!(named == abi::OK);
    assert!(length == NAME.len());
    assert!(text.starts_with(NAME));
    let mut brief = [0; 41];
    let short = is_ice_line_name(HIDDEN, &mut brief, &mut length);
    assert!(short == abi::BUFFER_TOO_SHORT);
    let capital = is_ice_line_name(b"candidate:1 1 udp 7 Printer.LoCaL", &mut text, &mut length);
    assert!(capital == abi::OK);
    assert!(length == 13);
    let none = is_ice_line_name(HOST, &mut text, &mut length);
    assert!(none == abi::NOTHING);
    let other = is_ice_line_name(b"candidate:1 1 udp 7 a.localx", &mut text, &mut length);
    assert!(other == abi::NOTHING);
    let fourth = is_ice_line_name(b"candidate:1 1 udp a.local", &mut text, &mut length);
    assert!(fourth == abi::NOTHING);
    let bare = is_ice_line_name(&HIDDEN[1..], &mut text, &mut length);
    assert!(bare == abi::NOTHING);
    assert!(length == 13);
    let unread = is_ice_line_name(b"\xff", &mut text, &mut length);
    assert!(unread == abi::NOT_UTF8);
}

#[test]
fn an_address_takes_the_place_of_the_name() {
    let mut text = [0; 80];
    let mut length = 0;
    let mut at = address(7, 9);
    let put = is_ice_line_with_address(HIDDEN, &at, &mut text, &mut length);
    assert!(put == abi::OK);
    assert!(length == 52);
    assert!(text.starts_with(b"candidate:1 1 udp 2122262783 10.0.0.7 54596 typ host"));
    let mut brief = [0; 51];
    let short = is_ice_line_with_address(HIDDEN, &at, &mut brief, &mut length);
    assert!(short == abi::BUFFER_TOO_SHORT);
    at.family = 6;
    at.bytes = [0x20, 0x01, 0x0d, 0xb8, 0, 0, 0, 0, 0, 0, 0, 0, 0, 0, 0, 7];
    at.scope = 3;
    let put = is_ice_line_with_address(HOST, &at, &mut text, &mut length);
    assert!(put == abi::OK);
    assert!(text.starts_with(b"candidate:4234997325 1 udp 2043278322 2001:db8::7 44323 typ host"));
    let cut = is_ice_line_with_address(&HIDDEN[..28], &at, &mut text, &mut length);
    assert!(cut == abi::BAD_CANDIDATE);
    let bare = is_ice_line_with_address(&HIDDEN[1..], &at, &mut text, &mut length);
    assert!(bare == abi::BAD_CANDIDATE);
    let unread = is_ice_line_with_address(b"\xff", &at, &mut text, &mut length);
    assert!(unread == abi::NOT_UTF8);
    at.family = 5;
    let unknown = is_ice_line_with_address(HIDDEN, &at, &mut text, &mut length);
    assert!(unknown == abi::BAD_ADDRESS);
}

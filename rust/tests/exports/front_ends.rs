//! What front ends ask so that they decide nothing themselves: grammars, counts, times, MACs, and fields of candidates however read.

use super::fields::{HIDDEN, HOST, no_fields, starts_with};
use super::{REQUEST, address};
use crate::abi::{
    self, is_ice_check_text, is_ice_fields_line, is_ice_hmac_sha1, is_ice_is_stun, is_ice_json_fields, is_ice_line_with_address_fields,
    is_ice_line_with_ufrag_fields, is_ice_retransmit_delay, is_ice_retransmit_timeout, is_ice_role, is_ice_username_parts,
};

const UFRAG: u8 = 0;

const PASS: u8 = 1;

const FOUNDATION: u8 = 2;

#[test]
fn texts_are_in_the_grammar_of_signaling() {
    // The credentials of RFC 8839, section 5.6.
    assert!(is_ice_check_text(UFRAG, b"8hhY") == abi::OK);
    assert!(is_ice_check_text(PASS, b"asd88fgpdd777uzjYhagZg") == abi::OK);
    assert!(is_ice_check_text(UFRAG, b"8hh") == abi::NOTHING);
    assert!(is_ice_check_text(PASS, b"asd88fgpdd777uzjYhagZ") == abi::NOTHING);
    assert!(is_ice_check_text(UFRAG, b"8h Y") == abi::NOTHING);
    assert!(is_ice_check_text(UFRAG, b"8h-Y") == abi::NOTHING);
    assert!(is_ice_check_text(UFRAG, b"az09AZ+/") == abi::OK);
    assert!(is_ice_check_text(UFRAG, &[b'a'; 256]) == abi::OK);
    assert!(is_ice_check_text(UFRAG, &[b'a'; 257]) == abi::NOTHING);
    assert!(is_ice_check_text(PASS, &[b'a'; 257]) == abi::NOTHING);
    assert!(is_ice_check_text(FOUNDATION, &[b'1'; 32]) == abi::OK);
    assert!(is_ice_check_text(FOUNDATION, &[b'1'; 33]) == abi::NOTHING);
    assert!(is_ice_check_text(FOUNDATION, b"") == abi::NOTHING);
    assert!(is_ice_check_text(3, b"8hhY") == abi::NOTHING);
}

#[test]
fn retransmissions_have_times() {
    let mut time = 7;
    // The RTO doubles with each check up to 3 s (RFC 8489, section 6.2.1): after the second to the ninth check 0.5, 1, 2 and five times
    // 3 s, and the last one again.
    let returned = is_ice_retransmit_timeout(250_000_000, 3_000_000_000, 9, &mut time);
    assert!(returned == abi::OK);
    assert!(time == 21_500_000_000);
    let none = is_ice_retransmit_timeout(250_000_000, 3_000_000_000, 0, &mut time);
    assert!(none == abi::BAD_LIMIT);
    assert!(time == 21_500_000_000);
    let returned = is_ice_retransmit_delay(250_000_000, 3_000_000_000, 9, 3, &mut time);
    assert!(returned == abi::OK);
    assert!(time == 1_000_000_000);
    let returned = is_ice_retransmit_delay(250_000_000, 3_000_000_000, 9, 0, &mut time);
    assert!(returned == abi::OK);
    assert!(time == 0);
}

#[test]
fn stun_is_not_media() {
    let mut bytes = REQUEST;
    assert!(is_ice_is_stun(&bytes) == abi::OK);
    assert!(is_ice_is_stun(&bytes[..20]) == abi::OK);
    assert!(is_ice_is_stun(&bytes[..19]) == abi::NOTHING);
    bytes[0] = 64;
    assert!(is_ice_is_stun(&bytes) == abi::NOTHING);
    bytes[0] = 63;
    bytes[7] = 0x43;
    assert!(is_ice_is_stun(&bytes) == abi::NOTHING);
}

#[test]
fn the_offer_decides_unless_one_side_is_lite() {
    // RFC 8445, section 6.1.1.
    assert!(is_ice_role(true, false, false) == abi::OK);
    assert!(is_ice_role(false, false, false) == abi::NOTHING);
    assert!(is_ice_role(false, false, true) == abi::OK);
    assert!(is_ice_role(true, true, false) == abi::NOTHING);
    assert!(is_ice_role(true, true, true) == abi::OK);
}

#[test]
fn a_mac_is_that_of_rfc_2202() {
    let mut mac = [0; 21];
    let mut length = 0;
    let text = b"what do ya want for nothing?";
    let short = is_ice_hmac_sha1(b"Jefe", text, &mut mac[..19], &mut length);
    assert!(short == abi::BUFFER_TOO_SHORT);
    let made = is_ice_hmac_sha1(b"Jefe", text, &mut mac, &mut length);
    assert!(made == abi::OK);
    assert!(length == 20);
    assert!(mac[..4] == [0xef, 0xfc, 0xdf, 0x6a]);
    assert!(mac[16..] == [0x25, 0x9a, 0x7c, 0x79, 0]);
}

#[test]
fn a_username_has_two_parts() {
    let mut receiver = 9;
    // The USERNAME of RFC 5769, section 2.1.
    let returned = is_ice_username_parts(b"evtj:h6vY", &mut receiver);
    assert!(returned == abi::OK);
    assert!(receiver == 4);
    let half = is_ice_username_parts(b"evtjh6vY:", &mut receiver);
    assert!(half == abi::NOTHING);
    let unread = is_ice_username_parts(b"\xff:a", &mut receiver);
    assert!(unread == abi::NOT_UTF8);
    assert!(receiver == 4);
}

#[test]
fn a_candidate_has_fields_however_it_is_read() {
    let mut text = [0; 120];
    let mut length = 0;
    let mut fields = no_fields();
    let json = b"{\"candidate\":\"candidate:1 1 udp 7 192.0.2.9 9 typ host\",\"usernameFragment\":\"EsAw\"}";
    let read = is_ice_json_fields(json, &mut text, &mut length, &mut fields);
    assert!(read == abi::OK);
    assert!(fields.priority == 7);
    assert!(fields.ufrag_length == 4);
    let given = fields;
    let written = is_ice_fields_line(&given, b"a+/1", &mut text, &mut length, &mut fields);
    assert!(written == abi::OK);
    assert!(text[..length] == b"candidate:a+/1 1 udp 7 192.0.2.9 9 typ host"[..]);
    assert!(fields.ufrag_length == 0);
    assert!(fields.foundation_length == 4);
    let mut resolved = address(7, 0);
    let read = is_ice_line_with_address_fields(HIDDEN, &resolved, &mut text, &mut length, &mut fields);
    assert!(read == abi::OK);
    assert!(fields.address.port == 54596);
    assert!(starts_with(&fields.address, [10, 0, 0, 7]));
    let named = is_ice_line_with_ufrag_fields(HOST, b"EsAwE", &mut text, &mut length, &mut fields);
    assert!(named == abi::OK);
    assert!(fields.address.port == 44323);
    assert!(fields.ufrag_length == 5);
    resolved.family = 5;
    let bad = is_ice_line_with_address_fields(HIDDEN, &resolved, &mut text, &mut length, &mut fields);
    assert!(bad == abi::BAD_ADDRESS);
    assert!(fields.ufrag_length == 5);
}

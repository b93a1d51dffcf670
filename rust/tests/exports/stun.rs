//! STUN messages, read strictly and leniently, and their USERNAME.

use super::{REPLY, REQUEST, address};
use crate::abi::{
    self, StunMessage, StunNumber, StunSpan, StunTexts, StunTransaction, is_ice_stun_read, is_ice_stun_read_strict, is_ice_stun_username,
    is_ice_stun_write,
};

// A server's response to a Binding request without credentials: XOR-MAPPED-ADDRESS (RFC 5769, section 2.2), and no
// MESSAGE-INTEGRITY.
const PLAIN: [u8; 32] = [
    0x01, 0x01, 0x00, 0x0c, 0x21, 0x12, 0xa4, 0x42, 0xb7, 0xe7, 0xa7, 0x01, 0xbc, 0x34, 0xd6, 0x86, 0xfa, 0x87, 0xdf, 0xae, 0x00, 0x20,
    0x00, 0x08, 0x00, 0x01, 0xa1, 0x47, 0xe1, 0x12, 0xa6, 0x43,
];

// An Allocate request with USERNAME "a:", and one with USERNAME "ab:c:d" (RFC 8489, sections 5 and 14.3).
const NO_SENDER: [u8; 28] =
    [0x00, 0x03, 0x00, 0x08, 0x21, 0x12, 0xa4, 0x42, 1, 2, 3, 4, 5, 6, 7, 8, 9, 10, 11, 12, 0x00, 0x06, 0x00, 0x02, b'a', b':', 0, 0];

const TWO_COLONS: [u8; 32] = [
    0x00, 0x03, 0x00, 0x0c, 0x21, 0x12, 0xa4, 0x42, 1, 2, 3, 4, 5, 6, 7, 8, 9, 10, 11, 12, 0x00, 0x06, 0x00, 0x06, b'a', b'b', b':', b'c',
    b':', b'd', 0, 0,
];

fn number() -> StunNumber {
    StunNumber { value: 9, is_set: true }
}

pub(super) fn no_message() -> StunMessage {
    StunMessage {
        priority: number(),
        controlled: number(),
        controlling: number(),
        error_code: number(),
        lifetime: number(),
        channel_number: number(),
        network_id: number(),
        network_cost: number(),
        nomination: number(),
        mapped: address(9, 9),
        peer: address(9, 9),
        relayed: address(9, 9),
        id: StunTransaction { bytes: [9; 12] },
        method: 9,
        cls: 9,
        use_candidate: true,
        has_integrity: true,
        has_fingerprint: true,
        requested_transport: 9,
        requested_family: 9,
    }
}

#[test]
fn a_message_is_read_strictly_or_not() {
    let mut message = no_message();
    let strict = is_ice_stun_read_strict(&PLAIN, &mut message);
    assert!(strict == abi::UNPARSED);
    assert!(message.method == 9);
    assert!(message.cls == 9);
    let lenient = is_ice_stun_read(&PLAIN, &mut message);
    assert!(lenient == abi::OK);
    assert!(message.cls == 2);
    assert!(message.mapped.port == 32853);
    assert!(message.requested_transport == 0);
    assert!(message.requested_family == 0);
}

#[test]
fn what_ice_sends_is_read_strictly() {
    let mut message = no_message();
    let strict = is_ice_stun_read_strict(&REPLY, &mut message);
    assert!(strict == abi::OK);
    assert!(message.has_integrity);
    let strict = is_ice_stun_read_strict(&REQUEST, &mut message);
    assert!(strict == abi::OK);
    assert!(message.cls == 0);
    assert!(message.use_candidate);
    // What it does not have is zero.
    assert!(!message.lifetime.is_set);
    assert!(message.lifetime.value == 0);
    assert!(message.mapped.family == 0);
    let cut = is_ice_stun_read_strict(&REQUEST[..99], &mut message);
    assert!(cut == abi::UNPARSED);
    assert!(message.cls == 0);
}

pub(super) fn no_texts() -> StunTexts {
    let none = StunSpan { start: 0, length: 0, is_set: false };
    StunTexts { username: none, reason: none, data: none, realm: none, nonce: none, software: none }
}

// NOMINATION is the type 0xC001, the length 4 and the number (draft-thatcher-ice-renomination).
#[test]
fn a_nomination_has_a_number() {
    let mut message = no_message();
    let read = is_ice_stun_read(&PLAIN, &mut message);
    assert!(read == abi::OK);
    assert!(!message.nomination.is_set);
    assert!(message.nomination.value == 0);
    message.nomination = StunNumber { value: 0x12345678, is_set: true };
    let mut written = [7; 49];
    let mut length = 5;
    let code = is_ice_stun_write(&message, &no_texts(), b"", b"", &mut written, &mut length);
    assert!(code == abi::OK);
    assert!(length == 48);
    assert!(written[20..32] == PLAIN[20..]);
    assert!(written[32..40] == [0xc0, 0x01, 0x00, 0x04, 0x12, 0x34, 0x56, 0x78][..]);
    message.nomination.value = 0;
    let read = is_ice_stun_read(&written[..length], &mut message);
    assert!(read == abi::OK);
    assert!(message.nomination.is_set);
    assert!(message.nomination.value == 0x12345678);
}

#[test]
fn the_number_of_a_nomination_has_32_bits() {
    let mut message = no_message();
    let mut written = [7; 49];
    let mut length = 48;
    let read = is_ice_stun_read(&PLAIN, &mut message);
    assert!(read == abi::OK);
    message.nomination = StunNumber { value: 0x100000000, is_set: true };
    let code = is_ice_stun_write(&message, &no_texts(), b"", b"", &mut written, &mut length);
    assert!(code == abi::BAD_MESSAGE);
    assert!(length == 48);
}

#[test]
fn a_username_names_receiver_and_sender() {
    let mut text = [7; 9];
    let mut length = 5;
    let mut receiver = 5;
    let short = is_ice_stun_username(&REQUEST, &mut text[..8], &mut length, &mut receiver);
    assert!(short == abi::BUFFER_TOO_SHORT);
    assert!(length == 9);
    assert!(receiver == 4);
    assert!(text == [7; 9]);
    let named = is_ice_stun_username(&REQUEST, &mut text, &mut length, &mut receiver);
    assert!(named == abi::OK);
    assert!(text[..receiver] == b"p9KA"[..]);
    assert!(text[receiver + 1..length] == b"SQAt"[..]);
}

#[test]
fn the_first_colon_ends_the_receiver() {
    let mut text = [7; 9];
    let mut length = 5;
    let mut receiver = 5;
    let named = is_ice_stun_username(&TWO_COLONS, &mut text, &mut length, &mut receiver);
    assert!(named == abi::OK);
    assert!(length == 6);
    assert!(receiver == 2);
    let half = is_ice_stun_username(&NO_SENDER, &mut text, &mut length, &mut receiver);
    assert!(half == abi::NOTHING);
    assert!(length == 6);
    let none = is_ice_stun_username(&PLAIN, &mut text, &mut length, &mut receiver);
    assert!(none == abi::NOTHING);
    let unread = is_ice_stun_username(b"media", &mut text, &mut length, &mut receiver);
    assert!(unread == abi::UNPARSED);
    assert!(receiver == 2);
}

//! The lines of a log, and why a request gets no response.

use super::{REPLY, REQUEST, address, gathers, is_new, no_event, serves, signals};
use crate::abi::{
    self, Agent, Event, is_ice_agent_free, is_ice_agent_new, is_ice_event_line, is_ice_invalidate, is_ice_packet_kind, is_ice_packet_line,
    is_ice_removed_line, is_ice_set_remote_credentials, is_ice_unserved,
};
use crate::no_agent;

const PEER: &[u8] = b"candidate:1 1 udp 2130706175 10.0.0.2 2000 typ host";

/// Whether the line of the event is this one.
fn says(slot: &mut Agent, event: &Event, line: &[u8]) -> bool {
    let mut buffer = [0; 200];
    let mut length = 0;
    let code = is_ice_event_line(slot, event, &mut buffer, &mut length);
    code == abi::OK && buffer.get(..length) == Some(line)
}

/// An event of this kind, with the state Connected, on the path from 10.0.0.1:1000 to 10.0.0.2:2000.
fn event(kind: i32) -> Event {
    let mut event = no_event();
    event.kind = kind;
    event.state = 2;
    event.source = address(1, 1000);
    event.destination = address(2, 2000);
    event
}

#[test]
fn an_event_has_a_line() {
    let mut slot = no_agent();
    let mut buffer = [7; 8];
    let mut length = 9;
    let none = is_ice_event_line(&mut slot, &event(1), &mut buffer, &mut length);
    assert!(none == abi::NO_AGENT);
    assert!(is_new(&mut slot));
    assert!(says(&mut slot, &event(1), b"AAAA: session begins"));
    assert!(says(&mut slot, &event(2), b"AAAA: state Connected"));
    assert!(says(&mut slot, &event(3), b"AAAA: discovered 10.0.0.1:1000"));
    assert!(says(&mut slot, &event(4), b"AAAA: selected 10.0.0.1:1000 -> 10.0.0.2:2000"));
    assert!(says(&mut slot, &event(5), b"AAAA: silent 10.0.0.1:1000 -> 10.0.0.2:2000"));
    assert!(says(&mut slot, &event(6), b"AAAA: heard again 10.0.0.1:1000 -> 10.0.0.2:2000"));
    let unknown = is_ice_event_line(&mut slot, &event(7), &mut buffer, &mut length);
    assert!(unknown == abi::BAD_ADDRESS);
    assert!(length == 9);
    let short = is_ice_event_line(&mut slot, &event(1), &mut buffer, &mut length);
    assert!(short == abi::BUFFER_TOO_SHORT);
    assert!(length == 20);
    assert!(buffer == [7; 8]);
    is_ice_agent_free(&mut slot);
}

#[test]
fn a_removed_pair_has_a_line() {
    let mut slot = no_agent();
    let mut buffer = [0; 200];
    let mut length = 0;
    let own: &[u8] = b"candidate:1 1 udp 1 10.0.0.1 1000 typ host";
    assert!(serves(&mut slot));
    let none = is_ice_removed_line(&mut slot, 0, &mut buffer, &mut length);
    assert!(none == abi::NOTHING);
    assert!(signals(&mut slot, PEER).0 == abi::OK);
    let gone = is_ice_invalidate(&mut slot, own);
    assert!(gone == abi::OK);
    let said = is_ice_removed_line(&mut slot, 0, &mut buffer, &mut length);
    assert!(said == abi::OK);
    assert!(buffer.get(..length) == Some(b"p9KA: removed 10.0.0.1:1000 -> 10.0.0.2:2000 waiting, 0 checks sent, 0 answered: invalidated"));
    is_ice_agent_free(&mut slot);
}

#[test]
fn a_datagram_has_a_line() {
    let own = address(1, 1000);
    let peer = address(2, 2000);
    let mut slot = no_agent();
    let mut buffer = [0; 200];
    let mut length = 0;
    assert!(serves(&mut slot));
    let said = is_ice_packet_line(&mut slot, 0, &peer, &own, &REPLY, &mut buffer, &mut length);
    assert!(said == abi::OK);
    assert!(
        buffer.get(..length)
            == Some(b"p9KA: discarded Binding success response (response to no pending check) from 10.0.0.2:2000 at 10.0.0.1:1000")
    );
    let said = is_ice_packet_kind(&mut slot, 0, &peer, &own, &REPLY, &mut buffer, &mut length);
    assert!(said == abi::OK);
    assert!(buffer.get(..length) == Some(b"Binding success response (response to no pending check)"));
    let said = is_ice_packet_line(&mut slot, 0, &peer, &peer, &REQUEST, &mut buffer, &mut length);
    assert!(said == abi::OK);
    assert!(buffer.get(..length)
            == Some(
                b"p9KA: no response to Binding request (request to an address that no local candidate has) from 10.0.0.2:2000 at 10.0.0.2:2000"
            )
    );
    let said = is_ice_packet_kind(&mut slot, 0, &peer, &own, &REPLY[..9], &mut buffer, &mut length);
    assert!(said == abi::OK);
    assert!(buffer.get(..length) == Some(b"malformed STUN message"));
    let nowhere = is_ice_packet_line(&mut slot, 9, &peer, &own, &REPLY, &mut buffer, &mut length);
    assert!(nowhere == abi::BAD_ADDRESS);
    is_ice_agent_free(&mut slot);
}

#[test]
fn a_request_without_a_response_has_a_reason() {
    let own = address(1, 1000);
    let peer = address(2, 2000);
    let mut slot = no_agent();
    let none = is_ice_unserved(&mut slot, 0, &peer, &own, &REQUEST);
    assert!(none == abi::NO_AGENT);
    let made = is_ice_agent_new(&mut slot, b"p9KA", b"xJcE9AQAR7kczUDVOXRUCl", 1);
    assert!(made == abi::OK);
    let early = is_ice_unserved(&mut slot, 0, &peer, &own, &REQUEST);
    assert!(early == abi::UNSERVED_EARLY);
    let known = is_ice_set_remote_credentials(&mut slot, b"SQAt", b"x");
    assert!(known == abi::OK);
    let elsewhere = is_ice_unserved(&mut slot, 0, &peer, &own, &REQUEST);
    assert!(elsewhere == abi::UNSERVED_DESTINATION);
    assert!(gathers(&mut slot, 1).0 == abi::OK);
    let served = is_ice_unserved(&mut slot, 0, &peer, &own, &REQUEST);
    assert!(served == abi::OK);
    let cut = is_ice_unserved(&mut slot, 0, &peer, &own, &REQUEST[..99]);
    assert!(cut == abi::UNPARSED);
    let nowhere = is_ice_unserved(&mut slot, 9, &peer, &own, &REQUEST);
    assert!(nowhere == abi::BAD_ADDRESS);
    let stray = is_ice_unserved(&mut slot, 0, &peer, &own, &REPLY);
    assert!(stray == abi::OK);
    is_ice_agent_free(&mut slot);
}

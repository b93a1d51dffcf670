//! Pairs that were removed, and why.

use super::agent_settings::{consent_of, modern, original};
use super::selected::is_at;
use super::stun::no_texts;
use super::{REQUEST, address, host, no_packet, passes};
use crate::abi::{
    self, Address, Agent, AgentSettings, MediaPath, RemovedPair, StunMessage, StunNumber, StunTransaction, is_ice_add_local,
    is_ice_add_remote, is_ice_agent_free, is_ice_agent_new, is_ice_handle_packet, is_ice_handle_timeout, is_ice_invalidate,
    is_ice_poll_transmit, is_ice_removed_at, is_ice_removed_count, is_ice_restart, is_ice_set_controlling, is_ice_set_lite,
    is_ice_set_max_pairs, is_ice_set_remote_credentials, is_ice_set_settings, is_ice_stun_write,
};
use crate::no_agent;

const MS: u64 = 1_000_000;

const PEER: &[u8] = b"candidate:1 1 udp 2130706175 10.0.0.2 2000 typ host";

const OTHER: &[u8] = b"candidate:2 1 udp 2130706174 10.0.0.3 2000 typ host";

const NO_RESPONSE: i32 = 1;

const CONSENT_LOST: i32 = 2;

const PEER_SILENT: i32 = 3;

const EVICTED: i32 = 4;

const REPLACED: i32 = 5;

const INVALIDATED: i32 = 6;

fn own() -> Address {
    address(1, 1000)
}

fn peer() -> Address {
    address(2, 2000)
}

fn unset() -> RemovedPair {
    RemovedPair {
        priority: 9,
        checks_sent: 9,
        responses: 9,
        path: MediaPath { source: address(9, 9), destination: address(9, 9), protocol: 9 },
        state: 9,
        reason: 9,
        error: 9,
        has_path: false,
    }
}

fn is_unset(removed: &RemovedPair) -> bool {
    removed.priority == 9
        && removed.checks_sent == 9
        && removed.responses == 9
        && is_at(&removed.path.source, 9, 9)
        && is_at(&removed.path.destination, 9, 9)
        && removed.path.protocol == 9
        && removed.state == 9
        && removed.reason == 9
        && removed.error == 9
        && !removed.has_path
}

/// It was on the path over UDP from 10.0.0.1:1000 to port 2000 of 10.0.0.`last`, and was removed for this reason.
fn is_of(removed: &RemovedPair, last: u8, reason: i32) -> bool {
    removed.has_path
        && is_at(&removed.path.source, 1, 1000)
        && is_at(&removed.path.destination, last, 2000)
        && removed.path.protocol == 0
        && removed.reason == reason
}

/// A controlling agent at 10.0.0.1:1000, of a peer BBBB with the password QQQQ; by the original, with an RTO of 250 ms and two
/// checks at most, if `checks_twice`. Whether it was made.
fn begins(slot: &mut Agent, checks_twice: bool) -> bool {
    let mut index = 9;
    let made = is_ice_agent_new(slot, b"AAAA", b"PPPP", 1);
    let leads = is_ice_set_controlling(slot, true);
    let known = is_ice_set_remote_credentials(slot, b"BBBB", b"QQQQ");
    let added = is_ice_add_local(slot, &host(own()), &mut index);
    let mut set = abi::OK;
    if checks_twice {
        let settings = AgentSettings { initial_rto: 250 * MS, max_retransmits: 2, ..original() };
        set = is_ice_set_settings(slot, &settings);
    }
    made == abi::OK && leads == abi::OK && known == abi::OK && added == abi::OK && set == abi::OK
}

/// Makes a timeout, and returns whether a check went to the peer.
fn checks(slot: &mut Agent, now: u64, id: &[u8]) -> bool {
    let mut packet = no_packet();
    let mut buffer = [0; 200];
    let timed = is_ice_handle_timeout(slot, now, id);
    let sent = is_ice_poll_transmit(slot, &mut buffer, &mut packet);
    timed == abi::OK && sent == abi::OK && is_at(&packet.destination, 2, 2000)
}

/// Makes a timeout, and returns whether a pair was removed at it and at none before.
fn fails(slot: &mut Agent, now: u64) -> bool {
    let before = count(slot);
    let timed = is_ice_handle_timeout(slot, now, b"twelve third");
    before == 0 && timed == abi::OK && count(slot) == 1
}

/// Adds the candidate of this line. Whether it was added.
fn signals(slot: &mut Agent, line: &[u8]) -> bool {
    let mut index = 9;
    is_ice_add_remote(slot, line, &mut index) == abi::OK
}

/// The removed pair with this index; the unset one if there is none.
fn removed_at(slot: &mut Agent, index: usize) -> RemovedPair {
    let mut removed = unset();
    match is_ice_removed_at(slot, index, &mut removed) {
        abi::OK => removed,
        _ => unset(),
    }
}

fn count(slot: &mut Agent) -> usize {
    let mut count = 99;
    match is_ice_removed_count(slot, &mut count) {
        abi::OK => count,
        _ => 98,
    }
}

// The RTO of 250 ms doubles with each check (RFC 8489, section 6.2.1): the second one at 250 ms fails at 750 ms.
#[test]
fn a_pair_without_a_response_is_removed() {
    let mut slot = no_agent();
    assert!(begins(&mut slot, true));
    assert!(signals(&mut slot, PEER));
    assert!(checks(&mut slot, 0, b"twelve bytes"));
    assert!(checks(&mut slot, 250 * MS, b"twelve other"));
    assert!(fails(&mut slot, 750 * MS));
    let removed = removed_at(&mut slot, 0);
    assert!(is_of(&removed, 2, NO_RESPONSE));
    assert!(removed.checks_sent == 2);
    assert!(removed.responses == 0);
    assert!(removed.state == 1);
    assert!(removed.error == 0);
    // Both candidates have the priority 2130706175 (RFC 8445, section 6.1.2.3).
    assert!(removed.priority == (2130706175 << 32) + 2 * 2130706175);
    // An ICE restart forgets it.
    let again = is_ice_restart(&mut slot, b"CCCC", b"RRRR", true);
    assert!(again == abi::OK);
    assert!(count(&mut slot) == 0);
    is_ice_agent_free(&mut slot);
}

/// An error response to the check with the ID "twelve bytes".
fn error_response(code: u64) -> StunMessage {
    let none = StunNumber { value: 0, is_set: false };
    let nowhere = Address { family: 0, bytes: [0; 16], port: 0, flow: 0, scope: 0 };
    StunMessage {
        priority: none,
        controlled: none,
        controlling: none,
        error_code: StunNumber { value: code, is_set: true },
        lifetime: none,
        channel_number: none,
        network_id: none,
        network_cost: none,
        nomination: none,
        mapped: nowhere,
        peer: nowhere,
        relayed: nowhere,
        id: StunTransaction { bytes: *b"twelve bytes" },
        method: 1,
        cls: 3,
        use_candidate: false,
        has_integrity: true,
        has_fingerprint: true,
        requested_transport: 0,
        requested_family: 0,
    }
}

/// The peer with the password QQQQ responds to the agent. Whether its message was accepted.
fn responds(slot: &mut Agent, now: u64, message: &StunMessage) -> bool {
    let mut buffer = [0; 100];
    let mut length = 0;
    let wrote = is_ice_stun_write(message, &no_texts(), b"", b"QQQQ", &mut buffer, &mut length);
    let bytes = buffer.get(..length).unwrap_or(&[]);
    let taken = is_ice_handle_packet(slot, now, 0, &peer(), &own(), bytes);
    wrote == abi::OK && taken == abi::OK
}

#[test]
fn an_error_response_leaves_its_code() {
    let mut slot = no_agent();
    assert!(begins(&mut slot, true));
    assert!(signals(&mut slot, PEER));
    assert!(checks(&mut slot, 0, b"twelve bytes"));
    assert!(responds(&mut slot, 10 * MS, &error_response(400)));
    assert!(checks(&mut slot, 250 * MS, b"twelve other"));
    assert!(fails(&mut slot, 750 * MS));
    let removed = removed_at(&mut slot, 0);
    assert!(is_of(&removed, 2, NO_RESPONSE));
    assert!(removed.error == 400);
    assert!(removed.checks_sent == 2);
    assert!(removed.responses == 0);
    is_ice_agent_free(&mut slot);
}

/// A controlled agent at 10.0.0.2:2000, whose peer is AAAA with the password PPPP. Whether it was made.
fn is_peer(slot: &mut Agent) -> bool {
    let mut index = 9;
    let made = is_ice_agent_new(slot, b"BBBB", b"QQQQ", 2);
    let known = is_ice_set_remote_credentials(slot, b"AAAA", b"PPPP");
    let added = is_ice_add_local(slot, &host(peer()), &mut index);
    made == abi::OK && known == abi::OK && added == abi::OK
}

// RFC 7675, section 5.1, has 30 s at most.
#[test]
fn a_pair_that_lost_consent_is_removed() {
    let mut near = no_agent();
    let mut far = no_agent();
    assert!(begins(&mut near, false));
    assert!(is_peer(&mut far));
    assert!(signals(&mut near, PEER));
    let begun = is_ice_handle_timeout(&mut near, 0, b"twelve bytes");
    assert!(begun == abi::OK);
    assert!(passes(&mut near, &mut far, 10 * MS));
    assert!(passes(&mut far, &mut near, 20 * MS));
    let end = consent_of(&mut near);
    assert!(end < 30_000 * MS);
    assert!(checks(&mut near, end - MS, b"twelve other"));
    assert!(fails(&mut near, end));
    let removed = removed_at(&mut near, 0);
    assert!(is_of(&removed, 2, CONSENT_LOST));
    assert!(removed.checks_sent == 2);
    assert!(removed.responses == 1);
    assert!(removed.state == 2);
    assert!(removed.error == 0);
    is_ice_agent_free(&mut near);
    is_ice_agent_free(&mut far);
}

/// An agent that the request is for, at 10.0.0.1:1000. Whether it took the request at the time 0.
fn is_asked(slot: &mut Agent, lite: bool) -> bool {
    let mut index = 9;
    let made = is_ice_agent_new(slot, b"p9KA", b"xJcE9AQAR7kczUDVOXRUCl", 1);
    let set = is_ice_set_lite(slot, lite);
    let known = is_ice_set_remote_credentials(slot, b"SQAt", b"x");
    let added = is_ice_add_local(slot, &host(own()), &mut index);
    let taken = is_ice_handle_packet(slot, 0, 0, &peer(), &own(), &REQUEST);
    made == abi::OK && set == abi::OK && known == abi::OK && added == abi::OK && taken == abi::OK
}

#[test]
fn a_lite_agent_removes_the_pair_of_a_silent_peer() {
    let mut slot = no_agent();
    assert!(is_asked(&mut slot, true));
    let kept = is_ice_handle_timeout(&mut slot, modern().lite_timeout - MS, b"twelve bytes");
    assert!(kept == abi::OK);
    assert!(fails(&mut slot, modern().lite_timeout));
    let removed = removed_at(&mut slot, 0);
    assert!(is_of(&removed, 2, PEER_SILENT));
    assert!(removed.checks_sent == 0);
    assert!(removed.responses == 0);
    is_ice_agent_free(&mut slot);
}

// The request comes before its candidate is signaled, whose priority is greater than that of the request.
#[test]
fn a_signaled_candidate_replaces_a_pair() {
    let mut slot = no_agent();
    assert!(is_asked(&mut slot, false));
    assert!(count(&mut slot) == 0);
    assert!(signals(&mut slot, PEER));
    assert!(count(&mut slot) == 1);
    let removed = removed_at(&mut slot, 0);
    assert!(is_of(&removed, 2, REPLACED));
    assert!(removed.checks_sent == 0);
    is_ice_agent_free(&mut slot);
}

/// The better of two pairs evicted the other one, and was then invalidated. Whether all that was done.
fn evicts(slot: &mut Agent) -> bool {
    let limited = is_ice_set_max_pairs(slot, 1);
    let added = signals(slot, OTHER) && signals(slot, PEER);
    let gone = is_ice_invalidate(slot, PEER);
    limited == abi::OK && added && gone == abi::OK
}

#[test]
fn removed_pairs_are_in_the_order_of_their_removal() {
    let mut slot = no_agent();
    assert!(begins(&mut slot, false));
    assert!(evicts(&mut slot));
    assert!(count(&mut slot) == 2);
    let first = removed_at(&mut slot, 0);
    assert!(is_of(&first, 3, EVICTED));
    assert!(first.checks_sent == 0);
    assert!(first.state == 0);
    // The local candidate, of the controlling agent, has a priority that is greater by 1 (RFC 8445, section 6.1.2.3).
    assert!(first.priority == (2130706174 << 32) + 2 * 2130706175 + 1);
    let second = removed_at(&mut slot, 1);
    assert!(is_of(&second, 2, INVALIDATED));
    is_ice_agent_free(&mut slot);
}

#[test]
fn past_the_last_there_is_none() {
    let mut slot = no_agent();
    let mut removed = unset();
    assert!(begins(&mut slot, false));
    assert!(evicts(&mut slot));
    let past = is_ice_removed_at(&mut slot, 2, &mut removed);
    assert!(past == abi::NOTHING);
    let past = is_ice_removed_at(&mut slot, usize::MAX, &mut removed);
    assert!(past == abi::NOTHING);
    assert!(is_unset(&removed));
    is_ice_agent_free(&mut slot);
}

#[test]
fn no_agent_has_removed_pairs() {
    let mut slot = no_agent();
    let mut removed = unset();
    let mut count = 7;
    let none = is_ice_removed_count(&mut slot, &mut count);
    assert!(none == abi::NO_AGENT);
    assert!(count == 7);
    let none = is_ice_removed_at(&mut slot, 0, &mut removed);
    assert!(none == abi::NO_AGENT);
    assert!(is_unset(&removed));
}

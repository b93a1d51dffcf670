//! Requests that arrive before the remote credentials, and the deadline that a slot keeps.

use super::agent_settings::original;
use super::{REQUEST, address, host, no_packet};
use crate::abi::{
    self, Agent, is_ice_add_local, is_ice_add_remote, is_ice_agent_free, is_ice_agent_new, is_ice_early_count, is_ice_handle_packet,
    is_ice_handle_timeout, is_ice_poll_timeout, is_ice_poll_transmit, is_ice_set_remote_credentials, is_ice_set_settings,
};
use crate::no_agent;

const MS: u64 = 1_000_000;

/// How many early requests wait; 98 if there is no agent, and 97 if the count was written all the same.
fn count(slot: &mut Agent) -> usize {
    let mut count = 98;
    match is_ice_early_count(slot, &mut count) {
        abi::OK => count,
        abi::NO_AGENT => count,
        _ => 97,
    }
}

/// When to call `is_ice_handle_timeout` next; 98 if there is no such time or no agent. The second query returns the same.
fn deadline(slot: &mut Agent) -> u64 {
    let mut at = 98;
    let mut again = 98;
    let code = is_ice_poll_timeout(slot, &mut at);
    let same = is_ice_poll_timeout(slot, &mut again);
    if code == same && at == again { at } else { 97 }
}

/// A request of a peer SQAt arrives at 10.0.0.1:1000 from this port of 10.0.0.2. Whether it was accepted.
pub(super) fn takes(slot: &mut Agent, now: u64, port: u16) -> bool {
    let peer = address(2, port);
    let own = address(1, 1000);
    is_ice_handle_packet(slot, now, 0, &peer, &own, &REQUEST) == abi::OK
}

fn times_out(slot: &mut Agent, now: u64) -> bool {
    is_ice_handle_timeout(slot, now, b"twelve bytes") == abi::OK
}

/// The port to which the next packet goes; 0 if there is none.
pub(super) fn sent_to(slot: &mut Agent) -> u16 {
    let mut packet = no_packet();
    let mut buffer = [0; 200];
    match is_ice_poll_transmit(slot, &mut buffer, &mut packet) {
        abi::OK => packet.destination.port,
        _ => 0,
    }
}

fn begins(slot: &mut Agent) -> bool {
    let mut index = 9;
    let made = is_ice_agent_new(slot, b"p9KA", b"xJcE9AQAR7kczUDVOXRUCl", 1);
    let added = is_ice_add_local(slot, &host(address(1, 1000)), &mut index);
    made == abi::OK && added == abi::OK
}

#[test]
fn each_timeout_serves_an_early_request() {
    let mut slot = no_agent();
    assert!(count(&mut slot) == 98);
    assert!(begins(&mut slot));
    assert!(count(&mut slot) == 0);
    assert!(takes(&mut slot, 0, 2000));
    assert!(takes(&mut slot, 0, 2001));
    assert!(count(&mut slot) == 2);
    // The credentials are not known yet.
    assert!(times_out(&mut slot, 0));
    assert!(count(&mut slot) == 2);
    assert!(sent_to(&mut slot) == 0);
    let known = is_ice_set_remote_credentials(&mut slot, b"SQAt", b"x");
    assert!(known == abi::OK);
    assert!(times_out(&mut slot, MS));
    assert!(count(&mut slot) == 1);
    assert!(times_out(&mut slot, MS));
    assert!(count(&mut slot) == 0);
    assert!(sent_to(&mut slot) == 2000);
    assert!(sent_to(&mut slot) == 2001);
    assert!(sent_to(&mut slot) == 0);
    is_ice_agent_free(&mut slot);
}

#[test]
fn without_credentials_nothing_is_due() {
    let mut slot = no_agent();
    assert!(deadline(&mut slot) == 98);
    assert!(begins(&mut slot));
    assert!(deadline(&mut slot) == 98);
    assert!(times_out(&mut slot, 0));
    assert!(deadline(&mut slot) == 98);
    let mut index = 9;
    let line = b"candidate:1 1 UDP 2130706431 10.0.0.2 2001 typ host";
    assert!(is_ice_add_remote(&mut slot, line, &mut index) == abi::OK);
    assert!(takes(&mut slot, 10 * MS, 2000));
    assert!(deadline(&mut slot) == 98);
    let known = is_ice_set_remote_credentials(&mut slot, b"SQAt", b"x");
    assert!(known == abi::OK);
    assert!(deadline(&mut slot) == 5 * MS);
    is_ice_agent_free(&mut slot);
}

#[test]
fn each_call_moves_the_deadline_up() {
    let mut slot = no_agent();
    assert!(begins(&mut slot));
    let known = is_ice_set_remote_credentials(&mut slot, b"SQAt", b"x");
    assert!(known == abi::OK);
    // There is nothing to check.
    assert!(times_out(&mut slot, 0));
    assert!(deadline(&mut slot) == 3_000 * MS);
    // A request that is not accepted changes nothing.
    let peer = address(2, 2000);
    let other = address(3, 1000);
    let taken = is_ice_handle_packet(&mut slot, MS, 0, &peer, &other, &REQUEST[..99]);
    assert!(taken == abi::UNPARSED);
    assert!(deadline(&mut slot) == 3_000 * MS);
    // A pair is due.
    assert!(takes(&mut slot, 10 * MS, 2000));
    assert!(deadline(&mut slot) == 5 * MS);
    assert!(sent_to(&mut slot) == 2000);
    assert!(deadline(&mut slot) == 5 * MS);
    // Its check was sent, and nothing is due before it is repeated, whether or not it was polled.
    assert!(times_out(&mut slot, 10 * MS));
    assert!(deadline(&mut slot) == 110 * MS);
    assert!(sent_to(&mut slot) == 2000);
    assert!(deadline(&mut slot) == 110 * MS);
    // Another candidate.
    let mut index = 9;
    let line = b"candidate:1 1 UDP 2130706431 10.0.0.2 2001 typ host";
    assert!(is_ice_add_remote(&mut slot, line, &mut index) == abi::OK);
    assert!(deadline(&mut slot) == 15 * MS);
    assert!(times_out(&mut slot, 15 * MS));
    assert!(sent_to(&mut slot) == 2001);
    assert!(deadline(&mut slot) == 110 * MS);
    is_ice_agent_free(&mut slot);
}

#[test]
fn early_requests_are_served_without_delay() {
    let mut slot = no_agent();
    assert!(begins(&mut slot));
    assert!(takes(&mut slot, 0, 2000));
    assert!(takes(&mut slot, 0, 2001));
    assert!(times_out(&mut slot, 0));
    let known = is_ice_set_remote_credentials(&mut slot, b"SQAt", b"x");
    assert!(known == abi::OK);
    assert!(deadline(&mut slot) == 5 * MS);
    assert!(times_out(&mut slot, 5 * MS));
    assert!(deadline(&mut slot) == 5 * MS);
    assert!(times_out(&mut slot, 5 * MS));
    assert!(count(&mut slot) == 0);
    assert!(deadline(&mut slot) == 5 * MS);
    // Then a check of its own is sent.
    assert!(times_out(&mut slot, 5 * MS));
    assert!(deadline(&mut slot) == 15 * MS);
    is_ice_agent_free(&mut slot);
}

#[test]
fn the_original_is_polled() {
    let mut slot = no_agent();
    assert!(begins(&mut slot));
    assert!(is_ice_set_settings(&mut slot, &original()) == abi::OK);
    let known = is_ice_set_remote_credentials(&mut slot, b"SQAt", b"x");
    assert!(known == abi::OK);
    assert!(times_out(&mut slot, 0));
    assert!(deadline(&mut slot) == 3_000 * MS);
    // A response waits to be sent.
    assert!(takes(&mut slot, 10 * MS, 2000));
    assert!(deadline(&mut slot) == original().timing_advance);
    is_ice_agent_free(&mut slot);
}

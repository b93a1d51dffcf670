//! The selected path and that of a valid pair, and what a new agent begins with.

use super::agent_settings::{consent_of, modern, status_of};
use super::{address, host, no_event, passes};
use crate::abi::{
    self, Address, Agent, Event, MediaPath, NominatedPair, is_ice_add_local, is_ice_add_remote, is_ice_agent_free, is_ice_agent_new,
    is_ice_handle_timeout, is_ice_nominated, is_ice_poll_event, is_ice_restart, is_ice_retransmit_timeout, is_ice_set_controlling,
    is_ice_set_remote_credentials, is_ice_valid_path,
};
use crate::no_agent;

fn no_path() -> NominatedPair {
    NominatedPair { source: address(9, 9), destination: address(9, 9), total_rtt: 9, responses: 9, rtt: 9, protocol: 9, has_rtt: false }
}

fn no_media() -> MediaPath {
    MediaPath { source: address(9, 9), destination: address(9, 9), protocol: 9 }
}

/// A controlling agent at 10.0.0.1:1000, which knows the candidate of a controlled one at 10.0.0.2:2000. Its session began at 0.
/// Whether all was done.
pub(super) fn begin(near: &mut Agent, far: &mut Agent) -> bool {
    is_leading(near) && is_led(far) && starts(near)
}

fn is_leading(near: &mut Agent) -> bool {
    let mut index = 9;
    let made = is_ice_agent_new(near, b"AAAA", b"PPPP", 1);
    let leads = is_ice_set_controlling(near, true);
    let known = is_ice_set_remote_credentials(near, b"BBBB", b"QQQQ");
    let added = is_ice_add_local(near, &host(address(1, 1000)), &mut index);
    made == abi::OK && leads == abi::OK && known == abi::OK && added == abi::OK
}

fn is_led(far: &mut Agent) -> bool {
    let mut index = 9;
    let made = is_ice_agent_new(far, b"BBBB", b"QQQQ", 2);
    let known = is_ice_set_remote_credentials(far, b"AAAA", b"PPPP");
    let added = is_ice_add_local(far, &host(address(2, 2000)), &mut index);
    made == abi::OK && known == abi::OK && added == abi::OK
}

fn starts(near: &mut Agent) -> bool {
    let mut index = 9;
    let line = b"candidate:1 1 udp 2130706175 10.0.0.2 2000 typ host";
    let added = is_ice_add_remote(near, line, &mut index);
    added == abi::OK && times_out(near, 0)
}

pub(super) fn times_out(slot: &mut Agent, now: u64) -> bool {
    is_ice_handle_timeout(slot, now, b"twelve bytes") == abi::OK
}

/// The selected pair. Without one its protocol is 9.
fn selected(slot: &mut Agent) -> NominatedPair {
    let mut path = no_path();
    match is_ice_nominated(slot, &mut path) {
        abi::OK => path,
        _ => no_path(),
    }
}

/// The path of a valid pair. Without one its protocol is 9.
fn valid(slot: &mut Agent) -> MediaPath {
    let mut path = no_media();
    match is_ice_valid_path(slot, &mut path) {
        abi::OK => path,
        _ => no_media(),
    }
}

/// The event after two others, those of the start and of the state; of the kind 0 if there is none.
fn third_event(slot: &mut Agent) -> Event {
    let mut event = no_event();
    let first = is_ice_poll_event(slot, &mut event);
    let second = is_ice_poll_event(slot, &mut event);
    let third = is_ice_poll_event(slot, &mut event);
    if first == abi::OK && second == abi::OK && third == abi::OK { event } else { no_event() }
}

#[test]
fn the_selected_path_is_reported() {
    let mut near = no_agent();
    let mut far = no_agent();
    assert!(begin(&mut near, &mut far));
    assert!(selected(&mut near).protocol == 9);
    assert!(passes(&mut near, &mut far, 10_000_000));
    assert!(passes(&mut far, &mut near, 30_000_000));
    // Also before the event is polled, and after a call that selects nothing.
    assert!(selected(&mut near).protocol == 0);
    assert!(times_out(&mut near, 1_000_000_000));
    let path = selected(&mut near);
    assert!(path.protocol == 0);
    assert!(is_at(&path.source, 1, 1000));
    assert!(is_at(&path.destination, 2, 2000));
    assert!(path.responses == 1);
    assert!(path.rtt == 30_000_000);
    assert!(path.has_rtt);
    let event = third_event(&mut near);
    assert!(event.kind == 4);
    assert!(is_at(&event.source, 1, 1000));
    assert!(is_at(&event.destination, 2, 2000));
    let again = is_ice_restart(&mut near, b"CCCC", b"RRRR", true);
    assert!(again == abi::OK);
    assert!(selected(&mut near).protocol == 9);
    is_ice_agent_free(&mut near);
    is_ice_agent_free(&mut far);
}

#[test]
fn the_path_of_a_valid_pair_is_reported() {
    let mut near = no_agent();
    let mut far = no_agent();
    assert!(begin(&mut near, &mut far));
    assert!(valid(&mut near).protocol == 9);
    assert!(passes(&mut near, &mut far, 10_000_000));
    assert!(passes(&mut far, &mut near, 30_000_000));
    let path = valid(&mut near);
    assert!(path.protocol == 0);
    assert!(is_at(&path.source, 1, 1000));
    assert!(is_at(&path.destination, 2, 2000));
    is_ice_agent_free(&mut near);
    is_ice_agent_free(&mut far);
}

#[test]
fn no_agent_has_a_path() {
    let mut slot = no_agent();
    let mut path = no_path();
    let none = is_ice_nominated(&mut slot, &mut path);
    assert!(none == abi::NO_AGENT);
    assert!(path.protocol == 9);
}

pub(super) fn is_at(at: &Address, last: u8, port: u16) -> bool {
    at.family == 4 && at.bytes[0] == 10 && at.bytes[3] == last && at.port == port
}

// RFC 7675, section 5.1, has 30 s at most; browsers hold a path as long.
#[test]
fn a_new_agent_keeps_consent_for_nearly_thirty_seconds() {
    let mut slot = no_agent();
    let mut timeout = 0;
    let made = is_ice_agent_new(&mut slot, b"AAAA", b"PPPP", 1);
    assert!(made == abi::OK);
    assert!(29_000_000_000 < consent_of(&mut slot));
    assert!(consent_of(&mut slot) < 30_000_000_000);
    let settings = modern();
    let returned = is_ice_retransmit_timeout(settings.initial_rto, settings.max_rto, settings.max_retransmits, &mut timeout);
    assert!(returned == abi::OK);
    assert!(status_of(&mut slot).ice_timeout == timeout);
    is_ice_agent_free(&mut slot);
}

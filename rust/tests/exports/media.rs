//! The path for media through an ICE restart, silence of the selected path, and packets that could not be sent.

use super::agent_settings::consent_of;
use super::selected::{begin, is_at, times_out};
use super::{address, no_event, passes};
use crate::abi::{
    self, Address, Agent, FailedSend, MediaPath, is_ice_agent_free, is_ice_failed_send_at, is_ice_failed_send_count, is_ice_path_for_media,
    is_ice_poll_event, is_ice_poll_timeout, is_ice_restart, is_ice_send_failed, is_ice_set_silence, is_ice_silent_since,
    is_ice_takes_media_from,
};
use crate::no_agent;

/// When the response arrives that selects the path.
const SELECTED: u64 = 30_000_000;

/// Both agents, of which the first one has selected its path. Whether it has.
fn selects(near: &mut Agent, far: &mut Agent) -> bool {
    begin(near, far) && passes(near, far, 10_000_000) && passes(far, near, SELECTED)
}

/// The port to which media goes at this time; 9 if to none.
fn media_port(slot: &mut Agent, now: u64) -> u16 {
    let mut path = MediaPath { source: address(9, 9), destination: address(9, 9), protocol: 9 };
    let _code = is_ice_path_for_media(slot, now, &mut path);
    path.destination.port
}

fn takes_from(slot: &mut Agent, now: u64, source: &Address) -> bool {
    is_ice_takes_media_from(slot, now, source) == abi::OK
}

/// The kind of the last of all events that wait; 0 if none waits.
fn last_kind(slot: &mut Agent) -> i32 {
    let mut event = no_event();
    for _ in 0..9 {
        if is_ice_poll_event(slot, &mut event) != abi::OK {
            break;
        }
    }
    event.kind
}

/// When to call next; 0 if that is not known.
fn next_call(slot: &mut Agent) -> u64 {
    let mut at = 0;
    let _code = is_ice_poll_timeout(slot, &mut at);
    at
}

#[test]
fn media_goes_on_through_a_restart() {
    let mut near = no_agent();
    let mut far = no_agent();
    assert!(media_port(&mut near, 0) == 9);
    assert!(selects(&mut near, &mut far));
    assert!(media_port(&mut near, SELECTED) == 2000);
    assert!(takes_from(&mut near, SELECTED, &address(2, 2000)));
    assert!(!takes_from(&mut near, SELECTED, &address(3, 2000)));
    let again = is_ice_restart(&mut near, b"CCCC", b"RRRR", true);
    assert!(again == abi::OK);
    assert!(media_port(&mut near, SELECTED) == 2000);
    let end = SELECTED + consent_of(&mut near);
    assert!(media_port(&mut near, end - 1) == 2000);
    assert!(takes_from(&mut near, end - 1, &address(2, 2000)));
    assert!(media_port(&mut near, end) == 9);
    assert!(!takes_from(&mut near, end, &address(2, 2000)));
    let more = is_ice_restart(&mut near, b"DDDD", b"SSSS", true);
    assert!(more == abi::OK);
    assert!(media_port(&mut near, end - 1) == 2000);
    is_ice_agent_free(&mut near);
    is_ice_agent_free(&mut far);
}

#[test]
fn a_silent_path_is_reported_once() {
    let mut near = no_agent();
    let mut far = no_agent();
    let mut since = 0;
    assert!(is_ice_silent_since(&mut near, &mut since) == abi::NO_AGENT);
    assert!(selects(&mut near, &mut far));
    let returned = is_ice_silent_since(&mut near, &mut since);
    assert!(returned == abi::OK);
    assert!(since == SELECTED);
    assert!(times_out(&mut near, 5_029_999_999));
    assert!(last_kind(&mut near) != 5);
    assert!(next_call(&mut near) == 5_079_999_999);
    assert!(times_out(&mut near, 5_030_000_000));
    assert!(last_kind(&mut near) == 5);
    assert!(times_out(&mut near, 6_000_000_000));
    assert!(last_kind(&mut near) == 0);
    let set = is_ice_set_silence(&mut near, u64::MAX);
    assert!(set == abi::OK);
    assert!(times_out(&mut near, 7_000_000_000));
    assert!(last_kind(&mut near) == 0);
    let shorter = is_ice_set_silence(&mut near, 1_000_000_000);
    assert!(shorter == abi::OK);
    assert!(last_kind(&mut near) == 5);
    assert!(passes(&mut near, &mut far, 7_010_000_000));
    assert!(passes(&mut far, &mut near, 7_020_000_000));
    assert!(last_kind(&mut near) == 6);
    is_ice_agent_free(&mut near);
    is_ice_agent_free(&mut far);
}

fn no_failure() -> FailedSend {
    FailedSend { source: address(9, 9), destination: address(9, 9), times: 0, reason: 0, protocol: 9 }
}

/// Whether a packet to that port that could not be sent was noted.
fn fails(slot: &mut Agent, port: u16, reason: u32) -> bool {
    is_ice_send_failed(slot, 0, &address(1, 1000), &address(2, port), reason) == abi::OK
}

/// The failure with this index; of no packets if there is none.
fn failure(slot: &mut Agent, index: usize) -> FailedSend {
    let mut failed = no_failure();
    let _code = is_ice_failed_send_at(slot, index, &mut failed);
    failed
}

/// How many failures are listed.
fn count(slot: &mut Agent) -> usize {
    let mut count = 99;
    let _code = is_ice_failed_send_count(slot, &mut count);
    count
}

#[test]
fn failed_sends_are_listed() {
    let mut near = no_agent();
    let mut far = no_agent();
    assert!(!fails(&mut near, 2000, 22));
    assert!(begin(&mut near, &mut far));
    assert!(count(&mut near) == 0);
    assert!(fails(&mut near, 2000, 22));
    assert!(fails(&mut near, 2000, 101));
    assert!(fails(&mut near, 2000, 22));
    assert!(count(&mut near) == 2);
    let first = failure(&mut near, 0);
    assert!(first.times == 2);
    assert!(first.reason == 22);
    assert!(first.protocol == 0);
    assert!(is_at(&first.source, 1, 1000));
    assert!(is_at(&first.destination, 2, 2000));
    assert!(failure(&mut near, 1).reason == 101);
    assert!(failure(&mut near, 2).times == 0);
    let again = is_ice_restart(&mut near, b"CCCC", b"RRRR", true);
    assert!(again == abi::OK);
    assert!(count(&mut near) == 0);
    is_ice_agent_free(&mut near);
    is_ice_agent_free(&mut far);
}

//! The limits on candidates and on JSON.

use super::{address, host};
use crate::abi::{
    self, is_ice_add_local, is_ice_add_remote, is_ice_agent_free, is_ice_agent_new, is_ice_invalidate, is_ice_json_refusal,
    is_ice_line_from_json, is_ice_set_max_candidates,
};
use crate::no_agent;

const LINE: &[u8] = b"candidate:1 1 udp 7 10.0.0.2 2000 typ host";

const ANOTHER: &[u8] = b"candidate:1 1 udp 7 10.0.0.2 2001 typ host";

#[test]
fn at_the_limit_none_is_added() {
    let mut slot = no_agent();
    let mut index = 9;
    let made = is_ice_agent_new(&mut slot, b"AAAA", b"PPPP", 1);
    assert!(made == abi::OK);
    let set = is_ice_set_max_candidates(&mut slot, 1);
    assert!(set == abi::OK);
    let added = is_ice_add_local(&mut slot, &host(address(1, 1000)), &mut index);
    assert!(added == abi::OK);
    let one_more = is_ice_add_local(&mut slot, &host(address(1, 1001)), &mut index);
    assert!(one_more == abi::TOO_MANY_CANDIDATES);
    let added = is_ice_add_remote(&mut slot, LINE, &mut index);
    assert!(added == abi::OK);
    let one_more = is_ice_add_remote(&mut slot, ANOTHER, &mut index);
    assert!(one_more == abi::TOO_MANY_CANDIDATES);
    assert!(index == 0);
    // An invalidated one makes room.
    let gone = is_ice_invalidate(&mut slot, LINE);
    assert!(gone == abi::OK);
    let added = is_ice_add_remote(&mut slot, ANOTHER, &mut index);
    assert!(added == abi::OK);
    is_ice_agent_free(&mut slot);
}

#[test]
fn json_has_few_brackets() {
    let mut text = [0; 60];
    let mut length = 0;
    let eight = b"{\"candidate\":\"candidate:1 1 udp 7 10.0.0.2 2000 typ host\",\"x\":[[[[[[[]]]]]]]}";
    let nine = b"{\"candidate\":\"candidate:1 1 udp 7 10.0.0.2 2000 typ host x {\",\"x\":[[[[[[[]]]]]]]}";
    let read = is_ice_line_from_json(eight, &mut text, &mut length);
    assert!(read == abi::OK);
    assert!(text[..length] == LINE[..]);
    let one_more = is_ice_line_from_json(nine, &mut text, &mut length);
    assert!(one_more == abi::BAD_CANDIDATE);
    let said = is_ice_json_refusal(nine, &mut text, &mut length);
    assert!(said == abi::OK);
    assert!(text[..length] == b"candidate info has more than 8 opening brackets"[..]);
}

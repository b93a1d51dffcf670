//! All that a user may choose, set and read.

use crate::abi::{
    self, Agent, AgentSettings, AgentStatus, is_ice_agent_free, is_ice_agent_new, is_ice_modern_settings, is_ice_original_settings,
    is_ice_set_settings, is_ice_settings, is_ice_status,
};
use crate::no_agent;

/// Each field with another value than any settings of the library.
const OTHERS: AgentSettings = AgentSettings {
    timing_advance: 1,
    initial_rto: 2,
    max_rto: 3,
    lite_timeout: 4,
    consent_timeout: 5,
    max_retransmits: 6,
    max_pairs: 7,
    max_discovered: 8,
    max_candidates: 9,
    room: [0, 0, 0, 0],
    modern: true,
    strict_consent: true,
    renomination: true,
};

fn are_same(one: &AgentSettings, other: &AgentSettings) -> bool {
    one.timing_advance == other.timing_advance
        && one.initial_rto == other.initial_rto
        && one.max_rto == other.max_rto
        && one.lite_timeout == other.lite_timeout
        && one.consent_timeout == other.consent_timeout
        && one.max_retransmits == other.max_retransmits
        && one.max_pairs == other.max_pairs
        && one.max_discovered == other.max_discovered
        && one.max_candidates == other.max_candidates
        && one.room == other.room
        && one.modern == other.modern
        && one.strict_consent == other.strict_consent
        && one.renomination == other.renomination
}

/// The settings of the original, as the library has them.
pub(super) fn original() -> AgentSettings {
    let mut settings = OTHERS;
    match is_ice_original_settings(&mut settings) {
        abi::OK => settings,
        _ => OTHERS,
    }
}

/// Those with which a new agent begins, as the library has them.
pub(super) fn modern() -> AgentSettings {
    let mut settings = OTHERS;
    match is_ice_modern_settings(&mut settings) {
        abi::OK => settings,
        _ => OTHERS,
    }
}

pub(super) fn status_of(slot: &mut Agent) -> AgentStatus {
    let mut status = AgentStatus { state: 9, controlling: true, lite: true, mtu: 0, mtu_warn: 0, ice_timeout: 0, max_candidates: 0 };
    let _code = is_ice_status(slot, &mut status);
    status
}

/// How long a response keeps a pair of a new agent: the longest RTO and a whole series of checks (RFC 7675).
pub(super) fn consent_of(slot: &mut Agent) -> u64 {
    modern().max_rto + status_of(slot).ice_timeout
}

/// The numbers of both are in the table "Settings" of docs/API.md, which a test in Python compares with the library.
#[test]
fn named_settings_are_written() {
    let changed = AgentSettings {
        max_rto: modern().max_rto,
        max_retransmits: modern().max_retransmits,
        max_discovered: modern().max_discovered,
        max_candidates: modern().max_candidates,
        modern: true,
        ..original()
    };
    assert!(are_same(&changed, &modern()));
    assert!(!original().modern);
    assert!(original().max_discovered == usize::MAX);
    assert!(original().max_candidates == usize::MAX);
    assert!(original().consent_timeout == 0);
    assert!(original().room == [0, 0, 0, 0]);
    assert!(!original().strict_consent);
    assert!(!original().renomination);
}

#[test]
fn settings_are_set_and_read() {
    let mut slot = no_agent();
    let mut settings = OTHERS;
    let none = is_ice_settings(&mut slot, &mut settings);
    assert!(none == abi::NO_AGENT);
    assert!(are_same(&settings, &OTHERS));
    let made = is_ice_agent_new(&mut slot, b"AAAA", b"PPPP", 1);
    assert!(made == abi::OK);
    let asked = is_ice_settings(&mut slot, &mut settings);
    assert!(asked == abi::OK);
    assert!(are_same(&settings, &modern()));
    for wanted in [OTHERS, original()] {
        let set = is_ice_set_settings(&mut slot, &wanted);
        assert!(set == abi::OK);
        let asked = is_ice_settings(&mut slot, &mut settings);
        assert!(asked == abi::OK);
        assert!(are_same(&settings, &wanted));
    }
    is_ice_agent_free(&mut slot);
}

#[test]
fn without_a_check_nothing_is_set() {
    let mut slot = no_agent();
    let made = is_ice_agent_new(&mut slot, b"AAAA", b"PPPP", 1);
    assert!(made == abi::OK);
    let mut settings = OTHERS;
    settings.max_retransmits = 0;
    let set = is_ice_set_settings(&mut slot, &settings);
    assert!(set == abi::BAD_LIMIT);
    let asked = is_ice_settings(&mut slot, &mut settings);
    assert!(asked == abi::OK);
    assert!(are_same(&settings, &modern()));
    is_ice_agent_free(&mut slot);
}

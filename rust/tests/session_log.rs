//! Pairs that were removed, and the lines that a program logs of a session.

mod world;

use is::stun::{StunMessage, StunMessageBuilder, StunPacket};
use is::{
    Candidate, CheckState, IceAgent, IceAgentEvent, IceConnectionState, MediaPath, Protocol, Removal, RemovedPair, SessionLog, Settings,
};
use std::net::SocketAddr;
use std::time::Instant;
use world::{at, creds, host, ms};

const PEER: &str = "candidate:1 1 udp 2130706175 10.0.0.2 2000 typ host";

fn peer() -> Candidate {
    Candidate::from_sdp_string(PEER).unwrap()
}

fn path() -> (SocketAddr, SocketAddr) {
    (at("10.0.0.1:1000"), at("10.0.0.2:2000"))
}

/// A controlling agent with one pair.
fn paired() -> IceAgent {
    let mut agent = IceAgent::new(creds("near"));
    agent.set_controlling(true);
    agent.set_remote_credentials(creds("farr"));
    agent.add_local_candidate(host("10.0.0.1:1000")).expect("a candidate");
    agent.add_remote_candidate(peer());
    agent
}

// ---- pairs that were removed

#[test]
fn a_removed_pair_has_its_path_its_figures_and_the_reason() {
    let mut agent = paired();
    let (pair, (source, destination)) = (agent.pairs().next().expect("a pair"), path());
    assert_eq!(agent.removed_pairs().count(), 0);
    assert!(agent.invalidate_candidate(&peer()));
    let removed = RemovedPair {
        path: Some(MediaPath { proto: Protocol::Udp, source, destination }),
        priority: pair.priority,
        state: CheckState::Waiting,
        checks_sent: 0,
        responses: 0,
        error: None,
        reason: Removal::Invalidated,
    };
    assert_eq!((agent.pairs().count(), agent.removed_pairs().collect()), (0, vec![removed]));
    agent.ice_restart(creds("next"), true);
    assert_eq!(agent.removed_pairs().count(), 0);
}

/// The peer responds to a check with this error.
fn refuse(agent: &mut IceAgent, now: Instant, code: u16) {
    let check = agent.poll_transmit().expect("a check");
    let id = StunMessage::parse(&check.contents).unwrap().trans_id();
    let mut bytes = [0; 200];
    let refusal = StunMessageBuilder::new().binding().failure().error_code(code, "Bad Request").build(id);
    let length = refusal.write(Some(creds("farr").pass.as_bytes()), &mut bytes).unwrap();
    let message = StunMessage::parse(&bytes[..length]).unwrap();
    assert!(agent.handle_packet(now, StunPacket { proto: Protocol::Udp, source: check.destination, destination: check.source, message }));
}

#[test]
fn a_removed_pair_has_the_code_of_an_error_response() {
    let (mut agent, now) = (paired(), Instant::now());
    agent.set_settings(Settings::original());
    agent.set_initial_stun_rto(ms(250));
    agent.set_max_stun_retransmits(2);
    agent.handle_timeout(now);
    refuse(&mut agent, now, 400);
    for after in [250, 750] {
        agent.handle_timeout(now + ms(after));
    }
    let texts: Vec<String> = agent.removed_pairs().map(|pair| pair.to_string()).collect();
    assert_eq!(texts, ["10.0.0.1:1000 -> 10.0.0.2:2000 in progress, 2 checks sent, 0 answered, error response 400: no response"]);
}

#[test]
fn the_last_32_removed_pairs_are_listed() {
    let mut agent = IceAgent::new(creds("near"));
    agent.add_local_candidate(host("10.0.0.1:1000")).expect("a candidate");
    for port in 2000..2040 {
        let candidate = host(&format!("10.0.0.2:{port}"));
        agent.add_remote_candidate(Candidate::from_sdp_string(&candidate.to_sdp_string()).unwrap());
        agent.invalidate_candidate(&Candidate::from_sdp_string(&candidate.to_sdp_string()).unwrap());
    }
    let ports: Vec<u16> = agent.removed_pairs().filter_map(|pair| pair.path).map(|path| path.destination.port()).collect();
    assert_eq!(ports, (2008..2040).collect::<Vec<u16>>());
}

#[test]
fn a_removed_pair_is_printed() {
    let pair = |state, reason| RemovedPair { path: None, priority: 1, state, checks_sent: 9, responses: 3, error: None, reason };
    for (state, reason, text) in [
        (CheckState::InProgress, Removal::NoResponse, "in progress, 9 checks sent, 3 answered: no response"),
        (CheckState::Succeeded, Removal::ConsentLost, "succeeded, 9 checks sent, 3 answered: consent lost"),
        (CheckState::Succeeded, Removal::PeerSilent, "succeeded, 9 checks sent, 3 answered: peer silent"),
        (CheckState::Waiting, Removal::Evicted, "waiting, 9 checks sent, 3 answered: evicted"),
        (CheckState::Waiting, Removal::Replaced, "waiting, 9 checks sent, 3 answered: replaced"),
        (CheckState::Waiting, Removal::Invalidated, "waiting, 9 checks sent, 3 answered: invalidated"),
    ] {
        assert_eq!(pair(state, reason).to_string(), format!("unknown path {text}"));
    }
}

// ---- lines: test_log.py has the same ones

#[test]
fn each_event_has_a_line() {
    let (agent, log, (source, destination)) = (paired(), SessionLog::new(), path());
    for (event, line) in [
        (IceAgentEvent::IceRestart(creds("near")), "near: session begins"),
        (IceAgentEvent::IceConnectionStateChange(IceConnectionState::Checking), "near: state Checking"),
        (IceAgentEvent::NominatedSend { proto: Protocol::Udp, source, destination }, "near: selected 10.0.0.1:1000 -> 10.0.0.2:2000"),
        (IceAgentEvent::DiscoveredRecv { proto: Protocol::Udp, source: at("[2001:db8::1]:9") }, "near: discovered [2001:db8::1]:9"),
    ] {
        assert_eq!(log.event(&agent, &event), line);
    }
}

#[test]
fn each_removed_pair_has_a_line() {
    let (mut agent, mut log) = (paired(), SessionLog::new());
    let removed = |figures| [format!("near: removed 10.0.0.1:1000 -> 10.0.0.2:2000 {figures} checks sent, 0 answered: invalidated")];
    assert!(log.removals(&agent).is_empty());
    agent.handle_timeout(Instant::now());
    assert!(log.removals(&agent).is_empty() && agent.invalidate_candidate(&peer()));
    assert_eq!(log.removals(&agent), removed("in progress, 1"));
    for _ in 0..20 {
        assert!(log.removals(&agent).is_empty());
        agent.add_remote_candidate(peer());
        assert!(agent.invalidate_candidate(&peer()));
        assert_eq!(log.removals(&agent), removed("waiting, 0"));
    }
    agent.ice_restart(creds("next"), true);
    assert!(log.removals(&agent).is_empty());
    let event = agent.poll_event().expect("an event");
    assert_eq!(log.event(&agent, &event), "next: session begins");
}

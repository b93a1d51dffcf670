//! Two sides of the consumer connect; serde and tracing see what they see of the original.

use consumer::{Output, Receive, Rtc};
use std::fmt::{self, Write};
use std::net::SocketAddr;
use std::sync::{Arc, Mutex, MutexGuard, PoisonError};
use std::time::{Duration, Instant};
use str0m_proto::{Protocol, TcpType};
use tracing::field::{Field, Visit};
use tracing::span::{Attributes, Id, Record};
use tracing::{Event, Metadata, Subscriber};

fn at(text: &str) -> SocketAddr {
    text.parse().unwrap()
}

/// The tests run one after another: `tracing` stores for all threads which events somebody wants, and what another thread stores
/// when it meets an event first may come too late for `a_session_is_logged`.
fn alone() -> MutexGuard<'static, ()> {
    static TEST: Mutex<()> = Mutex::new(());
    TEST.lock().unwrap_or_else(PoisonError::into_inner)
}

/// Two sides that know each other.
fn two() -> [Rtc; 2] {
    let mut sides = [Rtc::new(true), Rtc::new(false)];
    let creds = [sides[0].ice.local_credentials().clone(), sides[1].ice.local_credentials().clone()];
    for i in [0, 1] {
        sides[i].ice.set_remote_credentials(creds[1 - i].clone());
        let added = sides[i].add_host(at(&format!("10.0.0.{}:5000", i + 1)), Protocol::Udp).unwrap();
        let signaled = serde_json::to_string(added).unwrap();
        sides[1 - i].ice.add_remote_candidate(serde_json::from_str(&signaled).unwrap());
    }
    sides
}

/// Runs both sides until each has a path.
fn connect(sides: &mut [Rtc; 2]) {
    let mut now = Instant::now();
    for _ in 0..20 {
        for i in [0, 1] {
            sides[i].ice.handle_timeout(now);
            loop {
                match sides[i].poll(now) {
                    Output::Timeout(_) => break,
                    Output::State(_) => {}
                    Output::Transmit(sent) => {
                        let received =
                            Receive { proto: sent.proto, source: sent.source, destination: sent.destination, contents: &sent.contents };
                        sides[1 - i].handle(now, received);
                    }
                }
            }
        }
        now += Duration::from_millis(50);
    }
}

#[test]
fn both_sides_connect() {
    let _alone = alone();
    let mut sides = two();
    connect(&mut sides);
    let [near, far] = sides.map(|side| side.media(b"media".to_vec()).unwrap());
    assert_eq!((near.proto, near.source, near.destination), (Protocol::Udp, at("10.0.0.1:5000"), at("10.0.0.2:5000")));
    assert_eq!((far.source, far.destination, &far.contents[..]), (near.destination, near.source, &b"media"[..]));
}

#[test]
fn the_builder_takes_their_tcp_type() {
    let _alone = alone();
    let built = is::Candidate::builder().tcp().host(at("10.0.0.1:9")).tcptype(TcpType::Active).build().unwrap();
    assert_eq!((built.proto(), built.tcptype()), (Protocol::Tcp, Some(TcpType::Active)));
}

#[test]
fn a_lite_agent_that_is_to_be_controlling_goes_on() {
    let _alone = alone();
    let mut side = Rtc::new(false);
    side.ice.set_ice_lite(true);
    side.ice.set_controlling(true);
    assert!(!side.ice.controlling());
}

/// The lines of all events, each with its target and level.
#[derive(Clone, Default)]
struct Lines(Arc<Mutex<Vec<String>>>);

impl Lines {
    /// Each of these is the beginning of a line, and all lines have a target of the original's.
    fn have(&self, beginnings: &[&str]) {
        let lines = self.0.lock().unwrap();
        assert!(lines.iter().all(|line| matches!(line.split(' ').nth(1), Some("is::agent" | "is::pair" | "is::stun"))), "{lines:#?}");
        for beginning in beginnings {
            assert!(lines.iter().any(|line| line.starts_with(beginning)), "{beginning}\n{lines:#?}");
        }
    }
}

struct Message(String);

impl Visit for Message {
    fn record_debug(&mut self, field: &Field, value: &dyn fmt::Debug) {
        if field.name() == "message" {
            write!(self.0, "{value:?}").unwrap();
        }
    }
}

impl Subscriber for Lines {
    fn enabled(&self, _: &Metadata<'_>) -> bool {
        true
    }

    fn new_span(&self, _: &Attributes<'_>) -> Id {
        Id::from_u64(1)
    }

    fn record(&self, _: &Id, _: &Record<'_>) {}

    fn record_follows_from(&self, _: &Id, _: &Id) {}

    fn event(&self, event: &Event<'_>) {
        let mut message = Message(String::new());
        event.record(&mut message);
        self.0.lock().unwrap().push(format!("{} {} {}", event.metadata().level(), event.metadata().target(), message.0));
    }

    fn enter(&self, _: &Id) {}

    fn exit(&self, _: &Id) {}
}

#[test]
fn a_session_is_logged() {
    let _alone = alone();
    let lines = Lines::default();
    tracing::subscriber::with_default(lines.clone(), || {
        let mut sides = two();
        sides[0].ice.set_max_stun_retransmits(5);
        connect(&mut sides);
        sides[0].handle(
            Instant::now(),
            Receive { proto: Protocol::Udp, source: at("10.0.0.9:9"), destination: at("10.0.0.1:5000"), contents: b"x" },
        );
        let added = sides[0].ice.local_candidates().next().unwrap();
        assert!(sides[0].ice.invalidate_candidate(&added) && !sides[0].ice.invalidate_candidate(&added));
    });
    lines.have(&[
        "DEBUG is::agent Set remote credentials: IceCreds { ufrag: ",
        "DEBUG is::agent Add local candidate (0): Candidate",
        "DEBUG is::agent Add remote candidate (0): Candidate",
        "DEBUG is::agent max_retransmits = 5",
        "DEBUG is::agent State change: Checking",
        "TRACE is::agent Poll transmit: Transmit",
        "TRACE is::agent Handle receive: StunMessage",
        "TRACE is::agent Message accepted",
        "DEBUG is::agent Add new pair 10.0.0.1:5000 -> 10.0.0.2:5000 CandidatePair",
        "TRACE is::agent Handle next triggered pair: 10.0.0.1:5000 -> 10.0.0.2:5000 CandidatePair",
        "TRACE is::pair Check state: Waiting -> InProgress",
        "TRACE is::pair Sending binding request: 10.0.0.",
        "TRACE is::agent Send STUN request: (10.0.0.1:5000, 10.0.0.2:5000) StunMessage",
        "TRACE is::agent Remote candidate for STUN request found",
        "TRACE is::agent Found existing pair for STUN request: 10.0.0.",
        "TRACE is::pair Recorded binding request: 10.0.0.",
        "TRACE is::agent Send STUN reply: (10.0.0.2:5000, 10.0.0.1:5000) StunMessage",
        "TRACE is::agent Found local candidate for mapped address: 10.0.0.1:5000",
        "TRACE is::pair Recorded binding response: 10.0.0.",
        "TRACE is::pair Check state: InProgress -> Succeeded",
        "DEBUG is::pair Nominated pair: 10.0.0.",
        "TRACE is::agent Nominating best candidate: 10.0.0.",
        "TRACE is::agent Binding request sent USE-CANDIDATE",
        "TRACE is::agent Poll event: NominatedSend",
        "DEBUG is::agent Local candidate to discard Candidate",
        "DEBUG is::agent No local or remote candidate found: Candidate",
    ]);
    let lines = lines.0.lock().unwrap();
    assert!(!lines.iter().any(|line| line.contains("pass: \"") && !line.contains("pass: \"..\"")));
}

/// Passes all that one side sends to the other one, as if it had been sent to this address.
fn pass(sides: &mut [Rtc; 2], from: usize, to: &str, now: Instant) {
    while let Some(sent) = sides[from].ice.poll_transmit() {
        let received = Receive { proto: sent.proto, source: sent.source, destination: at(to), contents: &sent.contents };
        sides[1 - from].handle(now, received);
    }
}

#[test]
fn what_packets_do_is_logged() {
    let _alone = alone();
    let (lines, now, ms) = (Lines::default(), Instant::now(), Duration::from_millis);
    tracing::subscriber::with_default(lines.clone(), || {
        // Both claim to be controlling, and the second one does not know the first one yet.
        let mut sides = [Rtc::new(true), Rtc::new(true)];
        for (tie_breaker, side) in sides.iter_mut().enumerate() {
            side.ice.set_control_tie_breaker(tie_breaker as u64);
            side.add_host(at(&format!("10.0.0.{}:5000", tie_breaker + 1)), Protocol::Udp).unwrap();
        }
        let creds = [sides[0].ice.local_credentials().clone(), sides[1].ice.local_credentials().clone()];
        let known = is::Candidate::host(at("10.0.0.2:5000"), "udp").unwrap();
        sides[0].ice.set_remote_credentials(creds[1].clone());
        sides[0].ice.add_remote_candidate(known.clone());
        sides[0].ice.handle_timeout(now);
        sides[1].ice.handle_timeout(now);
        pass(&mut sides, 0, "10.0.0.2:5000", now);
        sides[1].ice.set_remote_credentials(creds[0].clone());
        sides[1].ice.handle_timeout(now + ms(50));
        pass(&mut sides, 1, "10.0.0.1:5000", now + ms(50));
        // A request to an address that is no candidate's, one to another agent, and a redundant candidate.
        sides[0].ice.handle_timeout(now + ms(500));
        pass(&mut sides, 0, "10.0.0.9:5000", now + ms(500));
        sides[0].ice.handle_timeout(now + ms(1500));
        let mut others = [Rtc::new(true), Rtc::new(false)];
        others[0].ice.set_remote_credentials(is::IceCreds::new());
        others[0].add_host(at("10.0.0.3:5000"), Protocol::Udp).unwrap();
        others[0].ice.add_remote_candidate(known);
        others[0].ice.handle_timeout(now);
        pass(&mut others, 0, "10.0.0.2:5000", now);
        assert!(sides[0].add_host(at("10.0.0.1:5000"), Protocol::Udp).is_none());
        // A response from another address than that of its check.
        let mut known = two();
        known[0].ice.handle_timeout(now);
        pass(&mut known, 0, "10.0.0.2:5000", now);
        let response = known[1].ice.poll_transmit().unwrap();
        let (source, destination, contents) = (at("10.0.0.9:9"), response.destination, &response.contents[..]);
        assert!(!known[0].handle(now, Receive { proto: response.proto, source, destination, contents }));
        others[1].ice.set_ice_lite(true);
        let mapped = is::Candidate::server_reflexive(at("192.0.2.1:1"), at("10.0.0.4:1"), "udp").unwrap();
        assert!(others[1].ice.add_local_candidate(mapped).is_none());
    });
    lines.have(&[
        "DEBUG is::agent Enqueue STUN request due to missing remote credentials: StunMessage",
        "TRACE is::agent Stop timeout due to missing remote credentials",
        "DEBUG is::agent Handle enqueued STUN request: 0 wait",
        "DEBUG is::agent Reply 487 Role Conflict (keep controlling role): (10.0.0.2:5000, 10.0.0.1:5000)",
        "DEBUG is::agent Got 487 Role Conflict, switching from controlling",
        "DEBUG is::agent Switch role: controlling -> controlled",
        "DEBUG is::agent Discarding STUN request on unknown interface: 10.0.0.9:5000",
        "TRACE is::agent Message rejected, local user mismatch: ",
        "DEBUG is::agent Message not accepted: response on another path than that of its check, from 10.0.0.9:9",
        "DEBUG is::agent Reject redundant candidate, current: Candidate",
        "DEBUG is::agent Reject non-host candidate due to ice-lite mode: Candidate",
    ]);
}

#[test]
fn what_is_left_out_is_logged() {
    let _alone = alone();
    let (lines, now) = (Lines::default(), Instant::now());
    tracing::subscriber::with_default(lines.clone(), || {
        // A second remote candidate with the same address and less priority, and one that is invalidated.
        let mut side = Rtc::new(true);
        side.ice.set_remote_credentials(is::IceCreds::new());
        side.add_host(at("10.0.0.1:5000"), Protocol::Udp).unwrap();
        let host = is::Candidate::host(at("10.0.0.2:5000"), "udp").unwrap();
        side.ice.add_remote_candidate(host.clone());
        let mapped = is::Candidate::server_reflexive(at("10.0.0.2:5000"), at("10.0.0.3:5000"), "udp").unwrap();
        side.ice.add_remote_candidate(mapped);
        assert!(side.ice.invalidate_candidate(&host));
        // A lite agent gets a check before it knows its peer, and again a minute later. Then the peer's candidate is signaled.
        let mut sides = [Rtc::new(true), Rtc::new(false)];
        let creds = [sides[0].ice.local_credentials().clone(), sides[1].ice.local_credentials().clone()];
        sides[1].ice.set_ice_lite(true);
        sides[1].add_host(host.addr(), Protocol::Udp).unwrap();
        let signaled = sides[0].add_host(at("10.0.0.1:5000"), Protocol::Udp).unwrap().clone();
        sides[0].ice.set_remote_credentials(creds[1].clone());
        sides[0].ice.add_remote_candidate(host);
        sides[0].ice.handle_timeout(now);
        let check = sides[0].ice.poll_transmit().unwrap();
        for seconds in [0, 60] {
            let received = Receive { proto: check.proto, source: check.source, destination: check.destination, contents: &check.contents };
            assert!(sides[1].handle(now + Duration::from_secs(seconds), received));
        }
        sides[1].ice.set_remote_credentials(creds[0].clone());
        sides[1].ice.handle_timeout(now + Duration::from_secs(61));
        sides[1].ice.add_remote_candidate(signaled);
    });
    lines.have(&[
        "TRACE is::agent Form pair local: Candidate",
        "DEBUG is::agent Reject redundant pair, current: 10.0.0.1:5000 -> 10.0.0.2:5000 CandidatePair",
        "TRACE is::agent Discard pairs for remote candidate index: 0",
        "TRACE is::agent Drop too old enqueued STUN request: 0 wait",
        "DEBUG is::agent Replace redundant pair, current: RemovedPair",
        "DEBUG is::agent Retain incoming binding requests for pair",
    ]);
}

//! The public items of the crate `is` 0.12.0 that concern agents, in the way in which a program written for it uses them.

use is::stun::{StunMessage, StunPacket};
use is::{default_local_preference, Candidate, DefaultSha1HmacProvider, IceAgent, IceAgentEvent, IceConnectionState, IceCreds};
use is::{LocalPreference, Protocol, Sha1HmacProvider};
use std::net::SocketAddr;
use std::panic::{RefUnwindSafe, UnwindSafe};
use std::time::{Duration, Instant};

const LINE: &str = "candidate:1 1 udp 2130706175 10.0.0.2 2000 typ host";

fn at(text: &str) -> SocketAddr {
    text.parse().unwrap()
}

fn host(text: &str) -> Candidate {
    Candidate::host(at(text), "udp").unwrap()
}

fn agent() -> IceAgent {
    IceAgent::new(IceCreds::new())
}

fn hmac(key: &[u8], payloads: &[&[u8]]) -> [u8; 20] {
    DefaultSha1HmacProvider.sha1_hmac(key, payloads)
}

/// Two agents that know each other, and the time.
fn two() -> (IceAgent, IceAgent, Instant) {
    let (mut near, mut far) = (agent(), agent());
    near.set_controlling(true);
    near.set_remote_credentials(far.local_credentials().clone());
    far.set_remote_credentials(near.local_credentials().clone());
    near.add_remote_candidate(far.add_local_candidate(host("10.0.0.2:2000")).unwrap().clone());
    far.add_remote_candidate(near.add_local_candidate(host("10.0.0.1:1000")).unwrap().clone());
    (near, far, Instant::now())
}

/// Passes on what an agent sends.
fn pass(from: &mut IceAgent, to: &mut IceAgent, now: Instant) {
    while let Some(sent) = from.poll_transmit() {
        let message = StunMessage::parse(&sent.contents).unwrap();
        to.handle_packet(now, StunPacket { proto: sent.proto, source: sent.source, destination: sent.destination, message });
    }
}

// ---- agents

#[derive(Debug)]
struct Provider;

impl Sha1HmacProvider for Provider {
    fn sha1_hmac(&self, key: &[u8], payloads: &[&[u8]]) -> [u8; 20] {
        hmac(key, payloads)
    }
}

#[test]
fn with_hmac() {
    static OWN: Provider = Provider;
    let provider: &'static dyn Sha1HmacProvider = &OWN;
    assert_eq!(IceAgent::with_hmac(IceCreds::new(), provider).state(), IceConnectionState::New);
    let _ = IceAgent::with_hmac(IceCreds::new(), &DefaultSha1HmacProvider);
    assert_eq!(provider.sha1_hmac(b"key", &[b"a", b"b"]), hmac(b"key", &[b"ab"]));
}

#[test]
fn bounds_of_an_agent() {
    fn takes<T: Send + Sync + UnwindSafe + RefUnwindSafe + std::fmt::Debug>(_: T) {}
    takes(agent());
}

#[test]
fn set_mtu() {
    let mut agent = agent();
    agent.set_mtu(1200..=1300);
    assert_eq!((agent.mtu(), agent.mtu_warn()), (1200, 1300));
}

#[test]
fn settings() {
    let mut agent = agent();
    agent.set_control_tie_breaker(7);
    agent.set_max_candidate_pairs(50);
    agent.set_ice_lite(true);
    assert!(agent.ice_lite());
    agent.set_timing_advance(Duration::from_millis(50));
    agent.set_initial_stun_rto(Duration::from_millis(250));
    agent.set_max_stun_rto(Duration::from_millis(3000));
    agent.set_max_stun_retransmits(9);
    let _: Duration = agent.ice_timeout();
}

#[test]
fn credentials_of_an_agent() {
    let mut agent = agent();
    let creds = IceCreds { ufrag: "near".into(), pass: "a".repeat(22) };
    agent.set_local_credentials(creds.clone());
    agent.set_remote_credentials(creds.clone());
    assert_eq!((agent.local_credentials(), agent.remote_credentials()), (&creds, Some(&creds)));
}

#[test]
fn roles() {
    let mut agent = agent();
    agent.set_controlling(true);
    assert!(agent.controlling());
}

#[test]
fn a_preference_as_a_closure() {
    let mut agent = agent();
    let offset = 3;
    agent.set_local_preference(move |c: &Candidate, same_kind: usize| default_local_preference(c, same_kind) - offset);
    assert_eq!(agent.add_local_candidate(host("10.0.0.1:1")).unwrap().prio(), 126 << 24 | 65531 << 8 | 255);
}

struct Fixed(u32);

impl LocalPreference for Fixed {
    fn calculate(&self, _c: &Candidate, _same_kind: usize) -> u32 {
        self.0
    }
}

#[test]
fn a_preference_as_an_object() {
    let mut agent = agent();
    agent.set_local_preference(Fixed(5));
    assert_eq!(agent.add_local_candidate(host("10.0.0.1:1")).unwrap().prio(), 126 << 24 | 5 << 8 | 255);
    agent.set_local_preference(default_local_preference);
}

#[test]
fn local_candidates() {
    let mut agent = agent();
    let added: Option<&Candidate> = agent.add_local_candidate(host("10.0.0.1:1"));
    assert!(added.is_some());
    let listed = agent.local_candidates();
    assert_eq!((listed.clone().count(), listed.map(|c| c.addr()).next()), (1, Some(at("10.0.0.1:1"))));
}

#[test]
fn a_parsed_candidate_as_a_local_one() {
    assert_eq!(agent().add_local_candidate(Candidate::from_sdp_string(LINE).unwrap()).unwrap().addr(), at("10.0.0.2:2000"));
}

#[test]
fn remote_candidates() {
    let mut agent = agent();
    agent.add_remote_candidate(host("10.0.0.2:2"));
    assert_eq!(agent.remote_candidates().clone().count(), 1);
    assert!(!agent.has_viable_remote_candidate(at("10.0.0.2:2")));
}

#[test]
fn invalidate_candidate() {
    let mut agent = agent();
    let listed = agent.add_local_candidate(host("10.0.0.1:1")).unwrap().clone();
    let removed: bool = agent.invalidate_candidate(&listed);
    assert!(removed);
}

#[test]
fn find_pair_for_equivalent_remote_candidate() {
    let (mut near, mut far, now) = two();
    near.handle_timeout(now);
    pass(&mut near, &mut far, now);
    let remote = near.remote_candidates().next().unwrap();
    let pair = near.find_pair_for_equivalent_remote_candidate(&remote).unwrap();
    let (locals, remotes): (Vec<_>, Vec<_>) = (near.local_candidates().collect(), near.remote_candidates().collect());
    assert_eq!((pair.local_idx(), pair.remote_idx()), (0, 0));
    assert_eq!((pair.local_candidate(&locals), pair.remote_candidate(&remotes)), (&locals[0], &remotes[0]));
    assert!(pair.prio() > 0 && !pair.is_nominated() && format!("{:?}", pair.state()) == "InProgress");
    assert_eq!((pair.responses_received(), pair.last_successful_rtt(), pair.total_round_trip_time()), (0, None, Duration::ZERO));
    assert_eq!(pair.remote_binding_request_time(), None);
}

#[test]
fn restarts() {
    let mut agent = agent();
    agent.add_local_candidate(host("10.0.0.1:1"));
    agent.ice_restart(IceCreds::new(), true);
    agent.recreate_candidate_pairs();
    assert_eq!(agent.local_candidates().count(), 1);
}

#[test]
fn a_session() {
    let (mut near, mut far, now) = two();
    near.handle_timeout(now);
    let next: Option<Instant> = near.poll_timeout();
    let sent = near.poll_transmit().unwrap();
    let bytes: &[u8] = &sent.contents;
    let message = StunMessage::parse(bytes).unwrap();
    assert!(next.is_some() && far.accepts_message(&message) && !near.accepts_message(&message));
    far.handle_timeout(now);
    let packet = StunPacket { proto: Protocol::Udp, source: sent.source, destination: sent.destination, message };
    assert!(far.handle_packet(now, packet));
    assert_eq!((near.stats().bind_request_sent, far.state().is_connected(), far.state().is_disconnected()), (1, false, false));
    let rtt: (Option<Duration>, Option<Duration>, Option<u64>) =
        (near.nominated_pair_rtt(), near.nominated_pair_total_rtt(), near.nominated_pair_responses_received());
    assert_eq!(rtt, (None, None, None));
}

#[test]
fn events() {
    let (mut near, _, now) = two();
    near.handle_timeout(now);
    while let Some(event) = near.poll_event() {
        match event {
            IceAgentEvent::IceRestart(IceCreds { ufrag, pass: _ }) => assert_eq!(ufrag, near.local_credentials().ufrag),
            IceAgentEvent::IceConnectionStateChange(state) => assert_eq!(state, IceConnectionState::Checking),
            IceAgentEvent::DiscoveredRecv { proto, source } => panic!("{proto} {source}"),
            IceAgentEvent::NominatedSend { proto, source, destination } => panic!("{proto} {source} {destination}"),
        }
    }
}

#[test]
fn states() {
    use IceConnectionState::*;
    assert!([Connected, Completed].iter().all(|state| state.is_connected()));
    assert!(![New, Checking, Disconnected].iter().any(|state| state.is_connected()) && Disconnected.is_disconnected());
}

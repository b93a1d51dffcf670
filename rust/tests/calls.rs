//! One agent, call by call.

mod world;

use is::stun::{DEFAULT_MAX_RETRANSMITS, StunMessage, StunMessageBuilder, StunPacket, StunTiming, TransId};
use is::{CallError, Candidate, CandidateKind, CheckState, Consent, IceAgent, IceAgentEvent, IceConnectionState, IceCreds};
use is::{IceError, KindPreferences, LocalPreference, PreferenceTable, Profile, Protocol, Rejection, Settings, StunError, TcpType};
use std::time::{Duration, Instant};
use world::{at, creds, host, ms, set_delays};

/// A browser's Binding request with MESSAGE-INTEGRITY, for the username fragment p9KA and the password below.
const REQUEST: &str = "000100502112a4426a756331357578556e6747630006000970394b413a53514174000000c05700040001000a802a00086eeec6e97d18395c\
                       00250000002400046e7f1eff000800145d0425a0207ab1e054102299aaf9839ca076c6d580280004360e219f";
const PASSWORD: &str = "xJcE9AQAR7kczUDVOXRUCl";
const PEER: &str = "candidate:1 1 udp 2130706175 10.0.0.2 2000 typ host";

fn unhex(text: &str) -> Vec<u8> {
    let digits: Vec<u32> = text.chars().filter_map(|digit| digit.to_digit(16)).collect();
    digits.chunks(2).map(|pair| (pair[0] * 16 + pair[1]) as u8).collect()
}

fn from_peer(bytes: &[u8]) -> StunPacket<'_> {
    let message = StunMessage::parse(bytes).expect("a message");
    StunPacket { proto: Protocol::Udp, source: at("10.0.0.2:2000"), destination: at("10.0.0.1:1000"), message }
}

/// The agent that the request is addressed to.
fn addressed() -> IceAgent {
    let mut agent = IceAgent::new(IceCreds { ufrag: "p9KA".to_owned(), pass: PASSWORD.to_owned() });
    agent.set_remote_credentials(IceCreds { ufrag: "SQAt".to_owned(), pass: "x".to_owned() });
    agent.add_local_candidate(host("10.0.0.1:1000")).expect("a candidate");
    agent
}

/// A controlling agent with the peer's credentials and one candidate of the peer.
fn paired() -> IceAgent {
    let mut agent = IceAgent::new(creds("near"));
    agent.set_controlling(true);
    agent.set_remote_credentials(creds("farr"));
    agent.add_local_candidate(host("10.0.0.1:1000")).expect("a candidate");
    agent.add_remote_candidate(Candidate::from_sdp_string(PEER).unwrap());
    agent
}

// ---- packets

#[test]
fn a_browsers_request_is_answered() {
    let (mut agent, bytes) = (addressed(), unhex(REQUEST));
    assert!(agent.accepts_message(&StunMessage::parse(&bytes).unwrap()) && agent.accepts_packet(&from_peer(&bytes)));
    assert!(agent.handle_packet(Instant::now(), from_peer(&bytes)));
    let reply = agent.poll_transmit().expect("a reply");
    assert_eq!((reply.source, reply.destination), (at("10.0.0.1:1000"), at("10.0.0.2:2000")));
    assert_eq!(reply.contents.len(), 64);
    assert_eq!(reply.contents[..8], unhex("0101002c2112a442"));
    assert_eq!(reply.contents[8..20], bytes[8..20]);
    assert_eq!(agent.poll_transmit(), None);
    assert_eq!(agent.poll_event(), Some(IceAgentEvent::DiscoveredRecv { proto: Protocol::Udp, source: at("10.0.0.2:2000") }));
    assert_eq!(agent.poll_event(), None);
}

#[test]
fn a_forged_request_changes_nothing() {
    let (mut agent, mut bytes) = (addressed(), unhex(REQUEST));
    bytes[67] ^= 1;
    assert!(!agent.accepts_message(&StunMessage::parse(&bytes).unwrap()) && !agent.accepts_packet(&from_peer(&bytes)));
    assert_eq!(agent.rejection(&from_peer(&bytes)), Some(Rejection::LocalPassword));
    assert!(!agent.handle_packet(Instant::now(), from_peer(&bytes)));
    assert_eq!((agent.poll_transmit(), agent.poll_event()), (None, None));
    assert_eq!(agent.stats(), Default::default());
}

#[test]
fn a_rejected_packet_has_a_reason() {
    let (mut agent, bytes) = (addressed(), unhex(REQUEST));
    assert_eq!(agent.rejection(&from_peer(&bytes)), None);
    let other = IceAgent::new(creds("near"));
    assert_eq!(other.rejection(&from_peer(&bytes)), Some(Rejection::LocalUfrag));
    agent.set_remote_credentials(creds("farr"));
    let why = agent.rejection(&from_peer(&bytes)).expect("a reason");
    assert_eq!((why, why.to_string().as_str()), (Rejection::RemoteUfrag, "request from another username fragment than the peer's"));
    agent.set_local_credentials(IceCreds { ufrag: "p9KA".to_owned(), pass: "wrong".to_owned() });
    agent.set_remote_credentials(creds("SQAt"));
    assert_eq!(agent.rejection(&from_peer(&bytes)), Some(Rejection::LocalPassword));
    let mut packet = from_peer(&bytes);
    packet.message = StunMessageBuilder::new().binding().success().build(TransId([7; 12]));
    assert_eq!(agent.rejection(&packet), Some(Rejection::Unparsed));
}

#[test]
fn media_is_no_message() {
    assert!(matches!(StunMessage::parse(b"\x80 media"), Err(StunError::Parse(_))));
    assert!(StunMessage::parse(&unhex(REQUEST)[..99]).is_err());
    assert!(StunMessage::parse(&[]).is_err());
}

// ---- time

#[test]
fn no_timeout_was_handled_yet() {
    let mut agent = paired();
    assert_eq!((agent.poll_timeout(), agent.state()), (None, IceConnectionState::New));
}

/// Without a response: when the check after each one is due, in milliseconds, and after the last one the end.
fn checks_go_out_after(mut agent: IceAgent, delays: &[u64]) {
    let began = Instant::now();
    let mut when = began;
    for after in delays {
        agent.handle_timeout(when);
        let check = agent.poll_transmit().expect("a check");
        assert_eq!((check.destination, check.contents.len()), (at("10.0.0.2:2000"), 88));
        when = agent.poll_timeout().expect("a next timeout");
        assert_eq!(when - began, ms(*after));
    }
    agent.handle_timeout(when);
    assert_eq!(agent.poll_transmit(), None);
    assert!(agent.state().is_disconnected());
}

/// A controlling agent with one pair, and the delays of `set_delays`.
fn timed() -> IceAgent {
    let mut agent = paired();
    set_delays(&mut agent);
    agent
}

/// By these delays: when the checks after the first one are due, and then the end. They are repeated early until 2.15 s, and then each
/// 2.9 s.
fn early_checks(end: u64) -> Vec<u64> {
    [100, 200].into_iter().chain((400..=2150).step_by(350)).chain((5050..=end).step_by(2900)).collect()
}

/// Gives the agent this behavior, and leaves its other settings.
fn set_profile(agent: &mut IceAgent, profile: Profile) {
    let mut settings = agent.settings();
    settings.profile = profile;
    agent.set_settings(settings);
}

#[test]
fn checks_go_out_by_the_schedule() {
    // the last check is the last one before `ice_timeout`, which is 26.7 s here and 9.3 s below, and the end is one RTO later
    checks_go_out_after(timed(), &early_checks(28250));
    let mut agent = timed();
    set_profile(&mut agent, Profile::Original);
    checks_go_out_after(agent, &[250, 750, 1750, 3750, 6650, 9550, 12450, 15350, 18250, 21150, 24050]);
    let mut few = timed();
    few.set_max_stun_retransmits(5);
    checks_go_out_after(few, &early_checks(10850));
}

#[test]
fn transaction_ids_are_random() {
    let (mut agent, mut when, mut ids) = (paired(), Instant::now(), Vec::new());
    for _ in 0..9 {
        agent.handle_timeout(when);
        ids.push(agent.poll_transmit().expect("a check").contents[8..20].to_vec());
        when = agent.poll_timeout().unwrap();
    }
    ids.sort();
    ids.dedup();
    assert_eq!(ids.len(), 9);
}

#[test]
fn the_clock_may_stand_or_go_back() {
    let (mut agent, began) = (paired(), Instant::now() + Duration::from_secs(3600));
    agent.handle_timeout(began);
    assert!(agent.poll_transmit().is_some());
    agent.handle_timeout(began);
    agent.handle_timeout(began - Duration::from_secs(1));
    assert_eq!(agent.poll_transmit(), None);
    assert_eq!(agent.poll_timeout(), Some(began + ms(100)));
}

/// A query: nothing is due until the check is repeated, whether or not it was polled; and soon after a candidate.
#[test]
fn the_next_timeout_is_a_query() {
    let (mut agent, began) = (paired(), Instant::now());
    assert_eq!(agent.poll_timeout(), None);
    agent.handle_timeout(began);
    assert_eq!((agent.poll_timeout(), agent.poll_timeout()), (Some(began + ms(100)), Some(began + ms(100))));
    assert!(agent.poll_transmit().is_some());
    agent.set_timing_advance(ms(20));
    assert_eq!(agent.poll_timeout(), Some(began + ms(100)));
    agent.add_local_candidate(host("10.0.0.9:1000")).expect("a candidate");
    assert_eq!((agent.poll_timeout(), agent.poll_timeout()), (Some(began + ms(5)), Some(began + ms(5))));
}

#[test]
fn each_call_serves_an_early_request() {
    let (mut agent, bytes, began) = (IceAgent::new(creds("p9KA")), unhex(REQUEST), Instant::now());
    agent.set_local_credentials(IceCreds { ufrag: "p9KA".to_owned(), pass: PASSWORD.to_owned() });
    agent.add_local_candidate(host("10.0.0.1:1000")).expect("a candidate");
    for count in 0..3 {
        assert_eq!(agent.early_requests(), count);
        assert!(agent.handle_packet(began, from_peer(&bytes)));
    }
    agent.handle_timeout(began); // the credentials are not known yet
    assert_eq!((agent.early_requests(), agent.poll_transmit()), (3, None));
    agent.set_remote_credentials(IceCreds { ufrag: "SQAt".to_owned(), pass: "x".to_owned() });
    for left in [2, 1, 0] {
        agent.handle_timeout(began + ms(5));
        assert_eq!(agent.early_requests(), left);
        assert!(agent.poll_transmit().is_some() && agent.poll_transmit().is_none());
        assert_eq!(agent.poll_timeout(), Some(began + ms(5)));
    }
}

// ---- settings

/// The crate keeps what these calls returned, until the credentials change.
#[test]
fn credentials_are_those_that_were_set_last() {
    let mut agent = IceAgent::new(creds("near"));
    for (local, remote) in [("near", None), ("near", Some("farr")), ("nare", Some("rarf"))] {
        agent.set_local_credentials(creds(local));
        if let Some(remote) = remote {
            agent.set_remote_credentials(creds(remote));
        }
        for _ in 0..2 {
            assert_eq!((agent.local_credentials(), agent.remote_credentials()), (&creds(local), remote.map(creds).as_ref()));
        }
    }
    agent.ice_restart(creds("next"), true);
    assert_eq!((agent.local_credentials(), agent.remote_credentials()), (&creds("next"), None));
    agent.set_remote_credentials(creds(&"a".repeat(500)));
    assert_eq!(agent.remote_credentials(), Some(&creds(&"a".repeat(500))));
}

/// The candidate that the last call returned is not kept once packets come, and adding another one returns that.
#[test]
fn what_was_added_last_is_returned() {
    let mut agent = IceAgent::new(creds("near"));
    for port in ["1000", "1001"] {
        let at = format!("10.0.0.1:{port}");
        let added = agent.add_local_candidate(host(&at)).cloned();
        assert_eq!(added.map(|candidate| candidate.addr()), Some(self::at(&at)));
        agent.handle_timeout(Instant::now());
    }
    assert_eq!(agent.local_candidates().count(), 2);
}

#[test]
fn settings_begin_as_documented() {
    let agent = IceAgent::new(creds("near"));
    assert_eq!((agent.mtu(), agent.mtu_warn()), (1150, 1280));
    assert!(!agent.controlling() && !agent.ice_lite());
    let Settings { initial_rto, max_rto, max_retransmits, max_candidates, .. } = Settings::modern();
    let timing = StunTiming { initial_rto, max_rto, max_retransmits };
    assert_eq!((agent.ice_timeout(), agent.max_candidates()), (timing.timeout(), max_candidates));
    assert_eq!((agent.local_credentials(), agent.remote_credentials()), (&creds("near"), None));
}

#[test]
fn delays_are_set() {
    let mut agent = IceAgent::new(creds("near"));
    set_delays(&mut agent);
    assert_eq!(agent.ice_timeout(), ms(26700));
    agent.set_max_stun_retransmits(2);
    assert_eq!(agent.ice_timeout(), ms(1000));
    agent.set_max_stun_rto(ms(400));
    assert_eq!(agent.ice_timeout(), ms(800));
    agent.set_initial_stun_rto(ms(100));
    assert_eq!(agent.ice_timeout(), ms(400));
    agent.set_timing_advance(ms(20));
    agent.set_lite_timeout(ms(30000));
    agent.set_renomination(true);
    agent.set_mtu(600..=700);
    assert_eq!((agent.mtu(), agent.mtu_warn()), (600, 700));
}

/// Their numbers are in the table "Settings" of docs/API.md, which a test in Python compares with the library.
#[test]
fn the_named_settings_differ_in_what_modern_brings() {
    let (modern, original) = (Settings::modern(), Settings::original());
    assert_eq!(IceAgent::new(creds("near")).settings(), modern);
    assert_eq!((modern.profile, original.profile), (Profile::Modern, Profile::Original));
    assert_eq!((original.max_discovered, original.max_candidates), (None, None));
    assert_eq!(StunTiming::default().timeout(), {
        let Settings { initial_rto, max_rto, max_retransmits, .. } = original;
        StunTiming { initial_rto, max_rto, max_retransmits }.timeout()
    });
    assert_eq!(original.max_retransmits, DEFAULT_MAX_RETRANSMITS);
    let mut changed = original;
    (changed.profile, changed.max_rto, changed.max_retransmits) = (modern.profile, modern.max_rto, modern.max_retransmits);
    (changed.max_discovered, changed.max_candidates) = (modern.max_discovered, modern.max_candidates);
    assert_eq!(changed, modern);
}

type Setter = fn(&mut IceAgent);
type Change = fn(&mut Settings);

/// Each setter changes its field, and no other one.
#[test]
fn a_setter_sets_its_field() {
    let changes: [(Setter, Change); 9] = [
        (|agent| agent.set_timing_advance(ms(1)), |settings| settings.timing_advance = ms(1)),
        (|agent| agent.set_initial_stun_rto(ms(2)), |settings| settings.initial_rto = ms(2)),
        (|agent| agent.set_max_stun_rto(ms(3)), |settings| settings.max_rto = ms(3)),
        (|agent| agent.set_max_stun_retransmits(4), |settings| settings.max_retransmits = 4),
        (|agent| agent.set_lite_timeout(ms(5)), |settings| settings.lite_timeout = ms(5)),
        (|agent| agent.set_max_candidate_pairs(6), |settings| settings.max_pairs = 6),
        (|agent| agent.set_max_discovered(Some(7)), |settings| settings.max_discovered = Some(7)),
        (|agent| agent.set_max_candidates(Some(8)), |settings| settings.max_candidates = Some(8)),
        (|agent| agent.set_renomination(true), |settings| settings.renomination = true),
    ];
    for (set, change) in changes {
        let (mut agent, mut expected) = (IceAgent::new(creds("near")), Settings::modern());
        set(&mut agent);
        change(&mut expected);
        assert_eq!(agent.settings(), expected);
    }
}

/// The settings of an agent after these were set.
fn settings_after(settings: Settings) -> Settings {
    let mut agent = IceAgent::new(creds("near"));
    agent.set_settings(settings);
    agent.settings()
}

#[test]
fn settings_are_set() {
    const MOST: Duration = Duration::from_nanos(u64::MAX);
    let changes: [fn(&mut Settings); 15] = [
        |settings| *settings = Settings::original(),
        |settings| settings.profile = Profile::Original,
        |settings| settings.profile = Profile::Modern,
        |settings| settings.timing_advance = MOST,
        |settings| settings.initial_rto = MOST,
        |settings| settings.max_rto = MOST,
        |settings| settings.max_retransmits = usize::MAX,
        |settings| settings.lite_timeout = MOST,
        |settings| settings.consent = Consent { timeout: Some(MOST), strict: true },
        |settings| settings.consent = Consent { timeout: None, strict: true },
        |settings| settings.max_pairs = usize::MAX,
        |settings| settings.max_discovered = Some(0),
        |settings| settings.max_candidates = Some(0),
        |settings| (settings.max_discovered, settings.max_candidates) = (None, None),
        |settings| settings.renomination = true,
    ];
    for change in changes {
        for mut settings in [Settings::modern(), Settings::original()] {
            change(&mut settings);
            assert_eq!(settings_after(settings), settings);
        }
    }
}

#[test]
fn settings_without_a_check_are_refused() {
    let mut agent = IceAgent::new(creds("near"));
    let mut settings = Settings::original();
    settings.max_retransmits = 0;
    assert!(agent.try_set_settings(settings).is_err());
    assert_eq!(agent.settings(), Settings::modern());
}

/// Where the first four checks go of an agent whose peer has three private host candidates and a public one of this kind.
fn first_checks(mut agent: IceAgent, kind: &str) -> Vec<String> {
    agent.set_remote_credentials(creds("farr"));
    agent.add_local_candidate(host("10.0.0.1:1000")).expect("a candidate");
    for number in 2..5 {
        let line = format!("candidate:{number} 1 udp {} 10.0.0.{number} 2000 typ host", 2_130_706_175 - number);
        agent.add_remote_candidate(Candidate::from_sdp_string(&line).unwrap());
    }
    let public = format!("candidate:9 1 udp 1694498815 203.0.113.9 2000 typ {kind}");
    agent.add_remote_candidate(Candidate::from_sdp_string(&public).unwrap());
    let begin = Instant::now();
    let checks = (0..4).map(|count| {
        agent.handle_timeout(begin + ms(50) * count);
        agent.poll_transmit().expect("a check").destination.ip().to_string()
    });
    checks.collect()
}

#[test]
fn kinds_take_turns() {
    // the second check goes to the first kind, that of server-reflexive candidates, and the fourth one to the next kind, that of hosts;
    // a host candidate with a public address counts as server-reflexive
    for kind in ["srflx raddr 0.0.0.0 rport 0", "host"] {
        assert_eq!(first_checks(IceAgent::new(creds("near")), kind), ["10.0.0.2", "203.0.113.9", "10.0.0.3", "10.0.0.4"]);
        let mut original = IceAgent::new(creds("near"));
        set_profile(&mut original, Profile::Original);
        assert_eq!(first_checks(original, kind), ["10.0.0.2", "10.0.0.3", "10.0.0.4", "203.0.113.9"]);
    }
}

#[test]
fn a_public_base_comes_before_private_ones() {
    let mut agent = paired();
    for address in ["10.0.1.1:1000", "203.0.113.1:1000"] {
        agent.add_local_candidate(host(address)).expect("a candidate");
    }
    let begin = Instant::now();
    let sources = [0, 50, 100].map(|after| {
        agent.handle_timeout(begin + ms(after));
        agent.poll_transmit().expect("a check").source.ip().to_string()
    });
    // by priority, except for the second check, which goes to the first kind: only the public base reaches the outside
    assert_eq!(sources, ["10.0.0.1", "203.0.113.1", "10.0.1.1"]);
}

/// How soon after its first timeout the next one of an agent comes, which has three pairs to check.
fn next_timeout(profile: Profile, advance: Duration) -> Duration {
    let mut agent = IceAgent::new(creds("near"));
    set_profile(&mut agent, profile);
    agent.set_timing_advance(advance);
    agent.set_remote_credentials(creds("farr"));
    agent.add_local_candidate(host("10.0.0.1:1000")).expect("a candidate");
    for number in 2..5 {
        let line = format!("candidate:{number} 1 udp {} 10.0.0.{number} 2000 typ host", 2_130_706_175 - number);
        agent.add_remote_candidate(Candidate::from_sdp_string(&line).unwrap());
    }
    let begin = Instant::now();
    agent.handle_timeout(begin);
    agent.poll_timeout().expect("a timeout") - begin
}

#[test]
fn checks_are_closer_until_there_is_a_path() {
    assert_eq!(next_timeout(Profile::Original, ms(50)), ms(50));
    assert_eq!(next_timeout(Profile::Modern, ms(50)), ms(10));
    assert_eq!(next_timeout(Profile::Modern, ms(7)), ms(7));
}

#[test]
fn settings_that_are_not_taken_change_nothing() {
    let mut agent = IceAgent::new(creds("near"));
    agent.set_max_stun_retransmits(3);
    let timeout = agent.ice_timeout();
    agent.set_mtu(587..=1280);
    agent.set_max_stun_retransmits(0);
    agent.set_ice_lite(true);
    agent.set_controlling(true);
    assert_eq!((agent.mtu(), agent.mtu_warn(), agent.ice_timeout(), agent.controlling()), (1150, 1280, timeout, false));
}

#[test]
#[should_panic(expected = "ICE credentials too long")]
fn long_user_fragments_are_refused() {
    let mut agent = IceAgent::new(creds(&"a".repeat(254)));
    agent.set_remote_credentials(creds(&"b".repeat(253)));
    agent.set_remote_credentials(creds(&"b".repeat(254)));
}

#[test]
fn random_credentials() {
    let (one, two) = (IceCreds::new(), IceCreds::new());
    assert_eq!((one.ufrag.len(), one.pass.len()), (16, 22));
    assert_ne!(one, two);
}

// ---- candidates

#[test]
fn candidates_are_printed_and_read() {
    let candidate = host("1.2.3.4:9876");
    assert!(candidate.to_sdp_string().ends_with(" 1 udp 2130706175 1.2.3.4 9876 typ host"));
    let read = Candidate::from_sdp_string(&candidate.to_sdp_string()).unwrap();
    assert_eq!(
        (read.addr(), read.prio(), read.kind(), read.proto()),
        (candidate.addr(), candidate.prio(), CandidateKind::Host, Protocol::Udp)
    );
    let tcp =
        Candidate::from_sdp_string("candidate:1 1 tcp 1 10.0.0.2 9 typ srflx raddr 0.0.0.0 rport 0 tcptype passive ufrag EsAw").unwrap();
    assert_eq!((tcp.kind(), tcp.tcptype(), tcp.ufrag()), (CandidateKind::ServerReflexive, Some(TcpType::Passive), Some("EsAw")));
}

#[test]
fn refused_candidates_say_why() {
    let Err(IceError::BadCandidate(why)) = Candidate::from_sdp_string("candidate:12344 bad value") else { panic!("it reads") };
    assert_eq!(why, "candidate:12344 bad value: bad component-id");
    let two = Candidate::server_reflexive(at("10.0.0.1:1000"), at("[::1]:1000"), "udp").unwrap_err();
    assert_eq!(two.to_string(), "ICE bad candidate: addr and base are different IP versions");
    assert!(Candidate::host(at("0.0.0.0:1000"), "udp").is_err());
    assert!(Candidate::host(at("10.0.0.1:1000"), "sctp").is_err());
}

#[test]
fn a_candidate_that_is_known_is_not_added() {
    let mut agent = IceAgent::new(creds("near"));
    let added = agent.add_local_candidate(host("10.0.0.1:1000")).expect("a new one");
    assert_eq!((added.ufrag(), added.prio(), added.local()), (Some("near"), 2130706175, at("10.0.0.1:1000")));
    assert!(agent.add_local_candidate(host("10.0.0.1:1000")).is_none());
    assert_eq!(agent.add_local_candidate(host("10.0.0.1:1001")).unwrap().prio(), 2130705663);
    assert_eq!(agent.local_candidates().count(), 2);
}

#[test]
fn some_remote_candidates_are_ignored() {
    let mut agent = paired();
    for line in [PEER, "candidate:1 2 udp 2130706174 10.0.0.2 2001 typ host", "candidate:1 1 udp 7 10.0.0.3 3000 typ host ufrag else"] {
        agent.add_remote_candidate(Candidate::from_sdp_string(line).unwrap());
        assert_eq!(agent.remote_candidates().count(), 1, "{line}");
    }
    agent.add_remote_candidate(Candidate::from_sdp_string("candidate:1 1 udp 7 10.0.0.3 3000 typ host ufrag farr").unwrap());
    assert_eq!(agent.remote_candidates().map(|candidate| candidate.addr()).collect::<Vec<_>>(), [at("10.0.0.2:2000"), at("10.0.0.3:3000")]);
    assert!(agent.invalidate_candidate(&Candidate::from_sdp_string(PEER).unwrap()));
    assert_eq!(agent.remote_candidates().count(), 1);
}

/// Of each kind that is gathered, and with a scope, which no text has.
fn gathered() -> Vec<Candidate> {
    let (outer, inner) = (at("192.0.2.1:9"), at("10.0.0.1:1000"));
    let scoped = at("[fe80::1%7]:1000");
    vec![
        host("10.0.0.1:1000"),
        Candidate::host(scoped, "udp").unwrap(),
        Candidate::builder().tcp().host(inner).tcptype(TcpType::Passive).build().unwrap(),
        Candidate::server_reflexive(outer, inner, "udp").unwrap(),
        Candidate::server_reflexive(at("[2001:db8::1]:9"), scoped, "udp").unwrap(),
        Candidate::relayed(at("192.0.2.2:9"), inner, "udp").unwrap(),
        Candidate::relayed(at("192.0.2.2:9"), at("[::1]:1000"), "tls").unwrap(),
    ]
}

#[test]
fn what_is_listed_is_what_was_gathered() {
    let mut agent = IceAgent::new(creds("near"));
    for candidate in gathered() {
        let added = agent.add_local_candidate(candidate.clone()).expect("a new one").clone();
        assert_eq!(agent.local_candidates().last(), Some(added.clone()));
        let said = |of: &Candidate| (of.addr(), of.local(), of.proto(), of.kind(), of.tcptype());
        assert_eq!((said(&added), added.ufrag()), (said(&candidate), Some("near")));
    }
    assert_eq!(agent.local_candidates().count(), gathered().len());
}

#[test]
fn a_local_candidate_is_removed_as_gathered_and_as_listed() {
    for as_listed in [false, true] {
        let mut agent = IceAgent::new(creds("near"));
        for candidate in gathered() {
            agent.add_local_candidate(candidate).expect("a new one");
        }
        let removed = if as_listed { agent.local_candidates().collect() } else { gathered() };
        for (gone, candidate) in removed.iter().enumerate() {
            assert!(agent.invalidate_candidate(candidate), "{candidate:?}");
            assert_eq!(agent.local_candidates().count(), removed.len() - 1 - gone);
            assert!(agent.local_candidates().all(|left| (left.addr(), left.proto()) != (candidate.addr(), candidate.proto())));
            assert!(!agent.invalidate_candidate(candidate), "{candidate:?} is gone");
        }
    }
}

/// A text says nothing about the base.
#[test]
fn a_local_candidate_that_was_read_is_added_with_its_address_as_base() {
    let mut agent = IceAgent::new(creds("near"));
    for candidate in gathered() {
        let read = Candidate::from_sdp_string(&candidate.to_sdp_string()).unwrap();
        let added = agent.add_local_candidate(read.clone()).expect("a new one").clone();
        let said = |of: &Candidate| (of.addr(), of.local(), of.proto(), of.kind(), of.tcptype(), of.prio());
        assert_eq!((said(&added), added.foundation(), added.ufrag()), (said(&read), read.foundation(), Some("near")));
        // one of the same priority takes its place
        assert_eq!(agent.add_local_candidate(read), Some(&added));
        assert_eq!(agent.local_candidates().collect::<Vec<_>>(), std::slice::from_ref(&added));
        assert!(agent.invalidate_candidate(&added));
        assert_eq!(agent.local_candidates().count(), 0);
    }
    let (outer, related, kind) = (at("192.0.2.3:9"), Some(at("10.0.0.1:9")), CandidateKind::PeerReflexive);
    let learned = Candidate::from_parts("7".to_owned(), 1, Protocol::Udp, 7, outer, kind, related, None, None);
    let odd = Candidate::from_sdp_string("candidate:7 1 udp 7 224.0.0.1 9 typ host raddr 10.0.0.1 rport 9").unwrap();
    for made in [learned, odd] {
        for as_listed in [true, false] {
            let added = agent.add_local_candidate(made.clone()).expect("a new one").clone();
            assert_eq!((added.kind(), added.prio(), added.foundation()), (made.kind(), 7, made.foundation()));
            assert!(is::default_local_preference(&added, 0) <= 65535);
            let named = if as_listed { &added } else { &made };
            assert!(agent.invalidate_candidate(named) && !agent.invalidate_candidate(named));
        }
    }
    agent.add_local_candidate(host("10.0.0.1:1000")).expect("a new one");
    assert!(agent.invalidate_candidate(&Candidate::from_sdp_string(&host("10.0.0.1:1000").to_sdp_string()).unwrap()));
    assert_eq!(agent.local_candidates().count(), 0);
}

#[test]
fn remote_candidates_are_removed_as_listed() {
    let mut agent = paired();
    for line in [
        "candidate:2 1 udp 7 10.0.0.3 3000 typ host raddr 10.0.0.9 rport 9",
        "candidate:3 1 udp 7 192.0.2.3 3000 typ srflx raddr 10.0.0.3 rport 3000",
        "candidate:4 1 udp 7 192.0.2.4 3000 typ prflx",
        "candidate:5 1 udp 7 192.0.2.5 3000 typ relay raddr 0.0.0.0 rport 0",
    ] {
        agent.add_remote_candidate(Candidate::from_sdp_string(line).unwrap());
    }
    let listed: Vec<_> = agent.remote_candidates().collect();
    assert_eq!(listed.len(), 5);
    for candidate in &listed {
        assert!(agent.invalidate_candidate(candidate), "{candidate:?}");
        assert!(!agent.remote_candidates().any(|left| left == *candidate));
    }
    assert_eq!((agent.remote_candidates().count(), agent.pairs().count()), (0, 0));
}

#[test]
fn preferences_are_set() {
    let mut agent = IceAgent::new(creds("near"));
    let prio = |agent: &mut IceAgent, address: &str| agent.add_local_candidate(host(address)).expect("a new one").prio();
    let v4 = KindPreferences { host: 100, peer_reflexive: 0, server_reflexive: 0, relayed: 0 };
    let v6 = KindPreferences { host: 7, ..v4 };
    agent.set_preference_table(PreferenceTable { v4, v6 });
    assert_eq!(prio(&mut agent, "10.0.0.1:1"), 126 << 24 | 100 << 8 | 255);
    assert_eq!(prio(&mut agent, "10.0.0.2:1"), 126 << 24 | 99 << 8 | 255);
    assert_eq!(prio(&mut agent, "[2001:db8::1]:1"), 126 << 24 | 7 << 8 | 255);
    agent.set_local_preference(|_: &Candidate, _: usize| 5);
    assert_eq!(prio(&mut agent, "10.0.0.3:1"), 126 << 24 | 5 << 8 | 255);
    agent.reset_local_preference();
    assert_eq!(prio(&mut agent, "10.0.0.4:1"), 126 << 24 | (65534 - 6) << 8 | 255);
}

/// Prefers ports: its object keeps state of its own.
struct ByPort(u32);

impl LocalPreference for ByPort {
    fn calculate(&self, c: &Candidate, same_kind: usize) -> u32 {
        self.0 + u32::from(c.addr().port()) + same_kind as u32
    }
}

#[test]
fn a_preference_object_gets_the_candidate_and_the_count_of_its_kind() {
    let mut agent = IceAgent::new(creds("near"));
    let prio = |agent: &mut IceAgent, c: Candidate| agent.try_add_local_candidate(c).map(|added| added.expect("a new one").prio());
    agent.set_local_preference(ByPort(1000));
    assert_eq!(prio(&mut agent, host("10.0.0.1:1")), Ok(126 << 24 | 1001 << 8 | 255));
    assert_eq!(prio(&mut agent, host("[2001:db8::1]:2")), Ok(126 << 24 | 1002 << 8 | 255));
    assert_eq!(prio(&mut agent, host("10.0.0.2:3")), Ok(126 << 24 | 1004 << 8 | 255));
    let reflexive = Candidate::server_reflexive(at("192.0.2.1:9"), at("10.0.0.1:1"), "udp").unwrap();
    assert_eq!(prio(&mut agent, reflexive), Ok(100 << 24 | 1009 << 8 | 255));
    agent.set_local_preference(|_: &Candidate, _: usize| 65535);
    assert_eq!(prio(&mut agent, host("10.0.0.3:1")), Ok(126 << 24 | 65535 << 8 | 255));
    let count = agent.local_candidates().count();
    agent.set_local_preference(|_: &Candidate, _: usize| 65536);
    assert_eq!(prio(&mut agent, host("10.0.0.4:1")), Err(CallError::PriorityTooHigh));
    assert_eq!(agent.local_candidates().count(), count);
    agent.set_local_preference(is::default_local_preference);
    assert_eq!(prio(&mut agent, host("10.0.0.5:1")), Ok(126 << 24 | (65534 - 6) << 8 | 255));
}

#[test]
fn a_preference_function_counts_as_the_library_does() {
    let mut agent = IceAgent::new(creds("near"));
    let prio = |agent: &mut IceAgent, address: &str| agent.add_local_candidate(host(address)).expect("a new one").prio();
    agent.set_local_preference(|_: &Candidate, same_kind: usize| same_kind as u32);
    assert_eq!(prio(&mut agent, "10.0.0.1:1"), 126 << 24 | 255);
    assert_eq!(prio(&mut agent, "[2001:db8::1]:1"), 126 << 24 | 255);
    assert!(agent.invalidate_candidate(&host("10.0.0.1:1")));
    // One that was removed counts, as in the original.
    assert_eq!(prio(&mut agent, "10.0.0.2:1"), 126 << 24 | 1 << 8 | 255);
    let v4 = KindPreferences { host: 100, peer_reflexive: 0, server_reflexive: 0, relayed: 0 };
    agent.set_preference_table(PreferenceTable { v4, v6: v4 });
    assert_eq!(prio(&mut agent, "10.0.0.3:1"), 126 << 24 | 98 << 8 | 255);
    // A restart that keeps the others keeps those that were removed, too.
    agent.ice_restart(creds("next"), true);
    agent.set_local_preference(|_: &Candidate, same_kind: usize| same_kind as u32);
    assert_eq!(prio(&mut agent, "10.0.0.4:1"), 126 << 24 | 3 << 8 | 255);
    agent.ice_restart(creds("last"), false);
    assert_eq!(prio(&mut agent, "10.0.0.4:1"), 126 << 24 | 255);
}

#[test]
fn a_preference_function_is_not_asked_of_what_cannot_be_added() {
    let mut agent = IceAgent::new(creds("near"));
    agent.set_local_preference(|_: &Candidate, _: usize| 65536);
    assert_eq!(agent.try_add_local_candidate(host("10.0.0.1:1")), Err(CallError::PriorityTooHigh));
    // These have a priority.
    for line in ["candidate:1 1 udp 7 10.0.0.1 1 typ prflx raddr 10.0.0.2 rport 2", "candidate:1 1 udp 7 224.0.0.1 1 typ host"] {
        let read = Candidate::from_sdp_string(line).unwrap();
        assert_eq!(agent.try_add_local_candidate(read).map(|added| added.map(Candidate::prio)), Ok(Some(7)));
    }
}

// ---- others

#[test]
fn pairs_are_listed() {
    let mut agent = paired();
    let pair = agent.pairs().next().expect("a pair");
    assert_eq!((pair.local, pair.remote, pair.state, pair.selected), (0, 0, CheckState::Waiting, false));
    assert_eq!((pair.responses, pair.rtt, pair.due), (0, None, None));
    let now = Instant::now();
    agent.handle_timeout(now);
    let pair = agent.pairs().next().expect("a pair");
    assert_eq!(pair.state, CheckState::InProgress);
    assert_eq!(pair.due, Some(now + ms(100)));
    agent.add_remote_candidate(Candidate::from_sdp_string("candidate:1 1 udp 2130706431 10.0.0.3 3000 typ host").unwrap());
    let pairs: Vec<_> = agent.pairs().collect();
    assert_eq!(pairs.iter().map(|pair| pair.remote).collect::<Vec<_>>(), [0, 1]);
    assert!(pairs[0].priority < pairs[1].priority);
}

#[test]
fn pairs_may_be_few() {
    let mut agent = paired();
    agent.set_max_candidate_pairs(1);
    agent.add_remote_candidate(Candidate::from_sdp_string("candidate:1 1 udp 2130706431 10.0.0.3 3000 typ host").unwrap());
    agent.handle_timeout(Instant::now());
    assert_eq!(agent.poll_transmit().expect("a check").destination, at("10.0.0.3:3000"));
    agent.recreate_candidate_pairs();
    assert!(!agent.has_viable_remote_candidate(at("10.0.0.3:3000")));
}

/// The request arrives from so many ports; how many of them get a response.
fn replies_to_replays(agent: &mut IceAgent, ports: u16) -> usize {
    let (bytes, now) = (unhex(REQUEST), Instant::now());
    let mut replies = 0;
    for port in 3000..3000 + ports {
        let source = format!("10.0.0.9:{port}");
        assert!(agent.handle_packet(now, StunPacket { source: at(&source), ..from_peer(&bytes) }));
        replies += usize::from(agent.poll_transmit().is_some());
        while agent.poll_event().is_some() {}
    }
    replies
}

#[test]
fn requests_bring_few_candidates() {
    let limit = Settings::modern().max_discovered.expect("a limit");
    assert_eq!(replies_to_replays(&mut addressed(), limit as u16 + 8), limit);
    let mut agent = addressed();
    agent.set_max_discovered(Some(3));
    assert_eq!(replies_to_replays(&mut agent, 40), 3);
    let mut agent = addressed();
    agent.set_max_discovered(None);
    assert_eq!(replies_to_replays(&mut agent, 40), 40);
}

#[test]
fn nothing_shows_a_secret() {
    let text = format!("{:?}", paired());
    assert!(text.contains("controlling: true") && !text.contains("password"), "{text}");
    assert_eq!(format!("{:?}", creds("near")), r#"IceCreds { ufrag: "near", pass: ".." }"#);
    let mut agent = paired();
    agent.handle_timeout(Instant::now());
    let restart = agent.poll_event().expect("an event");
    assert_eq!(restart, IceAgentEvent::IceRestart(creds("near")));
    assert_eq!(format!("{restart:?}"), r#"IceRestart(IceCreds { ufrag: "near", pass: ".." })"#);
}

// ---- errors: what the peer signals is no panic

#[test]
fn credentials_that_are_too_long_are_an_error() {
    let (mut agent, long) = (IceAgent::new(creds("near")), creds(&"a".repeat(600)));
    assert_eq!(IceAgent::try_new(long.clone()).map(drop), Err(CallError::CredentialsTooLong));
    assert_eq!(agent.try_set_remote_credentials(long.clone()), Err(CallError::CredentialsTooLong));
    assert_eq!(agent.try_set_local_credentials(long.clone()), Err(CallError::CredentialsTooLong));
    assert_eq!(agent.try_ice_restart(long, false), Err(CallError::CredentialsTooLong));
    assert_eq!((agent.local_credentials(), agent.remote_credentials()), (&creds("near"), None));
    assert_eq!(CallError::CredentialsTooLong.to_string(), "ICE credentials too long");
    agent.try_set_remote_credentials(creds(&"a".repeat(503))).unwrap();
    assert_eq!(agent.try_set_local_credentials(creds("nears")), Err(CallError::CredentialsTooLong));
    assert_eq!(agent.local_credentials(), &creds("near"));
}

/// A username fragment that is no word makes texts of candidates that cannot be read, or only with another fragment.
#[test]
fn a_text_that_cannot_be_read_is_an_error() {
    for ufrag in ["", " ", "\u{2003}"] {
        let (mut agent, mut peer) = (IceAgent::new(creds(ufrag)), paired());
        let listed = agent.add_local_candidate(host("10.0.0.1:1000")).expect("a new one").clone();
        assert_eq!(peer.try_add_remote_candidate(listed.clone()), Err(CallError::BadCandidate));
        assert_eq!(peer.try_find_pair_for_equivalent_remote_candidate(&listed), Err(CallError::BadCandidate));
        assert!(matches!((listed.try_to_json(), listed.clone().try_set_ufrag("EsAw")), (Err(IceError::BadCandidate(_)), Err(_))));
        assert!(agent.invalidate_candidate(&listed));
    }
    let mut agent = IceAgent::new(creds("a b"));
    let listed = agent.add_local_candidate(host("10.0.0.1:1000")).expect("a new one").clone();
    assert_eq!((listed.ufrag(), paired().try_add_remote_candidate(listed.clone())), (Some("a b"), Ok(false)));
    assert_eq!(Candidate::from_json(&listed.to_json()).unwrap().ufrag(), Some("a"));
}

#[test]
fn at_the_limit_no_candidate_is_added() {
    let mut agent = IceAgent::new(creds("near"));
    assert_eq!(agent.max_candidates(), Settings::modern().max_candidates);
    agent.set_max_candidates(Some(1));
    assert!(agent.add_local_candidate(host("10.0.0.1:1000")).is_some());
    agent.add_remote_candidate(Candidate::from_sdp_string(PEER).unwrap());
    let another = Candidate::from_sdp_string(&PEER.replace("2000", "2002")).unwrap();
    assert_eq!(agent.try_add_local_candidate(host("10.0.0.1:1001")), Err(CallError::TooManyCandidates));
    assert_eq!(agent.try_add_remote_candidate(another.clone()), Err(CallError::TooManyCandidates));
    assert!(agent.add_local_candidate(host("10.0.0.1:1001")).is_none());
    agent.add_remote_candidate(another.clone());
    assert_eq!((agent.local_candidates().count(), agent.remote_candidates().count()), (1, 1));
    agent.set_max_candidates(None);
    assert_eq!((agent.max_candidates(), agent.try_add_remote_candidate(another)), (None, Ok(true)));
}

#[test]
fn numbers_that_are_too_small_are_an_error() {
    let mut agent = IceAgent::new(creds("near"));
    assert_eq!(agent.try_set_mtu(587..=1280), Err(CallError::MtuTooSmall));
    assert_eq!(agent.try_set_max_stun_retransmits(0), Err(CallError::BadLimit));
    assert_eq!((agent.mtu(), agent.ice_timeout()), (1150, ms(26700)));
    agent.try_set_mtu(588..=588).unwrap();
    agent.try_set_max_stun_retransmits(1).unwrap();
}

#[test]
fn each_call_returns_what_its_other_form_does() {
    let mut agent = paired();
    let (peer, other) = (Candidate::from_sdp_string(PEER).unwrap(), host("10.0.0.1:1001"));
    assert_eq!(agent.try_add_remote_candidate(peer.clone()), Ok(false));
    let third = Candidate::from_sdp_string("candidate:1 1 udp 7 10.0.0.3 3000 typ host").unwrap();
    assert_eq!(agent.try_add_remote_candidate(third.clone()), Ok(true));
    assert_eq!(agent.try_find_pair_for_equivalent_remote_candidate(&third), Ok(agent.find_pair_for_equivalent_remote_candidate(&third)));
    assert_eq!(agent.try_add_local_candidate(other.clone()).unwrap().unwrap().addr(), other.addr());
    assert_eq!(agent.try_add_local_candidate(other.clone()), Ok(None));
    assert_eq!((agent.try_local_candidates().unwrap().len(), agent.try_remote_candidates().unwrap().len()), (2, 2));
    assert_eq!((agent.try_invalidate_candidate(&other), agent.try_invalidate_candidate(&other)), (Ok(true), Ok(false)));
    assert_eq!((agent.try_recreate_candidate_pairs(), agent.try_handle_timeout(Instant::now())), (Ok(()), Ok(())));
    let (mut agent, bytes) = (addressed(), unhex(REQUEST));
    assert_eq!(agent.try_handle_packet(Instant::now(), from_peer(&bytes)), Ok(true));
    assert_eq!(agent.try_ice_restart(creds("near"), true), Ok(()));
    assert_eq!(agent.try_handle_packet(Instant::now(), from_peer(&bytes)), Ok(false));
}

// ---- what the system gives

/// In its own process: the descriptors of other tests would count.
#[test]
fn agents_hold_no_descriptors() {
    let is_alone = std::env::args().any(|word| word == "--exact");
    if !is_alone {
        let name = "agents_hold_no_descriptors";
        let ran = std::process::Command::new(std::env::current_exe().unwrap()).args(["--exact", name]).status().unwrap();
        assert!(ran.success());
        return;
    }
    let open = || std::fs::read_dir("/proc/self/fd").map_or(0, Iterator::count);
    let before = open();
    let agents: Vec<_> = (0..2000).map(|_| IceAgent::new(IceCreds::new())).collect();
    assert_eq!((open(), agents.len()), (before, 2000));
}

#[test]
fn tie_breakers_and_ids_differ() {
    let ids: std::collections::HashSet<_> = (0..1000).map(|_| is::stun::TransId::new()).collect();
    assert_eq!(ids.len(), 1000);
}

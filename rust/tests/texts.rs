//! Candidates as texts and as JSON, built and named. Expected lines follow RFC 8839 and RFC 6544, JSON follows the documented RTCIceCandidateInit.

mod world;

use is::{Candidate, CandidateKind, IceAgent, IceCreds, IceError, Protocol, TcpType, default_local_preference};
use world::{at, creds, host};

/// The example of RTCIceCandidate in MDN.
const LINE: &str = "candidate:4234997325 1 udp 2043278322 192.0.2.172 44323 typ host";

fn read(line: &str) -> Candidate {
    Candidate::from_sdp_string(line).expect("a candidate")
}

/// Its text after the foundation, which depends on the library.
fn rest(candidate: &Candidate) -> String {
    candidate.to_sdp_string().split_once(' ').expect("a blank").1.to_owned()
}

// ---- the builder

#[test]
fn each_route_is_built() {
    let (addr, base) = (at("192.0.2.1:2000"), at("10.0.0.1:1000"));
    let built = Candidate::builder().udp().host(base).build().unwrap();
    assert_eq!(built, host("10.0.0.1:1000"));
    let built = Candidate::builder().udp().server_reflexive(addr, base).build().unwrap();
    assert_eq!(built, Candidate::server_reflexive(addr, base, "udp").unwrap());
    let built = Candidate::builder().tls().relayed(addr, base).build().unwrap();
    assert_eq!(built, Candidate::relayed(addr, base, "tls").unwrap());
    assert_eq!((built.kind(), built.addr(), built.local()), (CandidateKind::Relayed, addr, base));
    assert_eq!(Candidate::builder().ssl_tcp().host(base).build().unwrap().proto(), Protocol::SslTcp);
}

#[test]
fn a_tcp_candidate_states_its_type() {
    let mut agent = IceAgent::new(creds("near"));
    for (port, tcptype, word) in [(9, TcpType::Active, "active"), (10, TcpType::Passive, "passive"), (11, TcpType::So, "so")] {
        let addr = at(&format!("10.0.0.1:{port}"));
        let candidate = Candidate::builder().tcp().host(addr).tcptype(tcptype).build().unwrap();
        assert_eq!(candidate.tcptype(), Some(tcptype));
        assert_eq!(rest(&candidate), format!("1 tcp 1526726399 10.0.0.1 {port} typ host tcptype {word}"));
        let added = agent.add_local_candidate(candidate).expect("a candidate");
        assert_eq!((added.tcptype(), added.ufrag()), (Some(tcptype), Some("near")));
    }
    assert_eq!(agent.local_candidates().filter(|candidate| candidate.local() == candidate.addr()).count(), 3);
    let second = Candidate::builder().tcp().host(at("10.0.0.1:10")).tcptype(TcpType::Passive).build().unwrap();
    assert!(agent.invalidate_candidate(&second));
    assert_eq!(agent.local_candidates().count(), 2);
}

#[test]
fn no_candidate_has_such_an_address() {
    let unspecified = Candidate::builder().tcp().host(at("0.0.0.0:9")).tcptype(TcpType::So).build();
    assert!(matches!(unspecified, Err(IceError::BadCandidate(why)) if why.ends_with("0.0.0.0")));
    let mixed = Candidate::builder().udp().server_reflexive(at("192.0.2.1:1"), at("[2001:db8::1]:1")).build();
    assert!(matches!(mixed, Err(IceError::BadCandidate(_))));
}

// ---- the username fragment

#[test]
fn a_fragment_is_set() {
    let mut candidate = read(LINE);
    assert_eq!(candidate.ufrag(), None);
    candidate.set_ufrag("EsAw");
    assert_eq!((candidate.ufrag(), candidate.to_sdp_string()), (Some("EsAw"), format!("{LINE} ufrag EsAw")));
    candidate.set_ufrag("9uB6");
    assert_eq!(candidate.to_sdp_string(), format!("{LINE} ufrag 9uB6"));
}

#[test]
fn a_fragment_leaves_the_base() {
    let mut agent = IceAgent::new(creds("near"));
    let scoped = Candidate::host(at("[fe80::1%7]:1000"), "udp").unwrap();
    let reflexive = Candidate::server_reflexive(at("192.0.2.1:9"), at("10.0.0.1:1000"), "udp").unwrap();
    for candidate in [scoped, reflexive] {
        let mut named = candidate.clone();
        named.set_ufrag("EsAw");
        assert_eq!((named.ufrag(), named.addr(), named.local()), (Some("EsAw"), candidate.addr(), candidate.local()));
        assert_eq!(agent.add_local_candidate(named.clone()).expect("a candidate").ufrag(), Some("near"));
        assert!(agent.invalidate_candidate(&named));
    }
}

#[test]
#[should_panic(expected = "bad username fragment")]
fn a_fragment_is_one_word() {
    read(LINE).set_ufrag("a b");
}

#[test]
fn a_candidate_of_another_session_is_ignored() {
    let mut agent = IceAgent::new(creds("near"));
    agent.set_remote_credentials(creds("farr"));
    let mut candidate = read(LINE);
    candidate.set_ufrag("gone");
    agent.add_remote_candidate(candidate.clone());
    assert_eq!(agent.remote_candidates().count(), 0);
    candidate.set_ufrag("farr");
    agent.add_remote_candidate(candidate);
    assert_eq!(agent.remote_candidates().count(), 1);
}

// ---- JSON

#[test]
fn both_spacings_are_read() {
    let compact = format!(r#"{{"candidate":"{LINE}","sdpMid":"0","sdpMLineIndex":0,"usernameFragment":"EsAw"}}"#);
    let spaced = format!(r#"{{ "candidate": "{LINE}", "sdpMLineIndex": 0, "sdpMid": "0", "usernameFragment": "EsAw" }}"#);
    for json in [compact, spaced] {
        let candidate = Candidate::from_json(&json).unwrap();
        assert_eq!(candidate.to_sdp_string(), format!("{LINE} ufrag EsAw"));
        assert_eq!((candidate.addr(), candidate.prio()), (at("192.0.2.172:44323"), 2043278322));
    }
}

#[test]
fn json_is_written() {
    assert_eq!(read(LINE).to_json(), format!(r#"{{"candidate":"{LINE}","sdpMLineIndex":0,"sdpMid":null,"usernameFragment":null}}"#));
    let mut named = read(LINE);
    named.set_ufrag("EsAw");
    let json = format!(r#"{{"candidate":"{LINE} ufrag EsAw","sdpMLineIndex":0,"sdpMid":null,"usernameFragment":"EsAw"}}"#);
    assert_eq!(named.to_json(), json);
    assert_eq!(Candidate::from_json(&json), Ok(named));
}

#[test]
fn json_without_a_candidate_is_an_error() {
    for json in ["", "[]", "{}", r#"{"candidate":7}"#, r#"{"candidate":""}"#, LINE] {
        assert!(matches!(Candidate::from_json(json), Err(IceError::BadCandidate(why)) if !why.is_empty()), "{json}");
    }
    let number = format!(r#"{{"candidate":"{LINE}","usernameFragment":7}}"#);
    assert!(Candidate::from_json(&number).is_err());
}

// ---- preferences and pairs

#[test]
fn the_default_preference_depends_on_kind_version_and_count() {
    let relayed = Candidate::relayed(at("192.0.2.1:1"), at("[2001:db8::1]:1"), "udp").unwrap();
    let v6 = host("[2001:db8::1]:1");
    let numbers = [(&v6, 0, 65535), (&host("10.0.0.1:1"), 0, 65534), (&v6, 2, 65531), (&relayed, 0, 15382), (&v6, 40_000, 0)];
    for (candidate, same_kind, preference) in numbers {
        assert_eq!(default_local_preference(candidate, same_kind), preference);
    }
    assert_eq!(default_local_preference(&read(&LINE.replace("host", "srflx")), 0), 32766);
}

#[test]
fn the_pair_of_a_candidate_is_found() {
    let mut agent = IceAgent::new(creds("near"));
    agent.add_local_candidate(host("10.0.0.1:1000")).expect("a candidate");
    agent.add_remote_candidate(read("candidate:1 1 udp 7 192.0.2.1 1 typ host"));
    assert_eq!(agent.find_pair_for_equivalent_remote_candidate(&read(LINE)), None);
    agent.add_remote_candidate(read(LINE));
    let pair = agent.find_pair_for_equivalent_remote_candidate(&read(LINE)).expect("a pair");
    assert_eq!((pair.local, pair.remote), (0, 1));
    assert_eq!(agent.pairs().find(|listed| listed.remote == 1), Some(pair));
    assert_eq!(agent.find_pair_for_equivalent_remote_candidate(&read(&LINE.replace("host", "srflx"))), None);
}

/// RFC 8839, sections 5.1 and 5.4; its credentials are those of section 5.6.
#[test]
fn texts_are_in_the_grammar_or_not() {
    let creds = |ufrag: &str, pass: &str| IceCreds { ufrag: ufrag.to_owned(), pass: pass.to_owned() }.is_in_grammar();
    let (pass, many) = ("asd88fgpdd777uzjYhagZg", "z".repeat(257));
    assert!(creds("8hhY", pass) && creds(&many[..256], &many[..256]));
    assert!(!creds("8hhY", &many) && !creds(&many, pass) && !creds("8hhY", &many[..21]) && !creds("8hh", pass) && !creds("8h Y", pass));
    assert!(!creds("8h-Y", pass) && !creds("8h\u{e9}Y", pass));
    let with = |foundation: &str| read(&LINE.replace("4234997325", foundation));
    for (foundation, is_in) in [("a+/1", true), (&many[..32], true), (&many[..33], false), ("a-1", false), ("\u{e9}", false)] {
        assert_eq!((with(foundation).foundation(), with(foundation).is_in_grammar()), (foundation, is_in));
        let mut named = with("1");
        named.set_ufrag(foundation);
        assert_eq!(named.is_in_grammar(), !foundation.contains(['-', '\u{e9}']));
    }
}

#[test]
fn fields_are_those_of_the_text() {
    let address = "192.0.2.3:3000".parse().unwrap();
    let with = |foundation: &str, ufrag: Option<&str>| {
        let (foundation, ufrag) = (foundation.to_owned(), ufrag.map(str::to_owned));
        let (raddr, role) = (Some("10.0.0.3:9".parse().unwrap()), Some(TcpType::Passive));
        Candidate::try_from_parts(foundation, 2, Protocol::Tcp, 7, address, CandidateKind::ServerReflexive, raddr, role, ufrag)
    };
    let line = "candidate:a+/1 2 tcp 7 192.0.2.3 3000 typ srflx raddr 10.0.0.3 rport 9 tcptype passive";
    assert_eq!(with("a+/1", None), Candidate::from_sdp_string(line));
    assert_eq!(with("a+/1", Some("near")), Candidate::from_sdp_string(&format!("{line} ufrag near")));
    for (foundation, ufrag) in [("", None), ("1 2", None), ("1 1 udp 7 10.0.0.1 9 typ host x", None), ("1", Some("")), ("1", Some("a b"))] {
        assert!(matches!(with(foundation, ufrag), Err(IceError::BadCandidate(_))), "{foundation:?} {ufrag:?}");
    }
}

//! The public items of the crate `is` 0.12.0 that concern candidates, in the way in which a program written for it uses them.

use is::{default_local_preference, Candidate, CandidateBuilder, CandidateKind, IceCreds, IceError, Protocol};
use std::collections::HashSet;
use std::error::Error;
use std::net::SocketAddr;

const LINE: &str = "candidate:1 1 udp 2130706175 10.0.0.2 2000 typ host";

fn at(text: &str) -> SocketAddr {
    text.parse().unwrap()
}

fn host(text: &str) -> Candidate {
    Candidate::host(at(text), Protocol::Udp).unwrap()
}

#[test]
fn credentials() {
    let creds: IceCreds = IceCreds::new();
    let IceCreds { ufrag, pass } = creds.clone();
    assert_eq!((ufrag.len(), pass.len()), (16, 22));
    assert!(HashSet::from([creds.clone()]).contains(&creds));
}

#[test]
fn host_candidates() {
    let by_name: Result<Candidate, IceError> = Candidate::host(at("10.0.0.1:1"), "udp");
    assert_eq!((by_name.unwrap().kind(), host("10.0.0.1:1").kind()), (CandidateKind::Host, CandidateKind::Host));
}

#[test]
fn server_reflexive_candidates() {
    let candidate = Candidate::server_reflexive(at("192.0.2.1:1"), at("10.0.0.1:1"), "udp").unwrap();
    assert_eq!((candidate.kind(), candidate.local()), (CandidateKind::ServerReflexive, at("10.0.0.1:1")));
}

#[test]
fn relayed_candidates() {
    let candidate = Candidate::relayed(at("192.0.2.1:1"), at("10.0.0.1:1"), "tcp").unwrap();
    assert_eq!((candidate.kind(), candidate.local(), candidate.proto()), (CandidateKind::Relayed, at("10.0.0.1:1"), Protocol::Tcp));
}

#[test]
fn candidates_of_parts() {
    let (foundation, address, ufrag) = ("1".to_string(), at("10.0.0.2:2000"), Some("near".to_string()));
    let candidate = Candidate::from_parts(foundation, 1, Protocol::Udp, 7, address, CandidateKind::Host, None, None, ufrag);
    assert_eq!((candidate.addr(), candidate.prio(), candidate.ufrag()), (address, 7, Some("near")));
}

#[test]
fn texts() {
    let candidate: Candidate = Candidate::from_sdp_string(LINE).unwrap();
    assert_eq!((candidate.to_sdp_string(), candidate.to_string()), (LINE.to_string(), LINE.to_string()));
}

#[test]
fn errors() {
    let Err(IceError::BadCandidate(why)) = Candidate::from_sdp_string("candidate:") else { panic!("no error") };
    let error: Box<dyn Error> = IceError::BadCandidate(why).into();
    assert!(error.to_string().starts_with("ICE bad candidate: "));
}

#[test]
fn fields() {
    let mut candidate = host("10.0.0.1:1");
    candidate.set_ufrag("near");
    assert_eq!((candidate.addr(), candidate.local(), candidate.ufrag()), (at("10.0.0.1:1"), at("10.0.0.1:1"), Some("near")));
    assert_eq!((candidate.proto(), candidate.tcptype(), candidate.prio()), (Protocol::Udp, None, 126 << 24 | 65534 << 8 | 255));
}

#[test]
fn candidates_are_values() {
    let candidate = host("10.0.0.1:1");
    assert!(HashSet::from([candidate.clone()]).contains(&candidate) && !format!("{candidate:?}").is_empty());
}

#[test]
fn kinds() {
    use CandidateKind::*;
    assert_eq!([Host, PeerReflexive, ServerReflexive, Relayed].map(|kind| kind.to_string()), ["host", "prflx", "srflx", "relay"]);
}

#[test]
fn builders_of_udp() {
    let build = |by: fn(SocketAddr) -> Result<Candidate, IceError>| by(at("192.0.2.1:1")).unwrap().kind();
    assert_eq!(build(|to| Candidate::builder().udp().host(to).build()), CandidateKind::Host);
    let reflexive = build(|to| Candidate::builder().udp().server_reflexive(to, "10.0.0.1:1".parse().unwrap()).build());
    let relayed = build(|to| Candidate::builder().udp().relayed(to, "10.0.0.1:1".parse().unwrap()).build());
    assert_eq!((reflexive, relayed), (CandidateKind::ServerReflexive, CandidateKind::Relayed));
}

#[test]
fn builders_of_tcp() {
    fn build<P, R>(builder: CandidateBuilder<P, R>) -> CandidateBuilder<P, R> {
        builder
    }
    let role = Candidate::from_sdp_string("candidate:1 1 tcp 7 10.0.0.1 9 typ host tcptype passive").unwrap().tcptype().unwrap();
    let tcp = build(Candidate::builder()).tcp().host(at("10.0.0.1:1")).tcptype(role).build().unwrap();
    let ssl = Candidate::builder().ssl_tcp().host(at("10.0.0.1:1")).build().unwrap();
    let tls = Candidate::builder().tls().tcptype(role).host(at("10.0.0.1:1")).build().unwrap();
    assert_eq!([tcp.proto(), ssl.proto(), tls.proto()], [Protocol::Tcp, Protocol::SslTcp, Protocol::Tls]);
}

#[test]
fn words_of_tcp_types() {
    let line = |word: &str| format!("candidate:1 1 tcp 7 10.0.0.1 9 typ host tcptype {word}");
    for word in ["active", "passive", "so"] {
        let role = Candidate::from_sdp_string(&line(word)).unwrap().tcptype().unwrap();
        assert_eq!((role.to_string(), word.parse()), (word.to_string(), Ok(role)));
    }
}

#[test]
fn words_of_protocols() {
    use Protocol::*;
    for (protocol, word) in [(Udp, "udp"), (Tcp, "tcp"), (SslTcp, "ssltcp"), (Tls, "tls")] {
        let name: &str = protocol.into();
        assert_eq!((name, protocol.to_string(), Protocol::try_from(word)), (word, word.to_string(), Ok(protocol)));
    }
}

#[test]
fn default_preference() {
    let preference: u32 = default_local_preference(&host("10.0.0.1:1"), 1);
    assert_eq!(preference, 65532);
}

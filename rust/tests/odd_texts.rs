//! One reading of a text: what a candidate says of itself is what the agent lists, and where the agent sends its checks. So a program may
//! filter a peer's candidates by what they say.

mod random;
mod world;

use is::{Candidate, CandidateKind, IceAgent, IceError, Protocol, TcpType};
use random::{Random, SPACES, escaped};
use std::collections::HashSet;
use std::net::SocketAddr;
use std::time::Instant;
use world::{at, creds, host};

const LINE: &str = "candidate:1 1 udp 2130706431 10.0.0.2 2000 typ host";

fn read(text: &str) -> Candidate {
    Candidate::from_sdp_string(text).unwrap_or_else(|why| panic!("{why}"))
}

/// What a candidate says of itself, except its username fragment.
fn said(of: &Candidate) -> (SocketAddr, SocketAddr, u32, Protocol, CandidateKind, Option<TcpType>) {
    (of.addr(), of.local(), of.prio(), of.proto(), of.kind(), of.tcptype())
}

/// Its text without its username fragment, which is last. An agent lists no fragment of a remote candidate.
fn unnamed(of: &Candidate) -> String {
    let text = of.to_sdp_string();
    let fragment = of.ufrag().map(|ufrag| format!(" ufrag {ufrag}")).unwrap_or_default();
    text.strip_suffix(&fragment).expect("the fragment is last").to_owned()
}

/// An agent with a host candidate of both IP versions, of each protocol, for the peer with this username fragment. `None` if that is too
/// long for a check.
fn agent(ufrag: &str) -> Option<IceAgent> {
    let mut agent = IceAgent::new(creds("near"));
    agent.try_set_remote_credentials(creds(ufrag)).ok()?;
    for address in ["10.9.9.9:9", "[2001:db8::9]:9"] {
        for proto in [Protocol::Udp, Protocol::Tcp, Protocol::SslTcp, Protocol::Tls] {
            agent.add_local_candidate(Candidate::host(at(address), proto).unwrap()).expect("a new candidate");
        }
    }
    Some(agent)
}

/// Reads the text, and compares what the candidate says with what an agent does. Returns whether it was added.
fn compare(text: &str) -> bool {
    let Ok(candidate) = Candidate::from_sdp_string(text) else { return false };
    let printed = candidate.to_sdp_string();
    assert!(!printed.chars().any(|letter| letter.is_whitespace() && letter != ' '), "{text:?} is printed as {printed:?}");
    assert!(!printed.contains("  ") && !printed.ends_with(' '), "{text:?} is printed as {printed:?}");
    assert_eq!((candidate.to_string(), read(&printed)), (printed.clone(), candidate.clone()), "{text:?} is read again");
    assert_eq!(Candidate::from_json(&candidate.to_json()), Ok(candidate.clone()), "{text:?} is read from JSON again");
    let Some(mut agent) = agent(candidate.ufrag().unwrap_or("farr")) else { return false };
    if !agent.try_add_remote_candidate(candidate.clone()).unwrap() {
        return false;
    }
    let listed: Vec<_> = agent.remote_candidates().collect();
    assert_eq!((listed.len(), said(&listed[0]), unnamed(&listed[0])), (1, said(&candidate), unnamed(&candidate)), "{text:?} is listed");
    agent.handle_timeout(Instant::now());
    if let Some(check) = agent.poll_transmit() {
        assert_eq!((check.proto, check.destination), (candidate.proto(), candidate.addr()), "a check of {text:?}");
    }
    assert!(agent.invalidate_candidate(&candidate), "{text:?} is removed");
    assert_eq!(agent.remote_candidates().count(), 0);
    true
}

#[test]
fn one_text_has_one_address() {
    for space in SPACES {
        let words = ["1", "1", "udp", "1", "9.9.9.9", "5", "typ", "host"].join(space);
        compare(&format!("candidate:{words} 1 udp 2130706431 10.0.0.1 80 typ host"));
        compare(&format!("candidate:{words}{space}1{space}udp{space}2130706431{space}10.0.0.1{space}80{space}typ{space}host"));
    }
    // U+00A0 is white space of Unicode, so the first eight words count; U+001C is none, so it is part of the foundation.
    let odd = read("candidate:1\u{a0}1\u{a0}udp\u{a0}1\u{a0}10.0.0.1\u{a0}80\u{a0}typ\u{a0}host 1 udp 1 9.9.9.9 5 typ host");
    assert_eq!(odd.addr(), at("10.0.0.1:80"));
    let odd = read("candidate:1\u{1c}1\u{1c}udp\u{1c}1\u{1c}9.9.9.9\u{1c}5\u{1c}typ\u{1c}host 1 udp 1 10.0.0.1 80 typ host");
    assert_eq!(odd.addr(), at("10.0.0.1:80"));
}

#[test]
fn each_white_space_is_read_and_one_is_printed() {
    for space in ["\t", "\n", "\r\n", "\u{b}", "\u{c}", "\u{85}", "\u{a0}", "\u{1680}", "\u{2003}", "\u{2028}", "\u{3000}"] {
        let text = LINE.replace(' ', space);
        assert_eq!(read(&text).to_sdp_string(), LINE, "{text:?}");
        assert!(compare(&text));
        assert_eq!(read(&format!("{LINE}{space}")).to_sdp_string(), LINE);
    }
}

#[test]
fn the_last_of_repeated_keys_counts() {
    let twice = "candidate:1 1 tcp 7 10.0.0.2 9 typ srflx raddr 0.0.0.0 rport 1 ufrag gone tcptype so rport 2 generation 0 tcptype passive ufrag farr";
    let candidate = read(twice);
    assert_eq!((candidate.tcptype(), candidate.ufrag()), (Some(TcpType::Passive), Some("farr")));
    assert_eq!(candidate.to_sdp_string(), "candidate:1 1 tcp 7 10.0.0.2 9 typ srflx raddr 0.0.0.0 rport 2 tcptype passive ufrag farr");
    assert!(compare(twice));
}

/// A foundation may be any word, and a username fragment too.
#[test]
fn odd_words_are_no_panic() {
    for text in [
        "candidate: 1 1 udp 1 10.0.0.2 9 typ host",
        "candidate:",
        "candidate:1 1 udp 1 10.0.0.2",
        "candidate:ufrag 1 udp 1 10.0.0.2 9 typ host ufrag ufrag",
        "candidate:1 1 udp 1 10.0.0.2 9 typ host ufrag",
        "candidate:1 1 udp 1 10.0.0.2 9 typ host tcptype",
        "candidate:\0 1 udp 1 10.0.0.2 9 typ host ufrag \0",
        "candidate:é 1 udp 1 10.0.0.2 9 typ host ufrag é\u{301}",
    ] {
        compare(text);
    }
    for length in [1, 256, 257, 503, 504, 5000] {
        let ufrag = "u".repeat(length);
        let candidate = read(&format!("{LINE} ufrag {ufrag}"));
        assert_eq!(candidate.ufrag(), Some(ufrag.as_str()));
        assert_eq!(compare(&candidate.to_sdp_string()), length <= 503);
    }
}

/// JSON has no username fragment that a text cannot have, so what it reads can be added.
#[test]
fn a_fragment_in_json_is_one_word() {
    for space in SPACES.into_iter().filter(|space| space.chars().all(char::is_whitespace)) {
        for ufrag in [space.to_owned(), format!("a{space}b"), format!("a{space}")] {
            let json = format!(r#"{{"candidate":"{LINE}","usernameFragment":{}}}"#, escaped(&ufrag));
            let read = Candidate::from_json(&json);
            match ufrag.split_whitespace().collect::<Vec<_>>()[..] {
                [word] if word == ufrag => assert_eq!(read.unwrap().ufrag(), Some(word)),
                _ => assert!(matches!(read, Err(IceError::BadCandidate(why)) if !why.is_empty()), "{json}"),
            }
            let mut named = Candidate::from_sdp_string(LINE).unwrap();
            let before = named.clone();
            match named.try_set_ufrag(&ufrag) {
                Ok(()) => assert_eq!(named.ufrag(), Some(ufrag.as_str())),
                Err(_) => assert_eq!((ufrag.split_whitespace().count() == 1 && ufrag.trim() == ufrag, &named), (false, &before)),
            }
        }
    }
}

#[test]
fn random_texts_have_one_reading() {
    let count = std::env::var("IS_ICE_TEXTS").map_or(20_000, |count| count.parse().expect("a number"));
    let (mut random, mut added) = (Random(1), 0);
    for _ in 0..count {
        let text = random.line();
        added += usize::from(compare(&text));
        if let Ok(candidate) = Candidate::from_json(&random.json()) {
            compare(&candidate.to_sdp_string());
        }
    }
    assert!(added * 40 > count, "{added} of {count} were added");
}

// ---- mDNS names

#[test]
fn a_resolved_name_is_replaced() {
    let signaled = "candidate:1 1 udp 2130706431 3F2B8C1E.LOCAL 2000 typ host ufrag EsAw";
    assert_eq!(Candidate::mdns_name(signaled).as_deref(), Some("3F2B8C1E.LOCAL"));
    assert!(Candidate::from_sdp_string(signaled).is_err());
    let resolved = Candidate::from_mdns(signaled, at("10.0.0.2:0").ip()).unwrap();
    assert_eq!(resolved.to_sdp_string(), format!("{LINE} ufrag EsAw"));
    let v6 = Candidate::from_mdns(signaled, at("[2001:db8::7]:0").ip()).unwrap();
    assert_eq!(v6.addr(), at("[2001:db8::7]:2000"));
    assert_eq!((Candidate::mdns_name(LINE), Candidate::mdns_name("x.local"), Candidate::mdns_name("")), (None, None, None));
    assert!(Candidate::from_mdns("candidate:1 1 udp 1 x.local", at("10.0.0.2:0").ip()).is_err());
}

// ---- equality

#[test]
fn equal_candidates_hash_alike() {
    let once: HashSet<_> = [read(LINE), read(&LINE.replace(' ', "\u{2003}")), read(&format!("{LINE} generation 0"))].into();
    assert_eq!(once.len(), 1);
    assert_eq!(host("10.0.0.2:2000"), read(&host("10.0.0.2:2000").to_sdp_string()));
    assert_ne!(host("10.0.0.2:2000"), read(LINE));
    let reflexive = Candidate::server_reflexive(at("192.0.2.1:9"), at("10.0.0.1:1000"), "udp").unwrap();
    let other = Candidate::server_reflexive(at("192.0.2.1:9"), at("10.0.0.1:1001"), "udp").unwrap();
    assert!(reflexive != other && reflexive != read(&reflexive.to_sdp_string()));
}

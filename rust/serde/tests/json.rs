//! The JSON of candidates and credentials, by serde_json.

use is::{Candidate, IceCreds};

const LINE: &str = "candidate:1 1 udp 2130706175 10.0.0.2 2000 typ host ufrag EsAw";

#[test]
fn a_candidate_is_written_as_a_browser_writes_it() {
    let candidate = Candidate::from_sdp_string(LINE).unwrap();
    let json = serde_json::to_string(&candidate).unwrap();
    assert_eq!(json, format!(r#"{{"candidate":"{LINE}","sdpMid":null,"sdpMLineIndex":0,"usernameFragment":"EsAw"}}"#));
    assert_eq!(serde_json::from_str::<Candidate>(&json).unwrap(), candidate);
    assert_eq!(Candidate::from_json(&json).unwrap(), candidate);
}

#[test]
fn what_a_browser_signals_is_read() {
    let signaled = r#"{"candidate":"candidate:1 1 udp 7 10.0.0.2 2000 typ host","sdpMid":"0","sdpMLineIndex":1,"usernameFragment":"near"}"#;
    let candidate: Candidate = serde_json::from_str(signaled).unwrap();
    assert_eq!((candidate.addr(), candidate.ufrag()), ("10.0.0.2:2000".parse().unwrap(), Some("near")));
    assert_eq!(Candidate::from_json(signaled).unwrap(), candidate);
}

#[test]
fn what_is_no_candidate_is_an_error() {
    for json in
        [r#"{"candidate":""}"#, r#"{"sdpMid":"0"}"#, r#"{"candidate":"candidate:1 1 udp 7 10.0.0.2 9 typ host","usernameFragment":" "}"#]
    {
        assert!(serde_json::from_str::<Candidate>(json).is_err(), "{json}");
    }
}

#[test]
fn credentials_have_both_fields() {
    let creds = IceCreds { ufrag: "EsAw".to_owned(), pass: "P2uYro0UCOQ4zxjKXaWCBui1".to_owned() };
    let json = serde_json::to_string(&creds).unwrap();
    assert_eq!(json, r#"{"ufrag":"EsAw","pass":"P2uYro0UCOQ4zxjKXaWCBui1"}"#);
    assert_eq!(serde_json::from_str::<IceCreds>(&json).unwrap(), creds);
}

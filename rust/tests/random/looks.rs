//! What a program may ask of a candidate, of a pair and of a message: every accessor, and that what is printed or written is read alike.

use super::Random;
use is::stun::StunMessage;
use is::{Candidate, CandidatePair, default_local_preference, try_default_local_preference};
use std::hint::black_box;

/// No event and no credentials print it.
pub const PASSWORD: &str = "secret-of-a-session-22";

fn no_hmac(_: &[u8], _: &[&[u8]]) -> [u8; 20] {
    unreachable!("HMAC-SHA1 is the library's")
}

/// Whether its text can be read again: not if an agent lists it whose username fragment is empty or has white space.
pub fn is_named_by_a_word(c: &Candidate) -> bool {
    let is_named = c.to_sdp_string().contains(" ufrag ");
    c.ufrag().map_or(!is_named, |ufrag| !ufrag.contains(char::is_whitespace))
}

pub fn look_at_candidate(c: &Candidate, random: &mut Random) {
    black_box((c.addr(), c.local(), c.prio(), c.proto(), c.kind(), c.tcptype(), c.ufrag(), format!("{c} {c:?} {}", c.kind())));
    assert!(c.to_sdp_string().starts_with(&format!("candidate:{} ", c.foundation())));
    assert!(!c.is_in_grammar() || c.foundation().len() <= 32);
    let (same_kind, read) = (random.number(), Candidate::from_sdp_string(&c.to_sdp_string()));
    let (json, preference) = (c.try_to_json(), try_default_local_preference(c, same_kind));
    if is_named_by_a_word(c) {
        assert_eq!(read.unwrap().to_sdp_string(), c.to_sdp_string());
        assert_eq!((json.unwrap(), preference), (c.to_json(), Ok(default_local_preference(c, same_kind))));
    }
}

/// A pair of an agent with these candidates.
pub fn look_at_pair(pair: &CandidatePair, local: &[Candidate], remote: &[Candidate]) {
    assert_eq!(pair.local_candidate(local), &local[pair.local_idx()]);
    assert_eq!(pair.remote_candidate(remote), &remote[pair.remote_idx()]);
    assert_eq!((pair.try_local_candidate(local), pair.try_remote_candidate(&[])), (local.get(pair.local_idx()), None));
    black_box((pair.prio(), pair.state(), pair.is_nominated(), pair.remote_binding_request_time(), pair.last_successful_rtt()));
    black_box((pair.responses_received(), pair.total_round_trip_time(), format!("{pair:?}")));
}

pub fn look_at_message(m: &StunMessage<'_>, random: &mut Random) {
    black_box((m.method(), m.class(), m.trans_id(), m.username(), m.mapped_address(), m.prio(), m.use_candidate()));
    black_box((m.error_code(), m.channel_number(), m.lifetime(), m.xor_peer_address(), m.data().map(<[u8]>::len), m.realm(), m.nonce()));
    black_box((m.xor_relayed_address(), m.software(), m.ice_controlled(), m.ice_controlling(), m.network_cost(), m.has_integrity()));
    black_box((m.nomination(), m.has_fingerprint(), m.is_signed_by(PASSWORD.as_bytes()), m.verify(b"", no_hmac), format!("{m:?}").len()));
    black_box((m.is_binding_request(), m.is_successful_binding_response(), m.is_failed_binding_response(), m.is_allocate_request()));
    black_box((m.requested_transport(), m.requested_family()));
    black_box((m.is_create_permission_request(), m.is_channel_bind_request(), m.is_refresh_request(), m.is_send_indication()));
    if let (Some(username), Some((receiver, sender))) = (m.username(), m.split_username()) {
        assert_eq!(format!("{receiver}:{sender}"), username);
    }
    let (size, key) = (random.below(4000), random.bytes(30));
    let password = (random.once_in(2)).then_some(key.as_slice());
    let mut buffers = [vec![0; size], vec![0; size]];
    let lengths = (m.write(password, &mut buffers[0]).ok(), m.to_bytes(password, &mut buffers[1], no_hmac).ok());
    assert_eq!((lengths.0, &buffers[0]), (lengths.1, &buffers[1]));
    if let Some(length) = lengths.0 {
        // a channel number or an error code may be written that cannot be read
        if let Ok(read) = StunMessage::parse_any(&buffers[0][..length]) {
            assert_eq!((read.username(), read.data(), read.trans_id()), (m.username(), m.data(), m.trans_id()));
            assert_eq!(read.split_username(), m.split_username());
        }
    }
}

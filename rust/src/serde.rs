//! Candidates for serde, as the original has them: the `RTCIceCandidateInit` of W3C WebRTC.

use crate::candidate::Candidate;
use ::serde::de::{Deserialize, Deserializer, Error};
use ::serde::ser::{Serialize, Serializer};

#[derive(::serde::Serialize, ::serde::Deserialize)]
#[serde(rename_all = "camelCase")]
struct Signaled {
    candidate: String,
    #[serde(skip_deserializing)]
    sdp_mid: Option<String>,
    #[serde(rename = "sdpMLineIndex", skip_deserializing)]
    sdp_m_line_index: u16,
    username_fragment: Option<String>,
}

impl Serialize for Candidate {
    fn serialize<S: Serializer>(&self, serializer: S) -> Result<S::Ok, S::Error> {
        let username_fragment = self.ufrag().map(str::to_owned);
        Signaled { candidate: self.to_sdp_string(), sdp_mid: None, sdp_m_line_index: 0, username_fragment }.serialize(serializer)
    }
}

impl<'de> Deserialize<'de> for Candidate {
    fn deserialize<D: Deserializer<'de>>(deserializer: D) -> Result<Candidate, D::Error> {
        let signaled = Signaled::deserialize(deserializer)?;
        let mut candidate = Candidate::from_sdp_string(&signaled.candidate).map_err(D::Error::custom)?;
        if let Some(ufrag) = signaled.username_fragment {
            candidate.try_set_ufrag(&ufrag).map_err(D::Error::custom)?;
        }
        Ok(candidate)
    }
}

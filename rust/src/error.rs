//! Errors.

use crate::ffi;
use std::error::Error;
use std::fmt;
use std::io;

/// A candidate with an error.
#[derive(Clone, Debug, PartialEq, Eq)]
pub enum IceError {
    /// An address that no candidate may have, or a text that is not a candidate, with the library's explanation. Also "out of memory".
    BadCandidate(String),
}

impl IceError {
    /// The error of a call: what the second call explains, if the first one found a fault of the candidate.
    pub(crate) fn of(code: i32, explain: impl FnMut(&mut [u8], &mut usize) -> i32) -> IceError {
        let why = if code == ffi::BAD_CANDIDATE { ffi::text(explain).ok() } else { None };
        IceError::BadCandidate(why.unwrap_or_else(|| ffi::text_of(code).to_owned()))
    }
}

impl fmt::Display for IceError {
    fn fmt(&self, f: &mut fmt::Formatter<'_>) -> fmt::Result {
        match self {
            IceError::BadCandidate(why) => write!(f, "ICE bad candidate: {why}"),
        }
    }
}

impl Error for IceError {}

/// Why a call failed that has no error in the original. What it was called on is unchanged, so the call may be repeated.
///
/// ```
/// use is::{CallError, IceAgent, IceCreds};
///
/// let mut agent = IceAgent::try_new(IceCreds::try_new()?)?;
/// let signaled = IceCreds { ufrag: "a".repeat(600), pass: "b".repeat(22) };
/// assert_eq!(agent.try_set_remote_credentials(signaled), Err(CallError::CredentialsTooLong));
/// # Ok::<(), CallError>(())
/// ```
#[derive(Clone, Copy, Debug, PartialEq, Eq)]
#[non_exhaustive]
pub enum CallError {
    /// Both username fragments and a colon are longer than 508 bytes, so no check could be written; or the USERNAME at a TURN server is, or
    /// its password is longer than 763 bytes.
    CredentialsTooLong,
    /// Out of memory.
    OutOfMemory,
    /// The system has no random bytes.
    NoRandomBytes,
    /// The call may form more pairs than there are pair numbers left: 2^64 in the life of an agent.
    PairIdsExhausted,
    /// A local candidate of priority 4294967295, or of a local preference above 65535.
    PriorityTooHigh,
    /// The candidate is one that an agent lists as a local one, and its text cannot be read, since the username fragment of the agent is
    /// no word: it is empty, for example.
    BadCandidate,
    /// An MTU below 588 bytes, the length of the longest connectivity check without NOMINATION.
    MtuTooSmall,
    /// A limit of 0 retransmits.
    BadLimit,
    /// There are as many candidates of the side as [`IceAgent::set_max_candidates`](crate::IceAgent::set_max_candidates) allows.
    TooManyCandidates,
    /// A lite agent with [`Profile::Modern`](crate::Profile::Modern) was to be controlling.
    LiteStaysControlled,
    /// A text that is no URL of a STUN or TURN server, or is one of a server over DTLS.
    BadUrl,
    /// A datagram that is too long to go through a TURN server.
    MessageTooLong,
    /// A stream of a server with bytes that are neither a STUN message nor ChannelData.
    Unparsed,
    /// Another code of `c/is_ice.h`, which no call of this crate returns.
    Other(i32),
}

impl CallError {
    const CODES: [(i32, CallError); 12] = [
        (ffi::CREDENTIALS_TOO_LONG, CallError::CredentialsTooLong),
        (ffi::OUT_OF_MEMORY, CallError::OutOfMemory),
        (ffi::PAIR_IDS_EXHAUSTED, CallError::PairIdsExhausted),
        (ffi::PRIORITY_TOO_HIGH, CallError::PriorityTooHigh),
        (ffi::BAD_CANDIDATE, CallError::BadCandidate),
        (ffi::MTU_TOO_SMALL, CallError::MtuTooSmall),
        (ffi::BAD_LIMIT, CallError::BadLimit),
        (ffi::TOO_MANY_CANDIDATES, CallError::TooManyCandidates),
        (ffi::LITE_STAYS_CONTROLLED, CallError::LiteStaysControlled),
        (ffi::BAD_URL, CallError::BadUrl),
        (ffi::MESSAGE_TOO_LONG, CallError::MessageTooLong),
        (ffi::UNPARSED, CallError::Unparsed),
    ];

    #[cold]
    pub(crate) fn of(code: i32) -> CallError {
        CallError::CODES.iter().find(|known| known.0 == code).map_or(CallError::Other(code), |known| known.1)
    }
}

impl fmt::Display for CallError {
    fn fmt(&self, f: &mut fmt::Formatter<'_>) -> fmt::Result {
        f.write_str(match self {
            CallError::NoRandomBytes => "no random bytes",
            CallError::Other(code) => ffi::text_of(*code),
            known => CallError::CODES.iter().find(|(_, error)| error == known).map_or("", |(code, _)| ffi::text_of(*code)),
        })
    }
}

impl Error for CallError {}

/// Whether a call returned `OK`, and not `NOTHING` or why it did nothing; or its error.
pub(crate) fn found(code: i32) -> Result<bool, CallError> {
    match code {
        ffi::OK => Ok(true),
        ffi::NOTHING.. => Ok(false),
        code => Err(CallError::of(code)),
    }
}

/// The result of a call that has no error in the original.
///
/// # Panics
///
/// If it is an error, with its text.
#[track_caller]
pub(crate) fn or_panic<T, E: fmt::Display>(result: Result<T, E>) -> T {
    match result {
        Ok(value) => value,
        Err(why) => panic!("{why}"),
    }
}

/// A STUN message that cannot be parsed or written.
#[derive(Debug)]
pub enum StunError {
    /// Bytes that are not a STUN message, or are a Binding request or success response without an attribute that ICE requires.
    Parse(String),
    /// A message that cannot be written: of kind `WriteZero` if the buffer is too short, else of kind `InvalidInput`.
    Io(io::Error),
}

impl fmt::Display for StunError {
    fn fmt(&self, f: &mut fmt::Formatter<'_>) -> fmt::Result {
        match self {
            StunError::Parse(why) => write!(f, "STUN parse error: {why}"),
            StunError::Io(why) => write!(f, "STUN io: {why}"),
        }
    }
}

impl Error for StunError {
    fn source(&self) -> Option<&(dyn Error + 'static)> {
        match self {
            StunError::Parse(_) => None,
            StunError::Io(why) => Some(why),
        }
    }
}

impl From<io::Error> for StunError {
    fn from(why: io::Error) -> StunError {
        StunError::Io(why)
    }
}

#[cfg(test)]
mod tests {
    use super::{CallError, IceError, found};
    use crate::ffi;

    #[test]
    fn each_code_keeps_its_text() {
        for code in -21..0 {
            assert_eq!((CallError::of(code).to_string().as_str(), found(code)), (ffi::text_of(code), Err(CallError::of(code))));
        }
        assert_eq!((found(ffi::OK), found(ffi::NOTHING), found(3)), (Ok(true), Ok(false), Ok(false)));
        assert_eq!(CallError::of(ffi::OUT_OF_MEMORY), CallError::OutOfMemory);
    }

    #[test]
    fn a_candidates_error_is_explained_if_it_can_be() {
        let explain = |buffer: &mut [u8], length: &mut usize| {
            buffer[..3].copy_from_slice(b"why");
            *length = 3;
            ffi::OK
        };
        assert_eq!(IceError::of(ffi::BAD_CANDIDATE, explain), IceError::BadCandidate("why".to_owned()));
        assert_eq!(IceError::of(ffi::BAD_CANDIDATE, |_, _| ffi::OUT_OF_MEMORY), IceError::BadCandidate("bad candidate".to_owned()));
        assert_eq!(IceError::of(ffi::OUT_OF_MEMORY, explain), IceError::BadCandidate("out of memory".to_owned()));
    }
}

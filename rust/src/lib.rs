//! A proved ICE agent (RFC 8445) with the API of the crate `is` 0.12.0.
//!
//! Names, arguments and results are those of that crate, so a program that uses it needs only another line in its Cargo.toml. The
//! agent is written in Rattle, proved, and called over its C interface. README.md has the loop and the examples.
//!
//! ```
//! use is::{Candidate, IceAgent, IceCreds};
//!
//! let mut agent = IceAgent::new(IceCreds::new());
//! let address = "192.0.2.1:5000".parse().unwrap();
//! agent.add_local_candidate(Candidate::host(address, "udp").unwrap());
//! agent.set_controlling(true);
//! ```
//!
//! Differences, in addition to those of the agent in docs/DIFFERENCES.md:
//! - An error that the original does not have, such as out of memory, is a panic that names it, as each method documents. Each of these
//!   methods has a second form that returns a [`CallError`]: [`IceAgent::try_set_remote_credentials`], for example.
//! - HMAC-SHA1 is the proved one: [`IceAgent::with_hmac`] does not call its provider. Random bytes are those of the system, by `getentropy`.
//! - [`stun::StunMessage`]: `verify` and `to_bytes` do not call the HMAC function that they get. [`stun::StunMessage::binding_query`] writes a
//!   Binding request without credentials.
//! - Candidate JSON is a text, by [`Candidate::to_json`] and [`Candidate::from_json`]: a package in serde/ has serde. The one in str0m/ has serde,
//!   the types of `str0m_proto` in place of its own, and events for `tracing`.

mod agent;
mod all_settings;
mod builder;
mod candidate;
mod clock;
mod creds;
mod error;
mod event;
mod ffi;
mod hmac;
mod ids;
mod logs;
mod media;
mod pair;
mod preference;
mod proto;
mod rejection;
mod rejection_counts;
mod removed;
#[cfg(any(feature = "serde", str0m_types))]
mod serde;
pub mod servers;
mod session_log;
mod settings;
pub mod stun;
mod stun_builder;
mod stun_texts;
mod stun_timing;
#[cfg(not(str0m_types))]
mod types;
mod unserved;
mod watched;
#[cfg(str0m_types)]
use str0m_proto as types;

pub use agent::IceAgent;
pub use all_settings::{Consent, Profile, Settings};
pub use builder::CandidateBuilder;
pub use candidate::{Candidate, CandidateKind};
pub use creds::IceCreds;
pub use error::{CallError, IceError, StunError};
pub use event::{IceAgentEvent, IceAgentStats, IceConnectionState, MediaPath};
pub use hmac::DefaultSha1HmacProvider;
pub use media::{FailedSend, SilenceEvent};
pub use pair::{CandidatePair, CheckState};
pub use preference::{KindPreferences, LocalPreference, PreferenceTable, default_local_preference, try_default_local_preference};
pub use rejection::Rejection;
pub use rejection_counts::RejectionCounts;
pub use removed::{Removal, RemovedPair};
pub use session_log::SessionLog;
pub use types::{Protocol, Sha1HmacProvider, TcpType, Transmit};
pub use unserved::Unserved;

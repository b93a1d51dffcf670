//! All that a program may choose of an agent, in one value.

use crate::agent::IceAgent;
use crate::clock::nanoseconds;
use crate::error::{CallError, or_panic};
use crate::ffi;
use std::time::Duration;

/// All that a program may choose of an agent.
///
/// An agent begins with [`Settings::modern`]. The table "Settings" of docs/API.md has the numbers of both. To change one setting, change
/// its field, or call its own setter:
///
/// ```
/// let mut agent = is::IceAgent::new(is::IceCreds::new());
/// let mut settings = agent.settings();
/// settings.max_pairs = 50;
/// agent.set_settings(settings);
/// assert_eq!(agent.settings().max_pairs, 50);
/// agent.set_settings(is::Settings::original());
/// ```
#[derive(Clone, Copy, Debug, PartialEq, Eq)]
#[non_exhaustive]
pub struct Settings {
    /// Which behavior the agent has. The peer may have the other one.
    pub profile: Profile,
    /// See [`IceAgent::set_timing_advance`].
    pub timing_advance: Duration,
    /// See [`IceAgent::set_initial_stun_rto`].
    pub initial_rto: Duration,
    /// See [`IceAgent::set_max_stun_rto`].
    pub max_rto: Duration,
    /// See [`IceAgent::set_max_stun_retransmits`]. At least 1.
    pub max_retransmits: usize,
    /// See [`IceAgent::set_lite_timeout`].
    pub lite_timeout: Duration,
    /// How long a response keeps a pair, with [`Profile::Modern`].
    pub consent: Consent,
    /// See [`IceAgent::set_max_candidate_pairs`].
    pub max_pairs: usize,
    /// See [`IceAgent::set_max_discovered`]. `None`: no limit.
    pub max_discovered: Option<usize>,
    /// See [`IceAgent::set_max_candidates`]. `None`: no limit.
    pub max_candidates: Option<usize>,
    /// See [`IceAgent::set_renomination`].
    pub renomination: bool,
}

/// Which behavior an agent has.
#[derive(Clone, Copy, Debug, PartialEq, Eq)]
pub enum Profile {
    /// That of the Rust crate `is` 0.12.0.
    Original,
    /// That of this library: agents connect sooner, consent ends in time, and a path that dies is left for one that works. "What `Modern`
    /// does" of docs/GUIDE.md lists its rules. What they change of a call or a setting is said there.
    Modern,
}

/// How long the response to a check keeps a pair (RFC 7675), with [`Profile::Modern`].
#[derive(Clone, Copy, Debug, PartialEq, Eq)]
pub struct Consent {
    /// How long after that check was sent. `None`, or a duration of 0: the longest RTO and [`IceAgent::ice_timeout`] together.
    pub timeout: Option<Duration>,
    /// Whether only responses keep a pair, as in RFC 7675. Otherwise the peer's checks keep it too, each for 15 s.
    pub strict: bool,
}

/// A limit as the library has it: the greatest number is none.
pub(crate) fn limit_of(limit: usize) -> Option<usize> {
    Some(limit).filter(|limit| *limit != usize::MAX)
}

impl Settings {
    /// The settings of the original: its behavior and its numbers, without a limit on candidates.
    pub fn original() -> Settings {
        Settings::of(|settings| ffi::is_ice_original_settings(settings))
    }

    /// The settings with which a new agent begins: it connects sooner, and consent ends in time.
    pub fn modern() -> Settings {
        Settings::of(|settings| ffi::is_ice_modern_settings(settings))
    }

    /// What the library writes.
    fn of(call: impl FnOnce(&mut ffi::AgentSettings) -> i32) -> Settings {
        let mut raw = ffi::AgentSettings::default();
        let code = call(&mut raw);
        debug_assert_eq!(code, ffi::OK);
        let timeout = (raw.consent_timeout > 0).then_some(Duration::from_nanos(raw.consent_timeout));
        Settings {
            profile: if raw.modern { Profile::Modern } else { Profile::Original },
            timing_advance: Duration::from_nanos(raw.timing_advance),
            initial_rto: Duration::from_nanos(raw.initial_rto),
            max_rto: Duration::from_nanos(raw.max_rto),
            max_retransmits: raw.max_retransmits,
            lite_timeout: Duration::from_nanos(raw.lite_timeout),
            consent: Consent { timeout, strict: raw.strict_consent },
            max_pairs: raw.max_pairs,
            max_discovered: limit_of(raw.max_discovered),
            max_candidates: limit_of(raw.max_candidates),
            renomination: raw.renomination,
        }
    }

    fn raw(&self) -> ffi::AgentSettings {
        ffi::AgentSettings {
            timing_advance: nanoseconds(self.timing_advance),
            initial_rto: nanoseconds(self.initial_rto),
            max_rto: nanoseconds(self.max_rto),
            lite_timeout: nanoseconds(self.lite_timeout),
            consent_timeout: self.consent.timeout.map_or(0, nanoseconds),
            max_retransmits: self.max_retransmits,
            max_pairs: self.max_pairs,
            max_discovered: self.max_discovered.unwrap_or(usize::MAX),
            max_candidates: self.max_candidates.unwrap_or(usize::MAX),
            room: [0; 4],
            modern: self.profile == Profile::Modern,
            strict_consent: self.consent.strict,
            renomination: self.renomination,
        }
    }
}

impl IceAgent {
    /// Sets all that a program may choose. Set it before the session: a pair whose due time is fixed already keeps it, unless an RTO
    /// changes. Default: [`Settings::modern`].
    ///
    /// # Panics
    ///
    /// If [`Settings::max_retransmits`] is 0.
    #[track_caller]
    pub fn set_settings(&mut self, settings: Settings) {
        or_panic(self.try_set_settings(settings));
    }

    /// As `set_settings`, with an error in place of the panic.
    ///
    /// # Errors
    ///
    /// If [`Settings::max_retransmits`] is 0. Then nothing is changed.
    pub fn try_set_settings(&mut self, settings: Settings) -> Result<(), CallError> {
        self.tell(|agent| ffi::is_ice_set_settings(agent, &settings.raw())).map(drop)
    }

    /// What is set.
    pub fn settings(&self) -> Settings {
        Settings::of(|settings| self.ask(|agent| ffi::is_ice_settings(agent, settings)))
    }
}

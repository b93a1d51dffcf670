//! For `rust/original`: what the original's test modules use of its private parts, by what is public here.
mod glue {
    pub use is::stun::{StunPacket, StunTiming, TransId};
    pub use is::*;
    pub use std::collections::{HashMap, HashSet, VecDeque};
    pub use std::net::{IpAddr, Ipv4Addr, Ipv6Addr, SocketAddr, SocketAddrV4, SocketAddrV6};
    pub use std::ops::{Deref, DerefMut};
    pub use std::str::FromStr;
    pub use std::time::{Duration, Instant};

    pub const DATAGRAM_MTU_TARGET: usize = 1150;
    pub const DATAGRAM_MTU_WARN: usize = 1280;
    pub const REMOTE_PEER_REFLEXIVE_TEMP_FOUNDATION: &str = "tmp_prflx";

    /// A span of `tracing`, in which the original's sessions run a call: here it only calls.
    #[derive(Clone, Copy, Debug)]
    pub struct Span;

    impl Span {
        pub fn in_scope<T>(&self, call: impl FnOnce() -> T) -> T {
            call()
        }
    }

    #[macro_export]
    macro_rules! info_span {
        ($($fields:tt)*) => {
            Span
        };
    }

    /// An agent with the settings of a new one, or, if IS_ICE_SETTINGS is `original`, with those of the original.
    pub fn new_agent(creds: IceCreds) -> IceAgent {
        let mut agent = IceAgent::new(creds);
        if std::env::var("IS_ICE_SETTINGS").is_ok_and(|settings| settings == "original") {
            agent.set_settings(Settings::original());
        }
        agent
    }

    pub trait PrivateAgent {
        fn num_candidate_pairs(&self) -> usize;
        fn pair_indexes(&self) -> Vec<(usize, usize)>;
        fn drained(&mut self) -> Vec<IceAgentEvent>;
    }

    impl PrivateAgent for IceAgent {
        fn num_candidate_pairs(&self) -> usize {
            self.pairs().count()
        }

        fn pair_indexes(&self) -> Vec<(usize, usize)> {
            self.pairs().map(|pair| (pair.local_idx(), pair.remote_idx())).collect()
        }

        fn drained(&mut self) -> Vec<IceAgentEvent> {
            std::iter::from_fn(|| self.poll_event()).collect()
        }
    }

    pub trait PrivateCandidate {
        fn test_peer_rflx(addr: SocketAddr, base: SocketAddr, proto: impl TryInto<Protocol>) -> Candidate;
        fn base(&self) -> SocketAddr;
        fn raddr(&self) -> Option<SocketAddr>;
        fn local_preference(&self) -> u32;
    }

    impl PrivateCandidate for Candidate {
        fn test_peer_rflx(addr: SocketAddr, base: SocketAddr, proto: impl TryInto<Protocol>) -> Candidate {
            let Ok(proto) = proto.try_into() else { panic!("no protocol") };
            Candidate::from_parts("tmp".into(), 1, proto, 1862270975, addr, CandidateKind::PeerReflexive, Some(base), None, None)
        }

        fn base(&self) -> SocketAddr {
            self.local()
        }

        fn raddr(&self) -> Option<SocketAddr> {
            let text = self.to_sdp_string();
            let words: Vec<&str> = text.split(' ').collect();
            let at = words.iter().position(|word| *word == "raddr")?;
            Some(SocketAddr::new(words[at + 1].parse().ok()?, words[at + 3].parse().ok()?))
        }

        fn local_preference(&self) -> u32 {
            self.prio() >> 8 & 0xffff
        }
    }
}
use glue::*;

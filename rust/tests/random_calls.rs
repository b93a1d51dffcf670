//! Sessions of random calls with random arguments, over every public function: none panics.
//!
//! A session is a seed. `IS_ICE_SESSIONS=100000 cargo test --release --test random_calls` runs so many, from `IS_ICE_SEED` on. A call that
//! can fail by its arguments is called by its form that returns an error, and by its other form with arguments that it accepts.

mod random;

use is::stun::{AddressFamily, BindingResponse, StunMessage, StunMessageBuilder, StunPacket, StunTiming, TransId};
use is::{Candidate, CandidateKind, DefaultSha1HmacProvider, IceAgent, IceAgentEvent, IceCreds, Sha1HmacProvider, TcpType};
use is::{Consent, KindPreferences, PreferenceTable, Profile, Protocol, RejectionCounts, SessionLog, Settings};
use random::Random;
use random::looks::{PASSWORD, is_named_by_a_word, look_at_candidate, look_at_message, look_at_pair};
use std::hint::black_box;
use std::net::SocketAddr;
use std::time::{Duration, Instant};

const SESSIONS: u64 = 400;
const CALLS: usize = 60;

/// A datagram: the side that it is for, protocol, source, destination and bytes.
type Datagram = (usize, Protocol, SocketAddr, SocketAddr, Vec<u8>);

struct Session {
    seed: u64,
    random: Random,
    agents: [IceAgent; 2],
    logs: [SessionLog; 2],
    rejected: RejectionCounts,
    candidates: Vec<Candidate>,
    wire: Vec<Datagram>,
    began: Instant,
    now: Instant,
    /// The packets that were accepted, and the paths that were selected.
    seen: [usize; 2],
}

impl Drop for Session {
    fn drop(&mut self) {
        if std::thread::panicking() {
            eprintln!("IS_ICE_SEED={} IS_ICE_SESSIONS=1", self.seed);
        }
    }
}

fn creds(ufrag: &str) -> IceCreds {
    IceCreds { ufrag: ufrag.to_owned(), pass: PASSWORD.to_owned() }
}

/// Half of the calls pass time and packets, so that sessions get far.
const GROUPS: [fn(&mut Session); 16] = [
    Session::gather,
    Session::read,
    Session::use_candidate,
    Session::use_candidate,
    Session::set,
    Session::ask,
    Session::write_message,
    Session::start_again,
    Session::pass_time,
    Session::pass_time,
    Session::pass_time,
    Session::pass_packet,
    Session::pass_packet,
    Session::pass_packet,
    Session::pass_packet,
    Session::pass_packet,
];

impl Session {
    fn new(seed: u64) -> Session {
        let mut random = Random(seed);
        let mut agents = [IceAgent::new(creds("near")), IceAgent::with_hmac(creds("farr"), &DefaultSha1HmacProvider)];
        if !random.once_in(4) {
            agents[0].set_controlling(true);
            agents[0].set_remote_credentials(creds("farr"));
            agents[1].set_remote_credentials(creds("near"));
        }
        if !random.once_in(4) {
            for (side, address) in ["10.0.0.1:1000", "10.0.0.2:2000"].into_iter().enumerate() {
                let host = Candidate::host(address.parse().unwrap(), "udp").unwrap();
                agents[1 - side].add_remote_candidate(host.clone());
                agents[side].add_local_candidate(host);
            }
        }
        let began = Instant::now();
        let logs = [SessionLog::new(), SessionLog::new()];
        let rejected = RejectionCounts::new();
        Session { seed, random, agents, logs, rejected, candidates: Vec::new(), wire: Vec::new(), began, now: began, seen: [0; 2] }
    }

    fn run(mut self) -> [usize; 2] {
        for _ in 0..CALLS {
            let group = *self.random.pick(&GROUPS);
            group(&mut self);
        }
        self.seen
    }

    fn side(&mut self) -> usize {
        self.random.below(2)
    }

    /// A candidate of the session, or a new one.
    fn any_candidate(&mut self) -> Candidate {
        if self.candidates.is_empty() || self.random.once_in(3) {
            let made = Candidate::host(self.random.address(), self.random.protocol());
            return made.unwrap_or_else(|_| Candidate::host("10.0.0.1:1000".parse().unwrap(), "udp").unwrap());
        }
        let at = self.random.below(self.candidates.len());
        self.candidates[at].clone()
    }

    fn keep(&mut self, made: Result<Candidate, is::IceError>) {
        match made {
            Ok(candidate) => {
                look_at_candidate(&candidate, &mut self.random);
                self.candidates.push(candidate);
            }
            Err(why) => assert!(!why.to_string().is_empty()),
        }
    }

    // ---- candidates

    fn gather(&mut self) {
        let (addr, base) = (self.random.address(), self.random.address());
        let (proto, kind) = (self.random.protocol(), self.random.below(7));
        let word = self.random.word(&["udp", "TCP", "sslTcp", "tls", "sctp", ""]);
        let tcptype = *self.random.pick(&[TcpType::Active, TcpType::Passive, TcpType::So]);
        let builder = Candidate::builder();
        let made = match kind {
            0 => Candidate::host(addr, proto),
            1 => Candidate::host(addr, word.as_str()),
            2 => Candidate::server_reflexive(addr, base, proto),
            3 => Candidate::relayed(addr, base, proto),
            4 => builder.udp().server_reflexive(addr, base).build(),
            5 => match proto {
                Protocol::SslTcp => builder.ssl_tcp().host(addr).tcptype(tcptype).build(),
                Protocol::Tls => builder.tls().relayed(addr, base).tcptype(tcptype).build(),
                _ => builder.tcp().server_reflexive(addr, base).tcptype(tcptype).build(),
            },
            _ => Candidate::host("10.0.0.1:1000".parse().unwrap(), "udp"),
        };
        self.keep(made);
    }

    /// A candidate of its parts.
    fn build(&mut self) {
        let (foundation, ufrag, component) = (self.random.text(), self.random.text(), self.random.number() as u16);
        let (priority, addr, related) = (self.random.number() as u32, self.random.address(), self.random.address());
        let kind = *self.random.pick(&[CandidateKind::Host, CandidateKind::ServerReflexive, CandidateKind::Relayed]);
        let (related, ufrag) = (self.random.once_in(2).then_some(related), self.random.once_in(2).then_some(ufrag));
        let made = Candidate::try_from_parts(foundation, component, Protocol::Udp, priority, addr, kind, related, None, ufrag);
        self.keep(made);
        let addr = "10.0.0.1:1000".parse().unwrap();
        self.keep(Ok(Candidate::from_parts("1".to_owned(), 1, Protocol::Udp, 7, addr, kind, None, None, None)));
    }

    fn read(&mut self) {
        let (line, json, ip) = (self.random.line(), self.random.json(), self.random.ip());
        black_box(Candidate::mdns_name(&line));
        let made = match self.random.below(4) {
            0 => Candidate::from_json(&json),
            1 => Candidate::from_mdns(&line, ip),
            2 => Candidate::from_sdp_string(&self.random.text()),
            _ => Candidate::from_sdp_string(&line),
        };
        self.keep(made);
        self.build();
        let (ufrag, mut named) = (self.random.text(), self.any_candidate());
        let before = named.clone();
        match named.try_set_ufrag(&ufrag) {
            Ok(()) => assert_eq!(named.ufrag(), Some(ufrag.as_str())),
            Err(_) => assert_eq!(named, before),
        }
        if is_named_by_a_word(&named) {
            named.set_ufrag("EsAw");
            assert_eq!(named.ufrag(), Some("EsAw"));
        }
        self.keep(Ok(named));
    }

    fn use_candidate(&mut self) {
        let (candidate, side) = (self.any_candidate(), self.side());
        let agent = &mut self.agents[side];
        match self.random.below(9) {
            0 | 1 if candidate.prio() < u32::MAX => {
                if let Some(added) = agent.add_local_candidate(candidate).cloned() {
                    if let Ok(signaled) = Candidate::from_sdp_string(&added.to_sdp_string()) {
                        self.agents[1 - side].add_remote_candidate(signaled);
                    }
                }
            }
            0..=2 => _ = black_box(agent.try_add_local_candidate(candidate)),
            3 if is_named_by_a_word(&candidate) => agent.add_remote_candidate(candidate),
            3 | 4 => _ = black_box(agent.try_add_remote_candidate(candidate)),
            5 => _ = black_box(agent.invalidate_candidate(&candidate)),
            6 => _ = black_box(agent.try_invalidate_candidate(&candidate)),
            7 if is_named_by_a_word(&candidate) => _ = black_box(agent.find_pair_for_equivalent_remote_candidate(&candidate)),
            _ => _ = black_box(agent.try_find_pair_for_equivalent_remote_candidate(&candidate)),
        }
        let listed: Vec<_> = self.agents[side].local_candidates().chain(self.agents[side].remote_candidates()).collect();
        if let Some(candidate) = listed.get(self.random.below(listed.len() + 1)) {
            look_at_candidate(candidate, &mut self.random);
            self.candidates.push(candidate.clone());
        }
    }

    // ---- settings

    /// Settings of a name, or each of any value.
    fn settings(&mut self) -> Settings {
        let mut settings = if self.random.once_in(2) { Settings::modern() } else { Settings::original() };
        if self.random.once_in(2) {
            return settings;
        }
        settings.profile = if self.random.once_in(2) { Profile::Modern } else { Profile::Original };
        settings.timing_advance = self.random.duration();
        (settings.initial_rto, settings.max_rto) = (self.random.duration(), self.random.duration());
        settings.max_retransmits = self.random.number();
        settings.lite_timeout = self.random.duration();
        let (timeout, strict) = (self.random.duration(), self.random.once_in(2));
        settings.consent = Consent { timeout: self.random.once_in(2).then_some(timeout), strict };
        let limits = (self.random.number(), self.random.number());
        settings.max_discovered = self.random.once_in(2).then_some(limits.0);
        settings.max_candidates = self.random.once_in(2).then_some(limits.1);
        settings.max_pairs = self.random.number();
        settings.renomination = self.random.once_in(2);
        settings
    }

    fn set(&mut self) {
        let (number, duration, creds) = (self.random.number(), self.random.duration(), self.random.creds());
        let (flag, side) = (self.random.once_in(2), self.side());
        let (table, settings) = (self.table(), self.settings());
        self.timing();
        let agent = &mut self.agents[side];
        match self.random.below(20) {
            0 => agent.set_mtu(number..=number),
            1 => _ = black_box(agent.try_set_mtu(number..=number)),
            2 => agent.set_control_tie_breaker(number as u64),
            3 => agent.set_max_candidate_pairs(number),
            4 => agent.set_max_discovered(flag.then_some(number)),
            5 => agent.set_ice_lite(flag),
            6 => agent.set_renomination(flag),
            7 => agent.set_timing_advance(duration),
            8 => agent.set_initial_stun_rto(duration),
            9 => agent.set_max_stun_rto(duration),
            10 => agent.set_lite_timeout(duration),
            11 => agent.set_max_stun_retransmits(number),
            12 => _ = black_box(agent.try_set_max_stun_retransmits(number)),
            13 if flag => agent.set_preference_table(table),
            13 if number > 99 => agent.set_local_preference(move |_: &Candidate, _: usize| u32::from(number as u16)),
            13 => agent.reset_local_preference(),
            14 if number > 99 => _ = black_box(agent.try_set_controlling(flag)),
            14 => agent.set_controlling(flag),
            15 => _ = black_box(agent.try_set_local_credentials(creds)),
            16 => _ = black_box(agent.try_set_remote_credentials(creds)),
            17 if flag || settings.max_retransmits == 0 => _ = black_box(agent.try_set_settings(settings)),
            17 => agent.set_settings(settings),
            18 if number > 99 => agent.set_silence(flag.then_some(duration)),
            18 => agent.set_max_candidates(flag.then_some(number)),
            _ => {
                agent.set_local_credentials(self::creds("near"));
                agent.set_remote_credentials(self::creds("farr"));
            }
        }
    }

    /// The settings of retransmissions as a value.
    fn timing(&mut self) {
        let (initial_rto, max_rto) = (self.random.duration(), self.random.duration());
        let timing = StunTiming { initial_rto, max_retransmits: self.random.number(), max_rto };
        black_box((timing.try_timeout().ok(), timing.max_retransmits(), timing.max_rto(), StunTiming::default().timeout()));
        let sent = self.random.number();
        assert!(timing.stun_resend_delay(sent) <= timing.max_rto() && timing.stun_last_resend_delay() <= timing.max_rto());
    }

    fn table(&mut self) -> PreferenceTable {
        let mut kinds = || KindPreferences {
            host: self.random.number() as u16,
            peer_reflexive: self.random.number() as u16,
            server_reflexive: self.random.number() as u16,
            relayed: self.random.number() as u16,
        };
        PreferenceTable { v4: kinds(), v6: kinds() }
    }

    // ---- queries

    fn ask(&mut self) {
        let (side, address) = (self.side(), self.random.address());
        let agent = &self.agents[side];
        black_box((
            agent.mtu(),
            agent.mtu_warn(),
            agent.max_candidates(),
            agent.ice_lite(),
            agent.controlling(),
            agent.ice_timeout(),
            agent.state(),
            agent.stats(),
        ));
        black_box((agent.state().is_connected(), agent.state().is_disconnected(), agent.settings()));
        black_box((agent.nominated_pair_rtt(), agent.nominated_pair_total_rtt(), agent.nominated_pair_responses_received()));
        black_box((agent.selected_path(), agent.valid_path(), agent.has_viable_remote_candidate(address), agent.pairs().count()));
        black_box((agent.media_path(self.now), agent.takes_media_from(self.now, address), agent.silent_since()));
        agent.failed_sends().for_each(|failed| _ = black_box(failed.to_string()));
        let (local, remote) = (agent.try_local_candidates().unwrap(), agent.try_remote_candidates().unwrap());
        assert_eq!((agent.local_candidates().collect(), agent.remote_candidates().collect()), (local.clone(), remote.clone()));
        agent.pairs().take(2).for_each(|pair| look_at_pair(&pair, &local, &remote));
        assert!(agent.removed_pairs().all(|pair| pair.path.is_some()));
        for text in [format!("{agent:?}"), format!("{:?} {:?}", agent.local_credentials(), agent.remote_credentials())] {
            assert!(!text.contains(PASSWORD), "{text}");
        }
    }

    // ---- time and packets

    fn later(&mut self) -> Instant {
        let by = self.random.duration();
        let near = Duration::from_millis(50);
        self.now = match self.random.below(12) {
            0 => self.now.checked_add(by).unwrap_or(self.began),
            1 => self.now.checked_sub(by).unwrap_or(self.began),
            _ => self.now.checked_add(near).unwrap_or(self.began),
        };
        self.now
    }

    fn pass_time(&mut self) {
        let (now, side) = (self.later(), self.side());
        let agent = &mut self.agents[side];
        match self.random.below(3) {
            0 => agent.try_handle_timeout(now).unwrap(),
            _ => agent.handle_timeout(now),
        }
        self.poll(side);
    }

    fn poll(&mut self, side: usize) {
        let agent = &mut self.agents[side];
        black_box((agent.poll_timeout(), agent.early_requests()));
        while let Some(sent) = agent.poll_transmit() {
            if self.random.once_in(20) {
                let reason = self.random.number() as u32;
                agent.send_failed(sent.proto, sent.source, sent.destination, reason);
                agent.try_send_failed(sent.proto, sent.source, sent.destination, reason).unwrap();
                black_box(self.logs[side].failed_send(agent, sent.proto, sent.source, sent.destination, reason));
            }
            assert!(sent.contents.len() <= 596 && StunMessage::parse_any(&sent.contents).is_ok());
            self.wire.push((1 - side, sent.proto, sent.source, sent.destination, sent.contents));
        }
        for line in self.logs[side].removals(agent) {
            assert!(line.contains(": removed ") && !line.contains(PASSWORD), "{line}");
        }
        while let Some(event) = agent.poll_event() {
            if let IceAgentEvent::IceRestart(creds) = &event {
                assert_eq!(creds, agent.local_credentials());
            }
            self.seen[1] += usize::from(matches!(event, IceAgentEvent::NominatedSend { .. }));
            let text = format!("{event:?} {}", self.logs[side].event(agent, &event));
            assert!(!text.contains(PASSWORD), "{text}");
        }
        if let Some(event) = agent.poll_silence() {
            black_box(self.logs[side].silence(agent, &event));
        }
    }

    /// A datagram of the wire, mostly the last one: as it is, changed, or replayed from elsewhere or to itself. Or any bytes.
    fn datagram(&mut self) -> Datagram {
        if self.wire.is_empty() || self.random.once_in(20) {
            let mut bytes = self.random.bytes(100);
            bytes.splice(..0, [0, 1, 0, 80, 0x21, 0x12, 0xa4, 0x42]);
            return (self.side(), self.random.protocol(), self.random.address(), self.random.address(), bytes);
        }
        let last = self.wire.len() - 1;
        let at = if self.random.once_in(4) { self.random.below(last + 1) } else { last };
        let (mut side, mut proto, mut source, mut destination, mut bytes) = self.wire[at].clone();
        match self.random.below(24) {
            0 | 1 => source = self.random.address(),
            2 => destination = self.random.address(),
            3 => proto = self.random.protocol(),
            4 => {
                let at = self.random.below(bytes.len());
                bytes[at] ^= 1 << self.random.below(8);
            }
            5 => bytes.truncate(self.random.below(bytes.len())),
            6 => side = 1 - side,
            _ => {}
        }
        (side, proto, source, destination, bytes)
    }

    fn pass_packet(&mut self) {
        let (side, proto, source, destination, bytes) = self.datagram();
        black_box(BindingResponse::parse(TransId([1; 12]), &bytes));
        let read = if self.random.once_in(4) { StunMessage::parse_any } else { StunMessage::parse };
        let Ok(message) = read(&bytes) else { return };
        look_at_message(&message, &mut self.random);
        let (now, packet) = (self.later(), StunPacket { proto, source, destination, message });
        let agent = &mut self.agents[side];
        let accepts = agent.accepts_packet(&packet);
        black_box(agent.accepts_message(&message));
        let why = agent.rejection(&packet);
        assert_eq!(why.is_none(), accepts);
        black_box(agent.unserved(&packet));
        let line = self.logs[side].packet(agent, &packet);
        assert!(!line.contains(PASSWORD), "{line}");
        if let Some(why) = why {
            assert_eq!(self.rejected.note(why), self.rejected.of(why));
            assert!(self.rejected.iter().any(|(known, count)| known == why && count > 0));
        }
        let accepted =
            if self.random.once_in(2) { agent.handle_packet(now, packet) } else { agent.try_handle_packet(now, packet).unwrap() };
        assert_eq!(accepts, accepted);
        self.seen[0] += usize::from(accepted);
        self.poll(side);
    }

    // ---- messages

    /// What is neither an agent's nor a message's: names of protocols and TCP types, and HMAC-SHA1.
    fn convert(&mut self) {
        let (word, key, data) = (self.random.text(), self.random.bytes(200), self.random.bytes(200));
        let word = if self.random.once_in(2) { word } else { self.random.word(&["udp", "sslTCP", "Passive", "so"]) };
        let _ = black_box((Protocol::try_from(word.as_str()).map(|proto| proto.to_string()), word.parse::<TcpType>()));
        let once = DefaultSha1HmacProvider.sha1_hmac(&key, &[&data]);
        assert_eq!(DefaultSha1HmacProvider.sha1_hmac(&key, &[&data[..data.len() / 2], &data[data.len() / 2..]]), once);
    }

    fn write_message(&mut self) {
        self.convert();
        let (username, realm, nonce) = (self.random.text(), self.random.text(), self.random.text());
        let (id, address, number) =
            (TransId(self.random.bytes(12).try_into().unwrap_or([7; 12])), self.random.address(), self.random.number());
        let data = self.random.bytes(3000);
        let texts = (username.as_str(), realm.as_str(), nonce.as_str(), data.as_slice());
        let message = match self.random.below(6) {
            0 => StunMessage::binding_request(&username, id, number % 2 == 0, number as u64, number as u32, number % 3 == 0),
            1 => StunMessage::binding_reply(id, address),
            2 => StunMessage::binding_role_conflict_reply(id),
            _ => self.built(texts, id, address, number),
        };
        look_at_message(&message, &mut self.random);
        let query = StunMessage::binding_query(id);
        assert!(StunMessage::parse_any(&query).is_ok_and(|query| query.is_binding_request() && query.trans_id() == id));
        let _ = black_box((TransId::new(), TransId::try_new()));
        let side = self.side();
        let packet = StunPacket { proto: Protocol::Udp, source: address, destination: address, message };
        assert!(!self.agents[side].accepts_message(&message) && !self.agents[side].handle_packet(self.now, packet));
    }

    fn built<'a>(
        &mut self,
        texts: (&'a str, &'a str, &'a str, &'a [u8]),
        id: TransId,
        address: SocketAddr,
        number: usize,
    ) -> StunMessage<'a> {
        let new = StunMessageBuilder::new;
        let method = match self.random.below(7) {
            0 => new().binding(),
            1 => new().allocate(),
            2 => new().refresh(),
            3 => new().send(),
            4 => new().data(),
            5 => new().create_permission(),
            _ => new().channel_bind(),
        };
        let mut builder = match self.random.below(4) {
            0 => method.request(),
            1 => method.indication(),
            2 => method.success(),
            _ => method.failure(),
        };
        let (username, realm, nonce, data) = texts;
        for _ in 0..self.random.below(6) {
            builder = match self.random.below(18) {
                0 => builder.username(username),
                1 => builder.error_code(number as u16, realm),
                2 => builder.channel_number(number as u16),
                3 => builder.lifetime(number as u32),
                4 => builder.xor_peer_address(address),
                5 => builder.data(data),
                6 => builder.realm(realm),
                7 => builder.nonce(nonce),
                8 => builder.xor_relayed_address(address),
                9 => builder.xor_mapped_address(address),
                10 => builder.software(nonce),
                11 => builder.prio(number as u32).use_candidate(),
                12 => builder.ice_controlled(number as u64),
                13 => builder.ice_controlling(number as u64),
                14 => builder.network_cost(number as u16, 7),
                15 => builder.requested_transport(number as u8),
                16 => builder.requested_family(if number % 2 == 0 { AddressFamily::Ipv4 } else { AddressFamily::Ipv6 }),
                _ => builder.nomination(number as u32),
            };
        }
        builder.build(id)
    }

    // ---- sessions

    fn start_again(&mut self) {
        let (side, random) = (self.side(), self.random.creds());
        match self.random.below(8) {
            0 => self.agents[side].ice_restart(creds("near"), true),
            1 => _ = black_box(self.agents[side].try_ice_restart(random, false)),
            2 => self.agents[side].recreate_candidate_pairs(),
            3 => self.agents[side].try_recreate_candidate_pairs().unwrap(),
            4 => {
                if let Ok(agent) = IceAgent::try_new(random) {
                    self.agents[side] = agent;
                }
            }
            5 => _ = black_box((IceCreds::new(), IceCreds::try_new(), IceCreds::is_in_grammar(&self.random.creds()))),
            _ => self.pass_time(),
        }
        self.poll(side);
    }
}

fn from_environment(name: &str, otherwise: u64) -> u64 {
    std::env::var(name).map_or(otherwise, |value| value.parse().expect("a number"))
}

#[test]
fn random_sessions_end_without_a_panic() {
    let (first, count) = (from_environment("IS_ICE_SEED", 0), from_environment("IS_ICE_SESSIONS", SESSIONS));
    let mut seen = [0; 2];
    for seed in first..first + count {
        let session = Session::new(seed).run();
        seen = [seen[0] + session[0], seen[1] + session[1]];
    }
    println!("{count} sessions: {} packets were accepted, {} paths were selected", seen[0], seen[1]);
    assert!(count < 400 || seen[0] > 500 && seen[1] > 30, "{seen:?}");
}

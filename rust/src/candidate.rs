//! Candidates: what the library read or printed, kept as it is.

use crate::error::{IceError, or_panic};
use crate::ffi;
use crate::proto::{address_of, number_of, protocol_of, socket_of, tcp_number_of, tcptype_of};
use crate::types::{Protocol, TcpType};
use std::fmt;
use std::hash::{Hash, Hasher};
use std::net::{IpAddr, SocketAddr};

/// The kind of a candidate (RFC 8445, section 4).
#[derive(Clone, Copy, Debug, PartialEq, Eq, PartialOrd, Ord, Hash)]
pub enum CandidateKind {
    /// The address of a local socket.
    Host,
    /// An address that the peer saw.
    PeerReflexive,
    /// An address that a STUN server saw.
    ServerReflexive,
    /// An address that a TURN server allocated.
    Relayed,
}

impl CandidateKind {
    fn number(self) -> u8 {
        match self {
            CandidateKind::Host => ffi::HOST,
            CandidateKind::ServerReflexive => ffi::SERVER_REFLEXIVE,
            CandidateKind::Relayed => ffi::RELAYED,
            CandidateKind::PeerReflexive => ffi::PEER_REFLEXIVE,
        }
    }

    fn of(number: u8) -> CandidateKind {
        match number {
            ffi::HOST => CandidateKind::Host,
            ffi::SERVER_REFLEXIVE => CandidateKind::ServerReflexive,
            ffi::RELAYED => CandidateKind::Relayed,
            _ => CandidateKind::PeerReflexive,
        }
    }
}

impl fmt::Display for CandidateKind {
    fn fmt(&self, f: &mut fmt::Formatter<'_>) -> fmt::Result {
        f.write_str(match self {
            CandidateKind::Host => "host",
            CandidateKind::PeerReflexive => "prflx",
            CandidateKind::ServerReflexive => "srflx",
            CandidateKind::Relayed => "relay",
        })
    }
}

/// A candidate: a transport address at which an agent may be reached.
///
/// It is what the library read: the text as the library prints it, and the fields that the agent uses. So what a program sees of a
/// candidate is what an agent does with it, whatever text the peer signaled. Two candidates are equal if texts and fields are.
///
/// ```
/// let odd = "candidate:1 1 UDP\u{2003}2130706175   10.0.0.2 2000 typ host generation 0 ufrag EsAw\r\n";
/// let candidate = is::Candidate::from_sdp_string(odd).unwrap();
/// assert_eq!(candidate.addr(), "10.0.0.2:2000".parse().unwrap());
/// assert_eq!(candidate.to_sdp_string(), "candidate:1 1 udp 2130706175 10.0.0.2 2000 typ host ufrag EsAw");
/// ```
#[derive(Clone)]
pub struct Candidate {
    text: String,
    fields: ffi::Fields,
    /// Whether it was gathered, or an agent lists it as a local one: then an agent takes it by its fields, else by its text.
    is_local: bool,
}

// ---- creating

impl Candidate {
    /// Creates a host candidate: the address of a local socket.
    pub fn host(addr: SocketAddr, proto: impl TryInto<Protocol>) -> Result<Candidate, IceError> {
        Candidate::gather(CandidateKind::Host, addr, addr, proto)
    }

    /// Creates a server-reflexive candidate: the address at which a STUN server saw the socket at `base`.
    pub fn server_reflexive(addr: SocketAddr, base: SocketAddr, proto: impl TryInto<Protocol>) -> Result<Candidate, IceError> {
        Candidate::gather(CandidateKind::ServerReflexive, addr, base, proto)
    }

    /// Creates a relayed candidate: the address that a TURN server allocated for the socket at `local`.
    pub fn relayed(addr: SocketAddr, local: SocketAddr, proto: impl TryInto<Protocol>) -> Result<Candidate, IceError> {
        Candidate::gather(CandidateKind::Relayed, addr, local, proto)
    }

    fn gather(kind: CandidateKind, addr: SocketAddr, base: SocketAddr, proto: impl TryInto<Protocol>) -> Result<Candidate, IceError> {
        let proto = proto.try_into().map_err(|_| IceError::BadCandidate("invalid protocol".to_owned()))?;
        Candidate::gathered(kind.number(), addr, base, proto, None)
    }

    /// The candidate of this kind, with the base or the local address.
    pub(crate) fn gathered(
        kind: u8,
        addr: SocketAddr,
        base: SocketAddr,
        proto: Protocol,
        tcptype: Option<TcpType>,
    ) -> Result<Candidate, IceError> {
        let given = ffi::Candidate {
            address: address_of(addr),
            base: address_of(base),
            kind,
            protocol: number_of(proto),
            tcptype: tcp_number_of(tcptype),
        };
        ffi::candidate(|buffer, length, fields| ffi::is_ice_candidate_fields(&given, buffer, length, fields))
            .map(Candidate::listed_local)
            .map_err(|code| IceError::of(code, |buffer, length| ffi::is_ice_candidate_refusal(&given, buffer, length)))
    }

    /// Reads a candidate attribute (RFC 8839) without `a=`, as `candidate:1 1 udp 2130706175 10.0.0.2 2000 typ host`.
    ///
    /// A candidate with an mDNS name instead of an address is an error: see [`Candidate::mdns_name`]. It may be left out, as here: the
    /// agent discovers a peer-reflexive candidate from the peer's checks.
    ///
    /// ```
    /// # let mut agent = is::IceAgent::new(is::IceCreds::new());
    /// let signaled = [
    ///     "candidate:1 1 udp 2130706175 10.0.0.2 2000 typ host",
    ///     "candidate:2 1 udp 2130706174 3f2b8c1e-5c1e-4b0a-9f5e-1f2e3d4c5b6a.local 2000 typ host",
    /// ];
    /// for text in signaled {
    ///     match is::Candidate::from_sdp_string(text) {
    ///         Ok(candidate) => agent.add_remote_candidate(candidate),
    ///         Err(why) => eprintln!("left out: {why}"),
    ///     }
    /// }
    /// assert_eq!(agent.remote_candidates().count(), 1);
    /// ```
    ///
    /// # Errors
    ///
    /// `BadCandidate` says why it is not a candidate.
    pub fn from_sdp_string(line: &str) -> Result<Candidate, IceError> {
        ffi::candidate(|buffer, length, fields| ffi::is_ice_line_fields(line.as_bytes(), buffer, length, fields))
            .map(Candidate::listed_remote)
            .map_err(|code| IceError::of(code, |buffer, length| ffi::is_ice_line_refusal(line.as_bytes(), buffer, length)))
    }

    /// Creates the candidate that [`Candidate::from_sdp_string`] reads of these fields.
    ///
    /// ```
    /// use is::{Candidate, CandidateKind, Protocol};
    ///
    /// let address = "10.0.0.2:2000".parse().unwrap();
    /// let candidate = Candidate::from_parts("1".to_owned(), 1, Protocol::Udp, 7, address, CandidateKind::Host, None, None, None);
    /// assert_eq!(candidate, Candidate::from_sdp_string("candidate:1 1 udp 7 10.0.0.2 2000 typ host").unwrap());
    /// ```
    ///
    /// # Panics
    ///
    /// If the foundation or the username fragment is empty or has white space, or if out of memory. `try_from_parts` returns an error
    /// then.
    #[allow(clippy::too_many_arguments)]
    #[track_caller]
    pub fn from_parts(
        foundation: String,
        component_id: u16,
        proto: Protocol,
        prio: u32,
        addr: SocketAddr,
        kind: CandidateKind,
        raddr: Option<SocketAddr>,
        tcptype: Option<TcpType>,
        ufrag: Option<String>,
    ) -> Candidate {
        or_panic(Candidate::try_from_parts(foundation, component_id, proto, prio, addr, kind, raddr, tcptype, ufrag))
    }

    /// As `from_parts`.
    ///
    /// # Errors
    ///
    /// `BadCandidate` says why it is not a candidate.
    #[allow(clippy::too_many_arguments)]
    pub fn try_from_parts(
        foundation: String,
        component_id: u16,
        proto: Protocol,
        prio: u32,
        addr: SocketAddr,
        kind: CandidateKind,
        raddr: Option<SocketAddr>,
        tcptype: Option<TcpType>,
        ufrag: Option<String>,
    ) -> Result<Candidate, IceError> {
        let given = ffi::Fields {
            address: address_of(addr),
            related: raddr.map_or(ffi::Address::default(), address_of),
            priority: prio,
            component: component_id,
            kind: kind.number(),
            protocol: number_of(proto),
            tcptype: tcp_number_of(tcptype),
            ..Default::default()
        };
        let made = ffi::candidate(|buffer, length, fields| ffi::is_ice_fields_line(&given, foundation.as_bytes(), buffer, length, fields));
        let mut candidate = made.map(Candidate::listed_remote).map_err(|code| match code {
            ffi::BAD_CANDIDATE => IceError::BadCandidate("bad foundation".to_owned()),
            code => IceError::BadCandidate(ffi::text_of(code).to_owned()),
        })?;
        ufrag.map_or(Ok(()), |ufrag| candidate.try_set_ufrag(&ufrag))?;
        Ok(candidate)
    }

    /// The mDNS name that a candidate attribute has instead of an address, with which browsers hide the addresses of their hosts.
    /// [`Candidate::from_mdns`] reads it once the name is resolved.
    ///
    /// ```
    /// use is::Candidate;
    ///
    /// let signaled = "candidate:2 1 udp 2130706174 3f2b8c1e.local 2000 typ host";
    /// assert_eq!(Candidate::mdns_name(signaled).as_deref(), Some("3f2b8c1e.local"));
    /// let resolved = "192.0.2.7".parse().unwrap(); // by the system's resolver, or by mDNS
    /// let candidate = Candidate::from_mdns(signaled, resolved).unwrap();
    /// assert_eq!(candidate.addr(), "192.0.2.7:2000".parse().unwrap());
    /// ```
    pub fn mdns_name(line: &str) -> Option<String> {
        ffi::text(|buffer, length| ffi::is_ice_line_name(line.as_bytes(), buffer, length)).ok()
    }

    /// Reads a candidate attribute, with this IP address in place of the one or the name that it has.
    ///
    /// # Errors
    ///
    /// `BadCandidate` if it is not a candidate with this address.
    pub fn from_mdns(line: &str, ip: IpAddr) -> Result<Candidate, IceError> {
        let address = address_of(SocketAddr::new(ip, 0));
        ffi::candidate(|buffer, length, fields| ffi::is_ice_line_with_address_fields(line.as_bytes(), &address, buffer, length, fields))
            .map(Candidate::listed_remote)
            .map_err(|code| IceError::of(code, |buffer, length| ffi::is_ice_line_refusal(line.as_bytes(), buffer, length)))
    }

    /// Reads the JSON in which browsers signal a candidate, the `RTCIceCandidateInit` of W3C WebRTC. A `usernameFragment` that is a
    /// string replaces that of the candidate; other members are not read.
    ///
    /// ```
    /// let signaled = r#"{"candidate":"candidate:1 1 udp 2130706175 10.0.0.2 2000 typ host","sdpMid":"0","usernameFragment":"EsAw"}"#;
    /// let candidate = is::Candidate::from_json(signaled).unwrap();
    /// assert_eq!((candidate.addr(), candidate.ufrag()), ("10.0.0.2:2000".parse().unwrap(), Some("EsAw")));
    /// ```
    ///
    /// # Errors
    ///
    /// `BadCandidate` says why it is not a candidate. The end of candidates, which has an empty `candidate`, is not one, and neither is
    /// one whose username fragment is empty or has white space.
    pub fn from_json(json: &str) -> Result<Candidate, IceError> {
        ffi::candidate(|buffer, length, fields| ffi::is_ice_json_fields(json.as_bytes(), buffer, length, fields))
            .map(Candidate::listed_remote)
            .map_err(|code| IceError::of(code, |buffer, length| ffi::is_ice_json_refusal(json.as_bytes(), buffer, length)))
    }

    /// The candidate that an agent lists as a local one, or that was gathered.
    pub(crate) fn listed_local((text, fields): (String, ffi::Fields)) -> Candidate {
        Candidate { text, fields, is_local: true }
    }

    /// The candidate that an agent lists as a remote one, or that was read.
    pub(crate) fn listed_remote((text, fields): (String, ffi::Fields)) -> Candidate {
        Candidate { text, fields, is_local: false }
    }
}

// ---- for the library

impl Candidate {
    /// As the library takes a candidate that was gathered; none if it was read, or is listed as a remote one, or as a peer-reflexive one that
    /// was added by its text.
    pub(crate) fn given(&self) -> Option<ffi::Candidate> {
        let ffi::Fields { address, local, kind, protocol, tcptype, .. } = self.fields;
        let is_of_text = kind == ffi::PEER_REFLEXIVE && self.has_no_local();
        (self.is_local && !is_of_text).then_some(ffi::Candidate { address, base: local, kind, protocol, tcptype })
    }

    /// Whether its text says all of it: its base is its address.
    pub(crate) fn is_its_own_base(&self) -> bool {
        !self.is_local || self.has_no_local() || self.local() == self.addr()
    }

    /// Whether no local socket is known of it.
    fn has_no_local(&self) -> bool {
        self.local().ip().is_unspecified() && self.local().port() == 0
    }

    /// As the library takes any other candidate.
    pub(crate) fn text(&self) -> &str {
        &self.text
    }
}

// ---- text and fields

impl Candidate {
    /// Its text, for signaling: as the library prints it, with single spaces and without unknown extensions.
    pub fn to_sdp_string(&self) -> String {
        self.text.clone()
    }

    /// Its JSON, in which browsers signal it: `sdpMid` is null, and `sdpMLineIndex` is 0.
    ///
    /// # Panics
    ///
    /// If out of memory, or if its agent has a username fragment that is no word. `try_to_json` returns an error then.
    #[track_caller]
    pub fn to_json(&self) -> String {
        or_panic(self.try_to_json())
    }

    /// As `to_json`.
    ///
    /// # Errors
    ///
    /// `BadCandidate`: out of memory, or its text cannot be read, since its agent has a username fragment that is no word.
    pub fn try_to_json(&self) -> Result<String, IceError> {
        ffi::text(|buffer, length| ffi::is_ice_line_to_json(self.text.as_bytes(), buffer, length))
            .map_err(|code| IceError::of(code, |buffer, length| ffi::is_ice_line_refusal(self.text.as_bytes(), buffer, length)))
    }

    /// Sets the username fragment of the session that it belongs to: of `ice-char` (RFC 8839, section 5.4). An agent gives its own
    /// one to a local candidate that is added.
    ///
    /// # Panics
    ///
    /// If the username fragment is empty or has white space, or if out of memory. `try_set_ufrag` returns an error then.
    #[track_caller]
    pub fn set_ufrag(&mut self, ufrag: &str) {
        or_panic(self.try_set_ufrag(ufrag));
    }

    /// As `set_ufrag`.
    ///
    /// # Errors
    ///
    /// `BadCandidate` if the username fragment is empty or has white space, or that of its agent before is no word, or if out of memory.
    /// The candidate is unchanged then.
    pub fn try_set_ufrag(&mut self, ufrag: &str) -> Result<(), IceError> {
        let named = ffi::candidate(|buffer, length, fields| {
            ffi::is_ice_line_with_ufrag_fields(self.text.as_bytes(), ufrag.as_bytes(), buffer, length, fields)
        });
        let (text, fields) = named.map_err(|code| match code {
            ffi::BAD_CANDIDATE => IceError::BadCandidate("bad username fragment".to_owned()),
            code => IceError::BadCandidate(ffi::text_of(code).to_owned()),
        })?;
        // A text has no base and no scope, so these stay.
        self.fields.foundation_length = fields.foundation_length;
        self.fields.ufrag_length = fields.ufrag_length;
        self.text = text;
        Ok(())
    }

    /// Its foundation: equal for candidates of one kind, base and server (RFC 8445, section 5.1.1.3).
    pub fn foundation(&self) -> &str {
        self.text.get(ffi::FOUNDATION_START..ffi::FOUNDATION_START + self.fields.foundation_length).unwrap_or_default()
    }

    /// Whether its foundation and its username fragment, if it has one, are in the grammar of signaling (RFC 8839, sections 5.1 and 5.4):
    /// 1 to 32 and 4 to 256 characters of [`IceCreds::is_in_grammar`](crate::IceCreds::is_in_grammar). Any word is read, since candidates
    /// of other makers have further characters.
    pub fn is_in_grammar(&self) -> bool {
        let is_named = self.ufrag().is_none_or(|ufrag| ffi::is_ice_check_text(ffi::TEXT_UFRAG, ufrag.as_bytes()) == ffi::OK);
        is_named && ffi::is_ice_check_text(ffi::TEXT_FOUNDATION, self.foundation().as_bytes()) == ffi::OK
    }

    /// Its transport address.
    pub fn addr(&self) -> SocketAddr {
        socket_of(&self.fields.address)
    }

    /// The address of the local socket, if it was gathered or is a host: of a host its address, of a reflexive candidate its base.
    /// Otherwise it is unspecified, with port 0.
    pub fn local(&self) -> SocketAddr {
        socket_of(&self.fields.local)
    }

    /// Its priority.
    pub fn prio(&self) -> u32 {
        self.fields.priority
    }

    /// Its transport protocol.
    pub fn proto(&self) -> Protocol {
        protocol_of(self.fields.protocol)
    }

    /// Its kind.
    pub fn kind(&self) -> CandidateKind {
        CandidateKind::of(self.fields.kind)
    }

    /// Which side opens the connection of a TCP candidate.
    pub fn tcptype(&self) -> Option<TcpType> {
        tcptype_of(self.fields.tcptype)
    }

    /// The username fragment of the session that it belongs to.
    pub fn ufrag(&self) -> Option<&str> {
        let start = self.text.len().checked_sub(self.fields.ufrag_length)?;
        self.text.get(start..).filter(|ufrag| !ufrag.is_empty())
    }
}

impl PartialEq for Candidate {
    fn eq(&self, other: &Candidate) -> bool {
        self.text == other.text && self.fields == other.fields
    }
}

impl Eq for Candidate {}

impl Hash for Candidate {
    fn hash<H: Hasher>(&self, state: &mut H) {
        self.text.hash(state);
        self.fields.hash(state);
    }
}

impl fmt::Display for Candidate {
    fn fmt(&self, f: &mut fmt::Formatter<'_>) -> fmt::Result {
        f.write_str(&self.text)
    }
}

impl fmt::Debug for Candidate {
    fn fmt(&self, f: &mut fmt::Formatter<'_>) -> fmt::Result {
        f.debug_struct("Candidate").field("text", &self.text).field("local", &self.local()).finish_non_exhaustive()
    }
}

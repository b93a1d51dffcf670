//! A builder of candidates whose states are types: first a protocol, then a route. Only TCP takes a TCP type.

use crate::candidate::Candidate;
use crate::error::IceError;
use crate::types::{Protocol, TcpType};
use std::marker::PhantomData;
use std::net::SocketAddr;

/// No protocol is chosen yet.
#[derive(Clone, Copy, Debug)]
pub struct NoProtocol(());

/// A protocol of the family `P` is chosen.
#[derive(Clone, Copy, Debug)]
pub struct HasProtocol<P> {
    family: PhantomData<P>,
    protocol: Protocol,
}

/// The family of UDP.
#[derive(Clone, Copy, Debug)]
pub struct Udp(());

/// The family of the protocols over TCP.
#[derive(Clone, Copy, Debug)]
pub struct Tcp(());

/// No route is chosen yet.
#[derive(Clone, Copy, Debug)]
pub struct NoRoute(());

/// A route is chosen: the number of the kind, the address, and the base or local address.
#[derive(Clone, Copy, Debug)]
pub struct HasRoute {
    kind: u8,
    addr: SocketAddr,
    base: SocketAddr,
}

/// A candidate that is being built.
///
/// ```
/// use is::{Candidate, TcpType};
///
/// let address = "192.0.2.1:9".parse().unwrap();
/// let candidate = Candidate::builder().tcp().host(address).tcptype(TcpType::Active).build()?;
/// assert!(candidate.to_sdp_string().ends_with(" tcp 1526726399 192.0.2.1 9 typ host tcptype active"));
/// # Ok::<(), is::IceError>(())
/// ```
///
/// UDP has no TCP type:
///
/// ```compile_fail
/// let address = "192.0.2.1:9".parse().unwrap();
/// let _ = is::Candidate::builder().udp().host(address).tcptype(is::TcpType::Active);
/// ```
#[derive(Clone, Copy, Debug)]
pub struct CandidateBuilder<P, R> {
    protocol_state: P,
    route_state: R,
    tcptype: Option<TcpType>,
}

impl Candidate {
    /// Starts a builder, with no protocol and no route.
    pub fn builder() -> CandidateBuilder<NoProtocol, NoRoute> {
        CandidateBuilder { protocol_state: NoProtocol(()), route_state: NoRoute(()), tcptype: None }
    }
}

impl CandidateBuilder<NoProtocol, NoRoute> {
    fn over<P>(self, protocol: Protocol) -> CandidateBuilder<HasProtocol<P>, NoRoute> {
        let protocol_state = HasProtocol { family: PhantomData, protocol };
        CandidateBuilder { protocol_state, route_state: self.route_state, tcptype: self.tcptype }
    }

    /// Chooses UDP.
    pub fn udp(self) -> CandidateBuilder<HasProtocol<Udp>, NoRoute> {
        self.over(Protocol::Udp)
    }

    /// Chooses TCP.
    pub fn tcp(self) -> CandidateBuilder<HasProtocol<Tcp>, NoRoute> {
        self.over(Protocol::Tcp)
    }

    /// Chooses TCP, after a fixed SSL handshake.
    pub fn ssl_tcp(self) -> CandidateBuilder<HasProtocol<Tcp>, NoRoute> {
        self.over(Protocol::SslTcp)
    }

    /// Chooses TLS.
    pub fn tls(self) -> CandidateBuilder<HasProtocol<Tcp>, NoRoute> {
        self.over(Protocol::Tls)
    }
}

impl<P> CandidateBuilder<HasProtocol<P>, NoRoute> {
    fn routed(self, kind: u8, addr: SocketAddr, base: SocketAddr) -> CandidateBuilder<HasProtocol<P>, HasRoute> {
        let route_state = HasRoute { kind, addr, base };
        CandidateBuilder { protocol_state: self.protocol_state, route_state, tcptype: self.tcptype }
    }

    /// Makes it a host candidate: the address of a local socket.
    pub fn host(self, addr: SocketAddr) -> CandidateBuilder<HasProtocol<P>, HasRoute> {
        self.routed(0, addr, addr)
    }

    /// Makes it a server-reflexive candidate: the address at which a STUN server saw the socket at `base`.
    pub fn server_reflexive(self, addr: SocketAddr, base: SocketAddr) -> CandidateBuilder<HasProtocol<P>, HasRoute> {
        self.routed(1, addr, base)
    }

    /// Makes it a relayed candidate: the address that a TURN server allocated for the socket at `local`.
    pub fn relayed(self, addr: SocketAddr, local: SocketAddr) -> CandidateBuilder<HasProtocol<P>, HasRoute> {
        self.routed(2, addr, local)
    }
}

impl<R> CandidateBuilder<HasProtocol<Tcp>, R> {
    /// Sets which side opens the connection (RFC 6544, section 4.5).
    pub fn tcptype(mut self, t: TcpType) -> Self {
        self.tcptype = Some(t);
        self
    }
}

impl<P> CandidateBuilder<HasProtocol<P>, HasRoute> {
    /// Returns the candidate.
    ///
    /// # Errors
    ///
    /// `BadCandidate` if no candidate may have the address, or if a server-reflexive one and its base have two IP versions.
    pub fn build(self) -> Result<Candidate, IceError> {
        let HasRoute { kind, addr, base } = self.route_state;
        Candidate::gathered(kind, addr, base, self.protocol_state.protocol, self.tcptype)
    }
}

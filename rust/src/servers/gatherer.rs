//! An agent with the clients of its sockets at the program's servers.

use super::clients::{Servers, Transport};
use super::event::{Happened, ServerEvent};
use super::gathered::{Client, Found, GatherEvent, client_of, found_in};
use super::known::{IceServer, Server, servers_of};
use super::url::Scheme;
use crate::agent::IceAgent;
use crate::candidate::Candidate;
use crate::error::CallError;
use crate::types::Protocol;
use std::collections::VecDeque;
use std::fmt;
use std::net::{IpAddr, SocketAddr};
use std::time::Instant;

/// An agent that gathers candidates from STUN and TURN servers, and reaches its peer through the latter.
///
/// It has the agent's own calls, without sockets, clocks and threads. The program opens sockets and adds them by
/// [`add_socket`](Self::add_socket). A client of each socket starts at each server over UDP whose host is an IP address. The other servers are
/// in [`to_reach`](Self::to_reach). What servers bring is added to the agent, and is an event: [`GatherEvent::LocalCandidate`].
///
/// ```
/// use is::servers::{IceGatherer, IceServer};
/// use is::{IceAgent, IceCreds};
/// use std::time::Instant;
///
/// let turn = IceServer { urls: vec!["turn:192.0.2.1".to_owned()], username: "user".to_owned(), credential: "secret".to_owned() };
/// let mut gatherer = IceGatherer::new(IceAgent::new(IceCreds::new()), &[turn])?;
/// let now = Instant::now();
/// let host = gatherer.add_socket(now, "10.0.0.1:5000".parse().unwrap())?;
/// assert!(host.is_some() && gatherer.is_gathering()); // signal the host candidate, and later those of `poll_event`
/// gatherer.handle_timeout(now)?;
/// let request = gatherer.poll_transmit(now)?.expect("an Allocate request");
/// assert_eq!(request.destination, "192.0.2.1:3478".parse().unwrap());
/// # Ok::<(), is::CallError>(())
/// ```
pub struct IceGatherer {
    pub(super) agent: IceAgent,
    pub(super) clients: Servers,
    sockets: Vec<SocketAddr>,
    /// The servers over UDP whose address is known.
    at_udp: Vec<(Server, SocketAddr)>,
    to_reach: Vec<Server>,
    connections: Vec<(SocketAddr, Server)>,
    started: Vec<(Client, Scheme)>,
    found: Vec<Found>,
    events: VecDeque<GatherEvent>,
    /// For packets that go through servers.
    pub(super) buffer: Vec<u8>,
    has_begun: bool,
    has_told: bool,
    is_closing: bool,
}

// ---- creating

impl IceGatherer {
    /// An agent with its servers.
    ///
    /// # Errors
    ///
    /// [`CallError::BadUrl`], [`CallError::OutOfMemory`].
    pub fn new(agent: IceAgent, servers: &[IceServer]) -> Result<IceGatherer, CallError> {
        let (mut at_udp, mut to_reach) = (Vec::new(), Vec::new());
        for server in servers_of(servers)? {
            match server.address().filter(|_| server.transport == Transport::Udp) {
                Some(address) => at_udp.push((server, address)),
                None => to_reach.push(server),
            }
        }
        Ok(IceGatherer {
            agent,
            clients: Servers::new()?,
            sockets: Vec::new(),
            at_udp,
            to_reach,
            connections: Vec::new(),
            started: Vec::new(),
            found: Vec::new(),
            events: VecDeque::new(),
            buffer: Vec::new(),
            has_begun: false,
            has_told: true,
            is_closing: false,
        })
    }

    /// The agent, for queries.
    pub fn agent(&self) -> &IceAgent {
        &self.agent
    }

    /// The agent, for the calls that the gatherer does not have: credentials, settings, ICE restarts. A restart that keeps local candidates
    /// keeps those of the servers, too.
    pub fn agent_mut(&mut self) -> &mut IceAgent {
        &mut self.agent
    }
}

impl fmt::Debug for IceGatherer {
    fn fmt(&self, f: &mut fmt::Formatter<'_>) -> fmt::Result {
        let IceGatherer { agent, sockets, to_reach, .. } = self;
        let mut fields = f.debug_struct("IceGatherer");
        fields.field("agent", agent).field("sockets", sockets).field("to_reach", to_reach).finish_non_exhaustive()
    }
}

// ---- sockets and servers

impl IceGatherer {
    /// Adds a UDP socket, and starts its clients. Returns its host candidate for signaling; `None` if that is redundant.
    ///
    /// # Errors
    ///
    /// [`CallError::BadCandidate`] if no candidate may have this address; as [`IceAgent::try_add_local_candidate`]. Of a client:
    /// [`CallError::CredentialsTooLong`], [`CallError::OutOfMemory`]; the socket and its candidate were added.
    pub fn add_socket(&mut self, now: Instant, local: SocketAddr) -> Result<Option<Candidate>, CallError> {
        let host = Candidate::host(local, Protocol::Udp).map_err(|_| CallError::BadCandidate)?;
        let added = self.agent.try_add_local_candidate(host)?.cloned();
        if !self.sockets.contains(&local) {
            self.sockets.push(local);
        }
        for (server, address) in self.at_udp.clone() {
            self.start(now, &server, local, address)?;
        }
        self.has_told = false;
        Ok(added)
    }

    /// Removes a socket with its candidates and clients: call it before the socket is closed.
    ///
    /// # Errors
    ///
    /// [`CallError::OutOfMemory`].
    pub fn remove_socket(&mut self, now: Instant, local: SocketAddr) -> Result<(), CallError> {
        self.sockets.retain(|socket| *socket != local);
        self.clients.lose(Transport::Udp, local);
        self.take_events(now)?;
        match Candidate::host(local, Protocol::Udp) {
            Ok(host) => self.agent.try_invalidate_candidate(&host).map(drop),
            Err(_) => Ok(()), // there was none
        }
    }

    /// The servers that the program is to resolve, over UDP, or to connect to, over TCP and TLS: by [`add_server`](Self::add_server) or
    /// [`add_connection`](Self::add_connection), and then [`reached`](Self::reached).
    pub fn to_reach(&self) -> &[Server] {
        &self.to_reach
    }

    /// Adds an address of a server over UDP, to which its name resolves. A client starts of each socket of this IP version.
    ///
    /// # Errors
    ///
    /// [`CallError::CredentialsTooLong`], [`CallError::OutOfMemory`].
    pub fn add_server(&mut self, now: Instant, server: &Server, ip: IpAddr) -> Result<(), CallError> {
        let at = (server.clone(), SocketAddr::new(ip, server.port));
        if !self.at_udp.contains(&at) {
            self.at_udp.push(at.clone());
        }
        for local in self.sockets.clone() {
            self.start(now, server, local, at.1)?;
        }
        self.has_told = false;
        Ok(())
    }

    /// Adds a connection to a server over TCP or TLS, by its addresses at both ends. What arrives on it goes to
    /// [`handle_frame`](Self::handle_frame), in the frames that [`Frames`](super::Frames) finds.
    ///
    /// # Errors
    ///
    /// [`CallError::CredentialsTooLong`], [`CallError::OutOfMemory`].
    pub fn add_connection(&mut self, now: Instant, server: &Server, local: SocketAddr, remote: SocketAddr) -> Result<(), CallError> {
        self.start(now, server, local, remote)?;
        self.connections.push((local, server.clone()));
        self.has_told = false;
        Ok(())
    }

    /// Says that no more addresses and connections of this server come: all were added, or none can be.
    pub fn reached(&mut self, server: &Server) {
        self.to_reach.retain(|other| other != server);
    }

    /// Says that a connection broke: its client ends, and its candidate is invalidated. Its server is [`to_reach`](Self::to_reach) again.
    ///
    /// # Errors
    ///
    /// [`CallError::OutOfMemory`].
    pub fn lose_connection(&mut self, now: Instant, local: SocketAddr) -> Result<(), CallError> {
        self.clients.lose(Transport::Tcp, local);
        let is_gone = |(of, _): &(SocketAddr, Server)| *of == local;
        let gone = self.connections.iter().filter(|it| is_gone(it)).map(|(_, server)| server.clone());
        self.to_reach.extend(gone);
        self.connections.retain(|it| !is_gone(it));
        self.has_told = false;
        self.take_events(now)
    }

    /// Starts a client, unless it runs, or is of another IP version. A TURN server says where it sees a socket, too.
    fn start(&mut self, now: Instant, server: &Server, local: SocketAddr, address: SocketAddr) -> Result<(), CallError> {
        let client = (server.transport, local, address);
        let runs = |scheme| self.started.contains(&(client, scheme));
        if local.is_ipv6() != address.is_ipv6() || runs(server.scheme) || runs(Scheme::Turn) {
            return Ok(());
        }
        match server.scheme {
            Scheme::Stun => self.clients.add_stun(now, local, address)?,
            Scheme::Turn => self.clients.add_turn(now, local, &server.turn(address))?,
        }
        self.started.push((client, server.scheme));
        Ok(())
    }
}

// ---- time and events

impl IceGatherer {
    /// Passes the current time to the agent, if its time has come, and to the client whose time came first. The first call starts the session.
    ///
    /// # Errors
    ///
    /// As [`IceAgent::try_handle_timeout`].
    pub fn handle_timeout(&mut self, now: Instant) -> Result<(), CallError> {
        let is_due = |at: Option<Instant>| at.is_some_and(|at| at <= now);
        if !self.has_begun || is_due(self.agent.poll_timeout()) {
            self.agent.try_handle_timeout(now)?;
            self.has_begun = true;
        }
        if is_due(self.clients.poll_timeout()) {
            self.clients.handle_timeout(now)?;
        }
        self.take_events(now)
    }

    /// The time at which to call `handle_timeout` next. A query, for an agent with [`Profile::Modern`](crate::Profile::Modern).
    pub fn poll_timeout(&mut self) -> Option<Instant> {
        let times = [self.agent.poll_timeout(), self.clients.poll_timeout()];
        times.into_iter().flatten().min()
    }

    /// The next event: of gathering, or of the agent.
    pub fn poll_event(&mut self) -> Option<GatherEvent> {
        if let Some(event) = self.events.pop_front() {
            return Some(event);
        }
        if !self.has_told && !self.is_gathering() {
            self.has_told = true;
            return Some(GatherEvent::GatheringComplete);
        }
        self.agent.poll_event().map(GatherEvent::Agent)
    }

    /// Whether a server is waited for.
    pub fn is_gathering(&mut self) -> bool {
        !self.to_reach.is_empty() || self.clients.is_gathering()
    }

    /// Has each client ask its server now whether it still has the allocation: after sleep, or if a path is lost.
    pub fn probe(&mut self, now: Instant) {
        self.clients.probe(now);
    }

    /// Has each client free its allocation. Go on with the loop until [`is_over`](Self::is_over), for a second at most.
    ///
    /// # Errors
    ///
    /// [`CallError::OutOfMemory`].
    pub fn close(&mut self, now: Instant) -> Result<(), CallError> {
        self.is_closing = true;
        self.clients.close(now);
        self.take_events(now)
    }

    /// Whether each client has ended.
    pub fn is_over(&mut self) -> bool {
        self.clients.poll_timeout().is_none()
    }

    pub(super) fn take_events(&mut self, now: Instant) -> Result<(), CallError> {
        while let Some(event) = self.clients.poll_event() {
            self.events.push_back(GatherEvent::Server(event));
            match event.what {
                Happened::Mapped(_) => {
                    self.discard(client_of(&event))?; // another address than before
                    self.add_found(&event)?;
                }
                Happened::Allocated(_) => {
                    self.add_found(&event)?;
                    self.permit_all(now)?;
                }
                Happened::NotPermitted(..) => {}
                Happened::Ended(_) => {
                    let client = client_of(&event);
                    self.started.retain(|(started, _)| *started != client);
                    self.discard(client)?;
                }
            }
        }
        Ok(())
    }

    /// Adds what a server brought. A candidate that the agent does not take is left out: a server may say anything.
    fn add_found(&mut self, event: &ServerEvent) -> Result<(), CallError> {
        for found in found_in(event).into_iter().filter(|_| !self.is_closing) {
            let added = match self.agent.try_add_local_candidate(found.candidate.clone()) {
                Ok(added) => added.cloned(),
                Err(CallError::OutOfMemory) => return Err(CallError::OutOfMemory),
                Err(_) => continue,
            };
            self.found.push(found);
            self.events.extend(added.map(GatherEvent::LocalCandidate));
        }
        Ok(())
    }

    fn permit_all(&mut self, now: Instant) -> Result<(), CallError> {
        for remote in self.agent.try_remote_candidates()? {
            self.clients.permit(now, remote.addr());
        }
        Ok(())
    }

    /// Invalidates what a client found, unless another one found it too.
    fn discard(&mut self, client: Client) -> Result<(), CallError> {
        let (mut gone, mut kept) = (Vec::new(), Vec::new());
        for found in self.found.drain(..) {
            if found.of == client { &mut gone } else { &mut kept }.push(found);
        }
        self.found = kept;
        for found in gone {
            if !self.found.iter().any(|other| other.is_alike(&found)) {
                self.agent.try_invalidate_candidate(&found.candidate)?;
            }
        }
        Ok(())
    }
}

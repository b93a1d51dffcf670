//! The servers of a program, as browsers have them.

use super::clients::{Family, PLACES, Transport, TurnServer};
use super::url::{Scheme, ServerUrl};
use crate::error::CallError;
use std::fmt;
use std::net::{IpAddr, SocketAddr};

/// One of the `iceServers` of browsers.
#[derive(Clone, Default, PartialEq, Eq, Hash)]
pub struct IceServer {
    /// Its URLs, as `turn:turn.example.org?transport=tcp`: see [`ServerUrl`].
    pub urls: Vec<String>,
    /// The USERNAME at a TURN server. Without one the client has no credentials.
    pub username: String,
    /// The password. `{:?}` does not print it.
    pub credential: String,
}

impl fmt::Debug for IceServer {
    fn fmt(&self, f: &mut fmt::Formatter<'_>) -> fmt::Result {
        f.debug_struct("IceServer").field("urls", &self.urls).field("username", &self.username).field("credential", &"..").finish()
    }
}

/// One URL of an [`IceServer`], with its credentials.
#[derive(Clone, PartialEq, Eq, Hash)]
pub struct Server {
    /// What it is for.
    pub scheme: Scheme,
    /// Over TLS: the certificate is to be one for the host.
    pub is_secure: bool,
    /// Over what.
    pub transport: Transport,
    /// A name or an IP address.
    pub host: String,
    /// Its port.
    pub port: u16,
    username: String,
    credential: String,
}

impl fmt::Debug for Server {
    fn fmt(&self, f: &mut fmt::Formatter<'_>) -> fmt::Result {
        let Server { scheme, is_secure, transport, host, port, .. } = self;
        let mut fields = f.debug_struct("Server");
        fields.field("scheme", scheme).field("is_secure", is_secure).field("transport", transport);
        fields.field("host", host).field("port", port).finish_non_exhaustive()
    }
}

impl Server {
    fn of(url: &str, of: &IceServer) -> Result<Server, CallError> {
        let ServerUrl { scheme, is_secure, transport, host, port } = ServerUrl::parse(url)?;
        let (username, credential) = (of.username.clone(), of.credential.clone());
        Ok(Server { scheme, is_secure, transport, host: host.to_owned(), port, username, credential })
    }

    /// Its address, if the host is one.
    pub(crate) fn address(&self) -> Option<SocketAddr> {
        let ip: IpAddr = self.host.parse().ok()?;
        Some(SocketAddr::new(ip, self.port))
    }

    /// What a client requests. Over IPv6 it requests an address of IPv6, since one over IPv4 gets one of IPv4.
    pub(crate) fn turn(&self, address: SocketAddr) -> TurnServer<'_> {
        let family = address.is_ipv6().then_some(Family::V6);
        let Server { transport, username, credential, .. } = self;
        TurnServer { transport: *transport, address, family, places: PLACES, username, password: credential }
    }
}

/// The servers of all URLs. TURN servers come first: such a client reports a mapping, too. STUN over TLS is left out: it maps a connection, and
/// no socket of the agent.
pub(crate) fn servers_of(given: &[IceServer]) -> Result<Vec<Server>, CallError> {
    let mut all = Vec::new();
    for of in given {
        for url in &of.urls {
            all.push(Server::of(url, of)?);
        }
    }
    all.retain(|server| (server.scheme, server.transport) != (Scheme::Stun, Transport::Tcp));
    all.sort_by_key(|server| server.scheme == Scheme::Stun);
    Ok(all)
}

//! The URLs of servers (RFC 7064, RFC 7065).

use super::clients::Transport;
use crate::error::{CallError, found};
use crate::ffi;

/// What a server is for.
#[derive(Clone, Copy, Debug, PartialEq, Eq, Hash)]
pub enum Scheme {
    /// Binding requests: server-reflexive addresses.
    Stun,
    /// Allocations: relayed addresses.
    Turn,
}

/// What a URL of a server says.
#[derive(Clone, Copy, Debug, PartialEq, Eq, Hash)]
pub struct ServerUrl<'a> {
    /// What the server is for.
    pub scheme: Scheme,
    /// Over TLS: the scheme is `stuns` or `turns`.
    pub is_secure: bool,
    /// Over what.
    pub transport: Transport,
    /// The name or the IP address. An IPv6 address is without brackets.
    pub host: &'a str,
    /// The port, which is 3478 or with TLS 5349 if the URL has none.
    pub port: u16,
}

impl<'a> ServerUrl<'a> {
    /// Reads a URL, as `stun:stun.example.org` or `turns:192.0.2.1:443?transport=tcp`. DTLS, which is `turns` over UDP, is not supported.
    ///
    /// ```
    /// use is::servers::ServerUrl;
    ///
    /// assert_eq!(ServerUrl::parse("stun:[2001:db8::1]").map(|url| (url.host, url.port)), Ok(("2001:db8::1", 3478)));
    /// assert_eq!(ServerUrl::parse("turn:192.0.2.1?transport=sctp"), Err(is::CallError::BadUrl));
    /// ```
    ///
    /// # Errors
    ///
    /// [`CallError::BadUrl`].
    pub fn parse(text: &'a str) -> Result<ServerUrl<'a>, CallError> {
        let mut url = ffi::ServerUrl::default();
        found(ffi::is_ice_server_url_of(text.as_bytes(), &mut url))?;
        let host = text.get(url.host_start..).and_then(|rest| rest.get(..url.host_length)).ok_or(CallError::BadUrl)?;
        Ok(ServerUrl {
            scheme: if url.scheme == ffi::TURN { Scheme::Turn } else { Scheme::Stun },
            is_secure: url.protocol == ffi::TLS,
            transport: Transport::of(url.protocol),
            host,
            port: url.port,
        })
    }
}

//! The types that the crate `str0m_proto` has, for programs without it: the package in str0m/ has those of that crate in place of these.

use std::fmt;
use std::net::SocketAddr;
use std::str::FromStr;

/// The transport protocol of a candidate's packets.
#[derive(Clone, Copy, Debug, PartialEq, Eq, PartialOrd, Ord, Hash)]
pub enum Protocol {
    /// UDP.
    Udp,
    /// TCP with framing (RFC 4571).
    Tcp,
    /// TCP after a fixed SSL handshake.
    SslTcp,
    /// TLS over TCP.
    Tls,
}

const PROTOCOLS: [(&str, Protocol); 4] =
    [("udp", Protocol::Udp), ("tcp", Protocol::Tcp), ("ssltcp", Protocol::SslTcp), ("tls", Protocol::Tls)];

impl TryFrom<&str> for Protocol {
    type Error = ();

    /// Reads the name of a protocol, in upper or lower case.
    fn try_from(word: &str) -> Result<Protocol, ()> {
        PROTOCOLS.iter().find(|known| known.0.eq_ignore_ascii_case(word)).map(|known| known.1).ok_or(())
    }
}

impl From<Protocol> for &'static str {
    fn from(protocol: Protocol) -> &'static str {
        match protocol {
            Protocol::Udp => "udp",
            Protocol::Tcp => "tcp",
            Protocol::SslTcp => "ssltcp",
            Protocol::Tls => "tls",
        }
    }
}

impl fmt::Display for Protocol {
    fn fmt(&self, f: &mut fmt::Formatter<'_>) -> fmt::Result {
        f.write_str((*self).into())
    }
}

/// Which side opens the connection of a TCP candidate (RFC 6544).
#[derive(Clone, Copy, Debug, PartialEq, Eq, Hash)]
pub enum TcpType {
    /// The agent of the candidate.
    Active,
    /// The other agent.
    Passive,
    /// Both at once (simultaneous open).
    So,
}

const TCP_TYPES: [(&str, TcpType); 3] = [("active", TcpType::Active), ("passive", TcpType::Passive), ("so", TcpType::So)];

impl fmt::Display for TcpType {
    fn fmt(&self, f: &mut fmt::Formatter<'_>) -> fmt::Result {
        f.write_str(TCP_TYPES.iter().find(|known| known.1 == *self).map_or("", |known| known.0))
    }
}

impl FromStr for TcpType {
    type Err = String;

    /// Reads the word of a candidate attribute, as `active`.
    fn from_str(word: &str) -> Result<TcpType, String> {
        let known = TCP_TYPES.iter().find(|known| known.0 == word);
        known.map(|known| known.1).ok_or_else(|| format!("unknown TCP type: {word}"))
    }
}

/// A packet to send: a STUN message.
#[derive(Clone, Debug, PartialEq, Eq)]
pub struct Transmit {
    /// The transport protocol.
    pub proto: Protocol,
    /// The local address to send from: the base of a local candidate.
    pub source: SocketAddr,
    /// The address to send to.
    pub destination: SocketAddr,
    /// Its bytes.
    pub contents: Vec<u8>,
}

/// Computes HMAC-SHA1 (RFC 2104). An agent accepts a provider in [`IceAgent::with_hmac`](crate::IceAgent::with_hmac), and does not call
/// it.
pub trait Sha1HmacProvider: fmt::Debug + Send + Sync {
    /// The HMAC-SHA1 of the payloads, one after the other.
    fn sha1_hmac(&self, key: &[u8], payloads: &[&[u8]]) -> [u8; 20];
}

//! A substitute for the crate `str0m_proto`: the public items of it that the crate `is` 0.12.0 takes or returns, with their shapes.

use std::fmt;
use std::net::SocketAddr;
use std::ops::Deref;
use std::panic::{RefUnwindSafe, UnwindSafe};
use std::str::FromStr;

/// Computes HMAC-SHA1.
pub trait Sha1HmacProvider: fmt::Debug + Send + Sync + UnwindSafe + RefUnwindSafe {
    fn sha1_hmac(&self, key: &[u8], payloads: &[&[u8]]) -> [u8; 20];
}

#[derive(Clone, Copy, Debug, PartialEq, Eq, PartialOrd, Ord, Hash)]
pub enum Protocol {
    Udp,
    Tcp,
    SslTcp,
    Tls,
}

const PROTOCOLS: [(&str, Protocol); 4] =
    [("udp", Protocol::Udp), ("tcp", Protocol::Tcp), ("ssltcp", Protocol::SslTcp), ("tls", Protocol::Tls)];

impl TryFrom<&str> for Protocol {
    type Error = ();

    fn try_from(word: &str) -> Result<Protocol, ()> {
        PROTOCOLS.iter().find(|known| known.0.eq_ignore_ascii_case(word)).map(|known| known.1).ok_or(())
    }
}

impl fmt::Display for Protocol {
    fn fmt(&self, f: &mut fmt::Formatter<'_>) -> fmt::Result {
        f.write_str(PROTOCOLS.iter().find(|known| known.1 == *self).map_or("", |known| known.0))
    }
}

#[derive(Clone, Copy, Debug, PartialEq, Eq, Hash)]
pub enum TcpType {
    Active,
    Passive,
    So,
}

const TCP_TYPES: [(&str, TcpType); 3] = [("active", TcpType::Active), ("passive", TcpType::Passive), ("so", TcpType::So)];

impl FromStr for TcpType {
    type Err = String;

    fn from_str(word: &str) -> Result<TcpType, String> {
        TCP_TYPES.iter().find(|known| known.0 == word).map(|known| known.1).ok_or_else(|| format!("no TCP type: {word}"))
    }
}

impl fmt::Display for TcpType {
    fn fmt(&self, f: &mut fmt::Formatter<'_>) -> fmt::Result {
        f.write_str(TCP_TYPES.iter().find(|known| known.1 == *self).map_or("", |known| known.0))
    }
}

/// The bytes of a datagram to send.
#[derive(Clone, Debug, PartialEq, Eq)]
pub struct DatagramSend(Vec<u8>);

impl From<Vec<u8>> for DatagramSend {
    fn from(bytes: Vec<u8>) -> DatagramSend {
        DatagramSend(bytes)
    }
}

impl From<DatagramSend> for Vec<u8> {
    fn from(sent: DatagramSend) -> Vec<u8> {
        sent.0
    }
}

impl Deref for DatagramSend {
    type Target = [u8];

    fn deref(&self) -> &[u8] {
        &self.0
    }
}

/// A datagram to send.
#[derive(Clone, Debug, PartialEq, Eq)]
pub struct Transmit {
    pub proto: Protocol,
    pub source: SocketAddr,
    pub destination: SocketAddr,
    pub contents: DatagramSend,
}

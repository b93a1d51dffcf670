//! Conversions of protocols, TCP types and socket addresses to the library's form.

use crate::ffi;
use crate::types::{Protocol, TcpType};
use std::net::{IpAddr, Ipv4Addr, Ipv6Addr, SocketAddr, SocketAddrV6};

/// The library's number of a protocol.
#[inline]
pub(crate) fn number_of(protocol: Protocol) -> u8 {
    match protocol {
        Protocol::Udp => ffi::UDP,
        Protocol::Tcp => ffi::TCP,
        Protocol::SslTcp => ffi::SSL_TCP,
        Protocol::Tls => ffi::TLS,
    }
}

/// The protocol of a number of the library.
#[inline]
pub(crate) fn protocol_of(number: u8) -> Protocol {
    match number {
        ffi::UDP => Protocol::Udp,
        ffi::TCP => Protocol::Tcp,
        ffi::SSL_TCP => Protocol::SslTcp,
        _ => Protocol::Tls,
    }
}

/// The library's number of a TCP type: 0 if there is none.
pub(crate) fn tcp_number_of(tcptype: Option<TcpType>) -> u8 {
    match tcptype {
        None => ffi::TCP_UNSTATED,
        Some(TcpType::Active) => ffi::TCP_ACTIVE,
        Some(TcpType::Passive) => ffi::TCP_PASSIVE,
        Some(TcpType::So) => ffi::TCP_SO,
    }
}

/// The TCP type of a number of the library.
pub(crate) fn tcptype_of(number: u8) -> Option<TcpType> {
    match number {
        ffi::TCP_ACTIVE => Some(TcpType::Active),
        ffi::TCP_PASSIVE => Some(TcpType::Passive),
        ffi::TCP_SO => Some(TcpType::So),
        _ => None,
    }
}

/// Converts a socket address to the library's form.
#[inline]
pub(crate) fn address_of(socket: SocketAddr) -> ffi::Address {
    let mut address = ffi::Address { port: socket.port(), ..Default::default() };
    match socket {
        SocketAddr::V4(v4) => {
            address.family = 4;
            address.bytes[..4].copy_from_slice(&v4.ip().octets());
        }
        SocketAddr::V6(v6) => {
            address.family = 6;
            address.bytes = v6.ip().octets();
            address.flow = v6.flowinfo();
            address.scope = v6.scope_id();
        }
    }
    address
}

/// Converts a socket address from the library's form.
#[inline]
pub(crate) fn socket_of(address: &ffi::Address) -> SocketAddr {
    if address.family == 4 {
        let [a, b, c, d, ..] = address.bytes;
        return SocketAddr::new(IpAddr::V4(Ipv4Addr::new(a, b, c, d)), address.port);
    }
    SocketAddr::V6(SocketAddrV6::new(Ipv6Addr::from(address.bytes), address.port, address.flow, address.scope))
}

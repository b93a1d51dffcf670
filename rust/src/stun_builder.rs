//! Builds messages, step by step: the method, the class, the attributes, the transaction ID. Each state is a type, so a step out of
//! order does not compile.

use crate::ffi;
use crate::proto::address_of;
use crate::stun::{AddressFamily, Class, Method, StunMessage, TransId, class_number, method_number};
use crate::stun_texts::Texts;
use std::marker::PhantomData;
use std::net::SocketAddr;

/// The state of a builder that needs a method.
#[doc(hidden)]
#[derive(Clone, Debug, Default)]
pub struct NoMethod;

/// The state of a builder that needs a class.
#[doc(hidden)]
#[derive(Clone, Debug)]
pub struct HasMethod;

/// The state of a builder that accepts attributes, and can build.
#[doc(hidden)]
#[derive(Clone, Debug)]
pub struct HasClass;

/// A message that is being built. It borrows texts and data until the message is written.
#[derive(Clone, Debug, Default)]
pub struct Builder<'a, State> {
    flat: ffi::StunMessage,
    texts: Texts<'a>,
    state: PhantomData<State>,
}

fn set<N: Into<u64>>(value: N) -> ffi::StunNumber {
    ffi::StunNumber { value: value.into(), is_set: true }
}

impl<'a> Builder<'a, NoMethod> {
    /// Returns the empty builder.
    pub fn new() -> Builder<'a, NoMethod> {
        Builder::default()
    }

    fn method(self, method: Method) -> Builder<'a, HasMethod> {
        let flat = ffi::StunMessage { method: method_number(method), ..self.flat };
        Builder { flat, texts: self.texts, state: PhantomData }
    }

    /// Sets STUN's only method, Binding (RFC 8489, section 18.2).
    pub fn binding(self) -> Builder<'a, HasMethod> {
        self.method(Method::Binding)
    }

    /// TURN: requests a relayed address (RFC 8656, section 7).
    pub fn allocate(self) -> Builder<'a, HasMethod> {
        self.method(Method::Allocate)
    }

    /// TURN: refreshes an allocation (RFC 8656, section 8).
    pub fn refresh(self) -> Builder<'a, HasMethod> {
        self.method(Method::Refresh)
    }

    /// TURN: sends data to a peer (RFC 8656, section 11).
    pub fn send(self) -> Builder<'a, HasMethod> {
        self.method(Method::Send)
    }

    /// TURN: carries data from a peer (RFC 8656, section 11).
    pub fn data(self) -> Builder<'a, HasMethod> {
        self.method(Method::Data)
    }

    /// TURN: permits peers (RFC 8656, section 10).
    pub fn create_permission(self) -> Builder<'a, HasMethod> {
        self.method(Method::CreatePermission)
    }

    /// TURN: binds a channel to a peer (RFC 8656, section 12).
    pub fn channel_bind(self) -> Builder<'a, HasMethod> {
        self.method(Method::ChannelBind)
    }
}

impl<'a> Builder<'a, HasMethod> {
    fn class(self, class: Class) -> Builder<'a, HasClass> {
        let flat = ffi::StunMessage { cls: class_number(class), ..self.flat };
        Builder { flat, texts: self.texts, state: PhantomData }
    }

    /// Makes it a request.
    pub fn request(self) -> Builder<'a, HasClass> {
        self.class(Class::Request)
    }

    /// Makes it an indication, which has no response.
    pub fn indication(self) -> Builder<'a, HasClass> {
        self.class(Class::Indication)
    }

    /// Makes it a success response.
    pub fn success(self) -> Builder<'a, HasClass> {
        self.class(Class::Success)
    }

    /// Makes it an error response.
    pub fn failure(self) -> Builder<'a, HasClass> {
        self.class(Class::Failure)
    }
}

/// Each setter replaces an earlier value.
impl<'a> Builder<'a, HasClass> {
    /// Sets USERNAME (RFC 8489, section 14.3). At most 508 bytes can be written.
    pub fn username(mut self, username: &'a str) -> Self {
        self.texts.username = Some(username);
        self
    }

    /// Sets ERROR-CODE (RFC 8489, section 14.8). The code must be 300 to 699 and the reason at most 128 bytes to be written.
    pub fn error_code(mut self, code: u16, reason: &'a str) -> Self {
        self.flat.error_code = set(code);
        self.texts.reason = Some(reason);
        self
    }

    /// Sets CHANNEL-NUMBER (RFC 8656, section 18.1). Any number is written, but only 0x4000 to 0x7FFF can be parsed.
    pub fn channel_number(mut self, number: u16) -> Self {
        self.flat.channel_number = set(number);
        self
    }

    /// Sets LIFETIME, in seconds (RFC 8656, section 18.2).
    pub fn lifetime(mut self, lifetime: u32) -> Self {
        self.flat.lifetime = set(lifetime);
        self
    }

    /// Sets XOR-PEER-ADDRESS (RFC 8656, section 18.3). Flow information and scope of an IPv6 address are not written.
    pub fn xor_peer_address(mut self, address: SocketAddr) -> Self {
        self.flat.peer = address_of(address);
        self
    }

    /// Sets DATA (RFC 8656, section 18.4). At most 65535 bytes can be written.
    pub fn data(mut self, data: &'a [u8]) -> Self {
        self.texts.data = Some(data);
        self
    }

    /// Sets REALM (RFC 8489, section 14.9). At most 128 bytes can be written.
    pub fn realm(mut self, realm: &'a str) -> Self {
        self.texts.realm = Some(realm);
        self
    }

    /// Sets NONCE (RFC 8489, section 14.10). At most 128 bytes can be written.
    pub fn nonce(mut self, nonce: &'a str) -> Self {
        self.texts.nonce = Some(nonce);
        self
    }

    /// Sets XOR-RELAYED-ADDRESS (RFC 8656, section 18.5). Flow information and scope of an IPv6 address are not written.
    pub fn xor_relayed_address(mut self, address: SocketAddr) -> Self {
        self.flat.relayed = address_of(address);
        self
    }

    /// Sets XOR-MAPPED-ADDRESS (RFC 8489, section 14.2). Flow information and scope of an IPv6 address are not written.
    pub fn xor_mapped_address(mut self, address: SocketAddr) -> Self {
        self.flat.mapped = address_of(address);
        self
    }

    /// Sets SOFTWARE, as attribute type 0x0022. At most 128 bytes can be written.
    pub fn software(mut self, software: &'a str) -> Self {
        self.texts.software = Some(software);
        self
    }

    /// Sets PRIORITY (RFC 8445, section 16.1).
    pub fn prio(mut self, prio: u32) -> Self {
        self.flat.priority = set(prio);
        self
    }

    /// Sets USE-CANDIDATE (RFC 8445, section 16.1).
    pub fn use_candidate(mut self) -> Self {
        self.flat.use_candidate = true;
        self
    }

    /// Sets ICE-CONTROLLED (RFC 8445, section 16.1).
    pub fn ice_controlled(mut self, tie_breaker: u64) -> Self {
        self.flat.controlled = set(tie_breaker);
        self
    }

    /// Sets ICE-CONTROLLING (RFC 8445, section 16.1).
    pub fn ice_controlling(mut self, tie_breaker: u64) -> Self {
        self.flat.controlling = set(tie_breaker);
        self
    }

    /// Sets NETWORK-COST: the ID of the sender's network, and its cost.
    pub fn network_cost(mut self, network: u16, cost: u16) -> Self {
        self.flat.network_id = set(network);
        self.flat.network_cost = set(cost);
        self
    }

    /// Sets NOMINATION: the number of a nomination (draft-thatcher-ice-renomination).
    pub fn nomination(mut self, number: u32) -> Self {
        self.flat.nomination = set(number);
        self
    }

    /// Sets REQUESTED-TRANSPORT (RFC 8656, section 18.7): the protocol between a TURN server and the peers. Each Allocate request has
    /// it, with 17 for UDP. A protocol of 0 is not written.
    pub fn requested_transport(mut self, protocol: u8) -> Self {
        self.flat.requested_transport = protocol;
        self
    }

    /// Sets REQUESTED-ADDRESS-FAMILY (RFC 8656, section 18.6) of an Allocate request. Without it a server allocates an IPv4 address.
    pub fn requested_family(mut self, family: AddressFamily) -> Self {
        self.flat.requested_family = match family {
            AddressFamily::Ipv4 => 4,
            AddressFamily::Ipv6 => 6,
        };
        self
    }

    /// Returns the message. It has no MESSAGE-INTEGRITY until it is written with a password.
    pub fn build(self, trans_id: TransId) -> StunMessage<'a> {
        StunMessage::built(ffi::StunMessage { id: trans_id.raw(), ..self.flat }, self.texts)
    }
}

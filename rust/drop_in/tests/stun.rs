//! The public items of the module `stun` of the crate `is` 0.12.0, in the way in which a program written for it uses them.

use is::stun::DEFAULT_MAX_RETRANSMITS;
use is::stun::{self, Attributes, Class, Method, StunMessage, StunMessageBuilder, StunPacket, StunTiming, TransId};
use is::{DefaultSha1HmacProvider, Protocol, Sha1HmacProvider, StunError};
use std::error::Error;
use std::io;
use std::net::SocketAddr;
use std::time::Duration;

fn at(text: &str) -> SocketAddr {
    text.parse().unwrap()
}

fn hmac(key: &[u8], payloads: &[&[u8]]) -> [u8; 20] {
    DefaultSha1HmacProvider.sha1_hmac(key, payloads)
}

fn written(message: StunMessage<'_>, password: Option<&[u8]>) -> Vec<u8> {
    let mut buffer = vec![0; 1500];
    let length = message.to_bytes(password, &mut buffer, hmac).unwrap();
    buffer[..length].to_vec()
}

#[test]
fn timing() {
    let StunTiming { initial_rto, max_retransmits, max_rto } = StunTiming::default();
    assert_eq!((initial_rto, max_retransmits, max_rto), (Duration::from_millis(250), DEFAULT_MAX_RETRANSMITS, Duration::from_secs(3)));
    let timing = StunTiming { max_retransmits: 2, ..Default::default() };
    assert_eq!((timing.timeout(), timing.max_retransmits(), timing.max_rto()), (Duration::from_secs(1), 2, max_rto));
}

#[test]
fn errors() {
    let Err(stun::StunError::Parse(why)) = StunMessage::parse(b"media") else { panic!("no error") };
    assert_eq!(StunError::Parse(why.clone()).to_string(), format!("STUN parse error: {why}"));
    let error: Box<dyn Error> = StunError::from(io::Error::from(io::ErrorKind::WriteZero)).into();
    assert!(error.to_string().starts_with("STUN io: ") && error.source().is_some());
}

#[test]
fn transaction_ids() {
    let id: TransId = TransId::new();
    assert!(id == id && id <= id && id != TransId::new());
}

#[test]
fn attributes() {
    let none: Attributes<'_> = Attributes::default();
    assert!(none == none && !format!("{none:?}").is_empty());
}

#[test]
fn requests() {
    let id = TransId::new();
    let bytes = written(StunMessage::binding_request("far:near", id, true, 9, 7, true), Some(b"password"));
    let request = StunMessage::parse(&bytes).unwrap();
    assert_eq!((request.method(), request.class(), request.trans_id()), (Method::Binding, Class::Request, id));
    assert!(request.is_binding_request() && request.use_candidate() && request.verify(b"password", hmac));
    assert!(!request.verify(b"other", |key, payloads| DefaultSha1HmacProvider.sha1_hmac(key, payloads)));
    assert_eq!((request.username(), request.split_username()), (Some("far:near"), Some(("far", "near"))));
    assert_eq!((request.prio(), request.ice_controlling(), request.ice_controlled()), (Some(7), Some(9), None));
}

#[test]
fn replies() {
    let bytes = written(StunMessage::binding_reply(TransId::new(), at("10.0.0.1:1")), Some(b"password"));
    let reply = StunMessage::parse(&bytes).unwrap();
    assert!(reply.is_successful_binding_response() && !reply.is_failed_binding_response());
    assert_eq!(reply.mapped_address(), Some(at("10.0.0.1:1")));
}

#[test]
fn role_conflicts() {
    let bytes = written(StunMessage::binding_role_conflict_reply(TransId::new()), Some(b"password"));
    let reply = StunMessage::parse(&bytes).unwrap();
    assert!(reply.is_failed_binding_response() && reply.error_code().is_some_and(|(code, _reason)| code == 487));
}

#[test]
fn builders() {
    let build = |class: fn(StunMessageBuilder<'static, _>) -> StunMessage<'static>| class(StunMessageBuilder::new().allocate()).class();
    assert_eq!(build(|method| method.request().build(TransId::new())), Class::Request);
    assert_eq!(build(|method| method.indication().build(TransId::new())), Class::Indication);
    assert_eq!(build(|method| method.success().build(TransId::new())), Class::Success);
    assert_eq!(build(|method| method.failure().build(TransId::new())), Class::Failure);
}

#[test]
fn methods() {
    let new = StunMessageBuilder::new;
    let requests = [new().allocate(), new().refresh(), new().create_permission(), new().channel_bind(), new().data()];
    let [allocate, refresh, permission, channel, data] = requests.map(|method| method.request().build(TransId::new()));
    assert!(allocate.is_allocate_request() && refresh.is_refresh_request() && data.method() == Method::Data);
    assert!(permission.is_create_permission_request() && channel.is_channel_bind_request());
    assert!(new().send().indication().build(TransId::new()).is_send_indication());
}

#[test]
fn attributes_of_turn() {
    let builder = StunMessageBuilder::new().allocate().request().realm("realm").nonce("nonce").software("is").username("name");
    let builder = builder.channel_number(0x4000).lifetime(600).data(b"data").error_code(401, "Unauthorized");
    let builder = builder.xor_peer_address(at("10.0.0.1:1")).xor_relayed_address(at("10.0.0.2:2")).xor_mapped_address(at("10.0.0.3:3"));
    let bytes = written(builder.build(TransId::new()), None);
    let message = StunMessage::parse(&bytes).unwrap();
    assert_eq!((message.realm(), message.nonce(), message.software()), (Some("realm"), Some("nonce"), Some("is")));
    assert_eq!((message.channel_number(), message.lifetime(), message.data()), (Some(0x4000), Some(600), Some(&b"data"[..])));
    assert_eq!((message.error_code(), message.mapped_address()), (Some((401, "Unauthorized")), Some(at("10.0.0.3:3"))));
    assert_eq!((message.xor_peer_address(), message.xor_relayed_address()), (Some(at("10.0.0.1:1")), Some(at("10.0.0.2:2"))));
}

#[test]
fn attributes_of_ice() {
    let builder = StunMessageBuilder::new().binding().request().username("far:near").prio(1).use_candidate().ice_controlled(2);
    let bytes = written(builder.ice_controlling(3).network_cost(4, 5).build(TransId::new()), Some(b"password"));
    let message = StunMessage::parse(&bytes).unwrap();
    assert_eq!((message.ice_controlled(), message.ice_controlling(), message.network_cost()), (Some(2), Some(3), Some((4, 5))));
}

#[test]
fn packets() {
    let message = StunMessage::binding_reply(TransId::new(), at("10.0.0.1:1"));
    let packet = StunPacket { proto: Protocol::Udp, source: at("10.0.0.1:1"), destination: at("10.0.0.2:2"), message };
    assert!(format!("{packet:?}").starts_with("StunPacket"));
}

//! STUN messages: the samples of RFC 5769, read and written, and the request and the responses of a client.

use is::StunError;
use is::stun::{AddressFamily, BindingResponse, Class, Method, QUERY_LENGTH, StunMessage, StunMessageBuilder, TransId};
use std::io::ErrorKind;
use std::net::SocketAddr;
use std::time::{Duration, Instant};

/// RFC 5769, sections 2.1 to 2.3.
const REQUEST: &str = "000100582112a442b7e7a701bc34d686fa87dfae802200105354554e207465737420636c69656e74002400046e0001ff80290008932ff9b151263b36\
    000600096576746a3a68367659202020000800149aeaa70cbfd8cb56781ef2b5b2d3f249c1b571a280280004e57a3bcf";
const V4: &str = "0101003c2112a442b7e7a701bc34d686fa87dfae8022000b7465737420766563746f7220002000080001a147e112a643\
    000800142b91f599fd9e90c38c7489f92af9ba53f06be7d780280004c07d4c96";
const V6: &str = "010100482112a442b7e7a701bc34d686fa87dfae8022000b7465737420766563746f7220002000140002a1470113a9faa5d3f179bc25f4b5bed2b9d9\
    00080014a382954e4be67bf11784c97c8292c275bfe3ed4180280004c8fb0b4c";
const PASSWORD: &[u8] = b"VOkJxbRl1RmTxUk/WvJxBt";
const ID: TransId = TransId([0xb7, 0xe7, 0xa7, 0x01, 0xbc, 0x34, 0xd6, 0x86, 0xfa, 0x87, 0xdf, 0xae]);

/// Responses of a server to a request without credentials: mapped to 192.0.2.1:32853, and 401 "no".
const PLAIN: &str = "0101000c2112a442b7e7a701bc34d686fa87dfae002000080001a147e112a643";
const FAILED: &str = "0111000c2112a442b7e7a701bc34d686fa87dfae00090006000004016e6f0000";

fn unhex(text: &str) -> Vec<u8> {
    (0..text.len()).step_by(2).map(|at| u8::from_str_radix(&text[at..at + 2], 16).unwrap()).collect()
}

/// The library computes HMAC-SHA1 itself.
fn no_hmac(_: &[u8], _: &[&[u8]]) -> [u8; 20] {
    unreachable!()
}

fn address(text: &str) -> SocketAddr {
    text.parse().unwrap()
}

#[test]
fn reads_the_sample_request() {
    let bytes = unhex(REQUEST);
    let message = StunMessage::parse(&bytes).unwrap();
    assert!(message.is_binding_request() && !message.use_candidate());
    assert_eq!((message.method(), message.class(), message.trans_id()), (Method::Binding, Class::Request, ID));
    assert_eq!((message.username(), message.split_username()), (Some("evtj:h6vY"), Some(("evtj", "h6vY"))));
    assert_eq!((message.prio(), message.ice_controlled(), message.ice_controlling()), (Some(0x6e0001ff), Some(0x932ff9b151263b36), None));
    assert_eq!((message.mapped_address(), message.xor_peer_address(), message.xor_relayed_address()), (None, None, None));
    assert_eq!((message.error_code(), message.lifetime(), message.channel_number()), (None, None, None));
    assert_eq!((message.network_cost(), message.data(), message.realm()), (None, None, None));
    assert_eq!((message.nonce(), message.software(), message.nomination()), (None, None, None));
    assert!(message.is_signed_by(PASSWORD) && !message.is_signed_by(b"VOkJxbRl1RmTxUk/WvJxB"));
}

#[test]
fn reads_the_sample_responses() {
    for (text, mapped) in [(V4, "192.0.2.1:32853"), (V6, "[2001:db8:1234:5678:11:2233:4455:6677]:32853")] {
        let bytes = unhex(text);
        let message = StunMessage::parse(&bytes).unwrap();
        assert!(message.is_successful_binding_response() && message.verify(PASSWORD, no_hmac));
        assert_eq!(message.mapped_address(), Some(address(mapped)));
        assert_eq!(BindingResponse::parse(ID, &bytes), Some(BindingResponse::Mapped(address(mapped))));
    }
}

#[test]
fn a_client_writes_a_request_and_reads_the_response() {
    let request = StunMessage::binding_query(ID);
    assert_eq!(request.len(), QUERY_LENGTH);
    assert_eq!(request[..8], [0, 1, 0, 8, 0x21, 0x12, 0xa4, 0x42]);
    assert_eq!((&request[8..20], &request[20..24]), (&ID.0[..], &[0x80, 0x28, 0, 4][..]));
    assert!(StunMessage::parse(&request).is_err());
    assert!(StunMessage::parse_any(&request).unwrap().is_binding_request());
    assert_eq!(BindingResponse::parse(ID, &unhex(PLAIN)), Some(BindingResponse::Mapped(address("192.0.2.1:32853"))));
    assert_eq!(BindingResponse::parse(ID, &unhex(FAILED)), Some(BindingResponse::Failed(401, "no".to_owned())));
    assert_eq!(BindingResponse::parse(TransId([0; 12]), &unhex(PLAIN)), None);
    assert_eq!(BindingResponse::parse(ID, &request), None);
    assert_eq!(BindingResponse::parse(ID, &unhex(PLAIN)[..31]), None);
    assert_ne!(TransId::new(), TransId::new());
}

fn bytes_of(message: StunMessage, password: Option<&[u8]>) -> Vec<u8> {
    let mut buffer = [0xaa; 2048];
    let length = message.to_bytes(password, &mut buffer, no_hmac).unwrap();
    assert_eq!(buffer[length], 0xaa);
    buffer[..length].to_vec()
}

/// Without SOFTWARE, whose type differs there, and with zeros as padding.
#[test]
fn writes_the_sample_request() {
    let built = StunMessage::binding_request("evtj:h6vY", ID, false, 0x932ff9b151263b36, 0x6e0001ff, false);
    let sample = unhex(REQUEST);
    for message in [built, StunMessage::parse(&sample).unwrap()] {
        let bytes = bytes_of(message, Some(PASSWORD));
        assert_eq!((bytes.len(), &bytes[..2], &bytes[4..20]), (88, &sample[..2], &sample[4..20]));
        let read = StunMessage::parse(&bytes).unwrap();
        assert!(read.is_binding_request() && read.is_signed_by(PASSWORD) && read.has_fingerprint() && !message.use_candidate());
        assert_eq!((read.trans_id(), read.username(), read.prio()), (ID, Some("evtj:h6vY"), Some(0x6e0001ff)));
        assert_eq!((read.ice_controlled(), read.ice_controlling()), (Some(0x932ff9b151263b36), None));
    }
    assert!(!built.has_integrity() && !built.is_signed_by(PASSWORD) && built.username() == Some("evtj:h6vY"));
    let nominating = StunMessage::binding_request("a:b", ID, true, 7, 9, true);
    assert_eq!((nominating.use_candidate(), nominating.ice_controlling(), nominating.ice_controlled()), (true, Some(7), None));
}

#[test]
fn writes_the_sample_responses() {
    for (text, mapped) in [(V4, "192.0.2.1:32853"), (V6, "[2001:db8:1234:5678:11:2233:4455:6677]:32853")] {
        let (sample, built) = (unhex(text), StunMessage::binding_reply(ID, address(mapped)));
        assert_eq!((built.mapped_address(), built.is_successful_binding_response()), (Some(address(mapped)), true));
        let bytes = bytes_of(built, Some(PASSWORD));
        // XOR-MAPPED-ADDRESS, after SOFTWARE in the sample
        let end = bytes.len() - 32;
        assert_eq!(bytes[20..end], sample[36..end + 16]);
        assert!(StunMessage::parse(&bytes).unwrap().is_signed_by(PASSWORD));
    }
    let conflict = bytes_of(StunMessage::binding_role_conflict_reply(ID), Some(PASSWORD));
    let read = StunMessage::parse(&conflict).unwrap();
    assert_eq!((read.is_failed_binding_response(), read.error_code()), (true, Some((487, "Role Conflict"))));
}

#[test]
fn a_builder_builds_any_message() {
    let peer = address("192.0.2.9:9");
    let built = StunMessageBuilder::new()
        .channel_bind()
        .request()
        .channel_number(0x4001)
        .lifetime(600)
        .xor_peer_address(peer)
        .xor_relayed_address(peer)
        .data(&[0xff])
        .realm("realm")
        .nonce("nonce")
        .software("software")
        .network_cost(3, 50)
        .error_code(699, "")
        .build(ID);
    let bytes = bytes_of(built, None);
    for message in [built, StunMessage::parse(&bytes).unwrap()] {
        assert!(message.is_channel_bind_request() && !message.has_integrity());
        assert_eq!((message.channel_number(), message.lifetime(), message.network_cost()), (Some(0x4001), Some(600), Some((3, 50))));
        assert_eq!((message.xor_peer_address(), message.xor_relayed_address()), (Some(peer), Some(peer)));
        assert_eq!((message.data(), message.realm()), (Some(&[0xff][..]), Some("realm")));
        assert_eq!((message.nonce(), message.software(), message.error_code()), (Some("nonce"), Some("software"), Some((699, ""))));
    }
}

/// NOMINATION byte by byte: its type, its length, the number (draft-thatcher-ice-renomination).
#[test]
fn a_nomination_has_a_number() {
    let built = StunMessageBuilder::new().binding().request().nomination(0x12345678).build(ID);
    let bytes = bytes_of(built, None);
    assert_eq!((bytes.len(), &bytes[20..28]), (36, &[0xc0, 1, 0, 4, 0x12, 0x34, 0x56, 0x78][..]));
    assert_eq!((built.nomination(), StunMessage::parse_any(&bytes).unwrap().nomination()), (Some(0x12345678), Some(0x12345678)));
    for number in [0, u32::MAX] {
        let check = StunMessageBuilder::new().binding().request().username("evtj:h6vY").prio(1).nomination(number).build(ID);
        let bytes = bytes_of(check, Some(PASSWORD));
        let read = StunMessage::parse(&bytes).unwrap();
        assert!(read.is_signed_by(PASSWORD) && !read.use_candidate());
        assert_eq!((read.nomination(), read.prio()), (Some(number), Some(1)));
    }
}

/// What an Allocate request requests, byte by byte (RFC 8656, sections 18.6 and 18.7).
#[test]
fn an_allocate_request_has_a_transport_and_a_family() {
    for (family, number) in [(AddressFamily::Ipv4, 1), (AddressFamily::Ipv6, 2)] {
        let built = StunMessageBuilder::new().allocate().request().requested_transport(17).requested_family(family).build(ID);
        let bytes = bytes_of(built, None);
        assert_eq!((bytes.len(), &bytes[20..36]), (44, &[0, 0x17, 0, 4, number, 0, 0, 0, 0, 0x19, 0, 4, 17, 0, 0, 0][..]));
        let read = StunMessage::parse_any(&bytes).unwrap();
        assert_eq!((read.requested_transport(), read.requested_family()), (Some(17), Some(family)));
    }
    let plain = bytes_of(StunMessageBuilder::new().allocate().request().build(ID), None);
    let read = StunMessage::parse_any(&plain).unwrap();
    assert_eq!((plain.len(), read.requested_transport(), read.requested_family()), (28, None, None));
}

#[test]
fn what_cannot_be_written_says_why() {
    let kind = |message: StunMessage, size: usize| match message.to_bytes(None, &mut vec![0; size], no_hmac) {
        Err(StunError::Io(why)) => why.kind(),
        other => panic!("{other:?}"),
    };
    let long = "x".repeat(129);
    let binding = || StunMessageBuilder::new().binding().failure();
    assert_eq!(kind(binding().build(ID), 27), ErrorKind::WriteZero);
    assert_eq!(kind(binding().error_code(700, "").build(ID), 999), ErrorKind::InvalidInput);
    assert_eq!(kind(binding().software(&long).build(ID), 999), ErrorKind::InvalidInput);
    assert_eq!(kind(StunMessage::parse(&unhex("000200002112a442b7e7a701bc34d686fa87dfae")).unwrap(), 999), ErrorKind::InvalidInput);
}

// ---- whose request it is

#[test]
fn a_username_has_a_receiver_and_a_sender() {
    let built = |username: &str| {
        let message = StunMessageBuilder::new().binding().request().username(username).build(ID);
        let bytes = bytes_of(message, None);
        let read = StunMessage::parse_any(&bytes).unwrap();
        assert_eq!((read.username(), read.split_username()), (Some(username), message.split_username()));
        read.split_username().map(|(receiver, sender)| (receiver.to_owned(), sender.to_owned()))
    };
    let parts = |receiver: &str, sender: &str| Some((receiver.to_owned(), sender.to_owned()));
    assert_eq!(built("evtj:h6vY"), parts("evtj", "h6vY"));
    assert_eq!(built("é:\u{2003}"), parts("é", "\u{2003}"));
    assert_eq!(built("evtj"), None);
    assert_eq!(built(""), None);
    let bytes = unhex(V4);
    assert_eq!(StunMessage::parse(&bytes).unwrap().split_username(), None);
}

/// The requests and the success responses that ICE requires attributes of are told from any other message.
#[test]
fn what_ice_requires_is_required() {
    let request = |builder: StunMessageBuilder<'_, _>, password| bytes_of(builder.build(ID), password);
    let named = || StunMessageBuilder::new().binding().request().username("evtj:h6vY");
    let whole = request(named().prio(7), Some(PASSWORD));
    assert!(StunMessage::parse(&whole).is_ok_and(|message| message.is_signed_by(PASSWORD)));
    for lacking in [
        request(named().prio(7), None),
        request(named(), Some(PASSWORD)),
        request(StunMessageBuilder::new().binding().request().prio(7), Some(PASSWORD)),
    ] {
        assert!(matches!(StunMessage::parse(&lacking), Err(StunError::Parse(_))));
        assert!(StunMessage::parse_any(&lacking).is_ok());
    }
    let refresh = request(StunMessageBuilder::new().refresh().request(), None);
    assert_eq!(StunMessage::parse(&refresh).unwrap(), StunMessage::parse_any(&refresh).unwrap());
}

// ---- long messages

/// DATA of half a message, after an unknown attribute that repeats its first half: a search from each byte on would compare each time
/// until the last byte.
#[test]
fn reading_and_writing_take_linear_time() {
    let mut data = vec![0; 32_000];
    data[31_999] = 1;
    let message = StunMessageBuilder::new().data().indication().data(&data).build(ID);
    let mut bytes = bytes_of_any(message);
    let attribute = [&[0xc0, 0x01, 0x7d, 0x00][..], &[0; 32_000]].concat();
    bytes.splice(20..20, attribute);
    let length = (bytes.len() - 20) as u16;
    bytes[2..4].copy_from_slice(&length.to_be_bytes());
    let read = StunMessage::parse_any(&bytes).unwrap();
    assert_eq!(read.data(), Some(&data[..]));
    let begun = Instant::now();
    for _ in 0..100 {
        assert_eq!(read.data().map(<[u8]>::len), Some(32_000));
        assert_eq!(bytes_of_any(read).len(), 20 + 4 + 32_000 + 8);
    }
    assert!(begun.elapsed() < Duration::from_secs(10), "{:?}", begun.elapsed());
}

fn bytes_of_any(message: StunMessage) -> Vec<u8> {
    let mut buffer = vec![0; 70_000];
    let length = message.write(None, &mut buffer).unwrap();
    buffer.truncate(length);
    buffer
}

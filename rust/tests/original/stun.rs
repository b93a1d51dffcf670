//! For `rust/original`: a STUN message whose fields are public, as they are within the original's module, over that of this crate.
mod message {
    use is::stun::{Class, Method, StunMessage as Real, StunMessageBuilder, TransId};
    use is::{DefaultSha1HmacProvider, Sha1HmacProvider, StunError};
    use std::net::SocketAddr;

    #[derive(Clone, Copy, Default, Debug, PartialEq)]
    pub struct Attributes<'a> {
        pub username: Option<&'a str>,
        pub error_code: Option<(u16, &'a str)>,
        pub channel_number: Option<u16>,
        pub lifetime: Option<u32>,
        pub xor_peer_address: Option<SocketAddr>,
        pub data: Option<&'a [u8]>,
        pub realm: Option<&'a str>,
        pub nonce: Option<&'a str>,
        pub xor_relayed_address: Option<SocketAddr>,
        pub xor_mapped_address: Option<SocketAddr>,
        pub software: Option<&'a str>,
        pub priority: Option<u32>,
        pub use_candidate: bool,
        pub ice_controlled: Option<u64>,
        pub ice_controlling: Option<u64>,
        pub network_cost: Option<(u16, u16)>,
    }

    pub struct StunMessage<'a> {
        pub method: Method,
        pub class: Class,
        pub trans_id: TransId,
        pub attrs: Attributes<'a>,
        pub integrity: &'a [u8],
        pub integrity_len: u16,
    }

    /// A message that was read: its fields, and by dereferencing that of this crate.
    pub struct Parsed<'a> {
        pub method: Method,
        pub class: Class,
        pub trans_id: TransId,
        pub attrs: Attributes<'a>,
        real: Real<'a>,
    }

    impl<'a> std::ops::Deref for Parsed<'a> {
        type Target = Real<'a>;

        fn deref(&self) -> &Real<'a> {
            &self.real
        }
    }

    impl<'a> StunMessage<'a> {
        pub fn parse(bytes: &'a [u8]) -> Result<Parsed<'a>, StunError> {
            let real = Real::parse(bytes)?;
            let attrs = Attributes {
                username: real.username(),
                error_code: real.error_code(),
                channel_number: real.channel_number(),
                lifetime: real.lifetime(),
                xor_peer_address: real.xor_peer_address(),
                data: real.data(),
                realm: real.realm(),
                nonce: real.nonce(),
                xor_relayed_address: real.xor_relayed_address(),
                xor_mapped_address: real.mapped_address(),
                software: real.software(),
                priority: real.prio(),
                use_candidate: real.use_candidate(),
                ice_controlled: real.ice_controlled(),
                ice_controlling: real.ice_controlling(),
                network_cost: real.network_cost(),
            };
            Ok(Parsed { method: real.method(), class: real.class(), trans_id: real.trans_id(), attrs, real })
        }

        /// Writes it with the builder's steps that its fields name.
        pub fn to_bytes(
            self,
            password: Option<&[u8]>,
            buffer: &mut [u8],
            hmac: impl Fn(&[u8], &[&[u8]]) -> [u8; 20],
        ) -> Result<usize, StunError> {
            macro_rules! classed {
                ($builder:expr) => {
                    match self.class {
                        Class::Request => $builder.request(),
                        Class::Indication => $builder.indication(),
                        Class::Success => $builder.success(),
                        Class::Failure => $builder.failure(),
                        _ => panic!("an unknown class"),
                    }
                };
            }
            let new = StunMessageBuilder::new;
            let mut builder = match self.method {
                Method::Binding => classed!(new().binding()),
                Method::Allocate => classed!(new().allocate()),
                Method::Refresh => classed!(new().refresh()),
                Method::Send => classed!(new().send()),
                Method::Data => classed!(new().data()),
                Method::CreatePermission => classed!(new().create_permission()),
                Method::ChannelBind => classed!(new().channel_bind()),
                _ => panic!("an unknown method"),
            };
            macro_rules! given {
                ($($field:ident)*) => { $(if let Some(value) = self.attrs.$field { builder = builder.$field(value); })* };
            }
            given!(username channel_number lifetime xor_peer_address data realm nonce xor_relayed_address xor_mapped_address software
                ice_controlled ice_controlling);
            if let Some((code, reason)) = self.attrs.error_code {
                builder = builder.error_code(code, reason);
            }
            if let Some(priority) = self.attrs.priority {
                builder = builder.prio(priority);
            }
            if self.attrs.use_candidate {
                builder = builder.use_candidate();
            }
            if let Some((id, cost)) = self.attrs.network_cost {
                builder = builder.network_cost(id, cost);
            }
            builder.build(self.trans_id).to_bytes(password, buffer, hmac)
        }
    }

    pub fn sha1_hmac(key: &[u8], payloads: &[&[u8]]) -> [u8; 20] {
        DefaultSha1HmacProvider.sha1_hmac(key, payloads)
    }
}
use message::{Attributes, StunMessage, sha1_hmac};

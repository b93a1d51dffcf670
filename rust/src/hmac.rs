//! HMAC-SHA1 as the original has it: a provider of the trait [`Sha1HmacProvider`] for programs that call it themselves.
//!
//! No agent and no STUN message calls it: the library uses its own HMAC-SHA1, which is that of the provider here too.

use crate::ffi;
use crate::types::Sha1HmacProvider;

/// A provider for programs that compute HMAC-SHA1 themselves.
///
/// ```
/// use is::{DefaultSha1HmacProvider, Sha1HmacProvider};
///
/// let digest = DefaultSha1HmacProvider.sha1_hmac(b"Jefe", &[b"what do ya want ", b"for nothing?"]); // RFC 2202, case 2
/// assert_eq!(digest[..4], [0xef, 0xfc, 0xdf, 0x6a]);
/// ```
#[derive(Clone, Copy, Debug, Default)]
pub struct DefaultSha1HmacProvider;

impl Sha1HmacProvider for DefaultSha1HmacProvider {
    fn sha1_hmac(&self, key: &[u8], payloads: &[&[u8]]) -> [u8; 20] {
        let (mut mac, mut length) = ([0; ffi::HMAC_LENGTH], 0);
        let code = ffi::is_ice_hmac_sha1(key, &payloads.concat(), &mut mac, &mut length);
        debug_assert_eq!(code, ffi::OK);
        mac
    }
}

#[cfg(test)]
mod tests {
    use super::{DefaultSha1HmacProvider, Sha1HmacProvider};

    /// The cases of RFC 2202, section 3: the key, the data and the digest.
    #[test]
    fn digests_are_those_of_rfc_2202() {
        let to_25: Vec<u8> = (1..=25).collect();
        let long = b"Test Using Larger Than Block-Size Key - Hash Key First";
        let longer = b"Test Using Larger Than Block-Size Key and Larger Than One Block-Size Data";
        let cases: [(&[u8], &[u8], &str); 7] = [
            (&[0x0b; 20], b"Hi There", "b617318655057264e28bc0b6fb378c8ef146be00"),
            (b"Jefe", b"what do ya want for nothing?", "effcdf6ae5eb2fa2d27416d5f184df9c259a7c79"),
            (&[0xaa; 20], &[0xdd; 50], "125d7342b9ac11cd91a39af48aa17b4f63f175d3"),
            (&to_25, &[0xcd; 50], "4c9007f4026250c6bc8414f9bf50c86c2d7235da"),
            (&[0x0c; 20], b"Test With Truncation", "4c1a03424b55e07fe7f27be1d58bb9324a9a5a04"),
            (&[0xaa; 80], long, "aa4ae5e15272d00e95705637ce8a3b55ed402112"),
            (&[0xaa; 80], longer, "e8e99d0f45237d786d6bbaa7965c7808bbff1a91"),
        ];
        for (key, data, digest) in cases {
            let (front, back) = data.split_at(data.len() / 2);
            let found: String = DefaultSha1HmacProvider.sha1_hmac(key, &[front, back]).iter().map(|byte| format!("{byte:02x}")).collect();
            assert_eq!(found, digest);
        }
    }
}

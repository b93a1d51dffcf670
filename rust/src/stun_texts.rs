//! The texts of a STUN message, and writing it.

use crate::error::StunError;
use crate::ffi;
use std::io;

/// The texts and the data of a message that is built.
#[derive(Clone, Copy, Debug, Default, PartialEq, Eq)]
pub(crate) struct Texts<'a> {
    pub(crate) username: Option<&'a str>,
    pub(crate) reason: Option<&'a str>,
    pub(crate) data: Option<&'a [u8]>,
    pub(crate) realm: Option<&'a str>,
    pub(crate) nonce: Option<&'a str>,
    pub(crate) software: Option<&'a str>,
}

/// Writes a message to the front of the buffer, and returns its length. The spans are in the bytes.
pub(crate) fn write(
    flat: &ffi::StunMessage,
    spans: &ffi::StunTexts,
    bytes: &[u8],
    password: Option<&[u8]>,
    buffer: &mut [u8],
) -> Result<usize, StunError> {
    let flat = ffi::StunMessage { has_integrity: password.is_some(), ..*flat };
    let mut length = 0;
    match ffi::is_ice_stun_write(&flat, spans, bytes, password.unwrap_or_default(), buffer, &mut length) {
        ffi::OK => Ok(length),
        ffi::BUFFER_TOO_SHORT => Err(io::Error::new(io::ErrorKind::WriteZero, ffi::text_of(ffi::BUFFER_TOO_SHORT)).into()),
        code => Err(io::Error::new(io::ErrorKind::InvalidInput, ffi::text_of(code)).into()),
    }
}

/// Returns the first place of the part in the whole. The search of Knuth, Morris and Pratt takes linear time, whatever the bytes.
pub(crate) fn find(whole: &[u8], part: &[u8]) -> Option<usize> {
    // Entry i is the length of the longest proper start of part[..=i] that is its end too.
    let mut borders = vec![0; part.len()];
    for i in 1..part.len() {
        borders[i] = extended(part, &borders, borders[i - 1], part[i]);
    }
    let mut matched = 0;
    for (i, byte) in whole.iter().enumerate() {
        if matched == part.len() {
            return Some(i - matched);
        }
        matched = extended(part, &borders, matched, *byte);
    }
    (matched == part.len()).then(|| whole.len() - matched)
}

/// The length of the longest start of the part that ends with this byte, after a start of this length, which is not the whole part.
fn extended(part: &[u8], borders: &[usize], mut matched: usize, byte: u8) -> usize {
    while matched > 0 && part[matched] != byte {
        matched = borders[matched - 1];
    }
    matched + usize::from(part[matched] == byte)
}

#[cfg(test)]
mod tests {
    use super::find;

    #[test]
    fn a_part_is_found_where_it_is_first() {
        let whole = [b"aabaaab".as_slice(), b"abababac", b"aaaaaaaa", b"", b"abcabcabd"];
        for (text, length) in whole.into_iter().flat_map(|text| (0..=text.len()).map(move |length| (text, length))) {
            for start in 0..=text.len() - length {
                let part = &text[start..start + length];
                assert_eq!(find(text, part), (0..=text.len()).find(|at| text[*at..].starts_with(part)), "{text:?} {part:?}");
            }
        }
        assert_eq!((find(b"aab", b"aac"), find(b"a", b"aa"), find(b"", b"a")), (None, None, None));
    }
}

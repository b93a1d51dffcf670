//! The frames of a stream to a TURN server: STUN messages and ChannelData (RFC 8656, section 12.5).

use crate::error::CallError;
use crate::ffi;

/// What a stream begins with.
#[derive(Clone, Copy, Debug, PartialEq, Eq, Hash)]
pub enum Frame {
    /// Fewer than the four bytes that say how long it is.
    TooShort,
    /// Neither a STUN message nor ChannelData: the connection is to be closed.
    Neither,
    /// A frame of so many bytes, of which not all may be there yet.
    Of(usize),
}

/// Returns how long the frame is with which a stream begins: of ChannelData with its padding.
///
/// ```
/// use is::servers::{Frame, frame_length};
///
/// assert_eq!(frame_length(&[0x40, 0x00, 0x00, 0x05]), Frame::Of(12)); // four bytes, five of data, three of padding
/// assert_eq!(frame_length(&[0x40, 0x00]), Frame::TooShort);
/// ```
pub fn frame_length(start: &[u8]) -> Frame {
    let mut length = 0;
    match ffi::is_ice_frame_length(start, &mut length) {
        ffi::OK => Frame::Of(length),
        ffi::NOTHING => Frame::TooShort,
        _ => Frame::Neither,
    }
}

/// The frames of one stream, however it was cut into chunks.
#[derive(Clone, Debug, Default)]
pub struct Frames {
    /// What arrived, from the first byte of a frame on.
    kept: Vec<u8>,
}

impl Frames {
    /// A stream of which nothing arrived.
    pub fn new() -> Frames {
        Frames::default()
    }

    /// Takes what arrived next, and returns the frames that are whole now.
    ///
    /// # Errors
    ///
    /// [`CallError::Unparsed`]: what arrived is no frame. Close the connection.
    pub fn take(&mut self, chunk: &[u8]) -> Result<Vec<Vec<u8>>, CallError> {
        self.kept.extend_from_slice(chunk);
        let (mut frames, mut start) = (Vec::new(), 0);
        loop {
            let rest = self.kept.get(start..).unwrap_or_default();
            match frame_length(rest) {
                Frame::Neither => return Err(CallError::Unparsed),
                Frame::Of(length) if length <= rest.len() => {
                    frames.push(rest[..length].to_vec());
                    start += length;
                }
                Frame::Of(_) | Frame::TooShort => {
                    self.kept.drain(..start);
                    return Ok(frames);
                }
            }
        }
    }
}

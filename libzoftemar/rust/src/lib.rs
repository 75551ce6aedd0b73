//! The proved room of `zoftemar.h`, behind types that no safe program can misuse.
//!
//! A [`Room`] has tracks, subscribers and bundles. A [`Publisher`] or a [`Subscriber`] is the session of one peer: it handles NACKs, PLIs and
//! retransmissions. A [`Recorder`] makes a file. Moments and holds are in milliseconds. A refused call changes nothing and returns an [`Error`].
//!
//! ```
//! # fn main() -> Result<(), zoftemar::Error> {
//! let mut room = zoftemar::Room::open()?;
//! room.publish_plain(1, 0x11111111, 300)?; // track 1, its SSRC, hold
//! room.join(1, 1, 0x22222222, 7, (0, 0))?; // subscriber 1 of track 1, its SSRC, first sequence number, wish
//! room.packet(1, 0, &[0x80, 96, 0, 1, 0, 0, 0, 0, 0x11, 0x11, 0x11, 0x11, 5])?; // at moment 0
//! let mut out = [0; zoftemar::PACKET_ROOM];
//! let sent = room.take(1, &mut out)?;
//! assert_eq!(sent, Some(&[0x80, 96, 0, 7, 0, 0, 0, 0, 0x22, 0x22, 0x22, 0x22, 5][..]));
//! # Ok(())
//! # }
//! ```
mod error;
mod ffi;
mod recorder;
mod room;
mod session;
mod verdict;

pub use error::{code_name, Error};
pub use recorder::Recorder;
pub use room::{Room, SubscriberCounts, Target, TrackCounts};
pub use session::{Publisher, Session, Subscriber};
pub use verdict::Verdict;

use ffi::{written, Reply};

/// The capacity of a buffer for one packet, in bytes.
pub const PACKET_ROOM: usize = 2048;

/// The capacity of a buffer for missing sequence numbers.
pub const NAMES_ROOM: usize = 1024;

/// The archive's version, which is this crate's version: 65,536 times the major number, plus 256 times the minor number, plus the patch number.
pub fn version() -> u32 {
    unsafe { ffi::zoftemar_version() }
}

/// Makes the retransmission of an RTP packet of at most 2,046 bytes, with this sequence number on the RTX stream (RFC 4588, section 4), and without
/// padding.
pub fn wrap<'a>(bytes: &[u8], number: u16, rtx_ssrc: u32, rtx_payload_type: u8, out: &'a mut [u8; PACKET_ROOM]) -> Result<&'a [u8], Error> {
    written(unsafe { ffi::zoftemar_wrap(bytes.as_ptr(), bytes.len(), number, rtx_ssrc, rtx_payload_type, out.as_mut_ptr(), out.len()) }, out)
}

/// Restores the original packet from a publisher's retransmission, with the given SSRC and payload type, and without padding.
pub fn unwrap<'a>(bytes: &[u8], ssrc: u32, payload_type: u8, out: &'a mut [u8; PACKET_ROOM]) -> Result<&'a [u8], Error> {
    written(unsafe { ffi::zoftemar_unwrap(bytes.as_ptr(), bytes.len(), ssrc, payload_type, out.as_mut_ptr(), out.len()) }, out)
}

//! Sessions: each handles the feedback of one publisher or one subscriber.
use crate::ffi::*;
use crate::{Error, Room, PACKET_ROOM};

/// The methods of a [`Publisher`] and a [`Subscriber`].
pub trait Session: sealed::Owner {
    /// Begins a turn with a datagram of the peer that came at `moment`, decrypted. Call [`work`](Session::work) next. [`Error::Busy`], [`Error::TooLong`].
    fn received(&mut self, moment: u64, bytes: &[u8]) -> Result<(), Error> {
        unsafe { zoftemar_session_received(self.handle(), moment, bytes.as_ptr(), bytes.len()) }.done()
    }

    /// Begins a turn at `moment` without a datagram, about every 20 ms. Call [`work`](Session::work) next. [`Error::Busy`].
    fn waited(&mut self, moment: u64) -> Result<(), Error> {
        unsafe { zoftemar_session_waited(self.handle(), moment) }.done()
    }

    /// Makes the session's calls on the room, up to the next datagram to send to the peer: copies it to `out`, and returns it. `None`: no call is left
    /// until the next datagram or moment. [`Error::Bound`]: the next call is a take from a leg of a bundle, and stays to be made; drop the session.
    fn work<'a>(&mut self, room: &mut Room, out: &'a mut [u8; PACKET_ROOM]) -> Result<Option<&'a [u8]>, Error> {
        let reply = unsafe { zoftemar_session_work(self.handle(), room.handle(), 0, out.as_mut_ptr(), out.len()) };
        match reply.code {
            DONE => Ok(None),
            _ => written(reply, out).map(Some),
        }
    }
}

/// The session of a track's publisher: it requests missing packets and key frames from the publisher. Dropping a session doesn't change the room.
#[derive(Debug)]
pub struct Publisher(Owned);

/// The session of a subscriber: it sends the subscriber packets and retransmissions. Dropping a session doesn't change the room.
#[derive(Debug)]
pub struct Subscriber(Owned);

impl Publisher {
    /// Opens the session of this track's publisher, whose packets have this SSRC. [`Error::NoMemory`].
    pub fn open(track: u32, ssrc: u32) -> Result<Publisher, Error> {
        Handle::opened(|handle| unsafe { zoftemar_open_publisher(handle, track, ssrc) }).map(|handle| Publisher(Owned(handle)))
    }
}

impl Subscriber {
    /// Opens the session of this subscriber; packets sent to it have this SSRC. [`Error::NoMemory`].
    pub fn open(subscriber: u32, ssrc: u32) -> Result<Subscriber, Error> {
        Handle::opened(|handle| unsafe { zoftemar_open_subscriber(handle, subscriber, ssrc) }).map(|handle| Subscriber(Owned(handle)))
    }

    /// As [`open`](Subscriber::open), with an RTX stream for retransmissions (RFC 4588). May also return [`Error::BadStream`].
    pub fn open_rtx(subscriber: u32, ssrc: u32, rtx_ssrc: u32, rtx_payload_type: u8) -> Result<Subscriber, Error> {
        Handle::opened(|handle| unsafe { zoftemar_open_rtx_subscriber(handle, subscriber, ssrc, rtx_ssrc, rtx_payload_type) })
            .map(|handle| Subscriber(Owned(handle)))
    }
}

impl Session for Publisher {}
impl Session for Subscriber {}

/// A session's handle. Dropping the handle closes the session.
#[derive(Debug)]
struct Owned(Handle);

// zoftemar.h allows one call at a time on a session, from any thread.
unsafe impl Send for Owned {}

impl Drop for Owned {
    fn drop(&mut self) {
        unsafe { zoftemar_close_session(&mut self.0) }
    }
}

mod sealed {
    use super::{Handle, Publisher, Subscriber};

    pub trait Owner {
        fn handle(&mut self) -> &mut Handle;
    }

    impl Owner for Publisher {
        fn handle(&mut self) -> &mut Handle {
            &mut self.0 .0
        }
    }

    impl Owner for Subscriber {
        fn handle(&mut self) -> &mut Handle {
            &mut self.0 .0
        }
    }
}

//! The room.
use crate::ffi::*;
use crate::{Error, Verdict, NAMES_ROOM, PACKET_ROOM};

/// A room. Dropping the room closes it. Track numbers begin at 1 and only grow, and so do subscriber numbers.
///
/// A room may go to another thread, but only one thread at a time may use it:
/// ```
/// fn sent<T: Send>() {}
/// sent::<zoftemar::Room>();
/// ```
/// ```compile_fail,E0277
/// fn shared<T: Sync>() {}
/// shared::<zoftemar::Room>();
/// ```
#[derive(Debug)]
pub struct Room {
    handle: Handle,
}

// zoftemar.h: a room may go from one thread to another.
unsafe impl Send for Room {}

/// The decode target that a subscriber is sent: its index and, if `known` is true, its highest layers at the newest frame.
#[repr(C)]
#[derive(Debug, Clone, Copy, PartialEq, Eq, Default)]
pub struct Target {
    pub index: u8,
    pub known: bool,
    pub spatial: u8,
    pub temporal: u8,
    /// For later use: 0.
    pub spare: [u8; 4],
}

/// What is counted of a subscriber since its join. Each whole frame of its layered track since then has a [`Verdict`], which is counted; a plain track has
/// no frames. A count stays at 2^64 - 1 once it is there.
#[repr(C)]
#[derive(Debug, Clone, Copy, PartialEq, Eq, Default)]
#[non_exhaustive]
pub struct SubscriberCounts {
    /// Frames that were forwarded.
    pub passed: u64,
    /// Frames that were withheld since they aren't in the decode target.
    pub not_of_target: u64,
    /// Frames that were withheld since they refer to a frame before the epoch.
    pub behind: u64,
    /// Frames that were withheld since they refer to a frame that wasn't forwarded.
    pub reference: u64,
    /// Frames that were withheld since the queue had no place for all their packets.
    pub full: u64,
    /// Frames that were withheld since the target's chain is broken.
    pub link: u64,
    /// Frames that were withheld since no target is open.
    pub unopened: u64,
    /// Packets that were queued, also those taken since.
    pub queued: u64,
    /// Packets that were taken: by [`Room::take`], a session or a pump.
    pub taken: u64,
    /// Retransmissions: by [`Room::resend`] or a session, each time. A bundle's redraws aren't counted.
    pub resent: u64,
    /// Packets of a plain track that came while 512 were queued, and weren't queued.
    pub left_out: u64,
    /// Packets that are queued now: at most 512.
    pub waiting: u64,
    spare: [u64; 4],
}

/// What is counted of a track since its publish.
#[repr(C)]
#[derive(Debug, Clone, Copy, PartialEq, Eq, Default)]
#[non_exhaustive]
pub struct TrackCounts {
    /// Packets that came, and left the reorder buffer in order.
    pub arrived: u64,
    /// Sequence numbers that were given up.
    pub given_up: u64,
    /// Whole frames: 0 on a plain track.
    pub frames: u64,
    /// Whole key frames.
    pub key_frames: u64,
    /// Packets of `arrived` that are in no whole frame: of a torn or unfinished frame, unreadable, or padding. 0 on a plain track.
    pub unframed: u64,
    spare: [u64; 3],
}

impl Room {
    /// Opens a room, without tracks and subscribers. [`Error::NoMemory`].
    pub fn open() -> Result<Room, Error> {
        Ok(Room { handle: Handle::opened(|handle| unsafe { zoftemar_open(handle) })? })
    }

    pub(crate) fn handle(&mut self) -> &mut Handle {
        &mut self.handle
    }

    /// Begins a track of RTP packets of any codec with this SSRC. At a gap in their sequence numbers the track waits for `hold` milliseconds.
    pub fn publish_plain(&mut self, track: u32, ssrc: u32, hold: u32) -> Result<(), Error> {
        unsafe { zoftemar_publish_plain(&mut self.handle, 0, track, ssrc, hold) }.done()
    }

    /// Begins a track of AV1 packets with a Dependency Descriptor in the header extension element `id`, 1 to 14 or 16 to 255.
    pub fn publish_layered(&mut self, track: u32, id: u8, ssrc: u32, hold: u32) -> Result<(), Error> {
        unsafe { zoftemar_publish_layered(&mut self.handle, 0, track, id, ssrc, hold) }.done()
    }

    /// Ends a track. The track's subscribers stay, and may take their queued packets.
    pub fn unpublish(&mut self, track: u32) -> Result<(), Error> {
        unsafe { zoftemar_unpublish(&mut self.handle, 0, track) }.done()
    }

    /// Adds an RTP packet that arrived at `moment` to its track.
    pub fn packet(&mut self, track: u32, moment: u64, bytes: &[u8]) -> Result<(), Error> {
        unsafe { zoftemar_packet(&mut self.handle, 0, track, moment, bytes.as_ptr(), bytes.len()) }.done()
    }

    /// Advances a track's clock to `moment`: gaps at which the track has waited its hold are given up. Call this about every 20 ms.
    pub fn tick(&mut self, track: u32, moment: u64) -> Result<(), Error> {
        unsafe { zoftemar_tick(&mut self.handle, 0, track, moment) }.done()
    }

    /// Copies the sequence numbers that a track waits for to `out`, and returns them.
    pub fn missing<'a>(&mut self, track: u32, out: &'a mut [u16; NAMES_ROOM]) -> Result<&'a [u16], Error> {
        let reply = unsafe { zoftemar_missing(&mut self.handle, 0, track, out.as_mut_ptr(), out.len()) }.expect(NAMES)?;
        Ok(&out[..reply.first as usize])
    }

    /// Whether to request a key frame from the track's publisher.
    pub fn key_wanted(&mut self, track: u32) -> Result<bool, Error> {
        Ok(unsafe { zoftemar_key_wanted(&mut self.handle, 0, track) }.expect(KEY)?.has)
    }

    /// Begins a subscriber of a track. Packets sent to it have this SSRC, and sequence numbers from `first` on. The wish is the highest spatial
    /// and temporal layer that the subscriber wants.
    pub fn join(&mut self, subscriber: u32, track: u32, ssrc: u32, first: u16, (spatial, temporal): (u8, u8)) -> Result<(), Error> {
        unsafe { zoftemar_join(&mut self.handle, 0, subscriber, track, ssrc, first, spatial, temporal) }.done()
    }

    /// Changes a subscriber's wish from the next frame on.
    pub fn aim(&mut self, subscriber: u32, (spatial, temporal): (u8, u8)) -> Result<(), Error> {
        unsafe { zoftemar_aim(&mut self.handle, 0, subscriber, spatial, temporal) }.done()
    }

    /// Ends a subscriber.
    pub fn leave(&mut self, subscriber: u32) -> Result<(), Error> {
        unsafe { zoftemar_leave(&mut self.handle, 0, subscriber) }.done()
    }

    /// Moves a subscriber's oldest queued packet to `out`, and returns it. `None`: no packet is queued.
    pub fn take<'a>(&mut self, subscriber: u32, out: &'a mut [u8; PACKET_ROOM]) -> Result<Option<&'a [u8]>, Error> {
        let reply = unsafe { zoftemar_take(&mut self.handle, 0, subscriber, out.as_mut_ptr(), out.len()) };
        match reply.code {
            EMPTY => Ok(None),
            _ => written(reply, out).map(Some),
        }
    }

    /// Copies a packet that the subscriber took before, with this sequence number, to `out`, and returns it.
    pub fn resend<'a>(&mut self, subscriber: u32, number: u16, out: &'a mut [u8; PACKET_ROOM]) -> Result<&'a [u8], Error> {
        written(unsafe { zoftemar_resend(&mut self.handle, 0, subscriber, number, out.as_mut_ptr(), out.len()) }, out)
    }

    /// Requests a key frame for a subscriber.
    pub fn plead(&mut self, subscriber: u32) -> Result<(), Error> {
        unsafe { zoftemar_plead(&mut self.handle, 0, subscriber) }.done()
    }

    /// Why the frame with this unwrapped number was or wasn't forwarded to a subscriber.
    pub fn why(&mut self, subscriber: u32, number: u64) -> Result<Verdict, Error> {
        Verdict::of(unsafe { zoftemar_why(&mut self.handle, 0, subscriber, number) })
    }

    /// Makes a bundle of two or three legs, which are subscribers of layered tracks with descriptors in the header extension element `id`. Its packets
    /// have this SSRC, and sequence numbers from `first` on. The first leg is chosen.
    pub fn bundle(&mut self, number: u32, id: u8, ssrc: u32, first: u16, legs: &[u32]) -> Result<(), Error> {
        unsafe { zoftemar_bundle(&mut self.handle, number, id, ssrc, first, legs.as_ptr(), legs.len()) }.done()
    }

    /// Makes a bundle whose frame numbers continue at a change of leg, which WebRTC receivers need.
    pub fn bundle_renumbered(&mut self, number: u32, id: u8, ssrc: u32, first: u16, legs: &[u32]) -> Result<(), Error> {
        unsafe { zoftemar_bundle_renumbered(&mut self.handle, number, id, ssrc, first, legs.as_ptr(), legs.len()) }.done()
    }

    /// Chooses the leg that a bundle forwards from that leg's next key frame on; the first leg is 1. Requests that key frame if the leg isn't active.
    pub fn choose(&mut self, bundle: u32, leg: u8) -> Result<(), Error> {
        unsafe { zoftemar_choose(&mut self.handle, bundle, leg) }.done()
    }

    /// Takes the packets that are queued for a bundle's legs. Returns how many of them the bundle forwards, and how many it drops.
    pub fn pump(&mut self, bundle: u32) -> Result<(u64, u64), Error> {
        let reply = unsafe { zoftemar_pump(&mut self.handle, bundle) }.expect(PUMPED)?;
        Ok((reply.first, reply.second))
    }

    /// Moves a bundle's oldest queued packet to `out`, and returns it. `None`: no packet is queued.
    pub fn draw<'a>(&mut self, bundle: u32, out: &'a mut [u8; PACKET_ROOM]) -> Result<Option<&'a [u8]>, Error> {
        let reply = unsafe { zoftemar_draw(&mut self.handle, bundle, out.as_mut_ptr(), out.len()) };
        match reply.code {
            EMPTY => Ok(None),
            _ => written(reply, out).map(Some),
        }
    }

    /// Copies a packet that was drawn from a bundle before, with this sequence number, to `out`, and returns it.
    pub fn redraw<'a>(&mut self, bundle: u32, number: u16, out: &'a mut [u8; PACKET_ROOM]) -> Result<&'a [u8], Error> {
        written(unsafe { zoftemar_redraw(&mut self.handle, bundle, number, out.as_mut_ptr(), out.len()) }, out)
    }

    /// The decode target that a subscriber is sent, if it has one.
    pub fn target_of(&self, subscriber: u32) -> Result<Option<Target>, Error> {
        let mut target = Target::default();
        let reply = unsafe { zoftemar_target_of(&self.handle, subscriber, &mut target) }.expect(TARGET)?;
        Ok(reply.has.then_some(target))
    }

    /// Whether a subscriber's target is the best that its wish allows.
    pub fn reaches_wish(&self, subscriber: u32) -> Result<bool, Error> {
        Ok(unsafe { zoftemar_reaches_wish(&self.handle, subscriber) }.expect(REACHED)?.has)
    }

    /// The earliest moment at which a tick of the track gives up a gap. `None`: no packet is buffered behind a gap, or the moment is 2^64 or more.
    pub fn due(&self, track: u32) -> Result<Option<u64>, Error> {
        let reply = unsafe { zoftemar_due(&self.handle, track) }.expect(DUE)?;
        Ok(reply.has.then_some(reply.first))
    }

    /// The unwrapped number of a track's newest whole frame. `None`: none came yet, or the track is plain.
    pub fn newest_frame(&self, track: u32) -> Result<Option<u64>, Error> {
        let reply = unsafe { zoftemar_newest_frame(&self.handle, track) }.expect(NEWEST)?;
        Ok(reply.has.then_some(reply.first))
    }

    /// Writes to `out` the numbers of the track's subscribers that have packets queued, as many as fit, and returns the written part. If it is shorter than
    /// `out`, these are all. After the end of a track, its subscribers count until they leave.
    pub fn ready<'a>(&self, track: u32, out: &'a mut [u32]) -> Result<&'a [u32], Error> {
        let reply = unsafe { zoftemar_ready(&self.handle, track, out.as_mut_ptr(), out.len()) }.expect(READY)?;
        Ok(&out[..reply.first as usize])
    }

    /// What is counted of a subscriber since its join.
    pub fn counts_of_subscriber(&self, subscriber: u32) -> Result<SubscriberCounts, Error> {
        let mut counts = SubscriberCounts::default();
        unsafe { zoftemar_counts_of_subscriber(&self.handle, subscriber, &mut counts) }.expect(COUNTS)?;
        Ok(counts)
    }

    /// What is counted of a track since its publish.
    pub fn counts_of_track(&self, track: u32) -> Result<TrackCounts, Error> {
        let mut counts = TrackCounts::default();
        unsafe { zoftemar_counts_of_track(&self.handle, track, &mut counts) }.expect(COUNTS)?;
        Ok(counts)
    }
}

impl Drop for Room {
    fn drop(&mut self) {
        unsafe { zoftemar_close(&mut self.handle) }
    }
}

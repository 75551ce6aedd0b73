//! The declarations of zoftemar.h, in Rust.
use crate::{Error, SubscriberCounts, Target, TrackCounts};
use std::ffi::c_void;

/// `zoftemar_reply`.
#[repr(C)]
#[derive(Clone, Copy)]
pub struct Reply {
    pub code: u32,
    pub has: bool,
    pub first: u64,
    pub second: u64,
}

/// `zoftemar_room`, `zoftemar_session` and `zoftemar_recorder`. A handle owns what it opened, so it may be moved but not copied.
#[repr(C)]
#[derive(Debug)]
pub struct Handle {
    made: bool,
    at: *mut c_void,
}

const _: () = assert!(std::mem::size_of::<Handle>() == 16 && std::mem::size_of::<Reply>() == 24 && std::mem::size_of::<Target>() == 8);

const _: () = assert!(std::mem::size_of::<SubscriberCounts>() == 128 && std::mem::size_of::<TrackCounts>() == 64);

impl Handle {
    /// `ZOFTEMAR_ROOM_NONE`.
    pub const NONE: Handle = Handle { made: false, at: std::ptr::null_mut() };

    /// A handle that `open` opened, or the error that `open` returned.
    pub fn opened(open: impl FnOnce(&mut Handle) -> u32) -> Result<Handle, Error> {
        let mut handle = Handle::NONE;
        match open(&mut handle) {
            DONE => Ok(handle),
            code => Err(Error::of(Reply { code, has: false, first: 0, second: 0 })),
        }
    }
}

pub const DONE: u32 = 0;
pub const PACKET: u32 = 1;
pub const NAMES: u32 = 2;
pub const KEY: u32 = 3;
pub const REACHED: u32 = 4;
pub const TARGET: u32 = 5;
pub const DUE: u32 = 6;
pub const NEWEST: u32 = 7;
pub const FILE_PIECE: u32 = 8;
pub const PUMPED: u32 = 9;
pub const COUNTS: u32 = 10;
pub const READY: u32 = 11;
pub const EMPTY: u32 = 43;

impl Reply {
    /// The reply if it has this code, else the reply's error.
    pub fn expect(self, code: u32) -> Result<Reply, Error> {
        if self.code == code {
            Ok(self)
        } else {
            Err(Error::of(self))
        }
    }

    pub fn done(self) -> Result<(), Error> {
        self.expect(DONE).map(drop)
    }
}

/// The bytes of the buffer that were written, if the reply is `PACKET`; else the reply's error.
pub fn written(reply: Reply, out: &[u8]) -> Result<&[u8], Error> {
    reply.expect(PACKET).map(|reply| &out[..reply.first as usize])
}

extern "C" {
    pub fn zoftemar_open(room: &mut Handle) -> u32;
    pub fn zoftemar_close(room: &mut Handle);
    pub fn zoftemar_publish_plain(room: &mut Handle, seat: u32, track: u32, ssrc: u32, hold: u32) -> Reply;
    pub fn zoftemar_publish_layered(room: &mut Handle, seat: u32, track: u32, id: u8, ssrc: u32, hold: u32) -> Reply;
    pub fn zoftemar_unpublish(room: &mut Handle, seat: u32, track: u32) -> Reply;
    pub fn zoftemar_packet(room: &mut Handle, seat: u32, track: u32, moment: u64, bytes: *const u8, count: usize) -> Reply;
    pub fn zoftemar_tick(room: &mut Handle, seat: u32, track: u32, moment: u64) -> Reply;
    pub fn zoftemar_missing(room: &mut Handle, seat: u32, track: u32, out: *mut u16, count: usize) -> Reply;
    pub fn zoftemar_key_wanted(room: &mut Handle, seat: u32, track: u32) -> Reply;
    pub fn zoftemar_join(room: &mut Handle, seat: u32, subscriber: u32, track: u32, ssrc: u32, first: u16, spatial: u8, temporal: u8) -> Reply;
    pub fn zoftemar_aim(room: &mut Handle, seat: u32, subscriber: u32, spatial: u8, temporal: u8) -> Reply;
    pub fn zoftemar_leave(room: &mut Handle, seat: u32, subscriber: u32) -> Reply;
    pub fn zoftemar_take(room: &mut Handle, seat: u32, subscriber: u32, out: *mut u8, count: usize) -> Reply;
    pub fn zoftemar_resend(room: &mut Handle, seat: u32, subscriber: u32, number: u16, out: *mut u8, count: usize) -> Reply;
    pub fn zoftemar_plead(room: &mut Handle, seat: u32, subscriber: u32) -> Reply;
    pub fn zoftemar_why(room: &mut Handle, seat: u32, subscriber: u32, number: u64) -> Reply;
    pub fn zoftemar_bundle(room: &mut Handle, bundle: u32, id: u8, ssrc: u32, first: u16, legs: *const u32, count: usize) -> Reply;
    pub fn zoftemar_bundle_renumbered(room: &mut Handle, bundle: u32, id: u8, ssrc: u32, first: u16, legs: *const u32, count: usize) -> Reply;
    pub fn zoftemar_choose(room: &mut Handle, bundle: u32, leg: u8) -> Reply;
    pub fn zoftemar_pump(room: &mut Handle, bundle: u32) -> Reply;
    pub fn zoftemar_draw(room: &mut Handle, bundle: u32, out: *mut u8, count: usize) -> Reply;
    pub fn zoftemar_redraw(room: &mut Handle, bundle: u32, number: u16, out: *mut u8, count: usize) -> Reply;
    pub fn zoftemar_target_of(room: &Handle, subscriber: u32, out: &mut Target) -> Reply;
    pub fn zoftemar_reaches_wish(room: &Handle, subscriber: u32) -> Reply;
    pub fn zoftemar_due(room: &Handle, track: u32) -> Reply;
    pub fn zoftemar_newest_frame(room: &Handle, track: u32) -> Reply;
    pub fn zoftemar_counts_of_subscriber(room: &Handle, subscriber: u32, out: &mut SubscriberCounts) -> Reply;
    pub fn zoftemar_counts_of_track(room: &Handle, track: u32, out: &mut TrackCounts) -> Reply;
    pub fn zoftemar_ready(room: &Handle, track: u32, out: *mut u32, count: usize) -> Reply;
    pub fn zoftemar_open_publisher(session: &mut Handle, track: u32, ssrc: u32) -> u32;
    pub fn zoftemar_open_subscriber(session: &mut Handle, subscriber: u32, ssrc: u32) -> u32;
    pub fn zoftemar_open_rtx_subscriber(session: &mut Handle, subscriber: u32, ssrc: u32, rtx_ssrc: u32, rtx_payload_type: u8) -> u32;
    pub fn zoftemar_close_session(session: &mut Handle);
    pub fn zoftemar_session_received(session: &mut Handle, moment: u64, bytes: *const u8, count: usize) -> Reply;
    pub fn zoftemar_session_waited(session: &mut Handle, moment: u64) -> Reply;
    pub fn zoftemar_session_work(session: &mut Handle, room: &mut Handle, seat: u32, out: *mut u8, count: usize) -> Reply;
    pub fn zoftemar_recorder_open(recorder: &mut Handle, id: u8) -> u32;
    pub fn zoftemar_recorder_feed(recorder: &mut Handle, bytes: *const u8, count: usize) -> Reply;
    pub fn zoftemar_recorder_finish(recorder: &mut Handle, out: *mut u8, count: usize) -> Reply;
    pub fn zoftemar_recorder_close(recorder: &mut Handle);
    pub fn zoftemar_wrap(bytes: *const u8, count: usize, number: u16, rtx_ssrc: u32, rtx_payload_type: u8, out: *mut u8, room_of_out: usize) -> Reply;
    pub fn zoftemar_unwrap(bytes: *const u8, count: usize, ssrc: u32, payload_type: u8, out: *mut u8, room_of_out: usize) -> Reply;
    pub fn zoftemar_version() -> u32;
}

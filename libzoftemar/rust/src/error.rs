//! Why a call was refused.
use crate::Reply;
use std::fmt;

/// Why a call was refused. A refused call changes nothing. `Display` writes the code's name in `zoftemar.h`, as `zoftemar_code_name` returns it.
#[derive(Debug, Clone, Copy, PartialEq, Eq)]
#[non_exhaustive]
pub enum Error {
    /// No live track has this number, or the subscriber's track has ended.
    NoTrack,
    /// No live subscriber has this number.
    NoSubscriber,
    /// The number isn't above `highest`, the highest that was ever live, or that a bundle has (0 if none).
    NumberUsed { highest: u64 },
    /// `live` tracks, subscribers or bundles are live already: 64, 256 or 64.
    TooMany { live: u64 },
    /// The id of the header extension element is 0 or 15; of a recorder 0.
    BadExtensionId,
    /// The packet has `bytes` bytes, more than 1,500.
    TooBig { bytes: u64 },
    /// Not RTP. `part` is the fault: 0 fewer than 12 bytes, 1 the version, 2 the CSRCs, 3 the header extension, 4 the padding; in
    /// [`unwrap`](crate::unwrap) also 5: no original sequence number.
    Unreadable { part: u64 },
    /// The packet's SSRC isn't the track's.
    WrongSsrc { packet: u64, track: u64 },
    /// The packet's unwrapped sequence number is 2^46 or more.
    Spent,
    /// The packet's number is below `next`, the unwrapped sequence number that the track waits for.
    Late { next: u64 },
    /// The packet is already buffered, behind a gap.
    Repeat,
    /// The packet isn't kept. `oldest` is the oldest kept sequence number, `next` that of the next take or draw; both are as on the wire.
    NotKept { oldest: u64, next: u64 },
    /// The frame number is above `newest`, the newest frame's number. `None`: no frame came since the subscriber joined.
    Ahead { newest: Option<u64> },
    /// The frame number is below `lowest`, the lowest that may be asked for.
    TooOld { lowest: u64 },
    /// The subscriber's track is plain.
    Plain,
    /// Out of memory. Only opening, publishing, joining, bundling and [`Recorder::feed`](crate::Recorder::feed) return this error.
    NoMemory,
    /// No bundle has this number.
    NoBundle,
    /// The bundle has no such leg; its legs are 1 to `legs`.
    NoLeg { legs: u64 },
    /// The track of a leg isn't layered, or has another id of the header extension element.
    WrongKind,
    /// The subscriber is a leg of bundle `bundle`, or is listed twice among its legs.
    Bound { bundle: u64 },
    /// A packet or datagram of more than 2,048 bytes, or one to wrap of more than 2,046.
    TooLong,
    /// The session still has a call to make: call [`work`](crate::Session::work) until it returns `None`.
    Busy,
    /// A payload type of 128 or more, or a retransmission stream with the SSRC of the media.
    BadStream,
    /// A bundle has two or three legs.
    BadLegs,
    /// A recorded packet isn't RTP, has no or a bad payload or descriptor, or has a structure that isn't in force and begins no key frame.
    Unread,
    /// The recorded packet's SSRC is `got`, and the first packet's is `had`.
    OtherSource { got: u64, had: u64 },
    /// The recorded packet's sequence number is `got`, and the last packet's, which should be one less, is `had`.
    OutOfSequence { got: u64, had: u64 },
    /// The recorded packet's descriptor needs a template dependency structure, and none came.
    NoStructure,
    /// The recorded packets of a frame don't form a whole frame.
    NotWhole,
    /// The recorded frame with the 16-bit number `frame` lacks the frame that is `fdiff` numbers back.
    MissingReference { frame: u64, fdiff: u64 },
    /// An element of the frame that the recorded packet ends isn't an OBU (AV1, section 5.3.1).
    NotObu,
    /// Any other code. Such a code can only occur if the archive is of another version.
    Other(u32),
}

impl Error {
    pub(crate) fn of(reply: Reply) -> Error {
        let Reply { code, has, first, second } = reply;
        match code {
            32 => Error::NoTrack,
            33 => Error::NoSubscriber,
            34 => Error::NumberUsed { highest: first },
            35 => Error::TooMany { live: first },
            36 => Error::BadExtensionId,
            37 => Error::TooBig { bytes: first },
            38 => Error::Unreadable { part: first },
            39 => Error::WrongSsrc { packet: first, track: second },
            40 => Error::Spent,
            41 => Error::Late { next: first },
            42 => Error::Repeat,
            44 => Error::NotKept { oldest: first, next: second },
            45 => Error::Ahead { newest: has.then_some(first) },
            46 => Error::TooOld { lowest: first },
            47 => Error::Plain,
            48 => Error::NoMemory,
            49 => Error::NoBundle,
            50 => Error::NoLeg { legs: first },
            51 => Error::WrongKind,
            52 => Error::Bound { bundle: first },
            67 => Error::TooLong,
            70 => Error::Busy,
            71 => Error::BadStream,
            75 => Error::BadLegs,
            80 => Error::Unread,
            81 => Error::OtherSource { got: first, had: second },
            82 => Error::OutOfSequence { got: first, had: second },
            83 => Error::NoStructure,
            84 => Error::NotWhole,
            85 => Error::MissingReference { frame: first, fdiff: second },
            86 => Error::NotObu,
            code => Error::Other(code),
        }
    }

    /// The code in `zoftemar.h`.
    pub fn code(&self) -> u32 {
        match *self {
            Error::NoTrack => 32,
            Error::NoSubscriber => 33,
            Error::NumberUsed { .. } => 34,
            Error::TooMany { .. } => 35,
            Error::BadExtensionId => 36,
            Error::TooBig { .. } => 37,
            Error::Unreadable { .. } => 38,
            Error::WrongSsrc { .. } => 39,
            Error::Spent => 40,
            Error::Late { .. } => 41,
            Error::Repeat => 42,
            Error::NotKept { .. } => 44,
            Error::Ahead { .. } => 45,
            Error::TooOld { .. } => 46,
            Error::Plain => 47,
            Error::NoMemory => 48,
            Error::NoBundle => 49,
            Error::NoLeg { .. } => 50,
            Error::WrongKind => 51,
            Error::Bound { .. } => 52,
            Error::TooLong => 67,
            Error::Busy => 70,
            Error::BadStream => 71,
            Error::BadLegs => 75,
            Error::Unread => 80,
            Error::OtherSource { .. } => 81,
            Error::OutOfSequence { .. } => 82,
            Error::NoStructure => 83,
            Error::NotWhole => 84,
            Error::MissingReference { .. } => 85,
            Error::NotObu => 86,
            Error::Other(code) => code,
        }
    }
}

impl fmt::Display for Error {
    fn fmt(&self, f: &mut fmt::Formatter<'_>) -> fmt::Result {
        f.write_str(code_name(self.code()))
    }
}

impl std::error::Error for Error {}

/// The name of a code in `zoftemar.h`; "ZOFTEMAR_?" if the code has none.
pub fn code_name(code: u32) -> &'static str {
    match code {
        0 => "ZOFTEMAR_DONE",
        1 => "ZOFTEMAR_PACKET",
        2 => "ZOFTEMAR_NAMES",
        3 => "ZOFTEMAR_KEY",
        4 => "ZOFTEMAR_REACHED",
        5 => "ZOFTEMAR_TARGET",
        6 => "ZOFTEMAR_DUE",
        7 => "ZOFTEMAR_NEWEST",
        8 => "ZOFTEMAR_FILE_PIECE",
        9 => "ZOFTEMAR_PUMPED",
        10 => "ZOFTEMAR_COUNTS",
        11 => "ZOFTEMAR_READY",
        16 => "ZOFTEMAR_PASSED",
        17 => "ZOFTEMAR_NOT_OF_TARGET",
        18 => "ZOFTEMAR_BEHIND",
        19 => "ZOFTEMAR_REFERENCE",
        20 => "ZOFTEMAR_FULL",
        21 => "ZOFTEMAR_LINK",
        22 => "ZOFTEMAR_UNOPENED",
        23 => "ZOFTEMAR_HOLE",
        32 => "ZOFTEMAR_NO_TRACK",
        33 => "ZOFTEMAR_NO_SUBSCRIBER",
        34 => "ZOFTEMAR_NUMBER_USED",
        35 => "ZOFTEMAR_TOO_MANY",
        36 => "ZOFTEMAR_BAD_EXTENSION_ID",
        37 => "ZOFTEMAR_TOO_BIG",
        38 => "ZOFTEMAR_UNREADABLE",
        39 => "ZOFTEMAR_WRONG_SSRC",
        40 => "ZOFTEMAR_SPENT",
        41 => "ZOFTEMAR_LATE",
        42 => "ZOFTEMAR_REPEAT",
        43 => "ZOFTEMAR_EMPTY",
        44 => "ZOFTEMAR_NOT_KEPT",
        45 => "ZOFTEMAR_AHEAD",
        46 => "ZOFTEMAR_TOO_OLD",
        47 => "ZOFTEMAR_PLAIN",
        48 => "ZOFTEMAR_NO_MEMORY",
        49 => "ZOFTEMAR_NO_BUNDLE",
        50 => "ZOFTEMAR_NO_LEG",
        51 => "ZOFTEMAR_WRONG_KIND",
        52 => "ZOFTEMAR_BOUND",
        64 => "ZOFTEMAR_NO_ROOM",
        65 => "ZOFTEMAR_HAS_ROOM",
        66 => "ZOFTEMAR_NO_SPACE",
        67 => "ZOFTEMAR_TOO_LONG",
        68 => "ZOFTEMAR_NO_SESSION",
        69 => "ZOFTEMAR_HAS_SESSION",
        70 => "ZOFTEMAR_BUSY",
        71 => "ZOFTEMAR_BAD_STREAM",
        72 => "ZOFTEMAR_NO_RECORDER",
        73 => "ZOFTEMAR_HAS_RECORDER",
        74 => "ZOFTEMAR_FINISHED",
        75 => "ZOFTEMAR_BAD_LEGS",
        80 => "ZOFTEMAR_UNREAD",
        81 => "ZOFTEMAR_OTHER_SOURCE",
        82 => "ZOFTEMAR_OUT_OF_SEQUENCE",
        83 => "ZOFTEMAR_NO_STRUCTURE",
        84 => "ZOFTEMAR_NOT_WHOLE",
        85 => "ZOFTEMAR_MISSING_REFERENCE",
        86 => "ZOFTEMAR_NOT_OBU",
        _ => "ZOFTEMAR_?",
    }
}

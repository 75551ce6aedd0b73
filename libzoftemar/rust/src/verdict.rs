//! Why a frame was or wasn't forwarded.
use crate::{Error, Reply};

/// Why a frame was or wasn't forwarded to a subscriber. Frame numbers are unwrapped: they go on after 65,535.
#[derive(Debug, Clone, Copy, PartialEq, Eq)]
pub enum Verdict {
    /// The frame was forwarded.
    Passed,
    /// The frame isn't in this decode target. `None`: no target is open, and the wish allows none.
    NotOfTarget { target: Option<u64> },
    /// The frame refers to a frame `distance` numbers back, which is before `epoch`, the frame with which the epoch began.
    Behind { distance: u64, epoch: u64 },
    /// The frame refers to `frame`, which wasn't forwarded.
    Reference { frame: u64 },
    /// The queue was too full: it had `queued` packets, and the frame has `packets`.
    Full { queued: u64, packets: u64 },
    /// The target's chain broke at `frame`: the chain's previous frame, `previous`, wasn't forwarded.
    Link { frame: u64, previous: u64 },
    /// No target has been open since the frame `since`.
    Unopened { since: u64 },
    /// No whole frame with this number came since the subscriber joined. `next` is the next higher number that came, `before` the next lower.
    /// `None`: no lower number came, or it is 4,096 or more below the newest frame's.
    Hole { next: u64, before: Option<u64> },
}

impl Verdict {
    pub(crate) fn of(reply: Reply) -> Result<Verdict, Error> {
        let Reply { code, has, first, second } = reply;
        Ok(match code {
            16 => Verdict::Passed,
            17 => Verdict::NotOfTarget { target: has.then_some(first) },
            18 => Verdict::Behind { distance: first, epoch: second },
            19 => Verdict::Reference { frame: first },
            20 => Verdict::Full { queued: first, packets: second },
            21 => Verdict::Link { frame: first, previous: second },
            22 => Verdict::Unopened { since: first },
            23 => Verdict::Hole { next: first, before: has.then_some(second) },
            _ => return Err(Error::of(reply)),
        })
    }
}

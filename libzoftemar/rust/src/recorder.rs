//! Recording.
use crate::ffi::*;
use crate::Error;

/// A recorder of the packets that one subscriber of a layered track takes, as an IVF file, which dav1d and ffmpeg play.
///
/// ```
/// # fn main() -> Result<(), zoftemar::Error> {
/// let recorder = zoftemar::Recorder::open(4)?; // descriptors in the header extension element 4
/// // recorder.feed(packet)? for each packet that the subscriber takes
/// let file = recorder.finish();
/// assert_eq!(&file[..4], b"DKIF");
/// # Ok(())
/// # }
/// ```
#[derive(Debug)]
pub struct Recorder {
    handle: Handle,
}

// zoftemar.h: one call at a time on a recorder, from any thread.
unsafe impl Send for Recorder {}

impl Recorder {
    /// Opens a recorder of packets with descriptors in the header extension element `id`, 1 to 255. [`Error::BadExtensionId`], [`Error::NoMemory`].
    pub fn open(id: u8) -> Result<Recorder, Error> {
        Ok(Recorder { handle: Handle::opened(|handle| unsafe { zoftemar_recorder_open(handle, id) })? })
    }

    /// Records the next packet. [`Error::NoMemory`], [`Error::TooLong`]: nothing changes. Any other error is a fault of the packet, which each later
    /// call returns too; the file has the frames before it.
    pub fn feed(&mut self, bytes: &[u8]) -> Result<(), Error> {
        unsafe { zoftemar_recorder_feed(&mut self.handle, bytes.as_ptr(), bytes.len()) }.done()
    }

    /// The file.
    pub fn finish(mut self) -> Vec<u8> {
        let mut file = vec![0; 64];
        let mut written = 0;
        while let Some(out) = file.get_mut(written..) {
            let reply = unsafe { zoftemar_recorder_finish(&mut self.handle, out.as_mut_ptr(), out.len()) };
            if reply.code != FILE_PIECE {
                break;
            }
            written += reply.first as usize;
            file.resize(written + reply.second as usize, 0);
        }
        file
    }
}

impl Drop for Recorder {
    fn drop(&mut self) {
        unsafe { zoftemar_recorder_close(&mut self.handle) }
    }
}

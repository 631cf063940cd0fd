//! Talks and speakers: what holds a handle; and the listing of a conversation that is in memory.

use crate::ending::refusal;
use crate::message::{Message, Reader};
use crate::{loaded, well, Ending, Fault, Profile, Side, Waiting, ROOM};
use std::cell::UnsafeCell;
use std::mem::{size_of, MaybeUninit};
use std::ptr::null_mut;
use zk_sys::{zk_fault, zk_line, zk_message, zk_piece, zk_speaker, zk_talk};

/// The greatest payloads of the sides in bytes, how many requests may wait, and the operations.
#[derive(Clone, Copy, Debug)]
pub struct Limits {
    pub client: u32,
    pub server: u32,
    pub waiting: u32,
    pub profile: Profile,
}

impl Default for Limits {
    fn default() -> Limits {
        Limits {
            client: 4_194_304,
            server: 4_194_304,
            waiting: 65_536,
            profile: Profile::NEWEST,
        }
    }
}

/// What makes a handle of limits: the greatest payloads, how many requests may wait, and the profile.
pub(crate) type Make<H> = unsafe extern "C" fn(*mut H, u32, u32, u32, u32) -> u32;

impl Limits {
    /// Has a handle made, which is all zeros and stays where nothing copies it.
    pub(crate) fn make<H>(self, make: Make<H>, handle: &mut H) -> Result<(), Fault> {
        let Limits {
            client,
            server,
            waiting,
            profile,
        } = self;
        loaded();
        let status = unsafe { make(handle, client, server, waiting, profile as u32) };
        well(status, 0)
    }
}

/// A conversation as it comes.
pub struct Talk {
    /// Also calls that only look write there.
    handle: UnsafeCell<zk_talk>,
    payload: Vec<u8>,
    reader: Reader,
}

// The library has no variables of a thread, and `&mut self` lets one call at a time use the handle.
unsafe impl Send for Talk {}

impl Talk {
    pub fn new(limits: Limits) -> Result<Talk, Fault> {
        let mut talk = Talk {
            handle: UnsafeCell::new(zk_talk {
                held: null_mut(),
                live: false,
            }),
            payload: Vec::new(),
            reader: Reader::new(),
        };
        limits
            .make(zk_sys::zk_talk_new, talk.handle.get_mut())
            .map(|()| talk)
    }

    /// Begins anew with the same limits, whatever came before: for one conversation after another.
    pub fn renew(&mut self) {
        // It is refused for an empty handle alone, and this one has a talk.
        unsafe { zk_sys::zk_talk_renew(self.handle.get()) };
    }

    /// Takes bytes of a side away from the front of `piece`, up to the end of the first message. Returns that message.
    pub fn step<'t>(
        &'t mut self,
        side: Side,
        piece: &mut &[u8],
    ) -> Result<Option<Message<'t>>, Fault> {
        let (bytes, length) = (piece.as_ptr(), piece.len());
        let step = unsafe { zk_sys::zk_talk_step(self.handle.get(), side as u32, bytes, length) };
        take(piece, step.used, step.status, &step.fault)?;
        if !step.whole {
            return Ok(None);
        }
        self.newest(side).map(Some)
    }

    /// Takes the side's next frame, whole, its length included, if it may come next, and returns its message: for who asks
    /// before a frame is sent. An error says why it may not, and leaves the talk as it was, so that another may be offered.
    /// It is `Status::Range` if the bytes aren't one frame, or the side has begun another.
    pub fn offer<'t>(&'t mut self, side: Side, frame: &[u8]) -> Result<Message<'t>, Fault> {
        let (bytes, length) = (frame.as_ptr(), frame.len());
        let step = unsafe { zk_sys::zk_talk_offer(self.handle.get(), side as u32, bytes, length) };
        take(&mut &frame[..], step.used, step.status, &step.fault)?;
        self.newest(side)
    }

    /// The message of the side's kept frame.
    fn newest(&mut self, side: Side) -> Result<Message<'_>, Fault> {
        let (handle, side) = (self.handle.get(), side as u32);
        let view: zk_message = filled(|out, size| unsafe {
            zk_sys::zk_talk_view_into(handle, side, out, size);
        });
        written(&mut self.payload, |out, room| unsafe {
            zk_sys::zk_talk_payload(handle, side, out, room)
        })?;
        let mut message = self.reader.read(&self.payload, |out, room| unsafe {
            zk_sys::zk_talk_fields(handle, side, out, room)
        })?;
        message.frame = view.frame;
        message.answers = view.answers;
        Ok(message)
    }

    /// The same, and it makes no message. Returns whether one is whole.
    pub fn pass(&mut self, side: Side, piece: &mut &[u8]) -> Result<bool, Fault> {
        let (bytes, length) = (piece.as_ptr(), piece.len());
        let step = unsafe { zk_sys::zk_talk_pass(self.handle.get(), side as u32, bytes, length) };
        take(piece, step.used, step.status, &step.fault)?;
        Ok(step.whole)
    }

    /// What waits for replies; after a fault, before the byte that decided it.
    pub fn waiting(&self) -> Waiting {
        Waiting::of(&unsafe { zk_sys::zk_talk_waiting(self.handle.get()) })
    }

    /// How many bytes the side has sent of a frame that isn't whole, or is refused, its length included.
    pub fn held(&self, side: Side) -> u32 {
        unsafe { zk_sys::zk_talk_held(self.handle.get(), side as u32) }.bytes
    }

    /// How the conversation ends if nothing more comes.
    pub fn ending(&self) -> Ending {
        Ending::of(&filled(|out, size| unsafe {
            zk_sys::zk_talk_finish_into(self.handle.get(), out, size);
        }))
    }

    /// Writes the line of the side's newest message into `text`, in place of what is there.
    pub fn line(&self, side: Side, text: &mut Vec<u8>) -> Result<(), Fault> {
        written(text, |out, room| unsafe {
            zk_sys::zk_talk_line(self.handle.get(), side as u32, out, room)
        })
    }

    /// The line of the side's newest message, written into `text`.
    pub fn line_str<'b>(&self, side: Side, text: &'b mut Vec<u8>) -> Result<&'b str, Fault> {
        self.line(side, text).map(|()| shown(text))
    }

    /// Writes the line of how the conversation ends if nothing more comes.
    pub fn ending_line(&self, text: &mut Vec<u8>) -> Result<(), Fault> {
        written(text, |out, room| unsafe {
            zk_sys::zk_talk_ending_line(self.handle.get(), out, room)
        })
    }

    /// The line of how the conversation ends if nothing more comes, written into `text`.
    pub fn ending_line_str<'b>(&self, text: &'b mut Vec<u8>) -> Result<&'b str, Fault> {
        self.ending_line(text).map(|()| shown(text))
    }
}

impl Drop for Talk {
    fn drop(&mut self) {
        unsafe { zk_sys::zk_talk_free(self.handle.get()) }
    }
}

/// Makes the frames of what may be said next. Each message of both sides has to be said, so that replies free the places
/// of their requests.
pub struct Speaker {
    handle: zk_speaker,
    frame: Vec<u8>,
}

// As for a talk.
unsafe impl Send for Speaker {}

impl Speaker {
    pub fn new(limits: Limits) -> Result<Speaker, Fault> {
        let mut speaker = Speaker {
            handle: zk_speaker {
                held: null_mut(),
                live: false,
            },
            frame: Vec::new(),
        };
        limits
            .make(zk_sys::zk_speaker_new, &mut speaker.handle)
            .map(|()| speaker)
    }

    /// Begins anew with the same limits: it has said nothing.
    pub fn renew(&mut self) {
        // As for a talk.
        unsafe { zk_sys::zk_speaker_renew(&mut self.handle) };
    }

    /// The frame of the line's message, which may come next.
    pub fn say(&mut self, line: &str) -> Result<&[u8], Fault> {
        let Speaker { handle, frame } = self;
        let said = unsafe { zk_sys::zk_speaker_say(handle, line.as_ptr(), line.len()) };
        well(said.status, said.column)?;
        written(frame, |out, room| unsafe {
            zk_sys::zk_speaker_frame(handle, out, room)
        })?;
        Ok(frame)
    }

    /// The frame of the side's message of which the bytes are the payload, and which may come next.
    pub fn say_payload(&mut self, side: Side, payload: &[u8]) -> Result<&[u8], Fault> {
        let Speaker { handle, frame } = self;
        let said = unsafe {
            zk_sys::zk_speaker_say_payload(handle, side as u32, payload.as_ptr(), payload.len())
        };
        well(said.status, said.place)?;
        written(frame, |out, room| unsafe {
            zk_sys::zk_speaker_frame(handle, out, room)
        })?;
        Ok(frame)
    }
}

impl Drop for Speaker {
    fn drop(&mut self) {
        unsafe { zk_sys::zk_speaker_free(&mut self.handle) }
    }
}

/// What a call writes into a struct, of the size that it has here: a newer library may have more of it.
pub(crate) fn filled<T>(call: impl FnOnce(*mut T, usize)) -> T {
    let mut answer = MaybeUninit::uninit();
    call(answer.as_mut_ptr(), size_of::<T>());
    // The call has written all of it.
    unsafe { answer.assume_init() }
}

/// Takes away what a step used, and returns it; or why the step was refused.
pub(crate) fn take<'p>(
    piece: &mut &'p [u8],
    used: usize,
    status: u32,
    fault: &zk_fault,
) -> Result<&'p [u8], Fault> {
    if fault.reason != 0 {
        return Err(refusal(fault));
    }
    well(status, 0)?;
    let (taken, rest) = piece.split_at(used.min(piece.len()));
    *piece = rest;
    Ok(taken)
}

/// Writes the listing of a whole conversation into `text`, in place of what is there: the line of each message and of the
/// ending, each with a line feed. The pieces are in the order in which they came.
pub fn listing(limits: Limits, pieces: &[(Side, &[u8])], text: &mut Vec<u8>) -> Result<(), Fault> {
    loaded();
    let cut: Vec<zk_piece> = pieces
        .iter()
        .map(|(side, piece)| zk_piece {
            side: *side as u32,
            length: piece.len(),
        })
        .collect();
    let bytes: Vec<u8> = pieces
        .iter()
        .flat_map(|(_, piece)| piece.iter().copied())
        .collect();
    written(text, |out, room| unsafe {
        zk_sys::zk_listing(
            cut.as_ptr(),
            cut.len(),
            bytes.as_ptr(),
            bytes.len(),
            limits.client,
            limits.server,
            limits.waiting,
            limits.profile as u32,
            out,
            room,
        )
    })
}

/// A line, which is UTF-8.
pub(crate) fn shown(text: &[u8]) -> &str {
    std::str::from_utf8(text).unwrap_or_default()
}

/// Has a text written into the room that it has, and once more if that is too small.
pub(crate) fn written(
    text: &mut Vec<u8>,
    mut write: impl FnMut(*mut u8, usize) -> zk_line,
) -> Result<(), Fault> {
    text.clear();
    text.reserve(256);
    let mut line = write(text.as_mut_ptr(), text.capacity());
    if line.status == ROOM {
        text.reserve(line.length);
        line = write(text.as_mut_ptr(), text.capacity());
    }
    well(line.status, 0)?;
    // The call has written these bytes. The rest of the room is never filled, which would cost time.
    unsafe { text.set_len(line.length.min(text.capacity())) };
    Ok(())
}

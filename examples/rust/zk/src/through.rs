//! Passages: conversations that go on where their profile ends.

use crate::held::{filled, shown, take, written, Limits, Make};
use crate::message::{Message, Reader};
use crate::{Ending, Fault, Operation, Side, Waiting};
use std::cell::UnsafeCell;
use std::ptr::null_mut;
use zk_sys::{zk_ending, zk_message, zk_passed, zk_through};

const WITHIN: u32 = 0;
const MESSAGE: u32 = 1;
const ASKED: u32 = 2;
const FULL: u32 = 4;
const UNSEEN: u32 = 5;

/// What became of the bytes that a step took.
#[derive(Clone, Copy, Debug)]
pub enum Went<'t> {
    /// No frame is whole.
    Within,
    /// A frame is whole: a message.
    Message(Message<'t>),
    /// A request is whole whose operation the profile lacks: it is left out.
    Asked(LeftOut<'t>),
    /// The reply to such a request is whole: it is left out.
    Answered(LeftOut<'t>),
    /// A reply to a request that wasn't seen is whole: see `Through::join` and `Through::resume`.
    Unseen(Unseen<'t>),
    /// More would wait than may: nothing was taken. The server's bytes come first; then the client's piece again. Where
    /// all requests have their replies, the frame alone weighs more than may wait.
    Full,
}

/// What became of the bytes that `Through::pass` took.
#[derive(Clone, Copy, Debug, PartialEq, Eq)]
pub enum Judged {
    /// No frame is whole.
    Within,
    /// A frame is whole: a message, or one that is left out.
    Whole,
    /// As `Went::Full`.
    Full,
}

/// A frame that is left out. The xid, the operation and the frame's number are the request's, also of the reply.
#[derive(Clone, Copy, Debug, PartialEq, Eq)]
pub struct LeftOut<'t> {
    pub xid: i32,
    pub operation: i32,
    /// The number of the request's frame among the client's, from 0.
    pub frame: u64,
    pub payload: &'t [u8],
}

/// A reply to a request that wasn't seen, by its header.
#[derive(Clone, Copy, Debug, PartialEq, Eq)]
pub struct Unseen<'t> {
    pub xid: i32,
    pub zxid: i64,
    pub err: i32,
    pub payload: &'t [u8],
}

impl<'t> LeftOut<'t> {
    /// The operation, if it is known here.
    pub fn operation(&self) -> Option<Operation> {
        Operation::of(self.operation)
    }

    fn went(step: &zk_passed, payload: &'t [u8]) -> Went<'t> {
        let left = LeftOut {
            xid: step.xid,
            operation: step.operation,
            frame: step.frame,
            payload,
        };
        match step.went {
            ASKED => Went::Asked(left),
            UNSEEN => Went::Unseen(Unseen {
                xid: step.xid,
                zxid: step.zxid,
                err: step.err,
                payload,
            }),
            _ => Went::Answered(left),
        }
    }
}

/// A passage: a conversation as it comes, of which the requests whose operations the profile lacks are left out, and the
/// replies to them. The limits are those of a talk.
pub struct Through {
    /// Also calls that only look write there.
    handle: UnsafeCell<zk_through>,
    /// What each side has begun of a frame.
    came: [Vec<u8>; 2],
    /// The payload of the frame that was whole last.
    payload: Vec<u8>,
    reader: Reader,
}

// As for a talk.
unsafe impl Send for Through {}

impl Through {
    pub fn new(limits: Limits) -> Result<Through, Fault> {
        Through::made(limits, zk_sys::zk_through_new)
    }

    /// A connection that is seen late: frame 0 of each side was made up, and each side's first byte is to begin a frame,
    /// the server's before it answers what the client's ask. Begun anew, it is as a new one.
    pub fn join(limits: Limits) -> Result<Through, Fault> {
        Through::made(limits, zk_sys::zk_through_join)
    }

    fn made(limits: Limits, make: Make<zk_through>) -> Result<Through, Fault> {
        let mut through = Through {
            handle: UnsafeCell::new(zk_through {
                held: null_mut(),
                live: false,
            }),
            came: [Vec::new(), Vec::new()],
            payload: Vec::new(),
            reader: Reader::new(),
        };
        limits
            .make(make, through.handle.get_mut())
            .map(|()| through)
    }

    /// Begins anew with the same limits, whatever came before: for one conversation after another.
    pub fn renew(&mut self) {
        // As for a talk.
        unsafe { zk_sys::zk_through_renew(self.handle.get()) };
        self.came.iter_mut().for_each(Vec::clear);
    }

    /// Writes the line of the side's newest message into `text`, in place of what is there. It has none if the side's
    /// newest frame is left out.
    pub fn line(&self, side: Side, text: &mut Vec<u8>) -> Result<(), Fault> {
        written(text, |out, room| unsafe {
            zk_sys::zk_through_line(self.handle.get(), side as u32, out, room)
        })
    }

    /// That line, written into `text`.
    pub fn line_str<'b>(&self, side: Side, text: &'b mut Vec<u8>) -> Result<&'b str, Fault> {
        self.line(side, text).map(|()| shown(text))
    }

    /// Takes bytes of a side away from the front of `piece`, up to the end of the first frame. Returns what became of
    /// them.
    pub fn step<'t>(&'t mut self, side: Side, piece: &mut &[u8]) -> Result<Went<'t>, Fault> {
        let (handle, side) = (self.handle.get(), side as u32);
        let (bytes, length) = (piece.as_ptr(), piece.len());
        let step: zk_passed = filled(|out, size| unsafe {
            zk_sys::zk_through_step_into(handle, side, bytes, length, out, size);
        });
        self.used(side, piece, &step)?;
        self.went(side, &step)
    }

    /// Takes the side's next frame, whole, its length included, if it may come next, and returns what became of it: for who
    /// asks before a frame is sent. Where it is `Went::Full`, or an error says why it may not, the passage is as it was, so
    /// that another may be offered. It is `Status::Range` if the bytes aren't one frame, or the side has begun another.
    pub fn offer<'t>(&'t mut self, side: Side, frame: &[u8]) -> Result<Went<'t>, Fault> {
        let (handle, side) = (self.handle.get(), side as u32);
        let (bytes, length) = (frame.as_ptr(), frame.len());
        let step: zk_passed = filled(|out, size| unsafe {
            zk_sys::zk_through_offer_into(handle, side, bytes, length, out, size);
        });
        take(&mut &frame[..], step.used, step.status, &step.fault)?;
        self.went(side, &step)
    }

    /// What became of the side's bytes, with the message or the payload.
    fn went<'t>(&'t mut self, side: u32, step: &zk_passed) -> Result<Went<'t>, Fault> {
        let handle = self.handle.get();
        match step.went {
            FULL => return Ok(Went::Full),
            WITHIN => return Ok(Went::Within),
            _ => {}
        }
        written(&mut self.payload, |out, room| unsafe {
            zk_sys::zk_through_payload(handle, side, out, room)
        })?;
        if step.went != MESSAGE {
            return Ok(LeftOut::went(step, &self.payload));
        }
        let view: zk_message = filled(|out, size| unsafe {
            zk_sys::zk_through_view_into(handle, side, out, size);
        });
        let mut message = self.reader.read(&self.payload, |out, room| unsafe {
            zk_sys::zk_through_fields(handle, side, out, room)
        })?;
        message.frame = view.frame;
        message.answers = view.answers;
        Ok(Went::Message(message))
    }

    /// The same, and it makes no message and copies no payload: the side then shows no message.
    pub fn pass(&mut self, side: Side, piece: &mut &[u8]) -> Result<Judged, Fault> {
        let (handle, bytes, length) = (self.handle.get(), piece.as_ptr(), piece.len());
        let step: zk_passed = filled(|out, size| unsafe {
            zk_sys::zk_through_pass_into(handle, side as u32, bytes, length, out, size);
        });
        self.used(side as u32, piece, &step)?;
        Ok(match step.went {
            WITHIN => Judged::Within,
            FULL => Judged::Full,
            _ => Judged::Whole,
        })
    }

    /// Takes away what a step used, and keeps it while its frame isn't whole.
    fn used(&mut self, side: u32, piece: &mut &[u8], step: &zk_passed) -> Result<(), Fault> {
        let taken = take(piece, step.used, step.status, &step.fault)?;
        let came = &mut self.came[side as usize & 1];
        match step.went {
            WITHIN | FULL => came.extend_from_slice(taken),
            _ => came.clear(),
        }
        Ok(())
    }

    /// Goes on after a refusal, at the end of the refused frame, whose bytes it takes away from the front of `piece`: the
    /// one that was refused. Returns how many these are; 0 where nothing is refused. From there on the connection is seen
    /// late, as by `Through::join`: frames and bytes are counted from there, no request waits, and a reply to an earlier one
    /// is `Went::Unseen`. What the other side had begun of a frame stays.
    ///
    /// The error is the refusal, which stays, where its frame has no end: `Status::LengthRange` and `Status::StreamEnd`.
    ///
    /// ```
    /// # use zk::{Limits, Side, Through, Went};
    /// # let mut through = Through::join(Limits::default())?;
    /// # let bytes = [0, 0, 0, 8, 0, 0, 0, 1, 0, 0, 0, 3, 0, 0, 0, 8, 255, 255, 255, 254, 0, 0, 0, 11];
    /// let mut piece = &bytes[..];
    /// while !piece.is_empty() {
    ///     match through.step(Side::Client, &mut piece) {
    ///         Ok(Went::Message(message)) => println!("{:?}", message.operation()),
    ///         Ok(_) => {}
    ///         Err(fault) => {
    ///             let size = through.resume(&mut piece)?;
    ///             println!("{size} bytes of a frame are passed over: {fault}");
    ///         }
    ///     }
    /// }
    /// # Ok::<(), zk::Fault>(())
    /// ```
    pub fn resume(&mut self, piece: &mut &[u8]) -> Result<usize, Fault> {
        let handle = self.handle.get();
        let refused: zk_ending = filled(|out, size| unsafe {
            zk_sys::zk_through_finish_into(handle, out, size);
        });
        let step = unsafe { zk_sys::zk_through_resume(handle) };
        let taken = take(piece, step.used, step.status, &step.fault)?;
        if refused.fault.reason != 0 {
            let side = refused.fault.side as usize & 1;
            self.came[side].clear();
            let begun = &self.came[1 - side];
            filled::<zk_passed>(|out, size| unsafe {
                let (bytes, length) = (begun.as_ptr(), begun.len());
                zk_sys::zk_through_step_into(handle, 1 - side as u32, bytes, length, out, size);
            });
        }
        Ok(taken.len())
    }

    /// What waits for replies, with what is left out; after a fault, before the refused frame.
    pub fn waiting(&self) -> Waiting {
        Waiting::of(&unsafe { zk_sys::zk_through_waiting(self.handle.get()) })
    }

    /// How many bytes the side has sent of a frame that isn't whole, or is refused, its length included.
    pub fn held(&self, side: Side) -> u32 {
        unsafe { zk_sys::zk_through_held(self.handle.get(), side as u32) }.bytes
    }

    /// How the conversation ends if nothing more comes, with all frames that came.
    pub fn ending(&self) -> Ending {
        Ending::of(&filled(|out, size| unsafe {
            zk_sys::zk_through_finish_into(self.handle.get(), out, size);
        }))
    }

    /// Writes the line of that ending.
    pub fn ending_line(&self, text: &mut Vec<u8>) -> Result<(), Fault> {
        written(text, |out, room| unsafe {
            zk_sys::zk_through_ending_line(self.handle.get(), out, room)
        })
    }

    /// That line, written into `text`.
    pub fn ending_line_str<'b>(&self, text: &'b mut Vec<u8>) -> Result<&'b str, Fault> {
        self.ending_line(text).map(|()| shown(text))
    }
}

impl Drop for Through {
    fn drop(&mut self) {
        unsafe { zk_sys::zk_through_free(self.handle.get()) }
    }
}

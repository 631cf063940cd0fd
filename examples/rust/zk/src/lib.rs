//! ZooKeeper's client protocol by the proved library libzk: the fields of payloads, conversations, and requests.
//!
//! ```
//! use zk::{Operation, Profile, Reader, Value};
//! let payload = [0, 0, 0, 1, 0, 0, 0, 3, 0, 0, 0, 2, b'/', b'a', 1];
//! let mut reader = Reader::new();
//! let message = reader.request(Profile::V34, &payload)?;
//! assert_eq!((message.xid, message.operation()), (1, Some(Operation::Exists)));
//! assert_eq!(message.get("path"), Some(Value::Text("/a")));
//! # Ok::<(), zk::Fault>(())
//! ```
//!
//! A request is written from its values, and offered to a talk before it is sent, which takes it if it may come next:
//!
//! ```
//! use zk::{Limits, Operation, Side, Talk, Value, Writer};
//! # let mut talk = Talk::new(Limits::default())?;
//! # let mut writer = Writer::new();
//! # let hello = writer.first([Value::Int(0), Value::Long(0), Value::Int(1), Value::Long(0), Value::Null])?.to_vec();
//! # talk.step(Side::Client, &mut &hello[..])?;
//! let mut writer = Writer::new();
//! let frame = writer.request(1, Operation::Exists, [Value::Text("/a"), Value::Bool(true)])?;
//! let message = talk.offer(Side::Client, frame)?;
//! assert_eq!(message.get("path"), Some(Value::Text("/a")));
//! # Ok::<(), zk::Fault>(())
//! ```
//!
//! A message is borrowed from what it was read of, so it can't be kept across the next call:
//!
//! ```compile_fail,E0499
//! # let mut talk = zk::Talk::new(zk::Limits::default()).unwrap();
//! let one = talk.step(zk::Side::Client, &mut &[0; 4][..]);
//! let other = talk.step(zk::Side::Client, &mut &[0; 4][..]);
//! drop(one);
//! ```
//!
//! `Message::to_owned` makes a copy that can be. Of a payload that is refused, `Reader::faulty` has what comes before the
//! fault.
//!
//! Talks, passages and speakers are freed when they are dropped. They may go to another thread, but can't be shared or
//! copied. The first call of a program whose library is older than this crate panics.

use std::fmt;
use std::sync::Once;

/// Numbers that have names, as an enum.
macro_rules! numbered {
    ($(#[$doc:meta])* $kind:ident: $of:ty, $named:ident { $($name:ident = $number:literal,)* }) => {
        $(#[$doc])*
        #[non_exhaustive]
        #[derive(Clone, Copy, Debug, PartialEq, Eq, Hash)]
        pub enum $kind {
            $($name,)*
        }

        impl $kind {
            /// What has this number, if it is known here.
            pub fn of(number: $of) -> Option<$kind> {
                match number {
                    $($number => Some($kind::$name),)*
                    _ => None,
                }
            }

            /// Its number.
            pub fn number(self) -> $of {
                match self {
                    $($kind::$name => $number,)*
                }
            }

            /// Its name.
            pub fn name(self) -> &'static str {
                $named(self.number())
            }
        }

        impl std::fmt::Display for $kind {
            fn fmt(&self, out: &mut std::fmt::Formatter<'_>) -> std::fmt::Result {
                out.write_str(self.name())
            }
        }

        impl From<$kind> for $of {
            fn from(kind: $kind) -> $of {
                kind.number()
            }
        }
    };
}
pub(crate) use numbered;

mod ending;
mod held;
mod judge;
mod message;
mod names;
mod through;
mod write;

pub use ending::{Ending, Waiting};
pub use held::{listing, Limits, Speaker, Talk};
pub use judge::{judge_connected, judge_event, judge_first, judge_reply, judge_request};
pub use message::{Faulty, Field, Kind, Message, OwnedMessage, Reader, Value};
pub use through::{Judged, LeftOut, Through, Unseen, Went};
pub use write::Writer;

pub use names::{
    error_name, event_name, field_name, flags_name, operation_name, permission, state_name,
    status_name, Code, CreateFlags, EventType, Operation, Profile, State, Status,
};

/// Who speaks.
#[derive(Clone, Copy, Debug, PartialEq, Eq)]
pub enum Side {
    Client = 0,
    Server = 1,
}

/// Why bytes are no message, or a call can't be made; `status_name` has the name of a status.
#[derive(Clone, Copy, Debug, PartialEq, Eq)]
pub struct Fault {
    pub status: u32,
    /// The place in the payload, the column in a line, or the index of a value.
    pub place: u32,
    /// The byte by which a talk refuses a conversation.
    pub at: Option<At>,
}

/// A byte that a conversation is refused by.
#[derive(Clone, Copy, Debug, PartialEq, Eq)]
pub struct At {
    /// Who sent it.
    pub side: Side,
    /// The number of its frame among those of its side, from 0.
    pub frame: u64,
    /// How many bytes the side had sent, this one included.
    pub offset: u64,
    /// The two xids, if a reply comes out of order.
    pub order: Option<Order>,
}

/// The xid of the oldest request that waits, and that of the reply.
#[derive(Clone, Copy, Debug, PartialEq, Eq)]
pub struct Order {
    pub expected: i32,
    pub got: i32,
}

impl Fault {
    /// The status, if it is known here.
    pub fn status(&self) -> Option<Status> {
        Status::of(self.status)
    }
}

impl fmt::Display for Fault {
    fn fmt(&self, out: &mut fmt::Formatter<'_>) -> fmt::Result {
        write!(out, "{} at {}", status_name(self.status), self.place)
    }
}

impl std::error::Error for Fault {}

pub(crate) const ROOM: u32 = 68;

/// The version of the library: a million for each major number, a thousand for each minor one.
pub fn version() -> u32 {
    // It takes nothing.
    unsafe { zk_sys::zk_version() }
}

/// Stops a program whose library is older than this crate.
pub(crate) fn loaded() {
    static ONCE: Once = Once::new();
    ONCE.call_once(|| {
        let (found, wanted) = (version(), zk_sys::VERSION);
        assert!(
            found >= wanted,
            "libzk is {found}, and this crate needs {wanted} or later"
        );
    });
}

/// Nothing, or why the call did nothing.
pub(crate) fn well(status: u32, place: u32) -> Result<(), Fault> {
    match status {
        0 => Ok(()),
        _ => Err(Fault {
            status,
            place,
            at: None,
        }),
    }
}

//! Messages and their fields, borrowed from a payload.

use crate::{field_name, loaded, well, Code, Fault, Operation, Profile, ROOM};
use zk_sys::{zk_field, zk_read};

/// Kinds of messages.
#[derive(Clone, Copy, Debug, PartialEq, Eq)]
pub enum Kind {
    Connect,
    Request,
    Connected,
    Reply,
    Event,
}

/// What a field has.
#[derive(Clone, Copy, Debug, PartialEq, Eq)]
pub enum Value<'p> {
    Int(i32),
    Long(i64),
    Bool(bool),
    Text(&'p str),
    Blob(&'p [u8]),
    /// A list's count; its elements follow.
    List(u32),
    /// The operation of a part of a multi, or -1 for a result that is an error; the fields of its record follow.
    Part(i32),
    /// A text, a blob or a list that is null.
    Null,
}

/// A field of a message. Its content is the `length` bytes of the payload from `place` on.
#[derive(Clone, Copy, Debug, PartialEq, Eq)]
pub struct Field<'p> {
    pub name: &'static str,
    pub place: usize,
    pub length: usize,
    pub value: Value<'p>,
}

/// A message. The operation of a reply is that of its request; `err` and `zxid` are those of a reply or an event;
/// `frame` is the number of its frame among those of its side in a talk, from 0; `answers` is that of the client's frame
/// that a reply answers, else 0.
#[derive(Clone, Copy, Debug)]
pub struct Message<'p> {
    pub kind: Kind,
    pub xid: i32,
    pub operation: i32,
    pub err: i32,
    pub zxid: i64,
    pub frame: u64,
    pub answers: u64,
    pub payload: &'p [u8],
    fields: &'p [zk_field],
}

impl<'p> Message<'p> {
    /// The fields in order.
    pub fn fields(&self) -> impl Iterator<Item = Field<'p>> + 'p {
        let payload = self.payload;
        self.fields
            .iter()
            .map(move |field| field_of(field, payload))
    }

    /// The operation, if it is known here.
    pub fn operation(&self) -> Option<Operation> {
        Operation::of(self.operation)
    }

    /// What `err` means, if it is known here.
    pub fn code(&self) -> Option<Code> {
        Code::of(self.err)
    }

    /// The value of the first field of this name.
    pub fn get(&self, name: &str) -> Option<Value<'p>> {
        self.fields()
            .find(|field| field.name == name)
            .map(|field| field.value)
    }

    /// A copy that is kept.
    pub fn to_owned(&self) -> OwnedMessage {
        let Message {
            kind,
            xid,
            operation,
            err,
            zxid,
            frame,
            answers,
            ..
        } = *self;
        OwnedMessage {
            kind,
            xid,
            operation,
            err,
            zxid,
            frame,
            answers,
            payload: self.payload.to_vec(),
            fields: self.fields.to_vec(),
        }
    }

    pub(crate) fn of(read: &zk_read, payload: &'p [u8], fields: &'p [zk_field]) -> Message<'p> {
        let kind = match read.kind {
            1 => Kind::Connect,
            2 => Kind::Request,
            3 => Kind::Connected,
            4 => Kind::Reply,
            _ => Kind::Event,
        };
        let zk_read {
            xid,
            operation,
            err,
            zxid,
            ..
        } = *read;
        Message {
            kind,
            xid,
            operation,
            err,
            zxid,
            frame: 0,
            answers: 0,
            payload,
            fields,
        }
    }
}

/// A message that has its payload, and may be kept.
#[derive(Clone, Debug)]
pub struct OwnedMessage {
    pub kind: Kind,
    pub xid: i32,
    pub operation: i32,
    pub err: i32,
    pub zxid: i64,
    pub frame: u64,
    pub answers: u64,
    pub payload: Vec<u8>,
    fields: Vec<zk_field>,
}

impl OwnedMessage {
    /// The message, borrowed.
    pub fn borrow(&self) -> Message<'_> {
        let OwnedMessage {
            kind,
            xid,
            operation,
            err,
            zxid,
            frame,
            answers,
            ..
        } = *self;
        Message {
            kind,
            xid,
            operation,
            err,
            zxid,
            frame,
            answers,
            payload: &self.payload,
            fields: &self.fields,
        }
    }
}

impl From<Message<'_>> for OwnedMessage {
    fn from(message: Message<'_>) -> OwnedMessage {
        message.to_owned()
    }
}

/// What was read of a payload that is no message's: the numbers of its header, as far as it is there, and the fields of
/// the items before the fault.
#[derive(Clone, Copy, Debug)]
pub struct Faulty<'p> {
    pub fault: Fault,
    pub xid: i32,
    pub operation: i32,
    pub err: i32,
    pub zxid: i64,
    payload: &'p [u8],
    fields: &'p [zk_field],
}

impl<'p> Faulty<'p> {
    /// The fields before the fault, in order.
    pub fn fields(&self) -> impl Iterator<Item = Field<'p>> + 'p {
        let payload = self.payload;
        self.fields
            .iter()
            .map(move |field| field_of(field, payload))
    }
}

fn field_of<'p>(field: &zk_field, payload: &'p [u8]) -> Field<'p> {
    let (place, length) = (field.place as usize, field.length as usize);
    let content = payload.get(place..place + length).unwrap_or_default();
    let value = match field.kind {
        _ if field.null != 0 => Value::Null,
        1 => Value::Int(field.number as i32),
        2 => Value::Long(field.number),
        3 => Value::Bool(field.number != 0),
        4 => Value::Text(std::str::from_utf8(content).unwrap_or_default()),
        5 => Value::Blob(content),
        6 => Value::List(field.number as u32),
        _ => Value::Part(field.number as i32),
    };
    Field {
        name: field_name(field.name),
        place,
        length,
        value,
    }
}

/// Reads payloads by themselves. It keeps room for the fields of one message, which grows to the longest.
#[derive(Debug, Default)]
pub struct Reader {
    room: Vec<zk_field>,
    /// What was read last, if it was refused.
    refused: Option<zk_read>,
}

impl Reader {
    pub fn new() -> Reader {
        Reader::default()
    }

    /// The connect request of this payload.
    pub fn first<'a>(&'a mut self, payload: &'a [u8]) -> Result<Message<'a>, Fault> {
        // A slice's pointer isn't null and has its length, and so does that of the room.
        self.read(payload, |out, room| unsafe {
            zk_sys::zk_read_first(payload.as_ptr(), payload.len(), out, room)
        })
    }

    /// The request of this payload.
    pub fn request<'a>(
        &'a mut self,
        profile: Profile,
        payload: &'a [u8],
    ) -> Result<Message<'a>, Fault> {
        self.read(payload, |out, room| unsafe {
            zk_sys::zk_read_request(profile as u32, payload.as_ptr(), payload.len(), out, room)
        })
    }

    /// The answer to a connect request.
    pub fn connected<'a>(&'a mut self, payload: &'a [u8]) -> Result<Message<'a>, Fault> {
        self.read(payload, |out, room| unsafe {
            zk_sys::zk_read_connected(payload.as_ptr(), payload.len(), out, room)
        })
    }

    /// The reply to a request of this operation, for a multi of these parts.
    pub fn reply<'a>(
        &'a mut self,
        operation: impl Into<i32>,
        parts: &[i32],
        payload: &'a [u8],
    ) -> Result<Message<'a>, Fault> {
        let operation = operation.into();
        self.read(payload, |out, room| unsafe {
            let (bytes, length) = (payload.as_ptr(), payload.len());
            zk_sys::zk_read_reply(
                operation,
                parts.as_ptr(),
                parts.len(),
                bytes,
                length,
                out,
                room,
            )
        })
    }

    /// The event of this payload.
    pub fn event<'a>(&'a mut self, payload: &'a [u8]) -> Result<Message<'a>, Fault> {
        self.read(payload, |out, room| unsafe {
            zk_sys::zk_read_event(payload.as_ptr(), payload.len(), out, room)
        })
    }

    /// What was read of the payload that was refused last, which is given again; `None` where the last one was a
    /// message's.
    pub fn faulty<'a>(&'a self, payload: &'a [u8]) -> Option<Faulty<'a>> {
        let read = self.refused.as_ref()?;
        let fields = self.room.get(..read.count as usize).unwrap_or_default();
        let (status, place) = (read.status, read.place);
        Some(Faulty {
            fault: Fault {
                status,
                place,
                at: None,
            },
            xid: read.xid,
            operation: read.operation,
            err: read.err,
            zxid: read.zxid,
            payload,
            fields,
        })
    }

    /// Reads into the room, and once more if there are more fields.
    pub(crate) fn read<'a>(
        &'a mut self,
        payload: &'a [u8],
        mut call: impl FnMut(*mut zk_field, usize) -> zk_read,
    ) -> Result<Message<'a>, Fault> {
        loaded();
        if self.room.is_empty() {
            self.room.resize(32, zk_field::default());
        }
        let mut read = call(self.room.as_mut_ptr(), self.room.len());
        if read.status == ROOM || read.count as usize > self.room.len() {
            self.room.resize(read.count as usize, zk_field::default());
            read = call(self.room.as_mut_ptr(), self.room.len());
        }
        self.refused = (read.status != 0).then_some(read);
        well(read.status, read.place)?;
        Ok(Message::of(
            &read,
            payload,
            self.room.get(..read.count as usize).unwrap_or_default(),
        ))
    }
}

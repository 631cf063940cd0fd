//! Frames, written from values.

use crate::{loaded, well, Fault, Value, ROOM};
use zk_sys::{zk_field, zk_written};

const TOO_LONG: u32 = 83;

/// Writes frames. It keeps room for one, which grows to the longest.
///
/// The values are those of the fields that a `Reader` returns for such a message, in the same order. Whether a frame may
/// come next is judged by a talk.
#[derive(Debug, Default)]
pub struct Writer {
    content: Vec<u8>,
    fields: Vec<zk_field>,
    frame: Vec<u8>,
}

impl Writer {
    pub fn new() -> Writer {
        Writer::default()
    }

    /// The frame of a request of this operation.
    pub fn request<'v>(
        &mut self,
        xid: i32,
        operation: impl Into<i32>,
        values: impl IntoIterator<Item = Value<'v>>,
    ) -> Result<&[u8], Fault> {
        let operation = operation.into();
        self.take(values)?;
        // Each pointer is a vector's, with its length.
        self.write(|fields, content, out| unsafe {
            zk_sys::zk_write_request(
                xid,
                operation,
                fields.as_ptr(),
                fields.len(),
                content.as_ptr(),
                content.len(),
                out.as_mut_ptr(),
                out.len(),
            )
        })
    }

    /// The frame of a connect request.
    pub fn first<'v>(
        &mut self,
        values: impl IntoIterator<Item = Value<'v>>,
    ) -> Result<&[u8], Fault> {
        self.take(values)?;
        self.write(|fields, content, out| unsafe {
            zk_sys::zk_write_first(
                fields.as_ptr(),
                fields.len(),
                content.as_ptr(),
                content.len(),
                out.as_mut_ptr(),
                out.len(),
            )
        })
    }

    /// The frame of a reply to a request of this operation. Of a multi a result has its part's operation, and an error -1
    /// and its number; a reply whose `err` isn't 0 has no values.
    pub fn reply<'v>(
        &mut self,
        xid: i32,
        zxid: i64,
        err: impl Into<i32>,
        operation: impl Into<i32>,
        values: impl IntoIterator<Item = Value<'v>>,
    ) -> Result<&[u8], Fault> {
        let (err, operation) = (err.into(), operation.into());
        self.take(values)?;
        self.write(|fields, content, out| unsafe {
            zk_sys::zk_write_reply(
                xid,
                zxid,
                err,
                operation,
                fields.as_ptr(),
                fields.len(),
                content.as_ptr(),
                content.len(),
                out.as_mut_ptr(),
                out.len(),
            )
        })
    }

    /// The frame of an event; a server's zxid is -1.
    pub fn event<'v>(
        &mut self,
        zxid: i64,
        values: impl IntoIterator<Item = Value<'v>>,
    ) -> Result<&[u8], Fault> {
        self.take(values)?;
        self.write(|fields, content, out| unsafe {
            zk_sys::zk_write_event(
                zxid,
                fields.as_ptr(),
                fields.len(),
                content.as_ptr(),
                content.len(),
                out.as_mut_ptr(),
                out.len(),
            )
        })
    }

    /// The frame of the answer to a connect request.
    pub fn connected<'v>(
        &mut self,
        values: impl IntoIterator<Item = Value<'v>>,
    ) -> Result<&[u8], Fault> {
        self.take(values)?;
        self.write(|fields, content, out| unsafe {
            zk_sys::zk_write_connected(
                fields.as_ptr(),
                fields.len(),
                content.as_ptr(),
                content.len(),
                out.as_mut_ptr(),
                out.len(),
            )
        })
    }

    /// Takes the values as fields over a content of their texts and blobs.
    fn take<'v>(&mut self, values: impl IntoIterator<Item = Value<'v>>) -> Result<(), Fault> {
        self.content.clear();
        self.fields.clear();
        for value in values {
            let number = |kind, number| zk_field {
                kind,
                number,
                ..zk_field::default()
            };
            let field = match value {
                Value::Int(value) => number(1, i64::from(value)),
                Value::Long(value) => number(2, value),
                Value::Bool(value) => number(3, i64::from(value)),
                Value::Text(text) => self.bytes(4, text.as_bytes())?,
                Value::Blob(blob) => self.bytes(5, blob)?,
                Value::List(count) => number(6, i64::from(count)),
                Value::Part(operation) => number(7, i64::from(operation)),
                Value::Null => zk_field {
                    kind: 5,
                    null: 1,
                    ..zk_field::default()
                },
            };
            self.fields.push(field);
        }
        Ok(())
    }

    fn bytes(&mut self, kind: u8, bytes: &[u8]) -> Result<zk_field, Fault> {
        let (place, length) = (self.content.len(), bytes.len());
        match (u32::try_from(place), u32::try_from(length)) {
            (Ok(place), Ok(length)) => {
                self.content.extend_from_slice(bytes);
                Ok(zk_field {
                    kind,
                    place,
                    length,
                    ..zk_field::default()
                })
            }
            _ => Err(too_long(self.fields.len())),
        }
    }

    /// Writes into the room, and once more if that is too small.
    fn write(
        &mut self,
        call: impl Fn(&[zk_field], &[u8], &mut [u8]) -> zk_written,
    ) -> Result<&[u8], Fault> {
        loaded();
        let room = self.content.len() + 16 * self.fields.len() + 64;
        self.frame.resize(room, 0);
        let mut written = call(&self.fields, &self.content, &mut self.frame);
        if written.status == ROOM {
            self.frame.resize(written.length, 0);
            written = call(&self.fields, &self.content, &mut self.frame);
        }
        well(
            written.status,
            u32::try_from(written.index).unwrap_or(u32::MAX),
        )?;
        self.frame.truncate(written.length);
        Ok(&self.frame)
    }
}

fn too_long(index: usize) -> Fault {
    Fault {
        status: TOO_LONG,
        place: u32::try_from(index).unwrap_or(u32::MAX),
        at: None,
    }
}

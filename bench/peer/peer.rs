//! Counts the messages of a recording: a decoder written by hand, which zkdump is measured beside.
//!
//!     rustc -O -C codegen-units=1 --edition 2021 bench/peer/peer.rs -o peer
//!     ./peer [--profile RELEASE] < RECORDING
//!
//! It reads what `zkdump check` reads and judges it alike: every item of every message, the range of each length, each
//! boolean, whether texts are UTF-8, and for each reply the oldest waiting request of its xid's kind. It borrows: an
//! item is a view of the frame's bytes, and a frame that no piece cuts is read in its place. It ends with the number of
//! messages. Where the conversation isn't whole, standard error says why, without the place, and the status is 1.
//!
//! It is written to be fast: that all reading of items is inline takes a twentieth off its time over small messages.

use std::collections::VecDeque;
use std::hint::black_box;
use std::io::{self, Read};
use std::process::ExitCode;

const BLOCK: usize = 65_536;
const LARGEST_PIECE: usize = 16_777_220;
const LARGEST_PAYLOAD: usize = 4_194_304;
const MOST_WAITING: usize = 65_536;

type Answer<T> = Result<T, &'static str>;

// ---- items: each is read from the front of the bytes, and leaves the rest

trait Item<'a>: Sized {
    fn read(bytes: &mut &'a [u8]) -> Answer<Self>;
}

#[inline(always)]
fn front<'a>(bytes: &mut &'a [u8], size: usize) -> Answer<&'a [u8]> {
    let (front, rest) = bytes.split_at_checked(size).ok_or("Short")?;
    *bytes = rest;
    Ok(front)
}

#[inline(always)]
fn fixed<const SIZE: usize>(bytes: &mut &[u8]) -> Answer<[u8; SIZE]> {
    let (front, rest) = bytes.split_first_chunk().ok_or("Short")?;
    *bytes = rest;
    Ok(*front)
}

/// A length or a count; null is -1.
#[inline(always)]
fn size(bytes: &mut &[u8]) -> Answer<Option<usize>> {
    match i32::read(bytes)? {
        -1 => Ok(None),
        size => usize::try_from(size).map(Some).map_err(|_| "BadLength"),
    }
}

impl Item<'_> for i32 {
    #[inline(always)]
    fn read(bytes: &mut &[u8]) -> Answer<i32> {
        fixed(bytes).map(i32::from_be_bytes)
    }
}

impl Item<'_> for i64 {
    #[inline(always)]
    fn read(bytes: &mut &[u8]) -> Answer<i64> {
        fixed(bytes).map(i64::from_be_bytes)
    }
}

impl Item<'_> for bool {
    #[inline(always)]
    fn read(bytes: &mut &[u8]) -> Answer<bool> {
        match fixed(bytes)? {
            [0] => Ok(false),
            [1] => Ok(true),
            _ => Err("BadBool"),
        }
    }
}

/// A boolean that old peers leave out at the end of the connect messages.
struct ReadOnly(#[allow(dead_code)] Option<bool>);

impl Item<'_> for ReadOnly {
    #[inline(always)]
    fn read(bytes: &mut &[u8]) -> Answer<ReadOnly> {
        let present = !bytes.is_empty();
        present.then(|| bool::read(bytes)).transpose().map(ReadOnly)
    }
}

type Blob<'a> = Option<&'a [u8]>;

impl<'a> Item<'a> for Blob<'a> {
    #[inline(always)]
    fn read(bytes: &mut &'a [u8]) -> Answer<Blob<'a>> {
        size(bytes)?.map(|size| front(bytes, size)).transpose()
    }
}

type Text<'a> = Option<&'a str>;

impl<'a> Item<'a> for Text<'a> {
    #[inline(always)]
    fn read(bytes: &mut &'a [u8]) -> Answer<Text<'a>> {
        Blob::read(bytes)?
            .map(|text| std::str::from_utf8(text).map_err(|_| "BadText"))
            .transpose()
    }
}

/// A list whose elements were read one by one: how many there are, and where.
struct List<'a, T> {
    #[allow(dead_code)]
    count: Option<usize>,
    #[allow(dead_code)]
    elements: &'a [u8],
    of: std::marker::PhantomData<T>,
}

impl<'a, T: Item<'a>> Item<'a> for List<'a, T> {
    #[inline(always)]
    fn read(bytes: &mut &'a [u8]) -> Answer<List<'a, T>> {
        let count = size(bytes)?;
        let mut rest = *bytes;
        for _ in 0..count.unwrap_or(0) {
            black_box(T::read(&mut rest)?);
        }
        let elements = front(bytes, bytes.len() - rest.len())?;
        Ok(List {
            count,
            elements,
            of: std::marker::PhantomData,
        })
    }
}

macro_rules! fields_in_order {
    ($($field:ident)*) => {
        impl<'a, $($field: Item<'a>),*> Item<'a> for ($($field,)*) {
            #[inline(always)]
            #[allow(unused_variables)]
            fn read(bytes: &mut &'a [u8]) -> Answer<Self> {
                Ok(($($field::read(bytes)?,)*))
            }
        }
    };
}

fields_in_order!();
fields_in_order!(A B);
fields_in_order!(A B C);
fields_in_order!(A B C D);
fields_in_order!(A B C D E);
fields_in_order!(A B C D E F);
fields_in_order!(A B C D E F G H I J K);

// ---- records, by ZooKeeper's jute; those of operations are in `body_of_request` and `body_of_reply`

type Acl<'a> = List<'a, (i32, Text<'a>, Text<'a>)>;
type Names<'a> = List<'a, Text<'a>>;
type Stat = (i64, i64, i64, i64, i32, i32, i32, i64, i32, i32, i64);
type ConnectRequest<'a> = (i32, i64, i32, i64, Blob<'a>, ReadOnly);
type ConnectResponse<'a> = (i32, i32, i64, Blob<'a>, ReadOnly);
type PartHeader = (i32, bool, i32);

const END_OF_PARTS: PartHeader = (-1, true, -1);

const EVENT: i32 = -1;
const PING_XID: i32 = -2;
const AUTH_XID: i32 = -4;
const SET_WATCHES_XID: i32 = -8;

fn read<'a, T: Item<'a>>(bytes: &mut &'a [u8]) -> Answer<()> {
    T::read(bytes).map(|value| drop(black_box(value)))
}

fn may_have(xid: i32, operation: i32) -> bool {
    xid != EVENT
        && (xid == PING_XID) == (operation == PING)
        && (xid == AUTH_XID) == (operation == AUTH)
        && (xid != SET_WATCHES_XID || operation == SET_WATCHES)
}

// The lines from here on are written by dev/names.py.
const CREATE: i32 = 1;
const DELETE: i32 = 2;
const EXISTS: i32 = 3;
const GET_DATA: i32 = 4;
const SET_DATA: i32 = 5;
const GET_ACL: i32 = 6;
const SET_ACL: i32 = 7;
const GET_CHILDREN: i32 = 8;
const SYNC: i32 = 9;
const PING: i32 = 11;
const GET_CHILDREN2: i32 = 12;
const CHECK: i32 = 13;
const MULTI: i32 = 14;
const CREATE2: i32 = 15;
const RECONFIG: i32 = 16;
const CHECK_WATCHES: i32 = 17;
const REMOVE_WATCHES: i32 = 18;
const CREATE_CONTAINER: i32 = 19;
const CREATE_TTL: i32 = 21;
const AUTH: i32 = 100;
const SET_WATCHES: i32 = 101;
const GET_EPHEMERALS: i32 = 103;
const GET_ALL_CHILDREN_NUMBER: i32 = 104;
const ADD_WATCH: i32 = 106;
const CLOSE_SESSION: i32 = -11;

fn is_operation(number: i32, profile: u32) -> bool {
    match number {
        CREATE..=SYNC | PING | GET_CHILDREN2 | MULTI | AUTH | SET_WATCHES | CLOSE_SESSION => true,
        CREATE2 => profile >= 35,
        RECONFIG..=CREATE_CONTAINER
        | CREATE_TTL
        | GET_EPHEMERALS
        | GET_ALL_CHILDREN_NUMBER
        | ADD_WATCH => profile >= 37,
        _ => false,
    }
}

fn body_of_request<'a>(operation: i32, bytes: &mut &'a [u8]) -> Answer<()> {
    match operation {
        CREATE | CREATE2 | CREATE_CONTAINER => read::<(Text<'a>, Blob<'a>, Acl<'a>, i32)>(bytes),
        DELETE | CHECK_WATCHES | REMOVE_WATCHES | ADD_WATCH => read::<(Text<'a>, i32)>(bytes),
        EXISTS | GET_DATA | GET_CHILDREN | GET_CHILDREN2 => read::<(Text<'a>, bool)>(bytes),
        SET_DATA => read::<(Text<'a>, Blob<'a>, i32)>(bytes),
        GET_ACL | SYNC | GET_EPHEMERALS | GET_ALL_CHILDREN_NUMBER => read::<Text<'a>>(bytes),
        SET_ACL => read::<(Text<'a>, Acl<'a>, i32)>(bytes),
        RECONFIG => read::<(Text<'a>, Text<'a>, Text<'a>, i64)>(bytes),
        CREATE_TTL => read::<(Text<'a>, Blob<'a>, Acl<'a>, i32, i64)>(bytes),
        AUTH => read::<(i32, Text<'a>, Blob<'a>)>(bytes),
        SET_WATCHES => read::<(i64, Names<'a>, Names<'a>, Names<'a>)>(bytes),
        _ => Ok(()), // without a body
    }
}

fn body_of_reply<'a>(operation: i32, bytes: &mut &'a [u8]) -> Answer<()> {
    match operation {
        CREATE | SYNC => read::<Text<'a>>(bytes),
        EXISTS | SET_DATA | SET_ACL => read::<Stat>(bytes),
        GET_DATA | RECONFIG => read::<(Blob<'a>, Stat)>(bytes),
        GET_ACL => read::<(Acl<'a>, Stat)>(bytes),
        GET_CHILDREN | GET_EPHEMERALS => read::<Names<'a>>(bytes),
        GET_CHILDREN2 => read::<(Names<'a>, Stat)>(bytes),
        CREATE2 | CREATE_CONTAINER | CREATE_TTL => read::<(Text<'a>, Stat)>(bytes),
        GET_ALL_CHILDREN_NUMBER | ADD_WATCH => read::<i32>(bytes),
        _ => Ok(()), // without a body
    }
}
// Up to here.

// ---- the conversation

struct Request {
    xid: i32,
    operation: i32,
    parts: usize,
}

/// What waits: the requests of each kind of xid, and the operations of all their parts; only ordinary ones have parts.
#[derive(Default)]
struct Waiting {
    lanes: [VecDeque<Request>; 4],
    parts: VecDeque<i32>,
    load: usize,
}

impl Waiting {
    fn lane(&mut self, xid: i32) -> &mut VecDeque<Request> {
        let lane = match xid {
            PING_XID => 0,
            AUTH_XID => 1,
            SET_WATCHES_XID => 2,
            _ => 3,
        };
        &mut self.lanes[lane]
    }

    fn put(&mut self, request: Request) -> Answer<()> {
        self.load += 1 + request.parts;
        self.lane(request.xid).push_back(request);
        if self.load > MOST_WAITING {
            Err("QueueFull")
        } else {
            Ok(())
        }
    }

    fn oldest(&mut self, xid: i32) -> Answer<Request> {
        let request = self.lane(xid).pop_front().ok_or("Unasked")?;
        if request.xid != xid {
            return Err("XidOrder");
        }
        self.load -= 1 + request.parts;
        Ok(request)
    }

    /// The parts of a multi's request, up to their end: how many there are.
    fn parts<'a>(&mut self, bytes: &mut &'a [u8]) -> Answer<usize> {
        let before = self.parts.len();
        loop {
            let operation = match PartHeader::read(bytes)? {
                END_OF_PARTS => return Ok(self.parts.len() - before),
                (operation, false, -1) => operation,
                _ => return Err("BadPart"),
            };
            match operation {
                CREATE | DELETE | SET_DATA => body_of_request(operation, bytes)?,
                CHECK => read::<(Text<'a>, i32)>(bytes)?,
                _ => return Err("BadPart"),
            }
            self.parts.push_back(operation);
        }
    }

    /// The results of a multi that has these many parts, and their end.
    fn results(&mut self, parts: usize, bytes: &mut &[u8]) -> Answer<()> {
        for operation in self.parts.drain(..parts) {
            match PartHeader::read(bytes)? {
                (found, false, 0) if found == operation => body_of_reply(operation, bytes)?,
                (-1, false, error) if i32::read(bytes)? == error => {}
                _ => return Err("BadPart"),
            }
        }
        if PartHeader::read(bytes)? == END_OF_PARTS {
            Ok(())
        } else {
            Err("BadPart")
        }
    }
}

#[derive(Clone, Copy, PartialEq)]
enum Side {
    Client,
    Server,
}

#[derive(Default)]
struct Conversation {
    profile: u32,
    held: [Vec<u8>; 2],
    whole: [u64; 2],
    waiting: Waiting,
}

/// The length of the frame that begins here, its own four bytes included; four, where these aren't whole.
fn frame_length(bytes: &[u8]) -> Answer<usize> {
    let Some(length) = bytes.first_chunk() else {
        return Ok(4);
    };
    let length = u32::from_be_bytes(*length) as usize;
    if length > LARGEST_PAYLOAD {
        Err("LengthRange")
    } else {
        Ok(4 + length)
    }
}

impl Conversation {
    /// Reads each frame that these bytes make whole, and keeps the front of one that they leave.
    fn take(&mut self, side: Side, mut bytes: &[u8]) -> Answer<()> {
        let mut held = std::mem::take(&mut self.held[side as usize]);
        while !held.is_empty() && !bytes.is_empty() {
            let missing = (frame_length(&held)? - held.len()).min(bytes.len());
            held.extend_from_slice(front(&mut bytes, missing)?);
            if held.len() >= 4 && held.len() == frame_length(&held)? {
                self.message(side, &held[4..])?;
                held.clear();
            }
        }
        while bytes.len() >= 4 {
            let length = frame_length(bytes)?;
            let Some((frame, rest)) = bytes.split_at_checked(length) else {
                break;
            };
            self.message(side, &frame[4..])?;
            bytes = rest;
        }
        held.extend_from_slice(bytes);
        self.held[side as usize] = held;
        Ok(())
    }

    fn message(&mut self, side: Side, mut payload: &[u8]) -> Answer<()> {
        let is_first = self.whole[side as usize] == 0;
        match side {
            Side::Client if is_first => read::<ConnectRequest>(&mut payload)?,
            Side::Client => self.request(&mut payload)?,
            Side::Server if self.whole[0] == 0 => return Err("Unasked"),
            Side::Server if is_first => read::<ConnectResponse>(&mut payload)?,
            Side::Server => self.reply(&mut payload)?,
        }
        if !payload.is_empty() {
            return Err("Trailing");
        }
        self.whole[side as usize] += 1;
        Ok(())
    }

    fn request(&mut self, payload: &mut &[u8]) -> Answer<()> {
        let (xid, operation) = <(i32, i32)>::read(payload)?;
        if !is_operation(operation, self.profile) {
            return Err("UnknownOp");
        }
        if !may_have(xid, operation) {
            return Err("XidOp");
        }
        let mut parts = 0;
        if operation == MULTI {
            parts = self.waiting.parts(payload)?;
        } else {
            body_of_request(operation, payload)?;
        }
        self.waiting.put(Request {
            xid,
            operation,
            parts,
        })
    }

    fn reply(&mut self, payload: &mut &[u8]) -> Answer<()> {
        let (xid, zxid, error) = <(i32, i64, i32)>::read(payload)?;
        black_box(zxid);
        if xid == EVENT {
            return if error != 0 {
                Err("EventErr")
            } else {
                read::<(i32, i32, Text)>(payload)
            };
        }
        let Request {
            operation, parts, ..
        } = self.waiting.oldest(xid)?;
        if error != 0 {
            self.waiting.parts.drain(..parts);
            Ok(())
        } else if operation == MULTI {
            self.waiting.results(parts, payload)
        } else {
            body_of_reply(operation, payload)
        }
    }
}

// ---- the recording

/// Standard input, block by block.
struct Input {
    file: io::StdinLock<'static>,
    block: Vec<u8>,
    from: usize,
    to: usize,
}

impl Input {
    /// What was read and not used: at least `size` bytes, fewer where the input ends.
    fn at_least(&mut self, size: usize) -> Answer<&[u8]> {
        if self.to - self.from < size {
            self.block.copy_within(self.from..self.to, 0);
            (self.from, self.to) = (0, self.to - self.from);
            while self.to < size {
                match self
                    .file
                    .read(&mut self.block[self.to..])
                    .map_err(|_| "a read failed")?
                {
                    0 => break,
                    more => self.to += more,
                }
            }
        }
        Ok(&self.block[self.from..self.to])
    }
}

fn recording(conversation: &mut Conversation) -> Answer<()> {
    let mut input = Input {
        file: io::stdin().lock(),
        block: vec![0; BLOCK],
        from: 0,
        to: 0,
    };
    if !input.at_least(4)?.starts_with(b"ZKR1") {
        return Err("BadHead");
    }
    input.from += 4;
    loop {
        let (side, mut left) = match *input.at_least(5)? {
            [] => break,
            [b'C', a, b, c, d, ..] => (Side::Client, u32::from_be_bytes([a, b, c, d]) as usize),
            [b'S', a, b, c, d, ..] => (Side::Server, u32::from_be_bytes([a, b, c, d]) as usize),
            [b'C' | b'S', ..] => return Err("the recording is Short"),
            _ => return Err("BadSide"),
        };
        if left == 0 || left > LARGEST_PIECE {
            return Err("BadSize");
        }
        input.from += 5;
        while left > 0 {
            let bytes = input.at_least(1)?;
            let bytes = &bytes[..bytes.len().min(left)];
            if bytes.is_empty() {
                return Err("the recording is Short");
            }
            conversation.take(side, bytes)?;
            left -= bytes.len();
            input.from += bytes.len();
        }
    }
    if conversation.held.iter().all(Vec::is_empty) {
        Ok(())
    } else {
        Err("cut")
    }
}

fn main() -> ExitCode {
    let words: Vec<String> = std::env::args().skip(1).collect();
    let profile = match &words[..] {
        [] => Some(34),
        [option, release] if option == "--profile" => release.replace('.', "").parse().ok(),
        _ => None,
    };
    let Some(profile) = profile else {
        eprintln!("usage: peer [--profile RELEASE] < RECORDING");
        return ExitCode::from(2);
    };
    let mut conversation = Conversation {
        profile,
        ..Conversation::default()
    };
    let ending = recording(&mut conversation);
    println!("{} messages", conversation.whole.iter().sum::<u64>());
    match ending {
        Ok(()) => ExitCode::SUCCESS,
        Err(reason) => {
            eprintln!("peer: {reason}");
            ExitCode::FAILURE
        }
    }
}

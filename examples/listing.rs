//! The listing of a recording (docs/FORMATS.md, sections 9 and 12), by the proved library, in one file. The folder rust
//! has crates.
//!
//!     listing RECORDING

use std::io::Write;

/// The library's calls, in types that keep what the calls require.
mod zk {
    #[repr(C)]
    struct Handle {
        held: *mut u8,
        live: bool,
    }

    #[repr(C)]
    #[derive(Clone, Copy, Debug, PartialEq, Eq)]
    pub struct Fault {
        pub frame: u64,
        pub offset: u64,
        pub side: u32,
        pub place: u32,
        pub reason: u32,
        pub expected: i32,
        pub got: i32,
    }

    #[repr(C)]
    struct Step {
        used: usize,
        status: u32,
        whole: bool,
        fault: Fault,
    }

    #[repr(C)]
    struct Line {
        status: u32,
        length: usize,
    }

    unsafe extern "C" {
        fn zk_talk_new(talk: &mut Handle, client: u32, server: u32, waiting: u32, profile: u32) -> u32;
        fn zk_talk_step(talk: &mut Handle, side: u32, piece: *const u8, length: usize) -> Step;
        fn zk_talk_line(talk: &mut Handle, side: u32, out: *mut u8, room: usize) -> Line;
        fn zk_talk_ending_line(talk: &mut Handle, out: *mut u8, room: usize) -> Line;
        fn zk_talk_free(talk: &mut Handle);
    }

    #[derive(Clone, Copy)]
    pub enum Side {
        Client,
        Server,
    }

    /// A conversation as it comes.
    pub struct Talk(Handle);

    // The library has no variables of a thread, and `&mut self` lets one call at a time use the handle.
    unsafe impl Send for Talk {}

    impl Talk {
        /// A status where a limit is out of its range, or memory runs out.
        pub fn new(limit: u32, waiting: u32) -> Result<Talk, u32> {
            let mut talk = Talk(Handle { held: std::ptr::null_mut(), live: false });
            match unsafe { zk_talk_new(&mut talk.0, limit, limit, waiting, 34) } {
                0 => Ok(talk),
                status => Err(status),
            }
        }

        /// How many bytes were used, and whether they completed a message.
        pub fn step(&mut self, side: Side, piece: &[u8]) -> Result<(usize, bool), Fault> {
            let step = unsafe { zk_talk_step(&mut self.0, side as u32, piece.as_ptr(), piece.len()) };
            if step.status == 0 { Ok((step.used, step.whole)) } else { Err(step.fault) }
        }

        /// Writes the line of the side's newest message into `text`; the status where there is none.
        pub fn line(&mut self, side: Side, text: &mut Vec<u8>) -> Result<(), u32> {
            written(text, |out, room| unsafe { zk_talk_line(&mut self.0, side as u32, out, room) })
        }

        /// Writes the line of the ending.
        pub fn ending_line(&mut self, text: &mut Vec<u8>) -> Result<(), u32> {
            written(text, |out, room| unsafe { zk_talk_ending_line(&mut self.0, out, room) })
        }
    }

    /// Calls with the room that the text has, and once more with enough where that was too small.
    fn written(text: &mut Vec<u8>, mut write: impl FnMut(*mut u8, usize) -> Line) -> Result<(), u32> {
        text.clear();
        text.reserve(256);
        let mut line = write(text.as_mut_ptr(), text.capacity());
        if line.status == 68 {
            text.reserve(line.length);
            line = write(text.as_mut_ptr(), text.capacity());
        }
        if line.status != 0 {
            return Err(line.status);
        }
        // The call has written these bytes. The rest of the room is never filled, which would cost time.
        unsafe { text.set_len(line.length.min(text.capacity())) };
        Ok(())
    }

    impl Drop for Talk {
        fn drop(&mut self) {
            unsafe { zk_talk_free(&mut self.0) }
        }
    }
}

/// The pieces of a recording: whose they are, and their bytes.
fn pieces(recording: &[u8]) -> Option<Vec<(zk::Side, &[u8])>> {
    let mut rest = recording.strip_prefix(b"ZKR1")?;
    let mut pieces = Vec::new();
    while !rest.is_empty() {
        let (head, behind) = rest.split_first_chunk::<5>()?;
        let side = match head[0] {
            b'C' => zk::Side::Client,
            b'S' => zk::Side::Server,
            _ => return None,
        };
        let length = u32::from_be_bytes([head[1], head[2], head[3], head[4]]) as usize;
        if !(1..=16_777_220).contains(&length) {
            return None;
        }
        let (piece, next) = behind.split_at_checked(length)?;
        pieces.push((side, piece));
        rest = next;
    }
    Some(pieces)
}

/// What went wrong, in words.
fn status(number: u32) -> String {
    format!("the library refuses this: status {number} of zk.h")
}

/// Writes the listing of the recording at this path.
fn list(path: &str, out: &mut impl Write) -> Result<(), String> {
    let recording = std::fs::read(path).map_err(|error| format!("{path}: {error}"))?;
    let pieces = pieces(&recording).ok_or_else(|| format!("{path}: the file is no whole recording of format ZKR1"))?;
    let mut put = |text: &[u8]| out.write_all(&[text, b"\n"].concat()).map_err(|error| format!("standard output: {error}"));
    let (mut talk, mut text) = (zk::Talk::new(4_194_304, 65_536).map_err(status)?, Vec::new());
    'all: for (side, mut rest) in pieces {
        while !rest.is_empty() {
            let Ok((used, whole)) = talk.step(side, rest) else { break 'all };
            rest = &rest[used..];
            if whole {
                talk.line(side, &mut text).map_err(status)?;
                put(&text)?;
            }
        }
    }
    talk.ending_line(&mut text).map_err(status)?;
    put(&text)
}

fn main() -> std::process::ExitCode {
    let words: Vec<String> = std::env::args().collect();
    let listed = match &words[..] {
        [_, path] => list(path, &mut std::io::stdout().lock()),
        _ => Err("usage: listing RECORDING".into()),
    };
    if let Err(trouble) = listed {
        eprintln!("listing: {trouble}");
        return 2.into();
    }
    0.into()
}

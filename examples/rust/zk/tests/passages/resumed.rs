//! Passages that go on after a refusal.

use super::{frame, passage, step, told, CAME, EXISTS, NO_NODE};
use zk::{Ending, Fault, Side, Through};

/// An exists request under xid 1, whose last byte is no boolean, and the reply to it.
const NO_BOOLEAN: [u8; 15] = [0, 0, 0, 1, 0, 0, 0, 3, 0, 0, 0, 2, b'/', b'a', 2];
const ITS_REPLY: [u8; 16] = [0, 0, 0, 1, 0, 0, 0, 0, 0, 0, 0, 5, 255, 255, 255, 155];

/// What became of all bytes of a piece, and of a frame that is passed over its fault.
fn read_on(through: &mut Through, side: Side, mut piece: &[u8]) -> Result<Vec<String>, Fault> {
    let mut found = Vec::new();
    while !piece.is_empty() {
        found.push(match through.step(side, &mut piece).map(told) {
            Ok(went) => went,
            Err(fault) => {
                through.resume(&mut piece)?;
                let at = fault.at.expect("a place");
                format!("{fault}, byte {} of frame {}", at.offset, at.frame)
            }
        });
    }
    found.retain(|went| went != "within");
    Ok(found)
}

/// What follows the refused frame is counted from there on, and the reply to the refused request is one to a request that
/// wasn't seen.
#[test]
fn what_follows_a_refused_frame() {
    for cut in [1, 7, 1000] {
        let mut through = passage(65_536);
        for (side, payloads, wanted) in [
            (
                Side::Client,
                vec![CAME[0].1],
                vec!["message 0 0 45 frame 0 answers 0"],
            ),
            (
                Side::Server,
                vec![CAME[1].1],
                vec!["message 0 0 37 frame 0 answers 0"],
            ),
            (
                Side::Client,
                vec![&NO_BOOLEAN, &EXISTS],
                vec![
                    "BAD_BOOL at 14, byte 68 of frame 1",
                    "message 2 3 15 frame 1 answers 0",
                ],
            ),
            (
                Side::Server,
                vec![&ITS_REPLY, &NO_NODE],
                vec!["unseen 1 5 -101 16", "message 2 3 16 frame 2 answers 1"],
            ),
        ] {
            let bytes = payloads.into_iter().map(frame).collect::<Vec<_>>().concat();
            let mut found = Vec::new();
            for piece in bytes.chunks(cut) {
                found.extend(read_on(&mut through, side, piece).expect("frames that end"));
            }
            assert_eq!(found, wanted);
        }
        assert_eq!(through.ending(), Ending::Whole { unanswered: 0 });
    }
}

/// What the other side had begun of a frame stays, and no request waits.
#[test]
fn the_other_side() {
    let mut through = passage(65_536);
    for (side, payload) in &CAME[..2] {
        step(&mut through, *side, &frame(payload), payload.len() + 4);
    }
    let exists = frame(&EXISTS);
    step(&mut through, Side::Client, &exists, 19);
    step(&mut through, Side::Client, &exists[..9], 9);
    // A byte after the header of a reply that has an error.
    let longer = frame(&[&NO_NODE[..], &[0]].concat());
    let found = read_on(&mut through, Side::Server, &longer);
    let wanted = vec!["TRAILING at 16, byte 62 of frame 1".to_string()];
    assert_eq!(found, Ok(wanted));
    assert_eq!(
        (through.held(Side::Client), through.held(Side::Server)),
        (9, 0)
    );
    assert_eq!(through.waiting().requests, 0);
    let asked = step(&mut through, Side::Client, &exists[9..], 10);
    assert_eq!(asked, "message 2 3 15 frame 1 answers 0");
    let answered = step(&mut through, Side::Server, &frame(&NO_NODE), 20);
    assert_eq!(answered, "message 2 3 16 frame 1 answers 1");
}

/// A length that no frame has is refused for good; where nothing is refused nothing changes.
#[test]
fn what_does_not_go_on() {
    let mut through = passage(65_536);
    step(&mut through, Side::Client, &frame(CAME[0].1), 49);
    let bytes = frame(&EXISTS);
    let mut piece = &bytes[..];
    assert_eq!((through.resume(&mut piece), piece.len()), (Ok(0), 19));
    let longer = [&frame(&NO_BOOLEAN)[..], &bytes].concat();
    let mut piece = &longer[..];
    assert!(through.step(Side::Client, &mut piece).is_err());
    assert_eq!((through.resume(&mut piece), piece), (Ok(19), &bytes[..]));
    let mut piece = &[255; 5][..];
    let fault = through.step(Side::Client, &mut piece).map(told);
    let fault = fault.expect_err("a length out of range");
    // The 32 bytes before it are those of the frame that nobody sent.
    assert_eq!(
        (fault.status, fault.at.map(|at| (at.frame, at.offset))),
        (11, Some((1, 36)))
    );
    for _ in 0..2 {
        assert_eq!((through.resume(&mut piece), piece.len()), (Err(fault), 5));
        assert_eq!(through.ending(), Ending::Refused(fault));
    }
}

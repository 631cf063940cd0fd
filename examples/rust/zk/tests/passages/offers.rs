//! Offers to a talk, and to a passage: a frame is taken only if it may come next.

use super::{frame, passage, step, CAME, EXISTS, NONE, NO_NODE, UNKNOWN};
use zk::{At, Ending, Fault, LeftOut, Limits, Order, Side, Talk, Value, Went};

/// The exists request under xid 2, whose last byte is no boolean. The client's 49 bytes before it are its connect request.
const NO_BOOLEAN: [u8; 15] = [0, 0, 0, 2, 0, 0, 0, 3, 0, 0, 0, 2, b'/', b'a', 2];

fn refusal(status: u32, place: u32, side: Side, offset: u64, order: Option<Order>) -> Fault {
    let at = At {
        side,
        frame: 1,
        offset,
        order,
    };
    Fault {
        status,
        place,
        at: Some(at),
    }
}

/// That an argument is out of its range.
const RANGE: Fault = Fault {
    status: 67,
    place: 0,
    at: None,
};

fn talk(waiting: u32) -> Talk {
    let limits = Limits {
        waiting,
        ..Limits::default()
    };
    let mut talk = Talk::new(limits).expect("a talk");
    for (side, payload) in &CAME[..2] {
        let bytes = frame(payload);
        talk.step(*side, &mut &bytes[..])
            .expect("a connect message");
    }
    talk
}

/// What isn't taken changes nothing, and another frame may be.
#[test]
fn a_talk() {
    let mut talk = talk(1);
    let fault = refusal(2, 14, Side::Client, 68, None);
    for _ in 0..2 {
        let refused = talk.offer(Side::Client, &frame(&NO_BOOLEAN)).map(|_| ());
        assert_eq!(refused, Err(fault));
    }
    let exists = frame(&EXISTS);
    let both = [exists.clone(), exists.clone()].concat();
    for bytes in [&[][..], &exists[..3], &exists[..18], &both] {
        assert_eq!(talk.offer(Side::Client, bytes).map(|_| ()), Err(RANGE));
    }
    assert_eq!(talk.ending(), Ending::Whole { unanswered: 0 });
    let message = talk.offer(Side::Client, &exists).expect("a request");
    assert_eq!(message.get("path"), Some(Value::Text("/a")));
    assert_eq!((message.xid, message.frame), (2, 1));
    let full = talk.offer(Side::Client, &exists).map(|_| ());
    assert_eq!(full.map_err(|fault| fault.status), Err(12));
    let order = Order {
        expected: 2,
        got: 3,
    };
    let other = frame(&[&[0, 0, 0, 3], &NO_NODE[4..]].concat());
    let refused = talk.offer(Side::Server, &other).map(|_| ());
    assert_eq!(refused, Err(refusal(14, 0, Side::Server, 61, Some(order))));
    let reply = talk.offer(Side::Server, &frame(&NO_NODE)).expect("a reply");
    assert_eq!((reply.err, reply.answers), (-101, 1));
    assert_eq!(talk.ending(), Ending::Whole { unanswered: 0 });
}

/// What the profile lacks is taken and left out; a refusal changes nothing, and neither does a frame without room.
#[test]
fn a_passage() {
    let mut through = passage(1);
    for (side, payload) in &CAME[..2] {
        step(&mut through, *side, &frame(payload), payload.len() + 4);
    }
    let fault = refusal(2, 14, Side::Client, 68, None);
    let refused = through.offer(Side::Client, &frame(&NO_BOOLEAN)).map(|_| ());
    assert_eq!(refused, Err(fault));
    let cut = through.offer(Side::Client, &frame(&UNKNOWN)[..17]);
    assert_eq!(cut.map(|_| ()), Err(RANGE));
    let asked = through.offer(Side::Client, &frame(&UNKNOWN)).expect("asked");
    let left = LeftOut {
        xid: 1,
        operation: 9999,
        frame: 1,
        payload: &UNKNOWN[..],
    };
    assert!(matches!(asked, Went::Asked(it) if it == left));
    let full = through.offer(Side::Client, &frame(&EXISTS)).expect("full");
    assert!(matches!(full, Went::Full));
    let order = Order {
        expected: 1,
        got: 2,
    };
    let refused = through.offer(Side::Server, &frame(&NO_NODE)).map(|_| ());
    assert_eq!(refused, Err(refusal(14, 0, Side::Server, 61, Some(order))));
    let answered = through.offer(Side::Server, &frame(&NONE)).expect("a reply");
    assert!(matches!(answered, Went::Answered(it) if it.payload == NONE && it.frame == 1));
    let exists = through.offer(Side::Client, &frame(&EXISTS));
    let Ok(Went::Message(message)) = exists else {
        panic!("no message: {exists:?}");
    };
    assert_eq!((message.xid, message.frame), (2, 2));
    assert_eq!(message.get("path"), Some(Value::Text("/a")));
    assert_eq!(through.ending(), Ending::Whole { unanswered: 1 });
}

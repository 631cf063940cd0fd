//! An operation that no release has (9999), and an exists request before its reply. The other payloads are those of
//! docs/EXAMPLES.md and docs/FORMATS.md.

mod offers;
mod resumed;

use zk::{
    At, Ending, Fault, Judged, LeftOut, Limits, Message, Order, Side, Through, Unseen, Value,
    Waiting, Went,
};

const HELLO: [u8; 45] = [
    0, 0, 0, 0, 0, 0, 0, 0, 0, 0, 0, 0, 0, 0, 117, 48, 0, 0, 0, 0, 0, 0, 0, 0, 0, 0, 0, 16, 0, 0,
    0, 0, 0, 0, 0, 0, 0, 0, 0, 0, 0, 0, 0, 0, 0,
];
const WELCOME: [u8; 37] = [
    0, 0, 0, 0, 0, 0, 117, 48, 1, 0, 0, 0, 0, 0, 0, 1, 0, 0, 0, 16, 0, 1, 2, 3, 4, 5, 6, 7, 8, 9,
    10, 11, 12, 13, 14, 15, 0,
];
const UNKNOWN: [u8; 14] = [0, 0, 0, 1, 0, 0, 39, 15, 0, 0, 0, 2, b'/', b'a'];
const EXISTS: [u8; 15] = [0, 0, 0, 2, 0, 0, 0, 3, 0, 0, 0, 2, b'/', b'a', 1];
const NONE: [u8; 20] = [0, 0, 0, 1, 0, 0, 0, 0, 0, 0, 0, 5, 0, 0, 0, 0, 0, 0, 0, 0];
const NO_NODE: [u8; 16] = [0, 0, 0, 2, 0, 0, 0, 0, 0, 0, 0, 5, 255, 255, 255, 155];
const CAME: [(Side, &[u8]); 6] = [
    (Side::Client, &HELLO),
    (Side::Server, &WELCOME),
    (Side::Client, &UNKNOWN),
    (Side::Client, &EXISTS),
    (Side::Server, &NONE),
    (Side::Server, &NO_NODE),
];

fn frame(payload: &[u8]) -> Vec<u8> {
    [&(payload.len() as u32).to_be_bytes(), payload].concat()
}

fn passage(waiting: u32) -> Through {
    let limits = Limits {
        waiting,
        ..Limits::default()
    };
    Through::new(limits).expect("a passage")
}

/// What became of a step's bytes: the xid, the operation, the payload's length, and the number of the frame, which is
/// the request's of what is left out.
fn told(went: Went) -> String {
    let of = |left: LeftOut| {
        let (xid, operation, frame) = (left.xid, left.operation, left.frame);
        format!("{xid} {operation} {} frame {frame}", left.payload.len())
    };
    match went {
        Went::Within => "within".into(),
        Went::Full => "full".into(),
        Went::Asked(left) => format!("asked {}", of(left)),
        Went::Answered(left) => format!("answered {}", of(left)),
        Went::Unseen(Unseen {
            xid,
            zxid,
            err,
            payload,
        }) => format!("unseen {xid} {zxid} {err} {}", payload.len()),
        Went::Message(Message {
            xid,
            operation,
            payload,
            frame,
            answers,
            ..
        }) => format!(
            "message {xid} {operation} {} frame {frame} answers {answers}",
            payload.len()
        ),
    }
}

/// Whether the step takes this many bytes, and what became of them.
fn step(through: &mut Through, side: Side, bytes: &[u8], used: usize) -> String {
    let mut piece = bytes;
    let told = told(through.step(side, &mut piece).expect("a conversation"));
    assert_eq!((piece.len(), piece), (bytes.len() - used, &bytes[used..]));
    told
}

#[test]
fn lines() {
    let (mut through, mut found) = (passage(65536), Vec::new());
    for (side, payload) in CAME {
        step(&mut through, side, &frame(payload), payload.len() + 4);
        let mut text = Vec::new();
        let line = through.line(side, &mut text).map_err(|fault| fault.status);
        found.push(line.map(|()| String::from_utf8(text).expect("ASCII")));
    }
    let asked = r#"C 2 exists path="/a" watch=1"#.to_string();
    let answered = "S 2 exists zxid=5 err=-101/NONODE".to_string();
    assert_eq!(found[2..], [Err(69), Ok(asked), Err(69), Ok(answered)]);
}

#[test]
fn pairs_are_left_out() {
    let wanted = [
        "message 0 0 45 frame 0 answers 0",
        "message 0 0 37 frame 0 answers 0",
        "asked 1 9999 14 frame 1",
        "message 2 3 15 frame 2 answers 0",
        "answered 1 9999 20 frame 1",
        "message 2 3 16 frame 2 answers 2",
    ];
    let mut through = passage(65_536);
    for cut in [1, 7, 1000] {
        for ((side, payload), wanted) in CAME.iter().zip(wanted) {
            let bytes = frame(payload);
            let last = (bytes.len() - 1) / cut * cut;
            for piece in bytes[..last].chunks(cut) {
                assert_eq!(step(&mut through, *side, piece, piece.len()), "within");
            }
            let rest = &bytes[last..];
            assert_eq!(step(&mut through, *side, rest, rest.len()), wanted);
        }
        through.renew();
    }
}

#[test]
fn late() {
    let mut through = Through::join(Limits::default()).expect("a passage");
    let earlier = [0, 0, 0, 1, 0, 0, 0, 0, 0, 0, 0, 4, 0xff, 0xff, 0xff, 0x9b];
    for (side, payload, wanted) in [
        (
            Side::Client,
            &EXISTS[..],
            "message 2 3 15 frame 1 answers 0",
        ),
        (Side::Server, &earlier, "unseen 1 4 -101 16"),
        (Side::Server, &NO_NODE, "message 2 3 16 frame 2 answers 1"),
    ] {
        let bytes = frame(payload);
        assert_eq!(step(&mut through, side, &bytes, bytes.len()), wanted);
    }
    let fault = through
        .step(Side::Server, &mut &frame(&earlier)[..])
        .expect_err("nothing waits");
    let at = fault.at.expect("a place");
    // The made up frames have 32 and 24 bytes.
    assert_eq!((at.frame, at.offset), (3, 84));
}

#[test]
fn payloads_and_fields() {
    let mut through = passage(65_536);
    for (side, payload) in CAME {
        let bytes = frame(payload);
        match through.step(side, &mut &bytes[..]).expect("a conversation") {
            Went::Asked(left) | Went::Answered(left) => assert_eq!(left.payload, payload),
            Went::Message(message) => {
                assert_eq!(message.payload, payload);
                if message.xid == 2 && side == Side::Client {
                    assert_eq!(message.get("path"), Some(Value::Text("/a")));
                }
            }
            went => panic!("{went:?}"),
        }
    }
}

#[test]
fn full() {
    let mut through = passage(1);
    let (exists, none) = (frame(&EXISTS), frame(&NONE));
    for (side, payload) in &CAME[..2] {
        step(&mut through, *side, &frame(payload), payload.len() + 4);
    }
    let asked = [frame(&UNKNOWN), exists.clone()].concat();
    assert_eq!(
        step(&mut through, Side::Client, &asked, 18),
        "asked 1 9999 14 frame 1"
    );
    assert_eq!(step(&mut through, Side::Client, &exists, 0), "full");
    assert_eq!(step(&mut through, Side::Client, &exists[..9], 9), "within");
    assert_eq!(step(&mut through, Side::Client, &exists[9..], 0), "full");
    assert_eq!(
        step(&mut through, Side::Server, &none, 24),
        "answered 1 9999 20 frame 1"
    );
    assert_eq!(
        step(&mut through, Side::Client, &exists[9..], 10),
        "message 2 3 15 frame 2 answers 0"
    );
}

/// A healthy conversation whose sides' messages come in one piece each: after each reply the client's bytes are given
/// again.
#[test]
fn as_many_as_may_wait() {
    for waiting in [1, 2, 65_536] {
        let (mut through, mut found) = (passage(waiting), [Vec::new(), Vec::new()]);
        let first = [&[0, 0, 0, 1], &EXISTS[4..]].concat();
        let answer = [&[0, 0, 0, 1], &NO_NODE[4..]].concat();
        let client = [&HELLO[..], &first, &EXISTS].map(frame).concat();
        let server = [&WELCOME[..], &answer, &NO_NODE].map(frame).concat();
        let (mut client, mut server) = (&client[..], &server[..]);
        while !(client.is_empty() && server.is_empty()) {
            let went = through.step(Side::Client, &mut client).expect("a step");
            if !matches!(went, Went::Full | Went::Within) {
                found[0].push(told(went));
            } else {
                let went = through.step(Side::Server, &mut server);
                found[1].push(told(went.expect("a step")));
            }
        }
        assert_eq!(through.ending(), Ending::Whole { unanswered: 0 });
        assert_eq!(
            found[0],
            [
                "message 0 0 45 frame 0 answers 0",
                "message 1 3 15 frame 1 answers 0",
                "message 2 3 15 frame 2 answers 0"
            ]
        );
        assert_eq!(
            found[1],
            [
                "message 0 0 37 frame 0 answers 0",
                "message 1 3 16 frame 1 answers 1",
                "message 2 3 16 frame 2 answers 2"
            ]
        );
    }
}

/// The request that is left out waits, too, and weighs 1.
#[test]
fn what_waits_and_is_held() {
    let mut through = passage(65_536);
    for ((side, payload), count) in CAME.iter().zip([0, 0, 1, 2, 1, 0]) {
        let bytes = frame(payload);
        let (front, last) = bytes.split_at(bytes.len() - 1);
        step(&mut through, *side, front, front.len());
        assert_eq!(through.held(*side) as usize, front.len());
        step(&mut through, *side, last, 1);
        let wanted = Waiting {
            requests: count,
            weight: count,
        };
        assert_eq!((through.held(*side), through.waiting()), (0, wanted));
    }
}

/// What is passed is judged, and shows no message.
#[test]
fn passed() {
    let mut through = passage(1);
    for (side, payload) in [CAME[0], CAME[1], CAME[2], CAME[4]] {
        let bytes = frame(payload);
        let (front, last) = bytes.split_at(bytes.len() - 1);
        for (part, wanted) in [(front, Judged::Within), (last, Judged::Whole)] {
            let mut piece = part;
            assert_eq!(through.pass(side, &mut piece), Ok(wanted));
            assert!(piece.is_empty());
        }
        let fault = through.line(side, &mut Vec::new());
        assert_eq!(fault.map_err(|fault| fault.status), Err(69));
    }
    let exists = frame(&EXISTS);
    let both = [exists.clone(), exists.clone()].concat();
    let mut piece = &both[..];
    assert_eq!(through.pass(Side::Client, &mut piece), Ok(Judged::Whole));
    assert_eq!(through.pass(Side::Client, &mut piece), Ok(Judged::Full));
    assert_eq!(piece, exists);
    let fault = through.pass(Side::Server, &mut &frame(&NONE)[..]);
    assert_eq!(fault.map_err(|fault| fault.status), Err(14));
}

/// The line of how the passage ends.
fn ending_line(through: &Through) -> String {
    let mut text = Vec::new();
    let line = through.ending_line_str(&mut text);
    line.expect("room for a line").to_string()
}

#[test]
fn endings() {
    let mut through = passage(65_536);
    assert_eq!(through.ending(), Ending::Whole { unanswered: 0 });
    assert_eq!(ending_line(&through), ". whole unanswered=0");
    for (side, payload) in &CAME[..4] {
        step(&mut through, *side, &frame(payload), payload.len() + 4);
    }
    assert_eq!(through.ending(), Ending::Whole { unanswered: 2 });
    let none = frame(&NONE);
    step(&mut through, Side::Server, &none[..9], 9);
    let cut = Ending::Cut {
        side: Side::Server,
        frame: 1,
        got: 9,
    };
    assert_eq!(through.ending(), cut);
    assert_eq!(ending_line(&through), ". cut side=S frame=1 got=9");
    step(&mut through, Side::Server, &none[9..], 15);
    assert_eq!(through.ending(), Ending::Whole { unanswered: 1 });
    let fault = through
        .step(Side::Server, &mut &none[..])
        .map(told)
        .expect_err("a reply of another turn");
    assert_eq!(through.ending(), Ending::Refused(fault));
}

#[test]
fn a_reply_before_its_turn() {
    let mut through = passage(65_536);
    for (side, payload) in &CAME[..4] {
        step(&mut through, *side, &frame(payload), payload.len() + 4);
    }
    let order = Some(Order {
        expected: 1,
        got: 2,
    });
    let at = At {
        side: Side::Server,
        frame: 1,
        offset: 61,
        order,
    };
    let fault = Fault {
        status: 14,
        place: 0,
        at: Some(at),
    };
    for (side, bytes) in [(Side::Server, frame(&NO_NODE)), (Side::Client, Vec::new())] {
        let mut piece = &bytes[..];
        assert_eq!(through.step(side, &mut piece).map(told), Err(fault));
        assert_eq!(piece, bytes);
    }
    let limits = Limits {
        waiting: 0,
        ..Limits::default()
    };
    assert_eq!(
        Through::new(limits)
            .map(|_| ())
            .map_err(|fault| fault.status),
        Err(67)
    );
}

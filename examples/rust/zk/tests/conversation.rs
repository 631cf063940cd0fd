//! The payloads are those of docs/EXAMPLES.md and docs/FORMATS.md.

use zk::{Fault, Kind, Limits, Profile, Reader, Side, Speaker, Talk, Value};

const LINES: [&str; 5] = [
    "C connect version=0 zxid=0 timeout=30000 session=0 passwd=#00000000000000000000000000000000 ro=0",
    "S connect version=0 timeout=30000 session=1 passwd=#000102030405060708090a0b0c0d0e0f ro=0",
    "C 1 exists path=\"/a\" watch=1",
    "S 1 exists zxid=5 err=-101/NONODE",
    "S event zxid=-1 kind=3/NodeDataChanged state=3 path=\"/a\"",
];
const EXISTS: [u8; 15] = [0, 0, 0, 1, 0, 0, 0, 3, 0, 0, 0, 2, b'/', b'a', 1];
const CHILDREN: [u8; 33] = [
    0, 0, 0, 1, 0, 0, 0, 0, 0, 0, 0, 5, 0, 0, 0, 0, 0, 0, 0, 3, 0, 0, 0, 1, b'a', 255, 255, 255,
    255, 0, 0, 0, 0,
];

fn side_of(line: &str) -> Side {
    if line.starts_with('C') {
        Side::Client
    } else {
        Side::Server
    }
}

fn frames() -> Vec<Vec<u8>> {
    let mut speaker = Speaker::new(Limits::default()).expect("a speaker");
    LINES
        .iter()
        .map(|line| speaker.say(line).expect("a frame").to_vec())
        .collect()
}

/// The kinds and the lines of the messages that these pieces complete.
fn heard(talk: &mut Talk, cut: usize) -> Vec<(Kind, u64, String)> {
    let (mut found, mut text) = (Vec::new(), Vec::new());
    for (line, frame) in LINES.iter().zip(frames()) {
        for mut piece in frame.chunks(cut) {
            let (kind, number) = match stepped(talk, side_of(line), &mut piece) {
                Some(found) => found,
                None => continue,
            };
            talk.line(side_of(line), &mut text).expect("a line");
            found.push((
                kind,
                number,
                String::from_utf8(text.clone()).expect("ASCII"),
            ));
        }
    }
    found
}

fn stepped(talk: &mut Talk, side: Side, piece: &mut &[u8]) -> Option<(Kind, u64)> {
    let message = talk.step(side, piece).expect("a conversation")?;
    assert_eq!(
        message.payload.len(),
        message
            .fields()
            .last()
            .map_or(message.payload.len(), |f| f.place + f.length)
    );
    Some((message.kind, message.frame))
}

#[test]
fn fields_of_payloads() {
    let mut reader = Reader::new();
    let message = reader.request(Profile::V34, &EXISTS).expect("a request");
    assert_eq!(
        (message.kind, message.xid, message.operation),
        (Kind::Request, 1, 3)
    );
    let fields: Vec<_> = message
        .fields()
        .map(|field| (field.name, field.place, field.length, field.value))
        .collect();
    assert_eq!(
        fields,
        [
            ("path", 12, 2, Value::Text("/a")),
            ("watch", 14, 1, Value::Bool(true))
        ]
    );
    assert_eq!(message.get("version"), None);
    let message = reader.reply(8, &[], &CHILDREN).expect("a reply");
    let values: Vec<_> = message.fields().map(|field| field.value).collect();
    assert_eq!(
        values,
        [
            Value::List(3),
            Value::Text("a"),
            Value::Null,
            Value::Text("")
        ]
    );
}

#[test]
fn more_fields_than_there_is_room_at_first() {
    let mut payload = CHILDREN[..16].to_vec();
    payload.extend([0, 0, 1, 0]);
    payload.extend([0; 4 * 256]);
    let mut reader = Reader::new();
    assert_eq!(
        reader
            .reply(8, &[], &payload)
            .expect("a reply")
            .fields()
            .count(),
        257
    );
}

#[test]
fn faults_of_payloads() {
    let mut reader = Reader::new();
    for length in 0..EXISTS.len() {
        let fault = reader
            .request(Profile::V34, &EXISTS[..length])
            .expect_err("a front");
        assert_eq!(zk::status_name(fault.status), "SHORT");
    }
    assert_eq!(
        reader.request(Profile::V35, &[]).err(),
        Some(Fault {
            status: 1,
            place: 0,
            at: None
        })
    );
    assert_eq!(
        reader
            .reply(3, &[1], &[])
            .map(|_| ())
            .map_err(|fault| fault.to_string()),
        Err("RANGE at 0".into())
    );
    assert!(
        reader.first(&EXISTS).is_err()
            && reader.connected(&EXISTS).is_err()
            && reader.event(&EXISTS).is_err()
    );
}

#[test]
fn conversations() {
    for cut in [1, 7, 1000] {
        let mut talk = Talk::new(Limits::default()).expect("a talk");
        let found = heard(&mut talk, cut);
        assert_eq!(
            found
                .iter()
                .map(|(_, _, line)| line.as_str())
                .collect::<Vec<_>>(),
            LINES
        );
        assert_eq!(
            found.iter().map(|(_, frame, _)| *frame).collect::<Vec<_>>(),
            [0, 0, 1, 1, 2]
        );
        assert_eq!(found[4].0, Kind::Event);
        let mut text = Vec::new();
        talk.ending_line(&mut text).expect("an ending");
        assert_eq!(text, b". whole unanswered=0");
    }
}

#[test]
fn several_messages_in_a_piece_and_a_fault() {
    let mut talk = Talk::new(Limits::default()).expect("a talk");
    let bytes = [
        &frames()[0][..],
        &frames()[2],
        &[0, 0, 0, 15],
        &EXISTS[..14],
        &[2],
    ]
    .concat();
    let mut rest = &bytes[..];
    assert_eq!(
        stepped(&mut talk, Side::Client, &mut rest),
        Some((Kind::Connect, 0))
    );
    assert_eq!(
        stepped(&mut talk, Side::Client, &mut rest),
        Some((Kind::Request, 1))
    );
    let fault = talk
        .step(Side::Client, &mut rest)
        .map(|_| ())
        .expect_err("a boolean of 2");
    assert_eq!(
        (zk::status_name(fault.status), fault.place),
        ("BAD_BOOL", 14)
    );
    assert!(talk.step(Side::Client, &mut rest).is_err());
}

#[test]
fn limits_and_lines_that_are_refused() {
    let limits = Limits {
        waiting: 0,
        ..Limits::default()
    };
    assert_eq!(
        Talk::new(limits).map(|_| ()).map_err(|fault| fault.status),
        Err(67)
    );
    assert_eq!(
        Speaker::new(limits)
            .map(|_| ())
            .map_err(|fault| fault.status),
        Err(67)
    );
    let mut speaker = Speaker::new(Limits::default()).expect("a speaker");
    assert_eq!(
        speaker
            .say(LINES[2])
            .map_err(|fault| zk::status_name(fault.status))
            .err(),
        Some("NOT_FIRST")
    );
    assert_eq!(
        speaker.say("C 1 exists path=1").err(),
        Some(Fault {
            status: 93,
            place: 17,
            at: None
        })
    );
}

#[test]
fn a_talk_that_goes_from_thread_to_thread() {
    let mut talk = Talk::new(Limits::default()).expect("a talk");
    for (line, frame) in LINES.iter().zip(frames()) {
        let side = side_of(line);
        talk = std::thread::spawn(move || {
            assert!(stepped(&mut talk, side, &mut &frame[..]).is_some());
            talk
        })
        .join()
        .expect("a thread");
    }
    let mut text = Vec::new();
    talk.line(Side::Server, &mut text).expect("a line");
    assert_eq!(text, LINES[4].as_bytes());
}

//! Calls beside those of a conversation; the payloads are those of docs/EXAMPLES.md and docs/FORMATS.md.

use std::time::Instant;
use zk::{At, Ending, Fault, Limits, Order, Profile, Reader, Side, Talk, Value, Waiting, Writer};

const HELLO: [u8; 45] = {
    let mut payload = [0; 45];
    payload[14] = 117;
    payload[15] = 48;
    payload[27] = 16;
    payload
};
const WELCOME: [u8; 37] = {
    let mut payload = [0; 37];
    payload[6] = 117;
    payload[7] = 48;
    payload[15] = 1;
    payload[19] = 16;
    payload
};
const EXISTS: [u8; 15] = [0, 0, 0, 1, 0, 0, 0, 3, 0, 0, 0, 2, b'/', b'a', 1];
const NO_NODE: [u8; 16] = [0, 0, 0, 1, 0, 0, 0, 0, 0, 0, 0, 5, 255, 255, 255, 155];
const EVENT: [u8; 30] = [
    255, 255, 255, 255, 255, 255, 255, 255, 255, 255, 255, 255, 0, 0, 0, 0, 0, 0, 0, 3, 0, 0, 0, 3,
    0, 0, 0, 2, b'/', b'a',
];
const ADD_WATCH: [u8; 18] = [0, 0, 0, 3, 0, 0, 0, 106, 0, 0, 0, 2, b'/', b'a', 0, 0, 0, 1];
/// A delete of /a in a multi.
const MULTI: [u8; 36] = [
    0, 0, 0, 3, 0, 0, 0, 14, 0, 0, 0, 2, 0, 255, 255, 255, 255, 0, 0, 0, 2, b'/', b'a', 255, 255,
    255, 255, 255, 255, 255, 255, 1, 255, 255, 255, 255,
];

fn frame(payload: &[u8]) -> Vec<u8> {
    let mut bytes = (payload.len() as u32).to_be_bytes().to_vec();
    bytes.extend_from_slice(payload);
    bytes
}

fn hello() -> [Value<'static>; 6] {
    [
        Value::Int(0),
        Value::Long(0),
        Value::Int(30000),
        Value::Long(0),
        Value::Blob(&[0; 16]),
        Value::Bool(false),
    ]
}

fn passed(talk: &mut Talk, side: Side, bytes: &[u8]) -> Result<u32, Fault> {
    let (mut rest, mut count) = (bytes, 0);
    while !rest.is_empty() {
        count += u32::from(talk.pass(side, &mut rest)?);
    }
    Ok(count)
}

#[test]
fn payloads_are_judged() {
    type Judge = fn(&[u8]) -> Result<(), Fault>;
    let judges: [(Judge, &[u8]); 5] = [
        (zk::judge_first, &HELLO),
        (|payload| zk::judge_request(Profile::V34, payload), &EXISTS),
        (zk::judge_connected, &WELCOME),
        (|payload| zk::judge_reply(3, &[], payload), &NO_NODE),
        (zk::judge_event, &EVENT),
    ];
    for (judge, payload) in judges {
        assert_eq!(judge(payload), Ok(()));
        let longer = [payload, &[0, 0]].concat();
        let fault = judge(&longer).expect_err("two bytes more");
        assert_eq!(
            (
                zk::status_name(fault.status),
                fault.place as usize,
                fault.at
            ),
            ("TRAILING", payload.len(), None)
        );
        let fault = judge(&[]).expect_err("no byte");
        assert_eq!((zk::status_name(fault.status), fault.place), ("SHORT", 0));
    }
    assert!(zk::judge_reply(3, &[1], &NO_NODE).is_err());
}

#[test]
fn requests_are_written() {
    let mut writer = Writer::new();
    let values = [Value::Text("/a"), Value::Bool(true)];
    assert_eq!(writer.request(1, 3, values), Ok(&frame(&EXISTS)[..]));
    assert_eq!(writer.first(hello()), Ok(&frame(&HELLO)[..]));
    let delete = [Value::Part(2), Value::Text("/a"), Value::Int(-1)];
    assert_eq!(writer.request(3, 14, delete), Ok(&frame(&MULTI)[..]));
    assert_eq!(
        writer.request(-2, 11, []),
        Ok(&frame(&[255, 255, 255, 254, 0, 0, 0, 11])[..])
    );
    let null = writer.request(1, 3, [Value::Null, Value::Bool(false)]);
    assert_eq!(
        null.map(|bytes| bytes[12..].to_vec()),
        Ok(vec![255, 255, 255, 255, 0])
    );
    let fault = writer
        .request(1, 6, [Value::List(u32::MAX)])
        .expect_err("a count");
    assert_eq!((zk::status_name(fault.status), fault.place), ("RANGE", 0));
}

#[test]
fn answers_are_written() {
    let mut writer = Writer::new();
    assert_eq!(writer.reply(1, 5, -101, 3, []), Ok(&frame(&NO_NODE)[..]));
    let changed = [Value::Int(3), Value::Int(3), Value::Text("/a")];
    assert_eq!(writer.event(-1, changed), Ok(&frame(&EVENT)[..]));
    let session = [
        Value::Int(0),
        Value::Int(30000),
        Value::Long(1),
        Value::Blob(&[0; 16]),
        Value::Bool(false),
    ];
    assert_eq!(writer.connected(session), Ok(&frame(&WELCOME)[..]));
    let results = [Value::Part(13), Value::Part(-1), Value::Int(-110)];
    let header = [0, 0, 0, 2, 0, 0, 0, 0, 0, 0, 0, 6, 0, 0, 0, 0];
    let checked = [0, 0, 0, 13, 0, 0, 0, 0, 0];
    let failed = [
        255, 255, 255, 255, 0, 255, 255, 255, 146, 255, 255, 255, 146,
    ];
    let payload = [&header[..], &checked, &failed, &MULTI[27..]].concat();
    assert_eq!(writer.reply(2, 6, 0, 14, results), Ok(&frame(&payload)[..]));
    let fault = writer
        .reply(2, 6, 0, 14, [Value::Part(13), Value::Part(-1)])
        .expect_err("no error");
    assert_eq!((zk::status_name(fault.status), fault.place), ("RANGE", 1));
}

#[test]
fn what_was_read_is_written_again() {
    let (mut reader, mut writer) = (Reader::new(), Writer::new());
    let path = "a".repeat(5000);
    let payload = writer
        .request(7, 3, [Value::Text(&path), Value::Bool(true)])
        .expect("a frame")[4..]
        .to_vec();
    for payload in [&payload[..], &EXISTS, &MULTI] {
        let message = reader.request(Profile::V34, payload).expect("a request");
        let values = message.fields().map(|field| field.value);
        let again = writer.request(message.xid, message.operation, values);
        assert_eq!(again, Ok(&frame(payload)[..]));
    }
}

#[test]
fn what_waits_and_is_held_and_how_it_ends() {
    let mut talk = Talk::new(Limits::default()).expect("a talk");
    let bytes = [
        frame(&HELLO),
        frame(&EXISTS),
        frame(&MULTI),
        vec![0, 0, 0, 8, 255],
    ]
    .concat();
    assert_eq!(passed(&mut talk, Side::Client, &bytes), Ok(3));
    let waiting = Waiting {
        requests: 2,
        weight: 3,
    };
    assert_eq!(talk.waiting(), waiting);
    assert_eq!((talk.held(Side::Client), talk.held(Side::Server)), (5, 0));
    let cut = Ending::Cut {
        side: Side::Client,
        frame: 3,
        got: 5,
    };
    assert_eq!(talk.ending(), cut);
    let mut text = Vec::new();
    assert!(talk.line(Side::Client, &mut text).is_err());
}

#[test]
fn a_fault_says_where_it_is() {
    let mut talk = Talk::new(Limits::default()).expect("a talk");
    let asked = [frame(&HELLO), frame(&EXISTS)].concat();
    assert_eq!(passed(&mut talk, Side::Client, &asked), Ok(2));
    let mut other = NO_NODE;
    other[3] = 2;
    let fault = passed(
        &mut talk,
        Side::Server,
        &[frame(&WELCOME), frame(&other)].concat(),
    );
    let wanted = Fault {
        status: 14,
        place: 0,
        at: Some(At {
            side: Side::Server,
            frame: 1,
            offset: 41 + 20,
            order: Some(Order {
                expected: 1,
                got: 2,
            }),
        }),
    };
    assert_eq!(fault, Err(wanted));
    assert_eq!(talk.ending(), Ending::Refused(wanted));
    assert_eq!(talk.pass(Side::Client, &mut &[][..]), Err(wanted));
}

#[test]
fn one_talk_for_many_conversations() {
    let mut talk = Talk::new(Limits::default()).expect("a talk");
    let whole = [frame(&HELLO), frame(&EXISTS)].concat();
    for end in 0..=whole.len() {
        assert!(passed(&mut talk, Side::Client, &whole[..end]).is_ok());
        talk.renew();
        assert_eq!(talk.ending(), Ending::Whole { unanswered: 0 });
        assert!(passed(&mut talk, Side::Server, &[255; 4]).is_err());
        talk.renew();
    }
    assert_eq!(passed(&mut talk, Side::Client, &whole), Ok(2));
    assert_eq!(talk.ending(), Ending::Whole { unanswered: 2 });
}

/// A long message, and how long short ones then take: no longer than before it. The least time counts, as another
/// program may run within each.
#[test]
fn short_messages_after_a_long_one() {
    let mut talk = Talk::new(Limits::default()).expect("a talk");
    let (mut writer, mut text) = (Writer::new(), Vec::new());
    let hello = writer.first(hello()).expect("a connect request").to_vec();
    assert_eq!(passed(&mut talk, Side::Client, &hello), Ok(1));
    let mut say = |xid, data: &[u8]| {
        let begun = Instant::now();
        let values = [Value::Text("/a"), Value::Blob(data), Value::Int(-1)];
        let frame = writer.request(xid, 5, values).expect("a setData");
        let message = talk.step(Side::Client, &mut &frame[..]).expect("a talk");
        let message = message.expect("a message");
        assert_eq!(message.get("data"), Some(Value::Blob(data)));
        talk.line(Side::Client, &mut text).expect("a line");
        begun.elapsed()
    };
    let before = (1..=100).map(|xid| say(xid, b"a")).min().expect("a time");
    say(101, &[0; 400_000]);
    say(102, b"a"); // whose rooms still have all bytes of the long one
    let after = (103..=202).map(|xid| say(xid, b"a")).min().expect("a time");
    assert!(after < before * 20, "{before:?}, and then {after:?}");
}

#[test]
fn a_speaker_begins_anew() {
    let mut speaker = zk::Speaker::new(Limits::default()).expect("a speaker");
    let line = "C connect version=0 zxid=0 timeout=30000 session=0 passwd=#00000000000000000000000000000000 ro=0";
    for _ in 0..3 {
        assert_eq!(speaker.say(line), Ok(&frame(&HELLO)[..]));
        assert!(speaker.say(line).is_err());
        speaker.renew();
    }
}

#[test]
fn payloads_are_said() {
    let mut speaker = zk::Speaker::new(Limits::default()).expect("a speaker");
    let mut say = |side, payload: &[u8]| {
        let said = speaker.say_payload(side, payload);
        said.map(<[u8]>::to_vec)
            .map_err(|fault| (fault.status, fault.place))
    };
    assert_eq!(say(Side::Client, &EXISTS), Err((1, 12)));
    assert_eq!(say(Side::Client, &HELLO), Ok(frame(&HELLO)));
    assert_eq!(say(Side::Client, &EXISTS), Ok(frame(&EXISTS)));
    assert_eq!(say(Side::Client, &EXISTS[..14]), Err((1, 14)));
    assert_eq!(say(Side::Client, &[]), Err((1, 0)));
}

#[test]
fn listings() {
    let (hello, exists) = (frame(&HELLO), frame(&EXISTS));
    let pieces = [
        (Side::Client, &hello[..7]),
        (Side::Client, &hello[7..]),
        (Side::Client, &exists[..]),
    ];
    let mut text = Vec::new();
    zk::listing(Limits::default(), &pieces, &mut text).expect("a listing");
    assert_eq!(
        String::from_utf8_lossy(&text),
        "C connect version=0 zxid=0 timeout=30000 session=0 passwd=#00000000000000000000000000000000 ro=0\n\
         C 1 exists path=\"/a\" watch=1\n. whole unanswered=2\n"
    );
    zk::listing(Limits::default(), &[], &mut text).expect("a listing");
    assert_eq!(text, b". whole unanswered=0\n");
}

#[test]
fn the_usual_profile_is_the_newest() {
    let (hello, welcome, asked) = (frame(&HELLO), frame(&WELCOME), frame(&ADD_WATCH));
    let pieces = [
        (Side::Client, &hello[..]),
        (Side::Server, &welcome[..]),
        (Side::Client, &asked[..]),
    ];
    let older = Limits {
        profile: Profile::V35,
        ..Limits::default()
    };
    let refused = ". refused side=C frame=1 offset=71 place=4 reason=UnknownOp";
    for (limits, wanted) in [
        (Limits::default(), "C 3 addWatch path=\"/a\" mode=1"),
        (older, refused),
    ] {
        let mut text = Vec::new();
        zk::listing(limits, &pieces, &mut text).expect("a listing");
        assert_eq!(String::from_utf8_lossy(&text).lines().nth(2), Some(wanted));
    }
}

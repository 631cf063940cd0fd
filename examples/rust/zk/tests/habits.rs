//! What the crate has by Rust's habits: numbers as enums, messages that are kept, lines as `&str`, what is only looked at,
//! and what comes before a fault.

use zk::{
    Code, CreateFlags, EventType, Limits, Operation, OwnedMessage, Profile, Reader, Side, State,
    Status, Talk, Value, Writer,
};

const EXISTS: [u8; 15] = [0, 0, 0, 1, 0, 0, 0, 3, 0, 0, 0, 2, b'/', b'a', 1];
const NO_NODE: [u8; 16] = [0, 0, 0, 1, 0, 0, 0, 0, 0, 0, 0, 5, 255, 255, 255, 155];

#[test]
fn numbers_are_enums() {
    let mut reader = Reader::new();
    let request = reader
        .request(Profile::V34, &EXISTS)
        .expect("a request")
        .to_owned();
    assert_eq!(request.borrow().operation(), Some(Operation::Exists));
    let reply = reader
        .reply(Operation::Exists, &[], &NO_NODE)
        .expect("a reply");
    assert_eq!(
        (reply.code(), reply.operation()),
        (Some(Code::NoNode), Some(Operation::Exists))
    );
    let fault = reader
        .request(Profile::V34, &EXISTS[..14])
        .expect_err("a byte is missing");
    assert_eq!(fault.status(), Some(Status::Short));
    assert_eq!(Operation::of(106), Some(Operation::AddWatch));
    assert_eq!((Operation::of(9999), Code::of(-99)), (None, None));
    assert_eq!(Operation::CloseSession.number(), -11);
    assert_eq!(i64::from(State::Expired), -112);
    assert_eq!(Code::QuotaExceeded.to_string(), "QUOTAEXCEEDED");
    assert_eq!(EventType::NodeDeleted.name(), "NodeDeleted");
    assert_eq!(CreateFlags::of(1), Some(CreateFlags::Ephemeral));
    assert_eq!(zk::version(), 10_000);
}

/// A talk whose connect request has come.
fn begun(writer: &mut Writer) -> Talk {
    let mut talk = Talk::new(Limits::default()).expect("a talk");
    let first = [
        Value::Int(0),
        Value::Long(0),
        Value::Int(1),
        Value::Long(0),
        Value::Null,
    ];
    let first = writer.first(first).expect("a frame");
    talk.step(Side::Client, &mut &first[..]).expect("a step");
    talk
}

#[test]
fn messages_are_kept() {
    let mut writer = Writer::new();
    let mut talk = begun(&mut writer);
    let mut kept: Vec<OwnedMessage> = Vec::new();
    for xid in 1..100 {
        let path = format!("/{xid}");
        let values = [Value::Text(&path), Value::Bool(xid % 2 == 0)];
        let frame = writer
            .request(xid, Operation::Exists, values)
            .expect("a frame");
        let message = talk.step(Side::Client, &mut &frame[..]).expect("a step");
        kept.extend(message.map(OwnedMessage::from));
    }
    assert_eq!(talk.waiting().requests, 99);
    for (message, xid) in kept.iter().zip(1..) {
        let path = format!("/{xid}");
        let message = message.borrow();
        assert_eq!((message.xid, message.frame), (xid, xid as u64));
        assert_eq!(message.get("path"), Some(Value::Text(&path)));
        assert_eq!(message.get("watch"), Some(Value::Bool(xid % 2 == 0)));
    }
    assert_eq!(kept.len(), 99);
}

#[test]
fn lines_are_str() {
    let talk = begun(&mut Writer::new());
    let (looked, mut text) = (&talk, Vec::new());
    let line = looked.line_str(Side::Client, &mut text).expect("a line");
    assert_eq!(
        line,
        "C connect version=0 zxid=0 timeout=1 session=0 passwd=~ ro=-"
    );
    let ending = looked.ending_line_str(&mut text).expect("a line");
    assert_eq!(ending, ". whole unanswered=1");
    assert_eq!((looked.held(Side::Client), looked.waiting().weight), (0, 0));
    let none = looked.line_str(Side::Server, &mut text);
    assert_eq!(
        none.map_err(|fault| fault.status()),
        Err(Some(Status::NoMessage))
    );
}

#[test]
fn what_comes_before_a_fault() {
    let mut reader = Reader::new();
    let mut payload = EXISTS;
    payload[14] = 2;
    assert!(reader.faulty(&payload).is_none());
    let fault = reader
        .request(Profile::V34, &payload)
        .expect_err("no boolean");
    let faulty = reader.faulty(&payload).expect("what was refused");
    assert_eq!((faulty.fault, faulty.xid, faulty.operation), (fault, 1, 3));
    let fields: Vec<_> = faulty
        .fields()
        .map(|field| (field.name, field.value))
        .collect();
    assert_eq!(fields, [("path", Value::Text("/a"))]);
    let reply = [&NO_NODE[..], &[0]].concat();
    reader
        .reply(Operation::Exists, &[], &reply)
        .expect_err("a byte too many");
    let faulty = reader.faulty(&reply).expect("what was refused");
    assert_eq!((faulty.operation, faulty.err, faulty.zxid), (0, -101, 5));
    reader.request(Profile::V34, &EXISTS).expect("a request");
    assert!(reader.faulty(&EXISTS).is_none());
    let names: Vec<_> = (0..100).map(|at| format!("/{at}")).collect();
    let mut watches = [
        &[255, 255, 255, 248, 0, 0, 0, 101],
        &[0; 8][..],
        &[0, 0, 0, 100],
    ]
    .concat();
    for name in &names {
        watches.extend_from_slice(&(name.len() as u32).to_be_bytes());
        watches.extend_from_slice(name.as_bytes());
    }
    reader
        .request(Profile::V34, &watches)
        .expect_err("two lists are missing");
    let faulty = reader.faulty(&watches).expect("what was refused");
    assert_eq!(faulty.fields().count(), 102);
}

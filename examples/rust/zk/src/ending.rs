//! How a conversation ends, and what waits.

use crate::{At, Fault, Order, Side};
use zk_sys::{zk_ending, zk_fault, zk_waiting};

const WHOLE: u32 = 1;
const CUT: u32 = 2;
const XID_ORDER: u32 = 14;

/// How a conversation would end.
#[derive(Clone, Copy, Debug, PartialEq, Eq)]
pub enum Ending {
    /// Whole, and how many requests have no reply.
    Whole { unanswered: u32 },
    /// A side ends within its frame of this number, of which `got` bytes came, its length included.
    Cut { side: Side, frame: u64, got: u32 },
    /// Refused.
    Refused(Fault),
}

/// How many requests wait for their replies, and their weight: 1 each, and 1 more for each part of a multi.
#[derive(Clone, Copy, Debug, PartialEq, Eq)]
pub struct Waiting {
    pub requests: u32,
    pub weight: u32,
}

impl Waiting {
    pub(crate) fn of(waiting: &zk_waiting) -> Waiting {
        Waiting {
            requests: waiting.requests,
            weight: waiting.weight,
        }
    }
}

fn side_of(side: u32) -> Side {
    match side {
        0 => Side::Client,
        _ => Side::Server,
    }
}

/// Why a conversation is refused.
pub(crate) fn refusal(fault: &zk_fault) -> Fault {
    let order = Order {
        expected: fault.expected,
        got: fault.got,
    };
    Fault {
        status: fault.reason,
        place: fault.place,
        at: Some(At {
            side: side_of(fault.side),
            frame: fault.frame,
            offset: fault.offset,
            order: (fault.reason == XID_ORDER).then_some(order),
        }),
    }
}

impl Ending {
    pub(crate) fn of(ending: &zk_ending) -> Ending {
        match ending.kind {
            WHOLE => Ending::Whole {
                unanswered: ending.unanswered,
            },
            CUT => Ending::Cut {
                side: side_of(ending.side),
                frame: ending.frame,
                got: ending.got,
            },
            _ => Ending::Refused(refusal(&ending.fault)),
        }
    }
}

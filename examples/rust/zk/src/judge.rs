//! Payloads by themselves, judged without their fields.

use crate::{loaded, well, Fault, Profile};
use zk_sys::zk_payload;

fn judged(answer: zk_payload) -> Result<(), Fault> {
    loaded();
    well(answer.status, answer.place)
}

/// Whether the payload is that of a connect request.
pub fn judge_first(payload: &[u8]) -> Result<(), Fault> {
    // A slice's pointer isn't null and has its length.
    judged(unsafe { zk_sys::zk_judge_first(payload.as_ptr(), payload.len()) })
}

/// Whether the payload is that of a request.
pub fn judge_request(profile: Profile, payload: &[u8]) -> Result<(), Fault> {
    judged(unsafe { zk_sys::zk_judge_request(profile as u32, payload.as_ptr(), payload.len()) })
}

/// Whether the payload is that of the answer to a connect request.
pub fn judge_connected(payload: &[u8]) -> Result<(), Fault> {
    judged(unsafe { zk_sys::zk_judge_connected(payload.as_ptr(), payload.len()) })
}

/// Whether the payload is that of a reply to a request of this operation, for a multi of these parts.
pub fn judge_reply(operation: impl Into<i32>, parts: &[i32], payload: &[u8]) -> Result<(), Fault> {
    let operation = operation.into();
    let (bytes, length) = (payload.as_ptr(), payload.len());
    judged(unsafe { zk_sys::zk_judge_reply(operation, parts.as_ptr(), parts.len(), bytes, length) })
}

/// Whether the payload is that of an event.
pub fn judge_event(payload: &[u8]) -> Result<(), Fault> {
    judged(unsafe { zk_sys::zk_judge_event(payload.as_ptr(), payload.len()) })
}

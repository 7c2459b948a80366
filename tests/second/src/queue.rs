//! Queue: a list of request records made on one monitor.

use crate::monitor::{step, test20, Record};

/// "20 as above. 31: fewer answer bytes than requests. Then the requests are
/// made in their order, each on the monitor that the one before left, the last
/// one's monitor is handed back, and answer i is that of request i [...] Bytes
/// beyond are not written."
///
/// The record is tested once: a call on a record that passes test 20 leaves one
/// that passes it, so testing again before each request would change nothing.
pub fn queue(record: &mut Record, requests: &[[u8; 5]], out: &mut [u8]) -> u8 {
    if !test20(record) {
        return 20;
    }
    if out.len() < requests.len() {
        return 31;
    }
    for (answer, request) in out.iter_mut().zip(requests) {
        let [kind, a, b, c, d] = *request;
        *answer = step(record, kind, [a, b, c, d]);
    }
    0
}

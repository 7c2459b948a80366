//! Batch: the call for a panel written in C.

use crate::monitor::Record;
use crate::opening::open;
use crate::queue::queue;

/// "Request bytes (five each)".
pub const REQUEST: usize = 5;

/// The bytes that the rights held may fill: a count, and three bytes for each of
/// "at most 192 rights" (8 × 8 × 3).
pub const HELD: usize = 1 + 3 * 192;

/// "1 to 12. 34: request bytes not a multiple of 5. 31: for n requests, a
/// buffer under n + 577 bytes. Then the n answers, beginning at the fresh
/// monitor, and from the byte after the last answer the count of rights held,
/// and for each of them skid, tank, right [...] The rest is not written."
pub fn batch(plant: &[u8], requests: &[u8], out: &mut [u8]) -> u8 {
    let (number, mut record) = open(plant);
    if number != 0 {
        return number;
    }
    if !requests.len().is_multiple_of(REQUEST) {
        return 34;
    }
    let n = requests.len() / REQUEST;
    if out.len() < n + HELD {
        return 31;
    }
    let number = queue(&mut record, &request_records(requests), &mut out[..n]);
    assert_eq!(number, 0, "a fresh monitor passes 20 and there is an answer byte for each");
    write_held(&record, &mut out[n..]);
    0
}

/// The request bytes as records of five; a remainder is left out.
pub fn request_records(bytes: &[u8]) -> Vec<[u8; 5]> {
    bytes.chunks_exact(REQUEST).map(|five| [five[0], five[1], five[2], five[3], five[4]]).collect()
}

/// "the count of rights held, and for each of them skid, tank, right, rising in
/// that order", from byte 0 of the part that is lent.
fn write_held(record: &Record, out: &mut [u8]) {
    let held = record.held();
    out[0] = held.len() as u8;
    for (i, (skid, tank, right)) in held.into_iter().enumerate() {
        out[1 + 3 * i] = skid;
        out[2 + 3 * i] = tank;
        out[3 + 3 * i] = right;
    }
}

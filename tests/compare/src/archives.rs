//! The functions of the archives, as include/permits.h declares them, called on
//! guarded copies of what they are given.

use crate::difference::{place_in_record, same, same_bytes, Difference};
use crate::guarded::{Edge, Guarded};
use std::fmt::Debug;

/// A request: its kind and four bytes.
#[repr(C)]
#[derive(Clone, Copy)]
struct Request([u8; 5]);

/// A part of the caller's bytes.
#[repr(C)]
#[derive(Clone, Copy, PartialEq, Eq, Debug)]
pub struct Place {
    pub begin: usize,
    pub length: usize,
}

extern "C" {
    fn permits_batch(
        plant: *const u8,
        plant_len: usize,
        requests: *const u8,
        requests_len: usize,
        out: *mut u8,
        out_len: usize,
    ) -> u8;
    fn permits_section(file: *const u8, file_len: usize, kind: usize) -> Place;
    fn permits_open(m: *mut u8, file: *const u8, file_len: usize) -> u8;
    fn permits_call(m: *mut u8, r: Request) -> u8;
    fn permits_queue(
        m: *mut u8,
        requests: *const Request,
        count: usize,
        out: *mut u8,
        out_len: usize,
    ) -> u8;
}

/// The number of bytes of a record.
pub const RECORD: usize = 1670;

/// A number, and the buffer that was lent, afterwards.
#[derive(PartialEq, Eq, Debug)]
pub struct Outcome {
    pub number: u8,
    pub out: Vec<u8>,
}

pub fn batch(plant: &[u8], requests: &[u8], buffer: &[u8]) -> Result<Outcome, Difference> {
    at_both_edges(|edge| batch_at(edge, plant, requests, buffer))
}

pub fn section(plant: &[u8], kind: usize) -> Result<Place, Difference> {
    at_both_edges(|edge| section_at(edge, plant, kind))
}

/// The same call with everything lent at either edge. What comes back cannot
/// depend on where the memory lies.
fn at_both_edges<T: PartialEq + Debug>(
    call: impl Fn(Edge) -> Result<T, Difference>,
) -> Result<T, Difference> {
    let at_end = call(Edge::End)?;
    same(|| OTHER_EDGE.to_string(), &at_end, &call(Edge::Start)?)?;
    Ok(at_end)
}

/// What a difference between the two edges is called.
const OTHER_EDGE: &str = "the outcome once more, on memory that lies elsewhere";

fn batch_at(
    edge: Edge,
    plant: &[u8],
    requests: &[u8],
    buffer: &[u8],
) -> Result<Outcome, Difference> {
    let mut file = Guarded::holding("plant", plant, edge);
    let mut list = Guarded::holding("requests", requests, edge);
    let mut out = Guarded::holding("buffer", buffer, edge);
    // SAFETY: each pointer has as many bytes behind it as the length beside it.
    let number = unsafe {
        permits_batch(
            file.pointer(),
            plant.len(),
            list.pointer(),
            requests.len(),
            out.pointer(),
            buffer.len(),
        )
    };
    file.untouched(plant)?;
    list.untouched(requests)?;
    out.guards_hold()?;
    Ok(Outcome { number, out: out.content().to_vec() })
}

fn section_at(edge: Edge, plant: &[u8], kind: usize) -> Result<Place, Difference> {
    let mut file = Guarded::holding("plant", plant, edge);
    // SAFETY: the pointer has that many bytes behind it.
    let place = unsafe { permits_section(file.pointer(), plant.len(), kind) };
    file.untouched(plant)?;
    Ok(place)
}

/// A record lent to the console's functions, once at each edge; every call is
/// made on both.
pub struct Lent {
    at_end: Guarded,
    at_start: Guarded,
}

impl Lent {
    pub fn holding(record: &[u8]) -> Lent {
        assert_eq!(record.len(), RECORD, "the functions read and write a whole record");
        Lent {
            at_end: Guarded::holding("record", record, Edge::End),
            at_start: Guarded::holding("record", record, Edge::Start),
        }
    }

    /// The record at one edge; that at the other is the same.
    pub fn content(&self) -> &[u8] {
        self.at_end.content()
    }

    pub fn open(&mut self, plant: &[u8]) -> Result<u8, Difference> {
        self.on_both(|record| open_at(record, plant))
    }

    pub fn call(&mut self, request: [u8; 5]) -> Result<u8, Difference> {
        // SAFETY: a whole record.
        self.on_both(|record| Ok(unsafe { permits_call(record.pointer(), Request(request)) }))
    }

    pub fn queue(&mut self, requests: &[[u8; 5]], buffer: &[u8]) -> Result<Outcome, Difference> {
        self.on_both(|record| queue_at(record, requests, buffer))
    }

    fn on_both<T: PartialEq + Debug>(
        &mut self,
        call: impl Fn(&mut Guarded) -> Result<T, Difference>,
    ) -> Result<T, Difference> {
        let at_end = call(&mut self.at_end)?;
        self.at_end.guards_hold()?;
        let at_start = call(&mut self.at_start)?;
        self.at_start.guards_hold()?;
        same(|| OTHER_EDGE.to_string(), &at_end, &at_start)?;
        same_bytes(place_in_record, self.at_end.content(), self.at_start.content())?;
        Ok(at_end)
    }
}

/// Opening, with the file at the same edge as the record.
fn open_at(record: &mut Guarded, plant: &[u8]) -> Result<u8, Difference> {
    let mut file = Guarded::holding("plant", plant, record.edge());
    // SAFETY: a whole record, and as many bytes of the file as its length.
    let number = unsafe { permits_open(record.pointer(), file.pointer(), plant.len()) };
    file.untouched(plant)?;
    Ok(number)
}

/// A queue, with everything at the same edge as the record.
fn queue_at(
    record: &mut Guarded,
    requests: &[[u8; 5]],
    buffer: &[u8],
) -> Result<Outcome, Difference> {
    let bytes = requests.concat();
    let mut list = Guarded::holding("requests", &bytes, record.edge());
    let mut out = Guarded::holding("buffer", buffer, record.edge());
    let records = list.pointer() as *const Request;
    // SAFETY: a whole record, so many request records of five bytes, and as
    // many bytes of the buffer as its length.
    let number = unsafe {
        permits_queue(record.pointer(), records, requests.len(), out.pointer(), buffer.len())
    };
    list.untouched(&bytes)?;
    out.guards_hold()?;
    Ok(Outcome { number, out: out.content().to_vec() })
}

/// The part of the caller's bytes that a slice of them is; an empty one is at 0.
pub fn place_of(part: &[u8], whole: &[u8]) -> Place {
    match part.is_empty() {
        true => Place { begin: 0, length: 0 },
        false => {
            Place { begin: part.as_ptr() as usize - whole.as_ptr() as usize, length: part.len() }
        }
    }
}

#[cfg(test)]
mod tests {
    use super::*;

    #[test]
    fn a_call_is_made_at_both_edges_and_its_outcomes_are_compared() {
        assert!(at_both_edges(|_| Ok(7)).is_ok_and(|outcome| outcome == 7));
        assert!(at_both_edges(Ok).is_err());
    }

    #[test]
    fn a_call_is_made_on_both_records_and_the_records_are_compared() {
        let mut lent = Lent::holding(&[0; RECORD]);
        assert!(lent.on_both(|_| Ok(7)).is_ok_and(|outcome| outcome == 7));
        assert!(lent.on_both(|record| Ok(record.edge())).is_err());
        let written = lent.on_both(|record| {
            let byte = u8::from(record.edge() == Edge::Start);
            // SAFETY: the record has more than so many bytes.
            unsafe { *record.pointer().add(1600) = byte };
            Ok(7)
        });
        assert!(written.is_err_and(|difference| difference.what == place_in_record(1600)));
    }
}

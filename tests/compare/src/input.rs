//! What an entry is given. A comparison uses the parts that its entry has.

use std::fmt;

#[derive(Clone, PartialEq, Eq, Debug, Default)]
pub struct Input {
    /// A plant file; of the program, the whole of its standard input.
    pub plant: Vec<u8>,
    /// The bytes of a monitor's record, or none.
    pub record: Vec<u8>,
    /// Request bytes, five each.
    pub requests: Vec<u8>,
    /// The length of the buffer that is lent.
    pub buffer: usize,
}

impl Input {
    /// The buffer before the call. Its bytes follow from its length, so that the
    /// length alone has to be reported.
    pub fn buffer_bytes(&self) -> Vec<u8> {
        (0..self.buffer).map(|i| (i * 101 + i / 256 + 77) as u8).collect()
    }
}

/// The sizes of the parts, on one line.
impl fmt::Display for Input {
    fn fmt(&self, f: &mut fmt::Formatter) -> fmt::Result {
        let Input { plant, record, requests, buffer } = self;
        let [plant, record, requests] = [plant, record, requests].map(Vec::len);
        write!(f, "plant {plant}, record {record}, requests {requests}, buffer {buffer} bytes")
    }
}

//! What libFuzzer calls: the comparisons of tests/compare on the same bytes. Any difference, and any read or write outside what is lent,
//! ends the process, and libFuzzer keeps the input. The second implementation is compiled with coverage, so that its branches, 01's rules,
//! guide the search; the archives come as the kit compiles them.

use compare::comparisons::{batch, sections};
use compare::counts::Counts;
use compare::difference::Difference;
use compare::input::Input;

/// The plant file is as long as the input's bytes 20 and 21 say, as in the program permits; input that is shorter is all plant.
fn split(input: &[u8]) -> (&[u8], &[u8]) {
    let said = match input.get(20..22) {
        Some(bytes) => usize::from(u16::from_le_bytes([bytes[0], bytes[1]])),
        None => input.len(),
    };
    input.split_at(said.min(input.len()))
}

/// Says what differs and ends the process, where something does.
fn hold(input: &Input, outcome: Result<(), Difference>) {
    if let Err(difference) = outcome {
        panic!("a difference\n{difference}\n  input: {input}");
    }
}

/// # Safety
///
/// libFuzzer hands over `length` bytes at `data`.
#[no_mangle]
pub unsafe extern "C" fn LLVMFuzzerTestOneInput(data: *const u8, length: usize) -> i32 {
    let input = if length == 0 { &[] } else { std::slice::from_raw_parts(data, length) };
    let (plant, requests) = split(input);
    let room = requests.len() / 5 + 577;
    let fits = Input {
        plant: plant.to_vec(),
        requests: requests.to_vec(),
        buffer: room,
        ..Input::default()
    };
    let short = Input { buffer: room - 1, ..fits.clone() };
    hold(&fits, batch(&fits, &mut Counts::default()));
    hold(&short, batch(&short, &mut Counts::default()));
    hold(&fits, sections(&fits, 0..8));
    0
}

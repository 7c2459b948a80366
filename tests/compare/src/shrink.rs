//! The shortest input, found by leaving parts out, that still shows a
//! difference.
//!
//! Parts are left out by stretches, the longest first: half of the list, a
//! quarter, at last single items. A record keeps its length; its bytes become
//! zero instead.

use crate::input::Input;
use crate::smaller::{items, levels, without_items, without_levels};
use permit_monitor::gen::plants::state_length;
use permit_monitor::opening::HEADER;
use std::ops::Range;
use std::time::{Duration, Instant};

/// After this time the shortest input so far has to do.
const PATIENCE: Duration = Duration::from_secs(10);

/// A way to make an input shorter: how many items it can leave out, and the
/// input without a stretch of them.
struct Way {
    items: fn(&Input) -> usize,
    without: fn(&Input, Range<usize>) -> Input,
}

const WAYS: [Way; 9] = [
    Way { items: requests, without: without_requests_and_room },
    Way { items: requests, without: without_requests },
    Way { items: request_bytes, without: without_request_bytes },
    Way { items, without: without_items },
    Way { items: levels, without: without_levels },
    Way { items: plant_bytes, without: without_plant_bytes_restated },
    Way { items: plant_bytes, without: without_plant_bytes },
    Way { items: |input| input.buffer, without: without_room },
    Way { items: |input| input.record.len(), without: with_zeros_in_record },
];

/// The shortest input found for which `differs` still holds.
pub fn shortest(input: &Input, mut differs: impl FnMut(&Input) -> bool) -> Input {
    let begun = Instant::now();
    let mut limited = |input: &Input| begun.elapsed() < PATIENCE && differs(input);
    let mut best = input.clone();
    loop {
        let before = best.clone();
        for way in &WAYS {
            leave_out(&mut best, way, &mut limited);
        }
        if best == before {
            return best;
        }
    }
}

/// Leaves out whatever one way can leave out.
fn leave_out(best: &mut Input, way: &Way, differs: &mut impl FnMut(&Input) -> bool) {
    let mut stretch = (way.items)(best);
    while stretch > 0 {
        let mut at = 0;
        while at < (way.items)(best) {
            let end = (at + stretch).min((way.items)(best));
            let shorter = (way.without)(best, at..end);
            if shorter != *best && differs(&shorter) {
                *best = shorter;
            } else {
                at += stretch;
            }
        }
        stretch /= 2;
    }
}

fn requests(input: &Input) -> usize {
    input.requests.len() / 5
}

fn without_requests(input: &Input, range: Range<usize>) -> Input {
    let mut shorter = input.clone();
    shorter.requests.drain(5 * range.start..5 * range.end);
    shorter
}

/// A buffer that just fits, or just doesn't, still does so with fewer requests.
fn without_requests_and_room(input: &Input, range: Range<usize>) -> Input {
    let room = input.buffer.saturating_sub(range.len());
    Input { buffer: room, ..without_requests(input, range) }
}

fn request_bytes(input: &Input) -> usize {
    input.requests.len()
}

fn without_request_bytes(input: &Input, range: Range<usize>) -> Input {
    let mut shorter = input.clone();
    shorter.requests.drain(range);
    shorter
}

fn plant_bytes(input: &Input) -> usize {
    input.plant.len()
}

fn without_plant_bytes(input: &Input, range: Range<usize>) -> Input {
    let mut shorter = input.clone();
    shorter.plant.drain(range);
    shorter
}

/// The same, and the header states the length that is left.
fn without_plant_bytes_restated(input: &Input, range: Range<usize>) -> Input {
    let mut shorter = without_plant_bytes(input, range);
    if shorter.plant.len() >= HEADER {
        state_length(&mut shorter.plant);
    }
    shorter
}

fn without_room(input: &Input, range: Range<usize>) -> Input {
    Input { buffer: input.buffer - range.len(), ..input.clone() }
}

fn with_zeros_in_record(input: &Input, range: Range<usize>) -> Input {
    let mut simpler = input.clone();
    simpler.record[range].fill(0);
    simpler
}

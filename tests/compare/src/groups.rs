//! The groups of comparisons, and how many seeds each takes in the gate.

use crate::comparisons::{self as compare, Comparison};
use crate::counts::{BATCH, CALL, OPEN, QUEUE};
use crate::group::{Group, Inputs};
use crate::input::Input;
use crate::{every, program, seeded};
use permit_monitor::gen::Rng;

/// Of the relations on 1, 2, 3 and 4 levels, 1 + 3 + 19 + 219 are orders, and 1
/// + 2 + 6 + 36 of these are lattices: the numbers of partial orders and of
/// lattices on labelled points, known from combinatorics.
const ORDERS: u64 = 1 + 3 + 19 + 219;
const LATTICES: u64 = 1 + 2 + 6 + 36;
const RELATIONS: u64 = 2 + 16 + 512 + 65_536;

/// Six orders of the circle's levels, and up to 13 levels more, shared out in
/// every way between new bottoms and new tops. Each of them is refused.
const CIRCLES: u64 = 6 * (14 * 15 / 2);

/// The groups on the archives.
pub fn on_archives() -> Vec<Group> {
    [batch(), section(), opening(), lattices(), calls(), queue(), history()]
        .into_iter()
        .flatten()
        .collect()
}

fn batch() -> Vec<Group> {
    vec![
        group("batch, 01's session cut", every::CUTS, compare::batch),
        group("batch, 01's plant with a byte changed", every::BYTES, compare::batch),
        drawn("batch", 5000, seeded::batches, compare::batch),
    ]
}

fn section() -> Vec<Group> {
    vec![
        group("section, 01's plant with a byte changed", every::BYTES, compare::section),
        group("section, orders of the sections", every::ORDERS, compare::section),
        drawn("section", 8000, seeded::files, compare::section),
    ]
}

fn opening() -> Vec<Group> {
    vec![
        group("opening, 01's plant with a byte changed", every::BYTES, compare::opening),
        group("opening, orders of the sections", every::ORDERS, compare::opening),
        drawn("opening", 12_000, seeded::openings, compare::opening),
    ]
}

fn lattices() -> Vec<Group> {
    vec![
        Group {
            known: &[
                (OPEN, 0, LATTICES),
                (OPEN, 9, ORDERS - LATTICES),
                (OPEN, 8, RELATIONS - ORDERS),
            ],
            ..group("lattices up to 4 levels, files", every::RELATION_FILES, compare::opening)
        },
        Group {
            known: &[(CALL, 0, LATTICES), (CALL, 20, RELATIONS - LATTICES)],
            ..group("lattices up to 4 levels, records", every::RELATION_RECORDS, compare::calls)
        },
        group("layouts of a lattice, files", every::LAYOUT_FILES, compare::opening),
        group("layouts of a lattice, records", every::LAYOUT_RECORDS, compare::calls),
        Group {
            known: &[(OPEN, 8, CIRCLES), (BATCH, 8, CIRCLES)],
            ..group(
                "circles of three levels, files",
                every::CIRCLE_FILES,
                compare::opening_and_batch,
            )
        },
        Group {
            known: &[(CALL, 20, CIRCLES), (QUEUE, 20, CIRCLES)],
            ..group(
                "circles of three levels, records",
                every::CIRCLE_RECORDS,
                compare::calls_and_queue,
            )
        },
    ]
}

fn calls() -> Vec<Group> {
    vec![
        group("calls, requests of small numbers", every::REQUESTS, compare::calls),
        drawn("calls", 1200, seeded::lists, compare::calls),
        drawn("calls on damaged records", 200, seeded::damaged_records, compare::calls),
        drawn("calls on changed records", 3000, seeded::changed_records, compare::calls),
        drawn("calls on freely changed records", 600, seeded::freely_changed, compare::calls),
    ]
}

fn queue() -> Vec<Group> {
    vec![
        drawn("queue", 2000, seeded::queues, compare::queue),
        drawn("queue of wild requests", 2000, seeded::wild_queues, compare::queue),
        drawn("queue on damaged records", 200, seeded::damaged_records, compare::queue),
        drawn("queue on changed records", 3000, seeded::changed_records, compare::queue),
        drawn("queue on freely changed records", 2000, seeded::freely_changed, compare::queue),
    ]
}

fn history() -> Vec<Group> {
    vec![
        drawn("history", 3000, seeded::lists, compare::history),
        drawn("history of long lists", 1000, seeded::long_lists, compare::history),
        drawn("history with all rights held", 30, seeded::fullest_lists, compare::history),
        drawn("striking out the other skids", 1500, seeded::lists, compare::striking),
    ]
}

/// The groups on the program permits.
pub fn on_program() -> Vec<Group> {
    vec![
        group("program, input of fixed sizes", program::FIXED, program::printed),
        group("program, all rights held", program::ALL_HELD, program::printed),
        drawn("program", 400, program::inputs, program::printed),
    ]
}

fn drawn(
    name: &'static str,
    in_gate: u64,
    make: fn(&mut Rng) -> Vec<Input>,
    compare: Comparison,
) -> Group {
    group(name, Inputs::Seeded { in_gate, make }, compare)
}

fn group(name: &'static str, inputs: Inputs, compare: Comparison) -> Group {
    Group { name, inputs, compare, known: &[] }
}

//! Measures both sides and prints a table; or, for a profiler, makes one call of
//! one side.
//!
//!     bench all RATTLE BASELINE FOLDER PLOT
//!                                  nanoseconds and instructions of each row,
//!                                  with the two programs permits, and their
//!                                  plot; FOLDER is for inputs
//!     bench stack                  bytes of stack that each function needs
//!     bench once NAME SIDE         one call of a case, SIDE being rattle or
//!                                  baseline

use std::collections::BTreeMap;
use std::env;
use std::fs;
use std::process::ExitCode;

use permit_bench::cases::Case;
use permit_bench::clock::{times, Pair};
use permit_bench::count::instructions_in;
use permit_bench::measured::Measured;
use permit_bench::plot::plot;
use permit_bench::programs::Programs;
use permit_bench::rows::{cases, rows, Row, PLANTS};
use permit_bench::stack::stack_of;

fn main() -> ExitCode {
    let words: Vec<String> = env::args().skip(1).collect();
    let words: Vec<&str> = words.iter().map(String::as_str).collect();
    let done = match words[..] {
        ["all", rattle, baseline, folder, file] => {
            let [rattle, baseline, folder] = [rattle, baseline, folder].map(Into::into);
            print_all(&Programs { rattle, baseline, folder }, file)
        }
        ["stack"] => print_stack(),
        ["once", name, side] => once(name, side),
        _ => false,
    };
    if done {
        ExitCode::SUCCESS
    } else {
        ExitCode::FAILURE
    }
}

/// Each row is printed as soon as it is measured; the plot is of the same rows.
fn print_all(programs: &Programs, file: &str) -> bool {
    println!("{}", Measured::heading());
    let mut measured = Vec::new();
    for row in rows().into_iter().map(measure).chain(programs.measured()) {
        println!("{}", row.line());
        measured.push(row);
    }
    fs::write(file, plot(&PLANTS, &measured)).is_ok()
}

fn measure(Row { label, cost }: Row) -> Measured {
    let nanoseconds = cost.by(case_times);
    Measured { label, nanoseconds, instructions: cost.by(case_instructions) }
}

fn case_times(case: &Case) -> Pair {
    let mut sides = (case.sides)();
    times(&mut sides.rattle, &mut sides.baseline)
}

/// Each side is counted in a run of its own.
fn case_instructions(case: &Case) -> Pair {
    let this = env::current_exe().expect("the path of this program");
    let count = |function: &str, side: &str| {
        instructions_in(function, &this, &["once", &case.name, side]).expect("valgrind counts")
    };
    let [rattle, baseline] = case.functions;
    Pair { rattle: count(rattle, "rattle"), baseline: count(baseline, "baseline") }
}

fn print_stack() -> bool {
    println!("{:48} {:>9} {:>9}", "bytes of stack", "Rattle", "baseline");
    for (function, [rattle, baseline]) in most_stack() {
        println!("{function:48} {rattle:9} {baseline:9}");
    }
    true
}

/// The most that a function needs in any case, on each side.
fn most_stack() -> BTreeMap<&'static str, [usize; 2]> {
    let mut most: BTreeMap<&str, [usize; 2]> = BTreeMap::new();
    for case in cases() {
        let mut sides = (case.sides)();
        let [rattle, baseline] = most.entry(case.functions[0]).or_default();
        *rattle = stack_of(&mut sides.rattle).max(*rattle);
        *baseline = stack_of(&mut sides.baseline).max(*baseline);
    }
    most
}

fn once(name: &str, side: &str) -> bool {
    let Some(case) = cases().find(|case| case.name == name) else {
        return false;
    };
    let mut sides = (case.sides)();
    match side {
        "rattle" => (sides.rattle)(),
        "baseline" => (sides.baseline)(),
        _ => return false,
    }
    true
}

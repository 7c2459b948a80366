//! Holds the archives and the program permits to the second implementation.
//!
//!     compare                       the gate: every group, fixed seeds
//!     compare SEED COUNT            the seeded groups, COUNT seeds from SEED on
//!     compare SEED COUNT GROUP      the groups whose name begins so
//!     compare again FILE            the input in the file of a difference
//!     compare read EDGE AT          one read, for the test that a read outside is noticed
//!
//! It is run in the repository's folder. The last line is 'N passed, M failed'.

use compare::counts::{Counts, ENTRIES};
use compare::group::{Group, Inputs};
use compare::guarded::Edge;
use compare::{again, fault, groups, probe, program, saved};
use std::io::Write;
use std::path::Path;
use std::process::ExitCode;

const USAGE: &str = "usage: compare [SEED COUNT [GROUP] | again FILE], \
    SEED and COUNT being numbers and COUNT over 0";

/// The gate's first seed.
const SEED: u64 = 1;

/// What the command line asks for.
enum Asked {
    Groups(Wanted),
    Again(String),
    Read(Edge, isize),
}

/// Groups, and how much of them.
struct Wanted {
    seed: u64,
    /// None in the gate, where each group has its own count.
    count: Option<u64>,
    /// How the group's name begins.
    name: String,
}

#[derive(Default)]
struct Tally {
    passed: u64,
    failed: u64,
    counts: Counts,
}

fn main() -> ExitCode {
    fault::tell();
    let arguments: Vec<String> = std::env::args().skip(1).collect();
    let arguments: Vec<&str> = arguments.iter().map(String::as_str).collect();
    let mut tally = Tally::default();
    match asked(&arguments) {
        Some(Asked::Groups(wanted)) => tally.run_all(&wanted),
        Some(Asked::Again(file)) => tally.run_again(Path::new(&file)),
        Some(Asked::Read(edge, at)) => {
            probe::read(edge, at);
            return ExitCode::SUCCESS;
        }
        None => {
            println!("{USAGE}");
            return ExitCode::from(2);
        }
    }
    println!("{} passed, {} failed", tally.passed, tally.failed);
    ExitCode::from(u8::from(tally.failed != 0))
}

fn asked(arguments: &[&str]) -> Option<Asked> {
    Some(match arguments {
        ["again", file] => Asked::Again(file.to_string()),
        ["read", edge, at] => Asked::Read(probe::edge(edge)?, at.parse().ok()?),
        _ => Asked::Groups(wanted(arguments)?),
    })
}

fn wanted(arguments: &[&str]) -> Option<Wanted> {
    match arguments {
        [] => Some(Wanted { seed: SEED, count: None, name: String::new() }),
        [seed, count, name @ ..] if name.len() <= 1 => Some(Wanted {
            seed: seed.parse().ok()?,
            count: Some(count.parse().ok().filter(|&count| count > 0)?),
            name: name.concat(),
        }),
        _ => None,
    }
}

impl Wanted {
    /// A run by seeds leaves out the groups without any, unless they are named.
    fn has(&self, group: &Group) -> bool {
        let seeded = matches!(group.inputs, Inputs::Seeded { .. });
        let named = !self.name.is_empty();
        group.name.starts_with(&self.name) && (seeded || named || self.count.is_none())
    }
}

impl Tally {
    fn run_all(&mut self, wanted: &Wanted) {
        self.run(wanted, groups::on_archives());
        self.run_program(wanted);
        if self.passed + self.failed == 0 {
            self.add(false, "FAILED: there is no group whose name begins so");
        }
        self.report_counts(wanted);
    }

    fn run_again(&mut self, file: &Path) {
        match again::compared_again(file) {
            Ok(line) => self.add(true, &line),
            Err(lines) => self.add(false, &lines),
        }
    }

    fn run(&mut self, wanted: &Wanted, groups: Vec<Group>) {
        for group in groups.iter().filter(|group| wanted.has(group)) {
            let numbers = group.numbers(wanted.seed, wanted.count);
            let found = group.run(numbers.clone());
            self.counts.merge(&found.counts);
            let passes = found.first.is_none() && group.miscounted(&found).is_none();
            self.add(passes, &group.report(numbers, &found, Path::new(saved::FOLDER)));
        }
    }

    /// A program that is not built must not pass for one that was compared.
    fn run_program(&mut self, wanted: &Wanted) {
        let groups = groups::on_program();
        if program::is_built() {
            self.run(wanted, groups);
        } else if groups.iter().any(|group| wanted.has(group)) {
            println!("{}", program::MISSING);
            self.add(false, "FAILED: program: nothing was compared");
        }
    }

    /// How often each number was seen. The gate must see all of them; a run of
    /// some seeds or groups need not.
    fn report_counts(&mut self, wanted: &Wanted) {
        for entry in &ENTRIES {
            let line = self.counts.line(entry);
            let unseen = self.counts.unseen(entry);
            match (wanted.count, unseen.is_empty()) {
                (Some(_), _) if unseen.len() == entry.numbers.len() => (),
                (Some(_), _) => println!("seen: {line}"),
                (None, true) => self.add(true, &format!("passed: every number seen: {line}")),
                (None, false) => {
                    self.add(false, &format!("FAILED: never seen: {unseen:?}: {line}"))
                }
            }
        }
    }

    fn add(&mut self, passes: bool, report: &str) {
        match passes {
            true => self.passed += 1,
            false => self.failed += 1,
        }
        println!("{report}");
        // whatever was found must be written before a later group can crash
        std::io::stdout().flush().expect("standard output can be written");
    }
}

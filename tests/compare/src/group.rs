//! A group of comparisons: where its inputs come from, running it, and its
//! report.

use crate::comparisons::Comparison;
use crate::counts::Counts;
use crate::difference::Difference;
use crate::fault::{self, Case};
use crate::input::Input;
use crate::saved::Saved;
use crate::shrink::shortest;
use permit_monitor::gen::Rng;
use std::ops::Range;
use std::panic::{catch_unwind, AssertUnwindSafe};
use std::path::Path;
use std::thread;

pub struct Group {
    pub name: &'static str,
    pub inputs: Inputs,
    pub compare: Comparison,
    /// How often the entry gives each number in a whole run, where that is known
    /// without either implementation.
    pub known: &'static [(&'static str, u8, u64)],
}

/// The inputs of a group, some at a time.
#[derive(Clone, Copy)]
pub enum Inputs {
    /// Made from a seed; the gate takes so many seeds.
    Seeded { in_gate: u64, make: fn(&mut Rng) -> Vec<Input> },
    /// All there are, by number.
    Every { count: u64, make: fn(u64) -> Vec<Input> },
}

/// What one run of a group found.
#[derive(Default)]
pub struct Found {
    pub cases: u64,
    pub differing: u64,
    pub first: Option<First>,
    pub counts: Counts,
}

/// The first difference: its seed or number, the input and what differs.
pub struct First {
    pub number: u64,
    pub input: Input,
    pub difference: Difference,
}

impl Group {
    /// The seeds or numbers that a run takes: all there are, or from `seed` on.
    pub fn numbers(&self, seed: u64, count: Option<u64>) -> Range<u64> {
        match self.inputs {
            Inputs::Seeded { in_gate, .. } => seed..seed.saturating_add(count.unwrap_or(in_gate)),
            Inputs::Every { count, .. } => 0..count,
        }
    }

    /// Compares on all processors. Each input follows from its number alone, so
    /// the outcome does not depend on how the numbers are shared out.
    pub fn run(&self, numbers: Range<u64>) -> Found {
        let threads = thread::available_parallelism().map_or(1, |count| count.get() as u64);
        let share = |i: u64| numbers.clone().skip(i as usize).step_by(threads as usize);
        let mut found = Found::default();
        thread::scope(|scope| {
            let running: Vec<_> =
                (0..threads).map(|i| scope.spawn(move || self.run_share(share(i)))).collect();
            for thread in running {
                found.merge(thread.join().expect("a comparison's panic is caught"));
            }
        });
        found
    }

    /// The first known number that was not seen as often as it should be.
    pub fn miscounted(&self, found: &Found) -> Option<String> {
        let wrong = |&&(entry, number, count): &&(_, _, _)| found.counts.of(entry, number) != count;
        self.known.iter().find(wrong).map(|&(entry, number, count)| {
            let seen = found.counts.of(entry, number);
            format!("{entry} should give {number} {count} times, and gave it {seen} times")
        })
    }

    fn run_share(&self, numbers: impl Iterator<Item = u64>) -> Found {
        let mut found = Found::default();
        for number in numbers {
            fault::begin(self.case(number));
            match self.inputs_of(number) {
                Ok(inputs) => {
                    inputs.into_iter().for_each(|input| self.take(number, input, &mut found))
                }
                Err(difference) => found.add(number, Input::default(), Err(difference)),
            }
        }
        found
    }

    fn take(&self, number: u64, input: Input, found: &mut Found) {
        let outcome = self.compared(&input, &mut found.counts);
        found.add(number, input, outcome);
    }

    /// The generator uses the second implementation to aim its inputs.
    fn inputs_of(&self, number: u64) -> Result<Vec<Input>, Difference> {
        without_panic(|| {
            Ok(match self.inputs {
                Inputs::Seeded { make, .. } => make(&mut Rng::new(number)),
                Inputs::Every { make, .. } => make(number),
            })
        })
    }

    pub fn compared(&self, input: &Input, counts: &mut Counts) -> Result<(), Difference> {
        without_panic(|| (self.compare)(input, counts))
    }

    pub fn case(&self, number: u64) -> Case {
        let source = match self.inputs {
            Inputs::Seeded { .. } => "seed",
            Inputs::Every { .. } => "number",
        };
        Case { group: self.name, source, number }
    }

    /// The line of the group, and what differs where something does. The input
    /// is put into a file of this folder.
    pub fn report(&self, numbers: Range<u64>, found: &Found, folder: &Path) -> String {
        let source = match self.inputs {
            Inputs::Seeded { .. } => format!("seeds {} to {}", numbers.start, numbers.end - 1),
            Inputs::Every { .. } => "every one".to_string(),
        };
        let line = format!("{}: {} cases, {source}", self.name, found.cases);
        match (&found.first, self.miscounted(found)) {
            (None, None) => format!("passed: {line}"),
            (None, Some(wrong)) => format!("FAILED: {line}: {wrong}"),
            (Some(first), _) => {
                let differing = found.differing;
                let explained = self.explain(first, folder);
                format!("{explained}\nFAILED: {line}, {differing} of them differ")
            }
        }
    }

    /// What differs, on the shortest input that shows it, and how to repeat it.
    fn explain(&self, first: &First, folder: &Path) -> String {
        let case = self.case(first.number);
        fault::begin(case);
        let (input, difference) = self.shortened(first);
        let Case { group, source, number } = case;
        let saved = Saved { group: group.to_string(), number, input };
        let repeat = match saved.write(folder, &difference) {
            Ok(path) => format!("file: {0}\n  repeat: tests/rust/run again {0}", path.display()),
            Err(error) => {
                format!("no file: {error}\n  repeat: tests/rust/run {number} 1 \"{group}\"")
            }
        };
        format!("{group}: {source} {number}\n{difference}\n  input: {}\n  {repeat}", saved.input)
    }

    /// The shortest input that shows a difference, and that difference.
    fn shortened(&self, first: &First) -> (Input, Difference) {
        // a shorter input that panics shows another fault than one that differs
        let panics = |difference: &Difference| difference.got == PANIC;
        let differs = |input: &Input| {
            let outcome = self.compared(input, &mut Counts::default());
            outcome.is_err_and(|difference| panics(&difference) == panics(&first.difference))
        };
        // the shrinker reads plants with the second implementation too
        let shorter = without_panic(|| Ok(shortest(&first.input, differs)));
        let input = shorter.unwrap_or_else(|_| first.input.clone());
        let again = self.compared(&input, &mut Counts::default());
        let difference = again.err().unwrap_or_else(|| first.difference.clone());
        (input, difference)
    }
}

/// What a difference says of a panic.
const PANIC: &str = "a panic, written to standard error";

/// The second implementation must not panic on any input; where it does, that is
/// reported with the seed like any difference.
fn without_panic<T>(work: impl FnOnce() -> Result<T, Difference>) -> Result<T, Difference> {
    catch_unwind(AssertUnwindSafe(work)).unwrap_or_else(|_| {
        Err(Difference {
            what: "an answer of the second implementation".to_string(),
            expected: "any".to_string(),
            got: PANIC.to_string(),
        })
    })
}

impl Found {
    fn add(&mut self, number: u64, input: Input, outcome: Result<(), Difference>) {
        self.cases += 1;
        if let Err(difference) = outcome {
            self.differing += 1;
            self.first.get_or_insert(First { number, input, difference });
        }
    }

    fn merge(&mut self, other: Found) {
        self.cases += other.cases;
        self.differing += other.differing;
        self.counts.merge(&other.counts);
        self.first = match (self.first.take(), other.first) {
            (Some(a), Some(b)) => Some(if a.number <= b.number { a } else { b }),
            (a, b) => a.or(b),
        };
    }
}

#[cfg(test)]
mod tests {
    use super::*;
    use crate::difference::same;

    /// Differs from the byte 7 on, at great length.
    fn wrong(input: &Input, _: &mut Counts) -> Result<(), Difference> {
        let got = if input.plant.contains(&7) { [7; 1000] } else { [0; 1000] };
        same(|| "a thousand numbers".to_string(), &[0; 1000], &got)
    }

    /// Its inputs have the bytes up to their number, but the first has none.
    const GROUP: Group = Group {
        name: "a group's name, with a comma",
        inputs: Inputs::Every {
            count: 10,
            make: |number| vec![Input { plant: (1..=number as u8).collect(), ..Input::default() }],
        },
        compare: wrong,
        known: &[],
    };

    #[test]
    fn a_difference_is_reported_short_and_its_input_is_in_a_file() {
        let folder = std::env::temp_dir().join(format!("compare-{}", std::process::id()));
        let found = GROUP.run(0..10);
        let report = GROUP.report(0..10, &found, &folder);
        let path = folder.join("a-group-s-name-with-a-comma-7.txt");
        let saved = Saved::read(&path).expect("the file is there");
        std::fs::remove_dir_all(&folder).expect("the folder is there");

        assert_eq!(saved.group, GROUP.name);
        assert_eq!(saved.input, Input { plant: vec![7], ..Input::default() });
        assert!(GROUP.compared(&saved.input, &mut Counts::default()).is_err());
        let lines: Vec<&str> = report.lines().collect();
        assert_eq!(lines.len(), 8, "{report}");
        assert!(lines.iter().all(|line| line.len() < 300), "{report}");
        assert_eq!(lines[0], "a group's name, with a comma: number 7");
        assert_eq!(lines[4], "  input: plant 1, record 0, requests 0, buffer 0 bytes");
        assert_eq!(lines[5], format!("  file: {}", path.display()));
        assert_eq!(lines[6], format!("  repeat: tests/rust/run again {}", path.display()));
        let last = "FAILED: a group's name, with a comma: 10 cases, every one, 3 of them differ";
        assert_eq!(lines[7], last);
    }
}

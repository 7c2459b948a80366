//! The program permits beside the baseline's, each as a whole process.

use std::fs::{self, File};
use std::io;
use std::path::{Path, PathBuf};
use std::process::{Command, Stdio};

use crate::clock::{times, Pair};
use crate::count::instructions_of;
use crate::inputs::{list, maximum_plant, paper_plant, MIXED, PAPER_SESSION};
use crate::measured::Measured;
use crate::rows::{Label, NO_AIM, PLANTS, PROGRAM_AIM};

/// The two programs and a folder for their inputs.
pub struct Programs {
    pub rattle: PathBuf,
    pub baseline: PathBuf,
    pub folder: PathBuf,
}

/// How long the long input is, at most.
const LONG: usize = 65_000;

impl Programs {
    /// The rows, each measured when it is asked for.
    pub fn measured(&self) -> impl Iterator<Item = Measured> + '_ {
        inputs().into_iter().map(|(label, bytes)| self.measure(label, &bytes))
    }

    /// Both must print the same.
    fn measure(&self, label: Label, bytes: &[u8]) -> Measured {
        let input = self.folder.join("input");
        fs::write(&input, bytes).expect("the input is written");
        let run = |program: &Path| output(program, &input).expect("the program runs");
        assert!(run(&self.rattle) == run(&self.baseline), "{}: they differ", label.name);
        let count = |program: &Path| instructions_of(program, &input).expect("valgrind counts");
        Measured {
            label,
            nanoseconds: times(&mut || drop(run(&self.rattle)), &mut || drop(run(&self.baseline))),
            instructions: Pair { rattle: count(&self.rattle), baseline: count(&self.baseline) },
        }
    }
}

/// No input shows what a process costs that has nothing to do.
fn inputs() -> [(Label, Vec<u8>); 3] {
    let label = |plant, name: &str, aim| Label { plant, name: format!("permits, {name}"), aim };
    let session = [paper_plant(), PAPER_SESSION.concat()].concat();
    let plant = maximum_plant();
    let requests = list(&plant, &MIXED, (LONG - plant.len()) / 5);
    [
        (label("no plant", "no input", NO_AIM), Vec::new()),
        (label(PLANTS[0], "01's session", PROGRAM_AIM), session),
        (label(PLANTS[1], "65,000 bytes", PROGRAM_AIM), [plant, requests.concat()].concat()),
    ]
}

fn output(program: &Path, input: &Path) -> io::Result<Vec<u8>> {
    let input = Stdio::from(File::open(input)?);
    Ok(Command::new(program).stdin(input).output()?.stdout)
}

//! The program permits: what it prints for its standard input, however the
//! input reaches it.

use crate::counts::{Counts, PROGRAM};
use crate::difference::{same, Difference};
use crate::group::Inputs;
use crate::input::Input;
use crate::session;
use permit_monitor::gen::{program_input, Rng};
use permit_monitor::permits::LONGEST_INPUT;
use std::fs::{self, File};
use std::io::{self, Read, Write};
use std::path::{Path, PathBuf};
use std::process::{Child, Command, Stdio};
use std::thread;
use std::time::Duration;

/// Where `rt run` puts the program, seen from the repository.
const PROGRAM_FILE: &str = "crates/permits/out/permits";

/// Input is given byte by byte up to this length, or at one of `SIZES`.
const BYTE_BY_BYTE: usize = 6000;

/// Lengths of input around 01's limits: 24, the plant of 132 bytes and one
/// request more, the most requests behind it, and 65,536.
const SIZES: [usize; 17] =
    [0, 1, 2, 21, 22, 23, 24, 25, 131, 132, 133, 137, 65_532, 65_535, 65_536, 65_537, 131_072];

/// What is to be done where there is none.
pub const MISSING: &str = "crates/permits/out/permits is missing; `make` builds it";

/// Whether there is a program to compare.
pub fn is_built() -> bool {
    Path::new(PROGRAM_FILE).exists()
}

/// How the input reaches the program.
#[derive(Clone, Copy, Debug)]
enum Feed {
    File,
    Pipe,
    /// In two writes, the second after a pause, so that the first read is short.
    Halves,
    HeaderFirst,
    ByteByByte,
}

/// Generated plants and requests.
pub fn inputs(rng: &mut Rng) -> Vec<Input> {
    vec![Input { plant: program_input(rng), ..Input::default() }]
}

/// All 192 rights held, on the smallest plant that has them: after the calls
/// that it takes, and after as many requests of unknown kind as fit, which is
/// the longest text that the program can print.
pub const ALL_HELD: Inputs = Inputs::Every {
    count: 2,
    make: |number| {
        let mut plant = session::all_rights_plant();
        plant.extend((0..8).flat_map(|skid| [0, skid, 0, 0, 0, 1, skid, 0, 0, 0]));
        while number == 1 && plant.len() + 5 <= LONGEST_INPUT {
            plant.extend([9, 0, 0, 0, 0]);
        }
        vec![Input { plant, ..Input::default() }]
    },
};

/// 01's session cut or lengthened to each size: with stops of skid 1 behind it,
/// and with zeros.
pub const FIXED: Inputs = Inputs::Every {
    count: 2 * SIZES.len() as u64,
    make: |number| {
        let mut plant = [session::plant(), session::REQUESTS.concat()].concat();
        let size = SIZES[(number / 2) as usize];
        while plant.len() < size && number.is_multiple_of(2) {
            plant.extend([2, 1, 0, 0, 0]);
        }
        plant.resize(size, 0);
        vec![Input { plant, ..Input::default() }]
    },
};

/// The program prints the same, however it is fed.
pub fn printed(input: &Input, counts: &mut Counts) -> Result<(), Difference> {
    let expected = String::from_utf8_lossy(&permit_monitor::permits(&input.plant)).into_owned();
    let mut feeds = vec![Feed::File, Feed::Pipe, Feed::Halves, Feed::HeaderFirst];
    if input.plant.len() <= BYTE_BY_BYTE || SIZES.contains(&input.plant.len()) {
        feeds.push(Feed::ByteByByte);
    }
    for feed in feeds {
        let got = run(&input.plant, feed).unwrap_or_else(|error| format!("no run: {error}"));
        same(|| format!("what is printed, input by {feed:?}"), &expected, &got)?;
    }
    number_of(&expected).into_iter().for_each(|number| counts.add(PROGRAM, number));
    Ok(())
}

/// The number that the first line gives: of a refusal, or 0 for a session.
fn number_of(printed: &str) -> Option<u8> {
    let first: Vec<&str> = printed.lines().next()?.split(' ').collect();
    match first[..] {
        ["long"] => None,
        ["plant" | "requests", number] => number.parse().ok(),
        _ => Some(0),
    }
}

/// What the program prints. One that a signal ends is an error.
fn run(input: &[u8], feed: Feed) -> io::Result<String> {
    let path = input_file();
    let stdin = match feed {
        Feed::File => {
            fs::write(&path, input)?;
            Stdio::from(File::open(&path)?)
        }
        _ => Stdio::piped(),
    };
    let mut child = Command::new(PROGRAM_FILE).stdin(stdin).stdout(Stdio::piped()).spawn()?;
    let printed = fed(&mut child, input, feed)?;
    let status = child.wait()?;
    if matches!(feed, Feed::File) {
        fs::remove_file(&path)?;
    }
    match status.code() {
        Some(_) => Ok(printed),
        None => Err(io::Error::other(format!("ended by {status}"))),
    }
}

/// Writes the input while the output is read, so that neither waits for the
/// other.
fn fed(child: &mut Child, input: &[u8], feed: Feed) -> io::Result<String> {
    let stdin = child.stdin.take();
    let mut stdout = child.stdout.take().expect("the output is piped");
    let mut printed = Vec::new();
    thread::scope(|scope| {
        scope.spawn(move || stdin.map(|stdin| write(stdin, input, feed)));
        stdout.read_to_end(&mut printed)
    })?;
    Ok(String::from_utf8_lossy(&printed).into_owned())
}

/// Writes until the program stops reading, which it may do once it knows that
/// the input is too long.
fn write(mut stdin: impl Write, input: &[u8], feed: Feed) {
    let cut = match feed {
        Feed::ByteByByte => {
            let _ = input.chunks(1).try_for_each(|byte| stdin.write_all(byte));
            return;
        }
        Feed::Halves => input.len() / 2,
        Feed::HeaderFirst => input.len().min(24),
        Feed::File | Feed::Pipe => 0,
    };
    let (first, second) = input.split_at(cut);
    if !first.is_empty() && stdin.write_all(first).is_ok() {
        thread::sleep(Duration::from_millis(5));
    }
    let _ = stdin.write_all(second);
}

/// A file for this thread alone.
fn input_file() -> PathBuf {
    let thread = format!("{:?}", thread::current().id());
    let number: String = thread.chars().filter(char::is_ascii_digit).collect();
    PathBuf::from(format!("target/compare/input-{}-{number}", std::process::id()))
}

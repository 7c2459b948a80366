//! A differing input in a file, from which it can be compared again.
//!
//! The file has a line for each part of the input, bytes in base sixteen.

use crate::archives::RECORD;
use crate::difference::Difference;
use crate::input::Input;
use std::path::{Path, PathBuf};
use std::{fs, io};

/// Where the files stand, seen from the repository.
pub const FOLDER: &str = "target/compare/differences";

/// An input, and the group that compares it.
#[derive(PartialEq, Eq, Debug)]
pub struct Saved {
    pub group: String,
    /// The seed or number from which the input, or a longer one, was made.
    pub number: u64,
    pub input: Input,
}

impl Saved {
    /// Writes the file, with the difference in full.
    pub fn write(&self, folder: &Path, difference: &Difference) -> io::Result<PathBuf> {
        let path = folder.join(self.file_name());
        let Difference { what, expected, got } = difference;
        let repeat = "# compared again by tests/rust/run again FILE\n";
        let comment = format!("{repeat}# differs: {what}\n# expected: {expected}\n# got: {got}\n");
        fs::create_dir_all(folder)?;
        fs::write(&path, comment + &self.text())?;
        Ok(path)
    }

    pub fn read(path: &Path) -> Result<Saved, String> {
        let text = fs::read_to_string(path).map_err(|error| error.to_string())?;
        Saved::of_text(&text)
    }

    /// The group and the number, in letters, digits and strokes.
    fn file_name(&self) -> String {
        let words = self.group.split(|c: char| !c.is_ascii_alphanumeric());
        let words: Vec<&str> = words.filter(|word| !word.is_empty()).collect();
        format!("{}-{}.txt", words.join("-"), self.number)
    }

    fn text(&self) -> String {
        let Saved { group, number, input } = self;
        format!(
            "group: {group}\nnumber: {number}\nplant: {}\nrecord: {}\nrequests: {}\nbuffer: {}\n",
            hex(&input.plant),
            hex(&input.record),
            hex(&input.requests),
            input.buffer
        )
    }

    fn of_text(text: &str) -> Result<Saved, String> {
        let input = Input {
            plant: part(text, "plant", bytes)?,
            record: part(text, "record", record)?,
            requests: part(text, "requests", bytes)?,
            buffer: part(text, "buffer", |value| value.parse().ok())?,
        };
        let number = part(text, "number", |value| value.parse().ok())?;
        let group = part(text, "group", |value| Some(value.to_string()))?;
        Ok(Saved { group, number, input })
    }
}

/// The part of this name. A line of no part is passed over.
fn part<T>(text: &str, name: &str, value: impl Fn(&str) -> Option<T>) -> Result<T, String> {
    let begins = format!("{name}:");
    let found = text.lines().find_map(|line| line.strip_prefix(&begins));
    let found = found.ok_or(format!("there is no line '{name}: ..'"))?;
    value(found.trim()).ok_or(format!("the line '{name}: ..' has no such value"))
}

fn hex(bytes: &[u8]) -> String {
    bytes.iter().map(|byte| format!("{byte:02x}")).collect()
}

fn bytes(hex: &str) -> Option<Vec<u8>> {
    let digits: Option<Vec<u8>> = hex.chars().map(|c| Some(c.to_digit(16)? as u8)).collect();
    let pairs = digits.filter(|digits| digits.len() % 2 == 0)?;
    Some(pairs.chunks(2).map(|pair| 16 * pair[0] + pair[1]).collect())
}

/// No record, or a whole one: a part of one cannot be lent.
fn record(hex: &str) -> Option<Vec<u8>> {
    bytes(hex).filter(|record| [0, RECORD].contains(&record.len()))
}

#[cfg(test)]
mod tests {
    use super::*;

    fn saved(input: Input) -> Saved {
        Saved { group: "batch, 01's session cut".to_string(), number: 17, input }
    }

    #[test]
    fn what_is_written_is_read() {
        let plant: Vec<u8> = (0..=255).collect();
        let record = vec![165; RECORD];
        let whole = saved(Input { plant, record, requests: vec![3, 0, 255, 0, 9], buffer: 587 });
        assert_eq!(Saved::of_text(&whole.text()), Ok(whole));
        let empty = saved(Input::default());
        assert_eq!(Saved::of_text(&empty.text()), Ok(empty));
    }

    #[test]
    fn a_damaged_file_is_refused() {
        let text = saved(Input { plant: vec![1, 2], ..Input::default() }).text();
        for (whole, damaged) in [
            ("group: ", "grop: "),
            ("number: 17", "number: -1"),
            ("plant: 0102", "plant: 010"),
            ("plant: 0102", "plant: 010x"),
            ("record:", ""),
            ("record:", "record: 00"),
            ("buffer: 0", "buffer: none"),
        ] {
            assert!(text.contains(whole));
            assert!(Saved::of_text(&text.replace(whole, damaged)).is_err(), "{damaged}");
        }
    }

    #[test]
    fn a_file_name_has_no_blank_and_no_quote() {
        assert_eq!(saved(Input::default()).file_name(), "batch-01-s-session-cut-17.txt");
    }
}

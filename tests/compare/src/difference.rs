//! What two implementations disagree about.

use std::fmt::{self, Debug};

/// One disagreement: `expected` is what the second implementation gives, `got`
/// what the archives or the program gave.
#[derive(Clone, Debug)]
pub struct Difference {
    pub what: String,
    pub expected: String,
    pub got: String,
}

/// At most so many characters of what was expected and got are shown.
const SHOWN: usize = 200;

/// So many characters that both have are shown before the first that differs,
/// where that one would not be shown otherwise.
const COMMON: usize = 40;

/// Three lines, whose length is limited.
impl fmt::Display for Difference {
    fn fmt(&self, f: &mut fmt::Formatter) -> fmt::Result {
        let Difference { what, expected, got } = self;
        let common = expected.chars().zip(got.chars()).take_while(|(a, b)| a == b).count();
        let from = if common < SHOWN { 0 } else { common - COMMON };
        let [expected, got] = [expected, got].map(|text| cut(text, from));
        write!(f, "  differs: {what}\n  expected: {expected}\n  got: {got}")
    }
}

/// The characters from this one on, and how many are left out on either side.
fn cut(text: &str, from: usize) -> String {
    let shown: String = text.chars().skip(from).take(SHOWN).collect();
    let before = match from {
        0 => String::new(),
        _ => format!("({from} characters left out) ..."),
    };
    let after = match text.chars().skip(from + SHOWN).count() {
        0 => String::new(),
        left => format!("... ({left} characters left out)"),
    };
    before + &shown + &after
}

/// Both are the same, or their difference under the name that `what` makes.
pub fn same<T: PartialEq + Debug + ?Sized>(
    what: impl FnOnce() -> String,
    expected: &T,
    got: &T,
) -> Result<(), Difference> {
    if expected == got {
        return Ok(());
    }
    Err(Difference { what: what(), expected: format!("{expected:?}"), got: format!("{got:?}") })
}

/// The same for numbers.
pub fn same_number(what: &str, expected: u8, got: u8) -> Result<(), Difference> {
    same(|| what.to_string(), &expected, &got)
}

/// The same for bytes of equal length: the difference names the first byte that
/// differs, as `place` calls it.
pub fn same_bytes(
    place: impl FnOnce(usize) -> String,
    expected: &[u8],
    got: &[u8],
) -> Result<(), Difference> {
    // most are the same, and this is the fastest way to see it
    if expected == got {
        return Ok(());
    }
    same(|| "length".to_string(), &expected.len(), &got.len())?;
    match (0..expected.len()).find(|&at| expected[at] != got[at]) {
        Some(at) => same(|| place(at), &expected[at], &got[at]),
        None => Ok(()),
    }
}

/// The fields of a record and where they begin, as include/permits.h has them.
const FIELDS: [(&str, usize); 14] = [
    ("plant.counts", 0),
    ("plant.lattice_sizes", 6),
    ("plant.lattice_sets, byte", 14),
    ("plant.requirement_lattice", 270),
    ("plant.group_requirement", 278),
    ("plant.tank_group", 286),
    ("plant.tank_level", 350),
    ("plant.task_requirements", 414),
    ("plant.task_rights", 430),
    ("plant.skid_tasks, byte", 558),
    ("levels", 574),
    ("running", 1598),
    ("chosen", 1606),
    ("past the record", 1670),
];

/// The name of a byte of a record.
pub fn place_in_record(at: usize) -> String {
    let (field, begin) = FIELDS.iter().rev().find(|(_, begin)| *begin <= at).unwrap_or(&FIELDS[0]);
    format!("record byte {at} ({field} {})", at - begin)
}

/// A difference in a longer comparison, with the step at which it showed.
pub fn at_step(step: usize, difference: Difference) -> Difference {
    Difference { what: format!("{} (at request {})", difference.what, step + 1), ..difference }
}

#[cfg(test)]
mod tests {
    use super::*;

    fn shown(expected: &str, got: &str) -> String {
        same(|| "answer".to_string(), expected, got).expect_err("they differ").to_string()
    }

    #[test]
    fn a_short_difference_is_shown_whole() {
        assert_eq!(shown("1", "2"), "  differs: answer\n  expected: \"1\"\n  got: \"2\"");
    }

    #[test]
    fn a_long_one_is_cut_behind_what_differs() {
        let text = shown(&("a".repeat(998) + "b"), &"a".repeat(999));
        let expected = format!("(959 characters left out) ...{}b\"", "a".repeat(40));
        assert_eq!(text.lines().nth(1), Some(format!("  expected: {expected}").as_str()));
    }

    #[test]
    fn a_long_one_is_cut_at_the_end() {
        let text = shown("1", &"a".repeat(999));
        let got = format!("\"{}... (801 characters left out)", "a".repeat(199));
        assert_eq!(text.lines().nth(2), Some(format!("  got: {got}").as_str()));
    }
}

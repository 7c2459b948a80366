//! What was measured, and how the table shows it.

use crate::clock::Pair;
use crate::rows::Label;

/// A row by both measures.
pub struct Measured {
    pub label: Label,
    pub nanoseconds: Pair,
    pub instructions: Pair,
}

impl Measured {
    /// What stands over the rows of the table.
    pub fn heading() -> String {
        let sides = format!("{:>9} {:>9} {:>6}", "Rattle", "baseline", "ratio");
        format!(
            "{:48} {:>26} {:>26}\n{:48} {sides} {sides} {:>5}",
            "", "nanoseconds", "instructions", "", "aim"
        )
    }

    /// Its row in the table.
    pub fn line(&self) -> String {
        let Label { plant, name, aim } = &self.label;
        let aim = aim.map_or("none".into(), |aim| format!("{aim:.1}"));
        let [times, counts] = [self.nanoseconds, self.instructions].map(cells);
        format!("{:48} {times} {counts} {aim:>5}", format!("{plant}, {name}"))
    }
}

fn cells(pair: Pair) -> String {
    format!("{:9.1} {:9.1} {:6.2}", pair.rattle, pair.baseline, pair.ratio())
}

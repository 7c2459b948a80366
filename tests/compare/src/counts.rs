//! How often each number of 01 was seen, entry by entry.

use std::collections::BTreeMap;

/// The entries whose numbers are counted, and the numbers of 01 that each can
/// give. A run of the gate must see every one of them.
pub const ENTRIES: [Entry; 7] = [
    Entry { name: OPEN, numbers: &[0, 1, 2, 3, 4, 5, 6, 7, 8, 9, 10, 11, 12] },
    Entry { name: CALL, numbers: &[0, 20, 21, 22, 23, 24, 25, 26, 27, 28, 29, 30, 32, 33] },
    Entry { name: QUEUE, numbers: &[0, 20, 31] },
    Entry { name: QUEUE_ANSWERS, numbers: ANSWERS },
    Entry { name: BATCH, numbers: &[0, 1, 2, 3, 4, 5, 6, 7, 8, 9, 10, 11, 12, 31, 34] },
    Entry { name: BATCH_ANSWERS, numbers: ANSWERS },
    Entry { name: PROGRAM, numbers: &[0, 1, 2, 3, 4, 5, 6, 7, 8, 9, 10, 11, 12, 34] },
];

pub const OPEN: &str = "permits_open";
pub const CALL: &str = "permits_call";
pub const QUEUE: &str = "permits_queue";
pub const QUEUE_ANSWERS: &str = "answers of permits_queue";
pub const BATCH: &str = "permits_batch";
pub const BATCH_ANSWERS: &str = "answers of permits_batch";
pub const PROGRAM: &str = "permits";

/// The answers to the requests of a list; 20 cannot be one of them.
const ANSWERS: &[u8] = &[0, 21, 22, 23, 24, 25, 26, 27, 28, 29, 30, 32, 33];

pub struct Entry {
    pub name: &'static str,
    pub numbers: &'static [u8],
}

#[derive(Clone, Default)]
pub struct Counts(BTreeMap<(&'static str, u8), u64>);

impl Counts {
    pub fn add(&mut self, entry: &'static str, number: u8) {
        *self.0.entry((entry, number)).or_insert(0) += 1;
    }

    pub fn add_all(&mut self, entry: &'static str, numbers: &[u8]) {
        numbers.iter().for_each(|&number| self.add(entry, number));
    }

    pub fn merge(&mut self, other: &Counts) {
        for (&key, count) in &other.0 {
            *self.0.entry(key).or_insert(0) += count;
        }
    }

    /// How often the entry gave the number.
    pub fn of(&self, entry: &'static str, number: u8) -> u64 {
        self.0.get(&(entry, number)).copied().unwrap_or(0)
    }

    /// The numbers that the entry can give and that were not seen.
    pub fn unseen(&self, entry: &Entry) -> Vec<u8> {
        let seen = |number: &&u8| self.0.contains_key(&(entry.name, **number));
        entry.numbers.iter().filter(|number| !seen(number)).copied().collect()
    }

    /// Each number that the entry gave, and how often, on one line.
    pub fn line(&self, entry: &Entry) -> String {
        let of_entry = self.0.iter().filter(|((name, _), _)| *name == entry.name);
        let numbers: Vec<String> =
            of_entry.map(|((_, number), count)| format!("{number} ({count})")).collect();
        format!("{}: {}", entry.name, numbers.join(", "))
    }
}

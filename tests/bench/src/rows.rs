//! What is measured: the rows of the table and of the plot, with their aims.

use crate::cases::{batch, console_cases, opening, queue, section, Case, Requests};
use crate::clock::Pair;
use crate::inputs::{list, maximum_plant, paper_plant, wild_list, MIXED, START_STOP};

/// The most that a ratio should be. Opening and a console's call test the whole
/// plant, a request of a batch does not.
const TEST_AIM: Option<f64> = Some(3.0);
const REQUEST_AIM: Option<f64> = Some(1.0);
pub const PROGRAM_AIM: Option<f64> = Some(1.2);
pub const NO_AIM: Option<f64> = None;

/// Requests in a measured list.
const REQUESTS: usize = 10_000;

/// Requests in a long one, in which what a list does once no longer shows.
const LONG: usize = 60_000;

/// The plants, by the names that the rows have.
pub const PLANTS: [&str; 2] = ["01's plant", "maximum plant"];

/// What a row is called, and its aim.
pub struct Label {
    pub plant: &'static str,
    pub name: String,
    pub aim: Option<f64>,
}

/// What is measured of it: a case, or the difference of two for each request.
pub enum Cost {
    Whole(Case),
    PerRequest { count: usize, full: Case, empty: Case },
}

pub struct Row {
    pub label: Label,
    pub cost: Cost,
}

impl Cost {
    /// The cost on both sides, where `measure` gives that of a case.
    pub fn by(&self, measure: fn(&Case) -> Pair) -> Pair {
        match self {
            Cost::Whole(case) => measure(case),
            Cost::PerRequest { count, full, empty } => measure(full).each(measure(empty), *count),
        }
    }

    fn into_cases(self) -> Vec<Case> {
        match self {
            Cost::Whole(case) => vec![case],
            Cost::PerRequest { full, empty, .. } => vec![full, empty],
        }
    }
}

impl Row {
    fn of(plant: &'static str, name: String, aim: Option<f64>, cost: Cost) -> Row {
        Row { label: Label { plant, name, aim }, cost }
    }
}

/// Every row, for both plants.
pub fn rows() -> Vec<Row> {
    let files = [paper_plant(), maximum_plant()];
    PLANTS.iter().zip(&files).flat_map(|(plant, file)| plant_rows(plant, file)).collect()
}

/// The cases of all rows; one that several rows have is there several times.
pub fn cases() -> impl Iterator<Item = Case> {
    rows().into_iter().flat_map(|row| row.cost.into_cases())
}

fn plant_rows(plant: &'static str, file: &[u8]) -> Vec<Row> {
    let whole = |name: &str, aim, case| Row::of(plant, name.into(), aim, Cost::Whole(case));
    let [set, start, gate] = console_cases(plant, file);
    let mut rows = vec![
        whole("opening", TEST_AIM, opening(plant, file)),
        whole("section", NO_AIM, section(plant, file)),
        whole("console, set", TEST_AIM, set),
        whole("console, start", TEST_AIM, start),
        whole("console, gate", TEST_AIM, gate),
        whole("batch, empty", NO_AIM, batch(plant, "empty", file, |_| Vec::new())),
    ];
    rows.extend(list_rows("batch", REQUEST_AIM, batch, plant, file));
    rows.push(later_request(plant, file));
    rows.extend(list_rows("queue", NO_AIM, queue, plant, file));
    rows
}

/// A request of each list, in a batch or in a queue.
fn list_rows(
    kind: &str,
    aim: Option<f64>,
    case: fn(&str, &str, &[u8], Requests) -> Case,
    plant: &'static str,
    file: &[u8],
) -> Vec<Row> {
    let lists: [(&str, Requests); 3] = [
        ("start and stop", |file| list(file, &START_STOP, REQUESTS)),
        ("any bytes", |_| wild_list(REQUESTS)),
        ("mixed", |file| list(file, &MIXED, REQUESTS)),
    ];
    let row = |(name, requests): (&str, Requests)| {
        let full = case(plant, name, file, requests);
        let empty = case(plant, "empty", file, |_| Vec::new());
        let cost = Cost::PerRequest { count: REQUESTS, full, empty };
        Row::of(plant, format!("{kind}, a request, {name}"), aim, cost)
    };
    lists.map(row).into()
}

/// A request behind the first of a long list: every choice that it needs was
/// made before.
fn later_request(plant: &'static str, file: &[u8]) -> Row {
    let cost = Cost::PerRequest {
        count: LONG - REQUESTS,
        full: batch(plant, "mixed, long", file, |file| list(file, &MIXED, LONG)),
        empty: batch(plant, "mixed", file, |file| list(file, &MIXED, REQUESTS)),
    };
    Row::of(plant, "batch, a later request, mixed".into(), REQUEST_AIM, cost)
}

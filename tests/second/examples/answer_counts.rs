//! How often each number occurs in a run of the generator. A change of the
//! generator that makes a number rare shows here first.
//!
//! The first argument is the seed, the second the number of cases.

use permit_monitor::choice::{nearest_tanks, tank_at_or_under};
use permit_monitor::gen::{
    accepted_file, any_plant_file, batch_case, calls, program_input, random_record, Rng, SIZES,
};
use permit_monitor::{batch, call, open, permits, test20, Record};

fn main() {
    let argument = |i: usize, otherwise: u64| {
        std::env::args().nth(i).and_then(|text| text.parse().ok()).unwrap_or(otherwise)
    };
    let mut rng = Rng::new(argument(1, 1));
    let cases = argument(2, 4000) as usize;
    print("opening, any file", &openings(&mut rng, cases));
    let (answers, choices) = answers(&mut rng, cases);
    print("calls on accepted plants", &answers);
    print_choices(choices);
    print("batch, any file", &batches(&mut rng, cases));
    let records: Vec<Record> = (0..cases).map(|_| random_record(&mut rng)).collect();
    let passed = records.iter().filter(|record| test20(record)).count();
    println!("random records: {passed} of {cases} pass test 20");
    programs(&mut rng, cases);
}

type Counts = [usize; 256];

fn openings(rng: &mut Rng, cases: usize) -> Counts {
    let mut counts = [0; 256];
    for _ in 0..cases {
        counts[usize::from(open(&any_plant_file(rng)).0)] += 1;
    }
    counts
}

/// For accepted starts: groups served, those with several tanks at or under the
/// level, those with several nearest tanks, and those in which the lowest tank
/// number at or under the level is not the choice.
type Choices = [usize; 4];

fn answers(rng: &mut Rng, cases: usize) -> (Counts, Choices) {
    let (mut counts, mut choices) = ([0; 256], [0; 4]);
    for case in 0..cases {
        let mut record = open(&accepted_file(rng, SIZES[case % 4])).1;
        let count = rng.below(120);
        for [kind, a, b, c, d] in calls(rng, &record.plant, count) {
            let answer = call(&mut record, kind, [a, b, c, d]);
            counts[usize::from(answer)] += 1;
            if kind == 1 && answer == 0 {
                look_at_choices(&record, usize::from(a), usize::from(b), &mut choices);
            }
        }
    }
    (counts, choices)
}

fn look_at_choices(record: &Record, skid: usize, task: usize, choices: &mut Choices) {
    let plant = &record.plant;
    for group in plant.needed_groups(task) {
        let v = usize::from(record.level(skid, task, plant.requirement_of(group)));
        let under: Vec<usize> =
            plant.tanks_of(group).into_iter().filter(|&t| tank_at_or_under(plant, t, v)).collect();
        choices[0] += 1;
        choices[1] += usize::from(under.len() > 1);
        choices[2] += usize::from(nearest_tanks(plant, group, v).len() > 1);
        choices[3] += usize::from(under[0] != usize::from(record.chosen(skid, group)));
    }
}

fn print_choices([groups, several, ties, not_first]: Choices) {
    println!("  groups served at accepted starts: {groups}");
    println!("    with several tanks at or under the level: {several}");
    println!("    with several nearest tanks: {ties}");
    println!("    choice is not the first tank at or under: {not_first}");
}

fn batches(rng: &mut Rng, cases: usize) -> Counts {
    let mut counts = [0; 256];
    for _ in 0..cases {
        let (file, requests, length) = batch_case(rng);
        counts[usize::from(batch(&file, &requests, &mut vec![0; length]))] += 1;
    }
    counts
}

/// First lines of the program, a session counted as one.
fn programs(rng: &mut Rng, cases: usize) {
    let mut lines = std::collections::BTreeMap::new();
    for _ in 0..cases {
        let printed = String::from_utf8(permits(&program_input(rng))).unwrap_or_default();
        let first = printed.lines().next().unwrap_or("").to_string();
        let session = first.starts_with("1 ") || first.starts_with("held");
        let key = if session { "a session".to_string() } else { first };
        *lines.entry(key).or_insert(0) += 1;
    }
    println!("program: {lines:?}");
}

fn print(title: &str, counts: &Counts) {
    println!("{title}:");
    for (number, count) in counts.iter().enumerate().filter(|(_, &count)| count > 0) {
        println!("  {number:3}: {count}");
    }
}

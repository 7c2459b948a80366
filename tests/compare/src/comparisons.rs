//! One comparison for each entry: the same input to both, and whatever comes
//! back is the same, the bytes that must stay included.

use crate::archives::{self, place_of, Lent, RECORD};
use crate::counts::{Counts, BATCH, BATCH_ANSWERS, CALL, OPEN, QUEUE, QUEUE_ANSWERS};
use crate::difference::{at_step, place_in_record, same, same_bytes, same_number, Difference};
use crate::input::Input;
use permit_monitor::batch::{request_records, HELD};
use permit_monitor::gen::{record_bytes, record_of_bytes};
use permit_monitor::plant::{SKIDS, TANKS};
use permit_monitor::{Plant, Record};

pub type Comparison = fn(&Input, &mut Counts) -> Result<(), Difference>;

/// Sections are asked for by these kinds: 01's six, and others near them, near
/// the ends of narrower numbers, and the greatest.
const KINDS: [usize; 18] = [
    0,
    1,
    2,
    3,
    4,
    5,
    6,
    7,
    255,
    256,
    257,
    65_536,
    65_541,
    1 << 32,
    (1 << 32) + 5,
    1 << 63,
    usize::MAX - 1,
    usize::MAX,
];

/// What a record holds before it is opened.
const NO_MEANING: [u8; RECORD] = [165; RECORD];

/// Batch: the number and the whole buffer.
pub fn batch(input: &Input, counts: &mut Counts) -> Result<(), Difference> {
    let mut expected = input.buffer_bytes();
    let number = permit_monitor::batch(&input.plant, &input.requests, &mut expected);
    let got = archives::batch(&input.plant, &input.requests, &input.buffer_bytes())?;
    counts.add(BATCH, got.number);
    same_number("number of the batch", number, got.number)?;
    same_bytes(|at| format!("buffer byte {at}"), &expected, &got.out)?;
    if number == 0 {
        counts.add_all(BATCH_ANSWERS, &got.out[..input.requests.len() / 5]);
    }
    Ok(())
}

/// Section: where the part of the caller's bytes stands, for every kind.
pub fn section(input: &Input, _: &mut Counts) -> Result<(), Difference> {
    sections(input, KINDS)
}

/// The same for these kinds.
pub fn sections(input: &Input, kinds: impl IntoIterator<Item = usize>) -> Result<(), Difference> {
    for kind in kinds {
        let part = permit_monitor::section(&input.plant, kind);
        let got = archives::section(&input.plant, kind)?;
        same(|| format!("section {kind}"), &place_of(part, &input.plant), &got)?;
    }
    Ok(())
}

/// Opening, into the record given or one of no meaning: the number and the whole
/// record.
pub fn opening(input: &Input, counts: &mut Counts) -> Result<(), Difference> {
    let (number, record) = permit_monitor::open(&input.plant);
    let mut lent = match input.record.is_empty() {
        true => Lent::holding(&NO_MEANING),
        false => Lent::holding(&input.record),
    };
    let got = lent.open(&input.plant)?;
    counts.add(OPEN, got);
    same_number("number of the opening", number, got)?;
    same_record(&record, &lent)
}

/// Calls one by one, on the record given or on the plant opened: each answer,
/// and the whole record after each.
pub fn calls(input: &Input, counts: &mut Counts) -> Result<(), Difference> {
    let (mut record, mut lent) = begin(input)?;
    for (step, request) in request_records(&input.requests).into_iter().enumerate() {
        let got = lent.call(request)?;
        counts.add(CALL, got);
        let [kind, a, b, c, d] = request;
        let answer = permit_monitor::call(&mut record, kind, [a, b, c, d]);
        same_number("answer", answer, got).map_err(|difference| at_step(step, difference))?;
        same_record(&record, &lent).map_err(|difference| at_step(step, difference))?;
    }
    Ok(())
}

/// Queue, on the record given or on the plant opened: the number, the whole
/// record and the whole buffer.
pub fn queue(input: &Input, counts: &mut Counts) -> Result<(), Difference> {
    let (mut record, mut lent) = begin(input)?;
    let requests = request_records(&input.requests);
    let mut expected = input.buffer_bytes();
    let number = permit_monitor::queue(&mut record, &requests, &mut expected);
    let got = lent.queue(&requests, &input.buffer_bytes())?;
    counts.add(QUEUE, got.number);
    same_number("number of the queue", number, got.number)?;
    same_bytes(|at| format!("buffer byte {at}"), &expected, &got.out)?;
    same_record(&record, &lent)?;
    if number == 0 {
        counts.add_all(QUEUE_ANSWERS, &got.out[..requests.len()]);
    }
    Ok(())
}

/// History: the batch's answers and rights, the queue's answers, and the gates
/// after the list are those that the list's history gives.
pub fn history(input: &Input, _: &mut Counts) -> Result<(), Difference> {
    let Some(plant) = accepted(&input.plant) else { return Ok(()) };
    let requests = request_records(&input.requests);
    let answers = permit_monitor::history_answers(&plant, &requests);
    let rights = permit_monitor::history_rights(&plant, &requests);
    let got = batch_of(&input.plant, &requests)?;
    same_bytes(|at| format!("answer {} of the batch", at + 1), &answers, &got.0)?;
    same(|| "rights of the batch".to_string(), &rights, &got.1)?;

    let mut lent = Lent::holding(&NO_MEANING);
    lent.open(&input.plant)?;
    let out = lent.queue(&requests, &vec![0; requests.len()])?.out;
    same_bytes(|at| format!("answer {} of the queue", at + 1), &answers, &out)?;
    same(|| "rights by the gates".to_string(), &rights, &open_gates(&plant, &mut lent)?)
}

/// Striking out every call that names another skid leaves this skid's answers,
/// in their order, and its rights as they were.
pub fn striking(input: &Input, _: &mut Counts) -> Result<(), Difference> {
    let Some(plant) = accepted(&input.plant) else { return Ok(()) };
    let requests = request_records(&input.requests);
    let answers = permit_monitor::history_answers(&plant, &requests);
    let rights = permit_monitor::history_rights(&plant, &requests);
    for skid in 0..plant.skids {
        let stays = |&i: &usize| requests[i][0] > 3 || requests[i][1] == skid;
        let left: Vec<usize> = (0..requests.len()).filter(stays).collect();
        let list: Vec<[u8; 5]> = left.iter().map(|&i| requests[i]).collect();
        let expected: Vec<u8> = left.iter().map(|&i| answers[i]).collect();
        let own: Rights = rights.iter().copied().filter(|right| right.0 == skid).collect();
        let got = batch_of(&input.plant, &list)?;
        same(|| format!("answers to skid {skid} alone"), &expected, &got.0)?;
        same(|| format!("rights of skid {skid} alone"), &own, &got.1)?;
    }
    Ok(())
}

/// A plant file by both entries that open one.
pub fn opening_and_batch(input: &Input, counts: &mut Counts) -> Result<(), Difference> {
    opening(input, counts)?;
    batch(input, counts)
}

/// A record by both entries that test one.
pub fn calls_and_queue(input: &Input, counts: &mut Counts) -> Result<(), Difference> {
    calls(input, counts)?;
    queue(input, counts)
}

/// Skid, tank and right of each right held.
type Rights = Vec<(u8, u8, u8)>;

/// The plant of a file that opening accepts.
fn accepted(file: &[u8]) -> Option<Plant> {
    match permit_monitor::open(file) {
        (0, record) => Some(record.plant),
        _ => None,
    }
}

/// The answers and the rights of a batch that must be accepted.
fn batch_of(plant: &[u8], requests: &[[u8; 5]]) -> Result<(Vec<u8>, Rights), Difference> {
    let n = requests.len();
    let got = archives::batch(plant, &requests.concat(), &vec![0; n + HELD])?;
    same_number("number of the batch", 0, got.number)?;
    let count = usize::from(got.out[n]);
    let rights = got.out[n + 1..].chunks_exact(3).take(count).map(|r| (r[0], r[1], r[2]));
    Ok((got.out[..n].to_vec(), rights.collect()))
}

/// The rights for which a gate answers 0.
fn open_gates(plant: &Plant, lent: &mut Lent) -> Result<Rights, Difference> {
    let mut gates = Vec::new();
    for skid in 0..plant.count(SKIDS) as u8 {
        for tank in 0..plant.count(TANKS) as u8 {
            gates.extend([0, 1, 2].map(|right| [3, skid, tank, right, 0]));
        }
    }
    let answers = lent.queue(&gates, &vec![0; gates.len()])?.out;
    let opened = gates.iter().zip(answers).filter(|(_, answer)| *answer == 0);
    Ok(opened.map(|(gate, _)| (gate[1], gate[2], gate[3])).collect())
}

/// The same record for both: the one given, or the one that each opens.
fn begin(input: &Input) -> Result<(Record, Lent), Difference> {
    if !input.record.is_empty() {
        return Ok((record_of_bytes(&input.record), Lent::holding(&input.record)));
    }
    let mut lent = Lent::holding(&NO_MEANING);
    lent.open(&input.plant)?;
    let (_, record) = permit_monitor::open(&input.plant);
    same_record(&record, &lent)?;
    Ok((record, lent))
}

/// The whole record, entries past the counts included.
fn same_record(expected: &Record, lent: &Lent) -> Result<(), Difference> {
    same_bytes(place_in_record, &record_bytes(expected), lent.content())
}

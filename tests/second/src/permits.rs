//! The program permits: what it prints for what it reads.

use crate::batch::{batch, HELD, REQUEST};
use crate::opening::{stated_length, HEADER};

/// "Over 65,536 bytes it prints "long" only."
pub const LONGEST_INPUT: usize = 65_536;

/// "It reads standard input: a plant file, then request bytes." The bytes that
/// it prints, each line ended by a newline.
pub fn permits(input: &[u8]) -> Vec<u8> {
    printed(input).into_bytes()
}

fn printed(input: &[u8]) -> String {
    if input.len() > LONGEST_INPUT {
        return "long\n".to_string();
    }
    match plant_length(input) {
        Some(length) => session(&input[..length], &input[length..]),
        None => "plant 1\n".to_string(),
    }
}

/// "It hands on as many bytes as bytes 20 and 21 say; with under 24 bytes of
/// input, or fewer than that number, it prints "plant 1"."
fn plant_length(input: &[u8]) -> Option<usize> {
    if input.len() < HEADER || input.len() < stated_length(input) {
        return None;
    }
    Some(stated_length(input))
}

/// The batch call, and its answer in words: "Another refusal prints "plant" or
/// "requests" (for 34) and the number." The buffer is always long enough, so 31
/// does not occur.
fn session(plant: &[u8], requests: &[u8]) -> String {
    let n = requests.len() / REQUEST;
    let mut out = vec![0; n + HELD];
    match batch(plant, requests, &mut out) {
        0 => answer_lines(&out[..n]) + &held_lines(&out[n..]),
        34 => "requests 34\n".to_string(),
        number => format!("plant {number}\n"),
    }
}

/// "request number from 1 and its answer", one line each.
fn answer_lines(answers: &[u8]) -> String {
    answers.iter().enumerate().map(|(i, answer)| format!("{} {answer}\n", i + 1)).collect()
}

/// "the word held and the count; skid, tank, right of each right held, in the
/// batch's order", one line each.
fn held_lines(held: &[u8]) -> String {
    let count = usize::from(held[0]);
    let rights = held[1..].chunks_exact(3).take(count);
    let lines: String = rights.map(|r| format!("{} {} {}\n", r[0], r[1], r[2])).collect();
    format!("held {count}\n{lines}")
}

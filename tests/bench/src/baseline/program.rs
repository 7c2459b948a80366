//! What the program permits prints for what it reads.

use std::mem::MaybeUninit;

use super::lists::batch;

pub const LONGEST_INPUT: usize = 65_536;

/// A line of at most nine bytes for each request of the longest list; the line
/// of the count; and 192 lines of rights.
pub const LONGEST_OUTPUT: usize = LONGEST_INPUT / 5 * 9 + 9 + 192 * 7;

/// Answers of the longest list and the rights held.
const ROOM: usize = LONGEST_INPUT / 5 + 577;

/// Lines written to a buffer that has room for them.
struct Lines<'a> {
    out: &'a mut [u8],
    end: usize,
}

impl Lines<'_> {
    #[inline(always)]
    fn text(&mut self, text: &[u8]) {
        self.out[self.end..self.end + text.len()].copy_from_slice(text);
        self.end += text.len();
    }

    /// A number under 256 and the byte behind it.
    #[inline(always)]
    fn number(&mut self, number: u8, then: u8) {
        if number >= 100 {
            self.text(&[b'0' + number / 100]);
        }
        if number >= 10 {
            self.text(&[b'0' + number / 10 % 10]);
        }
        self.text(&[b'0' + number % 10, then]);
    }
}

/// Counts up in digits, so that no number is divided for its line.
struct Counter {
    digits: [u8; 5],
    from: usize,
}

impl Counter {
    fn zero() -> Counter {
        Counter { digits: *b"00000", from: 4 }
    }

    #[inline(always)]
    fn next(&mut self) -> &[u8] {
        let mut place = 4;
        while self.digits[place] == b'9' {
            self.digits[place] = b'0';
            place -= 1;
        }
        self.digits[place] += 1;
        self.from = self.from.min(place);
        &self.digits[self.from..]
    }
}

/// The bytes printed for the input, which stand first in `out`.
pub fn permits<'a>(input: &[u8], out: &'a mut [u8; LONGEST_OUTPUT]) -> &'a [u8] {
    let mut lines = Lines { out, end: 0 };
    print(input, &mut lines);
    let Lines { out, end } = lines;
    &out[..end]
}

fn print(input: &[u8], lines: &mut Lines) {
    if input.len() > LONGEST_INPUT {
        return lines.text(b"long\n");
    }
    if input.len() < 24 {
        return lines.text(b"plant 1\n");
    }
    let length = usize::from(u16::from_le_bytes([input[20], input[21]]));
    if input.len() < length {
        return lines.text(b"plant 1\n");
    }
    let (plant, requests) = input.split_at(length);
    let n = requests.len() / 5;
    // The batch writes what is read of them before it is read.
    let mut answers = MaybeUninit::<[u8; ROOM]>::uninit();
    let answers = unsafe { std::slice::from_raw_parts_mut(answers.as_mut_ptr().cast(), n + 577) };
    match batch(plant, requests, answers) {
        0 => print_session(answers, n, lines),
        34 => lines.text(b"requests 34\n"),
        number => {
            lines.text(b"plant ");
            lines.number(number, b'\n');
        }
    }
}

fn print_session(answers: &[u8], n: usize, lines: &mut Lines) {
    let mut counter = Counter::zero();
    for &answer in &answers[..n] {
        lines.text(counter.next());
        lines.text(b" ");
        lines.number(answer, b'\n');
    }
    lines.text(b"held ");
    lines.number(answers[n], b'\n');
    let rights = answers[n + 1..].as_chunks::<3>().0;
    for &[skid, tank, right] in &rights[..usize::from(answers[n])] {
        lines.number(skid, b' ');
        lines.number(tank, b' ');
        lines.number(right, b'\n');
    }
}

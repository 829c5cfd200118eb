//! Captures: lines with every kind of end, joins, over-long lines, cut ends; and cuts into calls.

use crate::damage::damage;
use crate::line::{line, noise_of_bytes};
use crate::rng::Rng;

const LINE_ENDS: [&str; 5] = ["\n", "\r", "\r\n", "\n", "\r\n"];

/// The bytes that joining looks at, and a few that it does not.
const JOINING_BYTES: &[u8] = b"``\r\n\r\na \"x";

/// One capture of up to `most_lines` lines, well made, damaged, or noise.
pub fn capture(rng: &mut Rng, most_lines: usize) -> Vec<u8> {
    let mut bytes = match rng.below(10) {
        0 => noise_capture(rng, most_lines * 30),
        _ => capture_of_lines(rng, most_lines),
    };
    if rng.percent(20) {
        damage(rng, &mut bytes);
    }
    bytes
}

fn capture_of_lines(rng: &mut Rng, most_lines: usize) -> Vec<u8> {
    let mut bytes = Vec::new();
    for _ in 0..rng.between(0, most_lines) {
        let line = if rng.percent(4) {
            over_long_line(rng)
        } else {
            line(rng)
        };
        put_with_joins(rng, &line, &mut bytes);
        bytes.extend_from_slice(rng.pick_text(&LINE_ENDS));
    }
    put_cut_end(rng, &mut bytes);
    bytes
}

/// The line's bytes, with GRAVE and an end of line put in here and there.
fn put_with_joins(rng: &mut Rng, line: &[u8], bytes: &mut Vec<u8>) {
    let has_joins = rng.percent(25);
    for &byte in line {
        if has_joins && rng.percent(6) {
            bytes.push(b'`');
            bytes.extend_from_slice(rng.pick_text(&LINE_ENDS));
        }
        bytes.push(byte);
    }
}

/// Lines around and far past 1,024 bytes, with GRAVE pairs on the limit and beyond it.
fn over_long_line(rng: &mut Rng) -> Vec<u8> {
    let length = if rng.percent(70) {
        rng.between(1015, 1035)
    } else {
        rng.between(1025, 2600)
    };
    let mut line = b"set Name=".to_vec();
    let filling = rng.pick_text(&["x", "`", "``x", "` ", "`\nyy", "`\r\nyy"]);
    while line.len() < length {
        line.extend_from_slice(filling);
    }
    line.truncate(length);
    line
}

/// What may stand after the last end of line.
fn put_cut_end(rng: &mut Rng, bytes: &mut Vec<u8>) {
    match rng.below(8) {
        0 => bytes.push(b'`'),
        1 => bytes.extend_from_slice(b"cd"),
        2 => bytes.extend_from_slice(b"`\n"),
        3 => bytes.extend_from_slice(b"show`\r"),
        4 => {
            let text = over_long_line(rng);
            bytes.extend_from_slice(&text);
        }
        _ => {}
    }
}

fn noise_capture(rng: &mut Rng, most_bytes: usize) -> Vec<u8> {
    if rng.percent(20) {
        return noise_of_bytes(rng);
    }
    let length = rng.below(most_bytes + 1);
    (0..length).map(|_| *rng.pick(JOINING_BYTES)).collect()
}

/// Lengths of the parts into which a capture is cut; they add up to `length`, some are 0.
pub fn cuts(rng: &mut Rng, length: usize) -> Vec<usize> {
    let most = *rng.pick(&[1, 2, 3, 10, 100, 4000]);
    let mut lengths = Vec::new();
    let mut left = length;
    while left > 0 {
        let part = rng.between(0, most).min(left);
        lengths.push(part);
        left -= part;
    }
    lengths
}

/// A tail as demand 3 asks: a byte that is no GRAVE, CR or LF, an end of line, then a capture.
pub fn shared_tail(rng: &mut Rng, most_lines: usize) -> Vec<u8> {
    let first = loop {
        let byte = rng.byte();
        if !b"`\r\n".contains(&byte) {
            break byte;
        }
    };
    let mut tail = vec![first, *rng.pick(b"\r\n")];
    tail.extend_from_slice(&capture(rng, most_lines));
    tail
}

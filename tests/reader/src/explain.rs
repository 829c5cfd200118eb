//! The program `clpexplain`: each line of a capture with what its parts are, or with a mark under
//! the byte where it is refused and what to look at there.

use crate::joiner::Capture;
use crate::reading::gather;
use crate::records::{records, Gathered, Record};
use crate::refusal::Refusal;
use crate::vocabulary::{option_word, takes_argument, verb_word};

/// The page that has the words for each refusal.
const README: &str = include_str!("../../../README.md");

/// The sentence there that stands above the table of refusals.
const ABOVE_THE_TABLE: &str = "Where a line is refused, look at the byte at the place";

/// Explains a capture part by part; what it holds does not grow with the capture.
#[derive(Default)]
pub struct Explainer {
    capture: Capture,
}

impl Explainer {
    pub fn new() -> Explainer {
        Explainer::default()
    }

    /// Appends to `text` what there is to say of the lines ended in `part`.
    pub fn explain_part(&mut self, part: &[u8], text: &mut Vec<u8>) {
        let capture = &mut self.capture;
        capture.each_line(part, |line, joined| explain_line(line, joined, text));
    }

    /// Appends to `text` what there is to say of the capture's end.
    pub fn explain_end(&self, text: &mut Vec<u8>) {
        if self.capture.is_cut() {
            put_line(text, &[b"  cut: the capture ends inside a line"]);
        }
    }
}

/// The whole text of a whole capture.
pub fn explain_capture(capture: &[u8]) -> Vec<u8> {
    let mut text = Vec::new();
    let mut explainer = Explainer::new();
    explainer.explain_part(capture, &mut text);
    explainer.explain_end(&mut text);
    text
}

/// The words for a refusal's number: the second cell of its row in the table, empty for a number
/// without a row.
pub fn refusal_words(number: u8) -> &'static str {
    let table = README
        .split_once(ABOVE_THE_TABLE)
        .map_or("", |(_, after)| after);
    let first_cell = format!("| {number} | ");
    let mut rows = table
        .lines()
        .filter_map(|row| row.strip_prefix(&first_cell));
    rows.next()
        .and_then(|row| row.strip_suffix(" |"))
        .unwrap_or("")
}

fn explain_line(line: &[u8], joined: Result<(), Refusal>, text: &mut Vec<u8>) {
    let mut gathered = Gathered::new();
    match joined.and_then(|()| gather(line, &mut gathered)) {
        Ok(_) => explain_parts(line, gathered.as_bytes(), text),
        Err(refusal) => explain_refusal(line, refusal, text),
    }
}

fn explain_parts(line: &[u8], bytes: &[u8], text: &mut Vec<u8>) {
    if records(bytes).next() == Some(Record::Blank) {
        put_line(text, &[b"  blank"]);
        return;
    }
    put_line(text, &[line]);
    for record in records(bytes) {
        explain_part(line, record, text);
    }
}

/// An accepted line has no byte that is not shown as itself.
fn explain_part(line: &[u8], record: Record, text: &mut Vec<u8>) {
    match record {
        Record::Verb { number } => put_line(text, &[b"  verb ", verb_word(number)]),
        Record::Option { number, argument } if takes_argument(number) => {
            let (name, argument) = (option_word(number), argument.of(line));
            put_line(text, &[b"  option ", name, b": ", argument]);
        }
        Record::Option { number, .. } => put_line(text, &[b"  option ", option_word(number)]),
        Record::Target { part } => put_line(text, &[b"  target ", part.of(line)]),
        Record::Property {
            name,
            operator,
            value,
        } => {
            let operator: &[u8] = match operator {
                0 => b"",
                1 => b" = ",
                _ => b" == ",
            };
            put_line(
                text,
                &[b"  property ", name.of(line), operator, value.of(line)],
            );
        }
        // A reading has no other records.
        Record::Refusal(_) | Record::Blank | Record::Cut => {}
    }
}

/// The line, the mark in the column where the place's byte begins, and the words.
fn explain_refusal(line: &[u8], refusal: Refusal, text: &mut Vec<u8>) {
    let Refusal { number, place } = refusal;
    let before = &line[..line.len().min(place)];
    put_line(text, &[&shown(line)]);
    put_line(text, &[&vec![b' '; shown(before).len()], b"^"]);
    let words = refusal_words(number);
    let said = format!("  refused as {number} at {place}: {words}");
    put_line(text, &[said.as_bytes()]);
}

/// Bytes 20h to 7Eh as they are, any other as `\x` and two hexadecimal digits.
fn shown(bytes: &[u8]) -> Vec<u8> {
    let mut all = Vec::with_capacity(bytes.len());
    for &byte in bytes {
        match byte {
            b' '..=b'~' => all.push(byte),
            _ => all.extend(format!("\\x{byte:02X}").bytes()),
        }
    }
    all
}

fn put_line(text: &mut Vec<u8>, pieces: &[&[u8]]) {
    for piece in pieces {
        text.extend_from_slice(piece);
    }
    text.push(b'\n');
}

//! What the tests of this crate share.
#![allow(dead_code)]

use clp_reader::joiner::{end, join, Ended, Joined, State, LINE_ROOM};
use clp_reader::reading::read;
use clp_reader::records::{write_record, write_text, Record};

/// The text of a line's reading, or of its refusal.
pub fn read_text(line: &[u8]) -> String {
    let mut records = [0; 399];
    let length = match read(line, &mut records) {
        Ok(reading) => reading.length,
        Err(refusal) => write_record(Record::Refusal(refusal), &mut records).unwrap(),
    };
    let mut text = [0; 4096];
    let length = write_text(&records[..length], &mut text).unwrap();
    String::from_utf8(text[..length].to_vec()).unwrap()
}

/// `expected` has `|` for each line's end but the last.
pub fn assert_same_text(line: &[u8], expected: &str) {
    let expected = format!("{}\n", expected.replace('|', "\n"));
    assert_eq!(read_text(line), expected, "{}", line.escape_ascii());
}

/// Asserts that each of the lines gives `expected`.
pub fn assert_each(lines: &[&str], expected: &str) {
    for line in lines {
        assert_same_text(line.as_bytes(), expected);
    }
}

/// Asserts that each of the lines is refused as `number` at its place.
pub fn assert_refused(number: u8, lines: &[(&str, u16)]) {
    for (line, place) in lines {
        assert_same_text(line.as_bytes(), &format!("refusal {number} {place}"));
    }
}

pub fn repeated(before: &str, middle: &str, count: usize, after: &str) -> Vec<u8> {
    format!("{before}{}{after}", middle.repeat(count)).into_bytes()
}

/// A node's house record.
pub fn node(parent: u16, tag: &str, number: u16) -> Vec<u8> {
    let mut record = vec![16];
    record.extend_from_slice(&parent.to_be_bytes());
    record.push(tag.len() as u8);
    record.extend_from_slice(tag.as_bytes());
    record.resize(20, 0);
    record.extend_from_slice(&number.to_be_bytes());
    record
}

/// So many children `cpu1`, `cpu2` and on of the root.
pub fn numbered_nodes(count: u16) -> Vec<u8> {
    (1..=count)
        .flat_map(|number| node(0, "cpu", number))
        .collect()
}

/// A joiner fed by hand, with what it answered last.
pub struct Tap {
    pub state: State,
    pub buffer: [u8; LINE_ROOM],
}

impl Tap {
    pub fn new() -> Tap {
        Tap {
            state: State::default(),
            buffer: [0xaa; LINE_ROOM],
        }
    }

    /// One call; gives the bytes used and the answer.
    pub fn call(&mut self, part: &[u8]) -> (usize, Joined) {
        let step = join(self.state, &mut self.buffer, part);
        self.state = step.state;
        (step.used, step.joined)
    }

    /// Calls until the part is used up; gives the lines' texts, or `None` for refusal 1.
    pub fn lines(&mut self, part: &[u8]) -> Vec<Option<Vec<u8>>> {
        let mut lines = Vec::new();
        let mut rest = part;
        while !rest.is_empty() {
            let (used, joined) = self.call(rest);
            rest = &rest[used..];
            match joined {
                Joined::More => break,
                Joined::Line(length) => lines.push(Some(self.buffer[..length].to_vec())),
                Joined::Refused(refusal) => {
                    assert_eq!((refusal.number, refusal.place), (1, 1024));
                    lines.push(None);
                }
            }
        }
        lines
    }

    pub fn is_cut(&self) -> bool {
        end(self.state) == Ok(Ended::Cut)
    }
}

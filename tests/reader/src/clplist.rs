//! The program `clplist`: a capture's lines as the text of their records.

use crate::joiner::Capture;
use crate::reading::gather;
use crate::records::{put_record_text, put_text, Gathered, Record};
use crate::refusal::Refusal;

/// Lists a capture part by part; what it holds does not grow with the capture.
#[derive(Default)]
pub struct Lister {
    capture: Capture,
}

impl Lister {
    pub fn new() -> Lister {
        Lister::default()
    }

    /// Appends to `text` what the lines ended in `part` give.
    pub fn list_part(&mut self, part: &[u8], text: &mut Vec<u8>) {
        let capture = &mut self.capture;
        capture.each_line(part, |line, joined| list_line(line, joined, text));
    }

    /// Appends to `text` what the capture's end gives.
    pub fn list_end(&self, text: &mut Vec<u8>) {
        if self.capture.is_cut() {
            put_record_text(Record::Cut, text);
        }
    }
}

fn list_line(line: &[u8], joined: Result<(), Refusal>, text: &mut Vec<u8>) {
    let mut gathered = Gathered::new();
    match joined.and_then(|()| gather(line, &mut gathered)) {
        Ok(_) => put_text(gathered.as_bytes(), text),
        Err(refusal) => put_record_text(Record::Refusal(refusal), text),
    }
}

/// The whole text of a whole capture.
pub fn list_capture(capture: &[u8]) -> Vec<u8> {
    let mut text = Vec::new();
    let mut lister = Lister::new();
    lister.list_part(capture, &mut text);
    lister.list_end(&mut text);
    text
}

//! The program `clpreply`: a reply's records as text, or its refusal alone.

use crate::records::{put_record_text, Record};
use crate::reply::{read_reply, MOST_REPLY_BYTES};
use crate::reply_records::put_records_text;

/// A reply that comes part by part; what is held does not grow past what a reply may have.
#[derive(Default)]
pub struct ReplyLister {
    reply: Vec<u8>,
}

impl ReplyLister {
    pub fn new() -> ReplyLister {
        ReplyLister::default()
    }

    /// Takes in a part. One byte too many is held, so that a longer reply is known as such.
    pub fn list_part(&mut self, part: &[u8], _text: &mut Vec<u8>) {
        let free = MOST_REPLY_BYTES + 1 - self.reply.len();
        let held = &part[..part.len().min(free)];
        self.reply.extend_from_slice(held);
    }

    /// Appends to `text` what the whole reply gives.
    pub fn list_end(&self, text: &mut Vec<u8>) {
        // A line of three bytes gives nine, and no line gives more for its length.
        let mut records = vec![0; 3 * self.reply.len()];
        match read_reply(&self.reply, &mut records) {
            Ok(length) => put_records_text(&records[..length], text),
            Err(refusal) => put_record_text(Record::Refusal(refusal), text),
        }
    }
}

/// The whole text of a whole reply.
pub fn list_reply(reply: &[u8]) -> Vec<u8> {
    let mut text = Vec::new();
    let mut lister = ReplyLister::new();
    lister.list_part(reply, &mut text);
    lister.list_end(&mut text);
    text
}

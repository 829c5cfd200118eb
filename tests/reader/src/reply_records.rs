//! Records of a reply (request e of document 02, kinds 64 to 67): their bytes, and their text as
//! `clpreply` prints it.

use crate::records::put_part;
use crate::sink::Sink;
use crate::Part;

/// The most bytes of one record: an item's.
const MOST_RECORD_BYTES: usize = 9;

/// One record; its parts lie in the reply, or in the text that is lent with records.
#[derive(Clone, Copy, Debug, PartialEq, Eq)]
pub enum ReplyRecord {
    Item { keyword: Part, value: Part },
    Group { type_name: Part },
    EndGroup,
    EndOutput,
}

/// Puts the record's bytes.
#[inline]
pub(crate) fn put_record(record: ReplyRecord, sink: &mut impl Sink) {
    let (bytes, length) = encode(record);
    sink.put_all(&bytes[..length]);
}

/// The record's bytes and how many of them count.
#[inline]
fn encode(record: ReplyRecord) -> ([u8; MOST_RECORD_BYTES], usize) {
    let mut bytes = [0; MOST_RECORD_BYTES];
    let length = match record {
        ReplyRecord::Item { keyword, value } => {
            bytes[0] = 64;
            bytes[1..5].copy_from_slice(&fields_of(keyword));
            bytes[5..9].copy_from_slice(&fields_of(value));
            9
        }
        ReplyRecord::Group { type_name } => {
            bytes[0] = 65;
            bytes[1..5].copy_from_slice(&fields_of(type_name));
            5
        }
        ReplyRecord::EndGroup => {
            bytes[0] = 66;
            1
        }
        ReplyRecord::EndOutput => {
            bytes[0] = 67;
            1
        }
    };
    (bytes, length)
}

fn fields_of(part: Part) -> [u8; 4] {
    let [high, low] = part.position.to_be_bytes();
    let [length_high, length_low] = part.length.to_be_bytes();
    [high, low, length_high, length_low]
}

/// The record that `bytes` begin with and its length; none where it is cut or of no such kind.
#[inline]
pub(crate) fn decode(bytes: &[u8]) -> Option<(ReplyRecord, usize)> {
    Some(match bytes {
        [64, a, b, c, d, e, f, g, h, ..] => {
            let keyword = part_of([*a, *b, *c, *d]);
            let value = part_of([*e, *f, *g, *h]);
            (ReplyRecord::Item { keyword, value }, 9)
        }
        [65, a, b, c, d, ..] => {
            let type_name = part_of([*a, *b, *c, *d]);
            (ReplyRecord::Group { type_name }, 5)
        }
        [66, ..] => (ReplyRecord::EndGroup, 1),
        [67, ..] => (ReplyRecord::EndOutput, 1),
        _ => return None,
    })
}

fn part_of([a, b, c, d]: [u8; 4]) -> Part {
    Part {
        position: u16::from_be_bytes([a, b]),
        length: u16::from_be_bytes([c, d]),
    }
}

/// The records that stand in `bytes`, up to and with the first that ends the output; they end
/// before one that is cut or of no such kind.
pub fn reply_records(bytes: &[u8]) -> ReplyRecords<'_> {
    ReplyRecords { rest: bytes }
}

pub struct ReplyRecords<'b> {
    rest: &'b [u8],
}

impl Iterator for ReplyRecords<'_> {
    type Item = ReplyRecord;

    #[inline]
    fn next(&mut self) -> Option<ReplyRecord> {
        let (record, length) = decode(self.rest)?;
        self.rest = match record {
            ReplyRecord::EndOutput => &[],
            _ => &self.rest[length..],
        };
        Some(record)
    }
}

/// Each record as its kind's word, its fields in decimal, and a line's end.
pub(crate) fn put_records_text(bytes: &[u8], sink: &mut impl Sink) {
    for record in reply_records(bytes) {
        match record {
            ReplyRecord::Item { keyword, value } => {
                sink.put_all(b"item");
                put_part(keyword, sink);
                put_part(value, sink);
            }
            ReplyRecord::Group { type_name } => {
                sink.put_all(b"group");
                put_part(type_name, sink);
            }
            ReplyRecord::EndGroup => sink.put_all(b"endgroup"),
            ReplyRecord::EndOutput => sink.put_all(b"endoutput"),
        }
        sink.put(b'\n');
    }
}

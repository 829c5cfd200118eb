//! "Records of a reading": the records' bytes, and their text as `clplist` prints it.

use crate::refusal::{Refusal, ROOM_TOO_SMALL, TREE_MALFORMED};
use crate::sink::{Count, Fill, Sink};
use crate::Part;

/// The most bytes that one reading takes.
pub const MOST_READING_BYTES: usize = 399;

/// The most bytes of one record: a property's.
const MOST_RECORD_BYTES: usize = 10;

/// One record, kinds 1 to 7 in the paper's order.
#[derive(Clone, Copy, Debug, PartialEq, Eq)]
pub enum Record {
    Verb {
        number: u8,
    },
    Option {
        number: u8,
        argument: Part,
    },
    Target {
        part: Part,
    },
    Property {
        name: Part,
        operator: u8,
        value: Part,
    },
    Refusal(Refusal),
    Blank,
    Cut,
}

/// One reading's records, gathered here so that a refused line touches nothing lent.
pub(crate) struct Gathered {
    bytes: [u8; MOST_READING_BYTES],
    length: usize,
}

impl Gathered {
    pub(crate) fn new() -> Gathered {
        Gathered {
            bytes: [0; MOST_READING_BYTES],
            length: 0,
        }
    }

    pub(crate) fn as_bytes(&self) -> &[u8] {
        &self.bytes[..self.length]
    }

    /// Appends a record; the limits on options and properties keep all within 399 bytes.
    #[inline]
    pub(crate) fn push(&mut self, record: Record) {
        let (bytes, length) = encode(record);
        let end = self.length + length;
        if let Some(slot) = self.bytes.get_mut(self.length..end) {
            slot.copy_from_slice(&bytes[..length]);
            self.length = end;
        }
    }
}

/// The record's bytes and how many of them count.
#[inline]
fn encode(record: Record) -> ([u8; MOST_RECORD_BYTES], usize) {
    let high = |field: u16| (field >> 8) as u8;
    let low = |field: u16| field as u8;
    let mut bytes = [0; MOST_RECORD_BYTES];
    let length = match record {
        Record::Verb { number } => {
            bytes[..2].copy_from_slice(&[1, number]);
            2
        }
        Record::Option { number, argument } => {
            let Part { position, length } = argument;
            bytes[..6].copy_from_slice(&[
                2,
                number,
                high(position),
                low(position),
                high(length),
                low(length),
            ]);
            6
        }
        Record::Target { part } => {
            let Part { position, length } = part;
            bytes[..5].copy_from_slice(&[
                3,
                high(position),
                low(position),
                high(length),
                low(length),
            ]);
            5
        }
        Record::Property {
            name,
            operator,
            value,
        } => {
            bytes = [
                4,
                high(name.position),
                low(name.position),
                high(name.length),
                low(name.length),
                operator,
                high(value.position),
                low(value.position),
                high(value.length),
                low(value.length),
            ];
            10
        }
        Record::Refusal(Refusal { number, place }) => {
            // The place of a line's refusal is at most 1,024.
            let place = place as u16;
            bytes[..4].copy_from_slice(&[5, number, high(place), low(place)]);
            4
        }
        Record::Blank => {
            bytes[0] = 6;
            1
        }
        Record::Cut => {
            bytes[0] = 7;
            1
        }
    };
    (bytes, length)
}

/// Writes one record's bytes into lent room, and tells how many they are.
pub fn write_record(record: Record, room: &mut [u8]) -> Result<usize, Refusal> {
    let (bytes, length) = encode(record);
    let answer = room.get_mut(..length).ok_or(ROOM_TOO_SMALL)?;
    answer.copy_from_slice(&bytes[..length]);
    Ok(length)
}

/// The records that stand in `bytes`; they end before the first that is cut or of no such kind.
pub fn records(bytes: &[u8]) -> Records<'_> {
    Records { rest: bytes }
}

pub struct Records<'b> {
    rest: &'b [u8],
}

impl Iterator for Records<'_> {
    type Item = Record;

    #[inline]
    fn next(&mut self) -> Option<Record> {
        let (record, length) = decode(self.rest)?;
        self.rest = &self.rest[length..];
        Some(record)
    }
}

#[inline]
fn decode(bytes: &[u8]) -> Option<(Record, usize)> {
    let field = |high: &u8, low: &u8| u16::from_be_bytes([*high, *low]);
    let part = |fields: &[u8; 4]| Part {
        position: field(&fields[0], &fields[1]),
        length: field(&fields[2], &fields[3]),
    };
    Some(match bytes {
        [1, number, ..] => (Record::Verb { number: *number }, 2),
        [2, number, a, b, c, d, ..] => {
            let argument = part(&[*a, *b, *c, *d]);
            let number = *number;
            (Record::Option { number, argument }, 6)
        }
        [3, a, b, c, d, ..] => {
            let part = part(&[*a, *b, *c, *d]);
            (Record::Target { part }, 5)
        }
        [4, a, b, c, d, operator, e, f, g, h, ..] => {
            let record = Record::Property {
                name: part(&[*a, *b, *c, *d]),
                operator: *operator,
                value: part(&[*e, *f, *g, *h]),
            };
            (record, 10)
        }
        [5, number, high, low, ..] => {
            let refusal = Refusal {
                number: *number,
                place: usize::from(field(high, low)),
            };
            (Record::Refusal(refusal), 4)
        }
        [6, ..] => (Record::Blank, 1),
        [7, ..] => (Record::Cut, 1),
        _ => return None,
    })
}

/// Writes each record of `bytes` as one line of text into lent room, and tells the text's length. Bytes that are no records are refused where the first bad one starts.
pub fn write_text(bytes: &[u8], room: &mut [u8]) -> Result<usize, Refusal> {
    let mut all = records(bytes);
    while all.next().is_some() {}
    if !all.rest.is_empty() {
        return Err(Refusal::new(TREE_MALFORMED, bytes.len() - all.rest.len()));
    }
    let mut needed = Count::default();
    put_text(bytes, &mut needed);
    let answer = room.get_mut(..needed.0).ok_or(ROOM_TOO_SMALL)?;
    put_text(bytes, &mut Fill::new(answer));
    Ok(needed.0)
}

pub(crate) fn put_text(bytes: &[u8], sink: &mut impl Sink) {
    for record in records(bytes) {
        put_record_text(record, sink);
    }
}

/// One record as its kind's word, its fields in decimal, and a line's end.
pub(crate) fn put_record_text(record: Record, sink: &mut impl Sink) {
    match record {
        Record::Verb { number } => {
            sink.put_all(b"verb");
            put_field(number.into(), sink);
        }
        Record::Option { number, argument } => {
            sink.put_all(b"option");
            put_field(number.into(), sink);
            put_part(argument, sink);
        }
        Record::Target { part } => {
            sink.put_all(b"target");
            put_part(part, sink);
        }
        Record::Property {
            name,
            operator,
            value,
        } => {
            sink.put_all(b"property");
            put_part(name, sink);
            put_field(operator.into(), sink);
            put_part(value, sink);
        }
        Record::Refusal(Refusal { number, place }) => {
            sink.put_all(b"refusal");
            put_field(number.into(), sink);
            put_field(place, sink);
        }
        Record::Blank => sink.put_all(b"blank"),
        Record::Cut => sink.put_all(b"cut"),
    }
    sink.put(b'\n');
}

pub(crate) fn put_part(part: Part, sink: &mut impl Sink) {
    put_field(part.position.into(), sink);
    put_field(part.length.into(), sink);
}

/// A space and the field in decimal, its digits gathered from the last one on.
fn put_field(field: usize, sink: &mut impl Sink) {
    let mut text = [b' '; 21];
    let mut first = text.len();
    let mut left = field;
    loop {
        first -= 1;
        text[first] = b'0' + (left % 10) as u8;
        left /= 10;
        if left == 0 {
            break;
        }
    }
    sink.put_all(&text[first - 1..]);
}

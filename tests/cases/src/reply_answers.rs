//! What the independent reader answers to the input of `replycases`, in that program's words.

use clp_reader::reply::read_reply;
use clp_reader::reply_value::reply_value;
use clp_reader::reply_writer::write_reply;

use crate::reply::{Asked, READ, WRITE};
use crate::stored::{answered, put_runs, Bytes};

/// The answers to a whole input that is not cut.
pub fn answers(input: &[u8]) -> Vec<u8> {
    let mut text = String::new();
    let mut input = Bytes(input);
    while !input.0.is_empty() {
        text.push_str(&answer(&taken(&mut input)));
    }
    text.into_bytes()
}

/// The case that an input begins with.
pub(crate) fn taken(input: &mut Bytes) -> Asked {
    Asked {
        kind: input.take(1)[0],
        room: input.number(),
        records: blob(input),
        text: blob(input),
    }
}

/// The bytes that pieces stand for, each as often as it is repeated.
fn blob(input: &mut Bytes) -> Vec<u8> {
    let mut bytes = Vec::new();
    for _ in 0..input.take(1)[0] {
        let (times, length) = (input.number(), input.number());
        bytes.extend(input.take(length).repeat(times));
    }
    bytes
}

/// A case's line: the answer, and what the room, which was lent full of dots, then holds as runs.
pub(crate) fn answer(asked: &Asked) -> String {
    let mut room = vec![b'.'; asked.room];
    let mut line = answered(match asked.kind {
        READ => read_reply(&asked.text, &mut room),
        WRITE => write_reply(&asked.records, &asked.text, &mut room),
        _ => reply_value(&asked.text, &mut room),
    });
    put_runs(&room, &mut line);
    line.push('\n');
    line
}

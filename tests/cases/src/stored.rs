//! What the stored inputs share: numbers of two bytes, put in and taken out again; and answers in the
//! words of the programs that run them.

use std::fmt::Write;

use clp_reader::Refusal;

/// The most bytes of an input that such a program reads.
pub(crate) const MOST_BYTES: usize = 262_144;

pub(crate) fn put_number(bytes: &mut Vec<u8>, number: usize) {
    bytes.extend((number as u16).to_be_bytes());
}

/// What is left of an input.
pub(crate) struct Bytes<'i>(pub(crate) &'i [u8]);

impl<'i> Bytes<'i> {
    pub(crate) fn take(&mut self, count: usize) -> &'i [u8] {
        let (taken, rest) = self.0.split_at(count);
        self.0 = rest;
        taken
    }

    pub(crate) fn number(&mut self) -> usize {
        let bytes = self.take(2);
        usize::from(bytes[0]) * 256 + usize::from(bytes[1])
    }
}

pub(crate) fn refused(refusal: Refusal) -> String {
    format!("refused {} {} ", refusal.number, refusal.place)
}

/// What a call answered that writes into lent room.
pub(crate) fn answered(answer: Result<usize, Refusal>) -> String {
    match answer {
        Ok(length) => format!("wrote {length} "),
        Err(refusal) => refused(refusal),
    }
}

/// Runs of equal numbers: how many, of which.
pub(crate) fn put_runs<T: Copy + PartialEq + std::fmt::Display>(all: &[T], text: &mut String) {
    for run in all.chunk_by(|left, right| left == right) {
        let _ = write!(text, "| {} {} ", run.len(), run[0]);
    }
}

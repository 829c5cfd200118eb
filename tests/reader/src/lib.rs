//! An independent reader of the SM CLP dialect of document 01, with requests a to c and e of
//! document 02, written from those papers alone.
//!
//! One module follows one section of the paper. All functions are total: they take any input,
//! never panic, and on a refusal leave every lent answer buffer as it was.

#![forbid(unsafe_code)]

pub mod beginning;
pub mod canonical;
pub mod clplist;
pub mod clpreply;
pub mod explain;
pub mod form;
pub mod joiner;
pub mod path;
pub mod program;
pub mod reading;
pub mod records;
pub mod refusal;
pub mod reply;
pub mod reply_items;
pub mod reply_records;
pub mod reply_value;
pub mod reply_writer;
pub mod same;
pub mod search;
pub mod terms;
pub mod tree;

mod bytes;
mod sink;
mod support;
mod value;
mod vocabulary;

pub use refusal::Refusal;

/// A part of a line or reply: where it begins and how many bytes it has.
#[derive(Clone, Copy, Debug, Default, PartialEq, Eq)]
pub struct Part {
    pub position: u16,
    pub length: u16,
}

impl Part {
    /// The part from `start` up to `end`; callers hold texts of at most 65,535 bytes.
    pub(crate) fn between(start: usize, end: usize) -> Part {
        Part {
            position: start as u16,
            length: end.saturating_sub(start) as u16,
        }
    }

    /// The part's bytes in `line`, empty where the part does not lie in the line.
    pub fn of(self, line: &[u8]) -> &[u8] {
        self.lying_in(line).unwrap_or(&[])
    }

    /// The part's bytes in `text`, where it lies there whole; an empty one may lie at the end.
    pub(crate) fn lying_in(self, text: &[u8]) -> Option<&[u8]> {
        let start = usize::from(self.position);
        text.get(start..start + usize::from(self.length))
    }
}

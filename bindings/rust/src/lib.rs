//! Reads SM CLP, the command line protocol of DMTF's DSP0214, and says what each line is: verb, options, target and properties, or one numbered refusal with
//! its place.
//!
//! This is the library libsmclp, which is written in Rattle and proved, called from Rust. It allocates nothing: what is written stands in room that the caller
//! lends, and a part of a line is told as a range of the line's bytes.
//!
//! The whole way, with a capture that comes in two parts: its bytes are joined to lines, and each line is read, or refused.
//!
//! ```
//! use smclp::{read, Joiner, Part, READING_BYTES};
//!
//! let capture = [&b"show -level 2 /sys"[..], b"tem1/cpu* Name\r\nreset \"os1\r\n"];
//! let (mut joiner, mut room) = (Joiner::new(), [0; READING_BYTES]);
//! let mut told = Vec::new();
//! for mut part in capture {
//!     while let Some(line) = joiner.join(&mut part) {
//!         match line.and_then(|line| read(line, &mut room)) {
//!             Ok(reading) => told.extend(reading.parts().map(|part| format!("{part:?}"))),
//!             Err(refusal) => told.push(refusal.to_string()),
//!         }
//!     }
//! }
//! assert_eq!(told, [
//!     "Verb(Show)",
//!     "Option { option: Level, argument: Some(12..13) }",
//!     "Target(14..27)",
//!     "Property { name: 28..32, operator: None, value: None }",
//!     "refused as 4 at 6: the quote that opens there is not closed",
//! ]);
//! assert_eq!(joiner.end(), None); // the capture does not end inside a line
//! ```
//!
//! [`canonical`] writes a line in the one way that all lines of the same command have, [`meant`] the bytes that a value stands for, and a [`Tree`] tells which
//! instances a target addresses. [`read_reply`] and [`write_reply`] are for what a board answers. [`face`] has the functions as C has them.

#![no_std]
#![deny(unsafe_code)]
#![warn(missing_docs)]

#[allow(unsafe_code)]
pub mod face;

mod joiner;
mod reading;
mod refusal;
mod reply;
mod terms;
mod tree;
mod vocabulary;
mod writing;

/// The example of README.md, which is run with those of the crate.
#[cfg(doctest)]
#[doc = include_str!("../README.md")]
struct Readme;

pub use face::{
    CANONICAL_BYTES, LINE_BYTES, NODE_BYTES, PATH_BYTES, READING_BYTES, REPLY_BYTES,
    REPLY_RECORDS_BYTES, TEXT_BYTES, TREE_NODES,
};
pub use joiner::Joiner;
pub use reading::{read, target, Marks, Part, Parts, Reading};
pub use refusal::Refusal;
pub use reply::{read_reply, reply_value, write_reply, Entries, Entry, Reply};
pub use terms::{terms, Terms};
pub use tree::{Resolved, Tree};
pub use vocabulary::{CommandOption, Operator, Verb};
pub use writing::{canonical, meant};

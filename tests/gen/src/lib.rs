//! Seeded inputs for tests of the SM CLP dialect: lines, captures, cuts, trees, paths and replies.
//!
//! The same seed always gives the same inputs. Nothing here judges an input: "valid" tells how
//! it was made, and a maker may step over a limit on purpose.

#![forbid(unsafe_code)]

pub mod almost;
pub mod beginnings;
pub mod board;
pub mod capture;
pub mod crowded;
pub mod damage;
pub mod excluded;
pub mod form;
pub mod line;
pub mod options;
pub mod reply;
pub mod reply_records;
pub mod reply_value;
pub mod rng;
pub mod shout;
pub mod tree;

pub use rng::Rng;

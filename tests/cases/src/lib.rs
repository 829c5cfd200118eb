//! The stored input of a program of cases where it is bytes that nobody would type: what writes
//! it, and what the independent reader answers to it; and cases that are too many to be stored.

#![forbid(unsafe_code)]

pub mod places;
pub mod reply;
pub mod reply_answers;
pub mod tree;
pub mod tree_answers;

mod stored;

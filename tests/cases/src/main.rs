//! Writes what `crates/treecases` has stored: `clp_cases stdin` its input, `clp_cases stdout` the
//! independent reader's answers to that; and what `crates/replycases` has, `clp_cases replies` and
//! `clp_cases replies-answers`. `clp_cases lines` writes request c's cases as a capture, `clp_cases
//! records` what the lister prints for it.

use std::io::Write;

use clp_cases::{places, reply, reply_answers, tree, tree_answers};
use clp_reader::clplist::list_capture;

fn main() -> std::io::Result<()> {
    let which = std::env::args().nth(1).unwrap_or_default();
    let bytes = match which.as_str() {
        "stdin" => tree::input(),
        "stdout" => tree_answers::answers(&tree::input()),
        "replies" => reply::input(),
        "replies-answers" => reply_answers::answers(&reply::input()),
        "lines" => places::capture(),
        "records" => list_capture(&places::capture()),
        _ => {
            eprintln!("clp_cases stdin|stdout|replies|replies-answers|lines|records");
            std::process::exit(2);
        }
    };
    std::io::stdout().write_all(&bytes)
}

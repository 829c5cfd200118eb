//! Reads a board's reply from standard input and prints its records, or its refusal.

use clp_reader::clpreply::ReplyLister;
use clp_reader::program::run;
use std::process::ExitCode;

fn main() -> ExitCode {
    run(
        "clpreply_rs",
        ReplyLister::new(),
        ReplyLister::list_part,
        ReplyLister::list_end,
    )
}

//! Reads a capture from standard input and prints the records of its lines.

use clp_reader::clplist::Lister;
use clp_reader::program::run;
use std::process::ExitCode;

fn main() -> ExitCode {
    run(
        "clplist_rs",
        Lister::new(),
        Lister::list_part,
        Lister::list_end,
    )
}

//! Reads a capture from standard input and says of each line what it is, or marks where it is refused.

use clp_reader::explain::Explainer;
use clp_reader::program::run;
use std::process::ExitCode;

fn main() -> ExitCode {
    run(
        "clpexplain_rs",
        Explainer::new(),
        Explainer::explain_part,
        Explainer::explain_end,
    )
}

//! Request c's cases as a capture, a line for each: every beginning of each form's good texts,
//! followed by each byte of a small alphabet, as a line's term.

use clp_gen::beginnings::{lines, texts};
use clp_gen::form::FORMS;
use clp_reader::terms::check_line;

/// The lines, each ended by LF; those that rows 1 to 5 refuse are left out.
pub fn capture() -> Vec<u8> {
    let mut capture = Vec::new();
    for form in FORMS {
        for text in texts(form) {
            let good = lines(form, &text).filter(|line| check_line(line).is_ok());
            capture.extend(good.flat_map(|line| [&line[..], b"\n"].concat()));
        }
    }
    capture
}

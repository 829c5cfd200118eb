//! Request c's cases: every beginning of each form's good texts, followed by each byte of a small alphabet, as a line's term and as a text to resolve. The
//! independent reader's places for them are held to a search by brute force in its own tests.

use crate::lines::{compare_line, Counts};
use crate::trees::compare_resolving;
use clp_gen::beginnings::{lines, texts};
use clp_gen::form::FORMS;
use clp_gen::tree::{bytes_of, Node};
use clp_gen::Rng;

/// Compares all of them, and tells how many lines and texts they were.
pub fn compare(rng: &mut Rng, counts: &mut Counts) -> (usize, usize) {
    let tree = bytes_of(&[Node { parent: 0, tag: b"a".to_vec(), number: 1 }]);
    let mut met = (0, 0);
    for form in FORMS {
        for text in texts(form) {
            for line in lines(form, &text) {
                compare_line(rng, &line, counts);
                met.0 += 1;
            }
            compare_resolving(rng, &text, &tree, 0);
            met.1 += 1;
        }
    }
    assert!(met.0 > 90_000 && met.1 > 30_000, "cases are missing: {met:?}");
    met
}

//! The terms of a line.

use crate::face;
use crate::refusal::{accepted, Refusal};
use core::ops::Range;

/// The terms of a line, in its order; refusals 1 to 5 hold of the line as a whole. Each term costs a search from the line's start.
///
/// ```
/// let line = b"set  a=\"b c\" d";
/// assert!(smclp::terms(line)?.eq([0..3, 5..12, 13..14]));
/// assert_eq!(smclp::terms(b"reset \"os1").unwrap_err().number, 4);
/// # Ok::<(), smclp::Refusal>(())
/// ```
pub fn terms(line: &[u8]) -> Result<Terms<'_>, Refusal> {
    let next = term_from(line, 0)?;
    Ok(Terms { line, next })
}

/// The terms of a line, in its order.
#[derive(Clone, Debug)]
pub struct Terms<'a> {
    line: &'a [u8],
    next: Option<Range<usize>>,
}

impl Iterator for Terms<'_> {
    type Item = Range<usize>;

    fn next(&mut self) -> Option<Range<usize>> {
        let term = self.next.take()?;
        self.next = term_from(self.line, term.end).ok().flatten();
        Some(term)
    }
}

/// The term at or after a place, if there is one.
pub(crate) fn term_from(line: &[u8], place: usize) -> Result<Option<Range<usize>>, Refusal> {
    let term = face::next_term(line, place);
    let start = accepted(term.number, term.value)?;
    let is_there = term.value != face::NONE;
    Ok(is_there.then(|| start..start + term.length as usize))
}

//! Refusals: their numbers, places and words.

use crate::face::*;
use core::fmt;

/// Why something is refused, and where: a number, one of the `REFUSED_` constants of [`face`](crate::face), and a place, an index into the text, tree or
/// records that were handed in. The place may be their length, past the last byte.
///
/// Its text is what the program `clpexplain` says:
///
/// ```
/// use smclp::face::{READING_BYTES, REFUSED_QUOTE};
///
/// let mut room = [0; READING_BYTES];
/// let refusal = smclp::read(b"reset \"os1", &mut room).unwrap_err();
/// assert_eq!((refusal.number, refusal.place), (REFUSED_QUOTE, 6));
/// assert_eq!(refusal.to_string(), "refused as 4 at 6: the quote that opens there is not closed");
/// ```
#[derive(Clone, Copy, Debug, PartialEq, Eq, Hash)]
pub struct Refusal {
    /// Which refusal it is: 1 to 25.
    pub number: u64,
    /// The byte to look at.
    pub place: usize,
}

impl Refusal {
    /// What to look at there; empty for a number that no refusal has.
    ///
    /// ```
    /// let refusal = smclp::Refusal { number: 17, place: 0 };
    /// assert_eq!(refusal.words(), "`..` at the root");
    /// ```
    pub fn words(&self) -> &'static str {
        match self.number {
            REFUSED_LONG_LINE => "the line has over 1,024 bytes after joining: a missing end of line, or noise",
            REFUSED_BYTE => "the byte there is outside 20h to 7Eh: noise, a tab, a key that sends an escape sequence",
            REFUSED_GRAVE => "the line's last byte is a backtick that escapes nothing (only a line handed in directly; in a capture it would have joined)",
            REFUSED_QUOTE => "the quote that opens there is not closed",
            REFUSED_TERMS => "the 65th term starts there",
            REFUSED_VERB => "no such verb; upper or lower case makes no difference, a quote in it does",
            REFUSED_OPTION => "no such option; `-level=2` is one too: the argument is the next term",
            REFUSED_OPTION_TWICE => "this option was given before, by its long or its short name, in whichever case",
            REFUSED_NO_ARGUMENT => "an option that takes an argument has none, or the next term starts with `-`",
            REFUSED_ARGUMENT => "the argument is of its form up to there and no further: `02` for a number, a quote in a source; where nothing follows, more is wanted",
            REFUSED_LATE_OPTION => "an option after the target or a property: options come first",
            REFUSED_TARGET => "the target is a path up to there and no further: a segment is `.`, `..`, or letters and a number; nor is it `SESSION`, which stays in capitals; where nothing follows, more is wanted",
            REFUSED_PROPERTY => "the property is `name`, `name=value` or `name==value` up to there and no further: a bare `,` `(` `)` `=` or `\"` inside a value wants quotes or a backtick; where nothing follows, more is wanted",
            REFUSED_PROPERTIES => "the 33rd property starts there",
            REFUSED_TREE => "a record of the lent tree is malformed, from that byte on",
            REFUSED_NODE => "the default target, or the node asked for, is no node of the tree",
            REFUSED_ABOVE_ROOT => "`..` at the root",
            REFUSED_CHILD => "no child of that tag and number; a tag's letters have the case that the tree has",
            REFUSED_ROOM => "the lent room is too small; for joining, a bad state or a line buffer that is not of 1,024 bytes",
            REFUSED_NOT_FOR_VERB => "the option there is known, but this verb can't have it: `cd -force`",
            REFUSED_REPLY_LINE => "the line or record there is none of `keyword=value`, `begingroup=type`, `endgroup` and `endoutput`: a keyword or a type is no name, or something follows a closing quote; at 0 also a reply or text of over 65,535 bytes",
            REFUSED_GROUP_END => "`endgroup`, and no group is open",
            REFUSED_DEPTH => "`begingroup`, and eight groups are open already",
            REFUSED_OPEN_GROUP => "`endoutput`, and a group is open",
            REFUSED_NO_END => "there is no `endoutput` before the end, or a quote is not closed",
            _ => "",
        }
    }
}

impl fmt::Display for Refusal {
    fn fmt(&self, f: &mut fmt::Formatter<'_>) -> fmt::Result {
        let Refusal { number, place } = self;
        write!(f, "refused as {number} at {place}: {}", self.words())
    }
}

/// An answer of the face as a result; where it is accepted the value is a length, a position or a count, so that it fits.
pub(crate) fn accepted(number: u64, value: u64) -> Result<usize, Refusal> {
    match (number, value as usize) {
        (0, value) => Ok(value),
        (number, place) => Err(Refusal { number, place }),
    }
}

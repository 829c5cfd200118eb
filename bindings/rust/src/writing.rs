//! Writing: a line canonically, and the bytes that a text stands for.

use crate::face;
use crate::refusal::{accepted, Refusal};

/// Writes a line canonically: terms parted by one space, long option names, verb and option names in lower case, `/` for `\` in the target, and quotes only
/// where they are wanted. Two lines have the same writing where they are the same command. [`CANONICAL_BYTES`](crate::CANONICAL_BYTES) are always room enough;
/// a writing of over [`LINE_BYTES`](crate::LINE_BYTES) can't be read back.
///
/// ```
/// use smclp::{canonical, CANONICAL_BYTES};
///
/// let mut room = [0; CANONICAL_BYTES];
/// assert_eq!(canonical(b"SHOW  -l ALL \\system1 ", &mut room)?, b"show -level all /system1");
/// # Ok::<(), smclp::Refusal>(())
/// ```
pub fn canonical<'r>(line: &[u8], room: &'r mut [u8]) -> Result<&'r [u8], Refusal> {
    let answer = face::canonical(line, room);
    let length = accepted(answer.number, answer.value)?;
    Ok(&room[..length])
}

/// Writes the bytes that a value, an argument or a term stands for: quote marks taken out, each escaped byte for its pair. Parentheses and commas stay: an item
/// of a list is handed in by itself. Any text is accepted; as many bytes as it has are always room enough.
///
/// ```
/// let mut room = [0; 7];
/// assert_eq!(smclp::meant(b"\"a `\"b\"", &mut room)?, b"a \"b");
/// # Ok::<(), smclp::Refusal>(())
/// ```
pub fn meant<'r>(text: &[u8], room: &'r mut [u8]) -> Result<&'r [u8], Refusal> {
    let answer = face::meant(text, room);
    let length = accepted(answer.number, answer.value)?;
    Ok(&room[..length])
}

//! Joining: from the bytes of a capture, part by part, to lines.

use crate::face;
use crate::refusal::{accepted, Refusal};

/// What goes on from part to part of a capture: the joiner's state, and the buffer for one line.
///
/// Hand in the parts as they come: wherever a capture is cut, no line changes by it.
///
/// ```
/// use smclp::Joiner;
///
/// let mut joiner = Joiner::new();
/// let mut lines = Vec::new();
/// for mut part in [&b"show`\r\n /sys"[..], b"tem1\r\ncd .."] {
///     while let Some(line) = joiner.join(&mut part) {
///         lines.push(line?.to_vec());
///     }
/// }
/// assert_eq!(lines, [b"show /system1"]);
/// assert_eq!(joiner.end(), Some(&b"cd .."[..]));
/// # Ok::<(), smclp::Refusal>(())
/// ```
#[derive(Clone, Debug)]
pub struct Joiner {
    state: u64,
    buffer: [u8; face::LINE_BYTES],
}

impl Joiner {
    /// A joiner before the first byte of a capture.
    ///
    /// ```
    /// assert_eq!(smclp::Joiner::new().end(), None);
    /// ```
    pub const fn new() -> Joiner {
        Joiner {
            state: 0,
            buffer: [0; face::LINE_BYTES],
        }
    }

    /// Joins up to the next end of a line, and takes the bytes that it used from the part's start. `None` where all are used and no line has ended.
    ///
    /// A line that is too long is refused as 1 once it ends, and the joiner goes on with the next; no other refusal comes from joining.
    ///
    /// ```
    /// let mut joiner = smclp::Joiner::new();
    /// let mut part = &b"cd\nshow"[..];
    /// assert_eq!(joiner.join(&mut part), Some(Ok(&b"cd"[..])));
    /// assert_eq!(part, b"show");
    /// assert_eq!(joiner.join(&mut part), None);
    /// assert_eq!(part, b"");
    /// ```
    pub fn join(&mut self, part: &mut &[u8]) -> Option<Result<&[u8], Refusal>> {
        let joined = face::join(self.state, &mut self.buffer, part);
        self.state = joined.state;
        *part = &part[joined.used as usize..];
        let line = accepted(joined.number, joined.value);
        let has_ended = joined.value != face::NONE;
        has_ended.then(|| line.map(|length| &self.buffer[..length]))
    }

    /// The end of a capture: what the buffer holds of the line that it cuts, or `None` where nothing was open. The joiner is then as new.
    ///
    /// ```
    /// let mut joiner = smclp::Joiner::new();
    /// assert_eq!(joiner.join(&mut &b"cd .."[..]), None);
    /// assert_eq!(joiner.end(), Some(&b"cd .."[..]));
    /// assert_eq!(joiner.end(), None);
    /// ```
    pub fn end(&mut self) -> Option<&[u8]> {
        let state = core::mem::take(&mut self.state);
        let is_cut = face::end(state).value != 0;
        let held = state & face::STATE_HELD;
        is_cut.then(|| &self.buffer[..held as usize])
    }

    /// The line buffer. Once a line was refused as too long, these are its first 1,024 bytes.
    ///
    /// ```
    /// let mut joiner = smclp::Joiner::new();
    /// let line = [b'x'; 2000];
    /// assert_eq!(joiner.join(&mut &line[..]), None);
    /// let refusal = joiner.join(&mut &b"\n"[..]).unwrap().unwrap_err();
    /// assert_eq!((refusal.number, refusal.place), (1, 1024));
    /// assert_eq!(joiner.buffer(), &line[..1024]);
    /// ```
    pub fn buffer(&self) -> &[u8; face::LINE_BYTES] {
        &self.buffer
    }
}

impl Default for Joiner {
    fn default() -> Joiner {
        Joiner::new()
    }
}

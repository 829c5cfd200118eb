//! Replies: what a board answers in the keyword format, read into items and groups, and written from them.

use crate::face;
use crate::reading::range;
use crate::refusal::{accepted, Refusal};
use core::ops::Range;

/// Reads a board's reply; the records of its entries are written into the room, for which three times as many bytes as the reply has are always enough, and
/// [`REPLY_RECORDS_BYTES`](crate::REPLY_RECORDS_BYTES) for every reply.
///
/// ```
/// use smclp::{read_reply, reply_value, Entry};
///
/// let reply = b"status=0\r\nbegingroup=cpu\r\nName=\"a`\"\nb\"\r\nendgroup\r\nendoutput\r\n";
/// let (mut room, mut value) = ([0; 3 * 64], [0; 64]);
/// let mut told = Vec::new();
/// for entry in read_reply(reply, &mut room)? {
///     match entry {
///         Entry::Item { keyword, value: raw } => {
///             told.push((&reply[keyword], reply_value(&reply[raw], &mut value)?.to_vec()));
///         }
///         Entry::Group(at) => assert_eq!(&reply[at], b"cpu"),
///         Entry::EndGroup | Entry::EndOutput => {}
///     }
/// }
/// assert_eq!(told, [(&b"status"[..], b"0".to_vec()), (b"Name", b"a\"\nb".to_vec())]);
///
/// let refusal = read_reply(b"status=0\nendgroup\nendoutput\n", &mut room).unwrap_err();
/// assert_eq!(refusal.to_string(), "refused as 22 at 9: `endgroup`, and no group is open");
/// # Ok::<(), smclp::Refusal>(())
/// ```
pub fn read_reply<'a>(reply: &'a [u8], room: &'a mut [u8]) -> Result<Reply<'a>, Refusal> {
    let answer = face::read_reply(reply, room);
    let length = accepted(answer.number, answer.value)?;
    let records = &room[..length];
    Ok(Reply {
        text: reply,
        records,
    })
}

/// A reply that was read. Its entries come in the order of the reply; the last is its end.
#[derive(Clone, Copy, Debug)]
pub struct Reply<'a> {
    text: &'a [u8],
    records: &'a [u8],
}

impl<'a> Reply<'a> {
    /// The reply that was read, with what follows its end.
    ///
    /// ```
    /// let mut room = [0; 1];
    /// assert_eq!(smclp::read_reply(b"endoutput\n$ ", &mut room)?.text(), b"endoutput\n$ ");
    /// # Ok::<(), smclp::Refusal>(())
    /// ```
    pub fn text(&self) -> &'a [u8] {
        self.text
    }

    /// Its entries. A loop over the reply itself gives them too.
    ///
    /// ```
    /// use smclp::{read_reply, Entry};
    ///
    /// let mut room = [0; 100];
    /// let reply = read_reply(b"# nothing\nbegingroup=cpu\nName=a b\nendgroup\nendoutput", &mut room)?;
    /// assert!(reply.entries().eq([
    ///     Entry::Group(21..24),
    ///     Entry::Item { keyword: 25..29, value: 30..33 },
    ///     Entry::EndGroup,
    ///     Entry::EndOutput,
    /// ]));
    /// # Ok::<(), smclp::Refusal>(())
    /// ```
    pub fn entries(&self) -> Entries<'a> {
        Entries {
            records: self.records,
        }
    }

    /// Its records, as clp.h describes them.
    ///
    /// ```
    /// use smclp::face::{KIND_END_OUTPUT, KIND_ITEM};
    ///
    /// let mut room = [0; 10];
    /// let reply = smclp::read_reply(b"a=\nendoutput", &mut room)?;
    /// assert_eq!(reply.records(), [KIND_ITEM, 0, 0, 0, 1, 0, 2, 0, 0, KIND_END_OUTPUT]);
    /// # Ok::<(), smclp::Refusal>(())
    /// ```
    pub fn records(&self) -> &'a [u8] {
        self.records
    }
}

impl<'a> IntoIterator for Reply<'a> {
    type Item = Entry;
    type IntoIter = Entries<'a>;

    fn into_iter(self) -> Entries<'a> {
        self.entries()
    }
}

/// An entry of a reply. Ranges are of the bytes of a text: of the reply that was read, or of the text that one is written from.
#[derive(Clone, Debug, PartialEq, Eq, Hash)]
pub enum Entry {
    /// `keyword=value`
    Item {
        /// Its keyword.
        keyword: Range<usize>,
        /// Its value: of a reply that was read as that has it, quotes and backticks included, for which there is [`reply_value`]; to be written, plain bytes.
        value: Range<usize>,
    },
    /// `begingroup=type`: a group opens, of this type.
    Group(Range<usize>),
    /// `endgroup`: the group that was opened last ends.
    EndGroup,
    /// `endoutput`: the reply ends.
    EndOutput,
}

impl Entry {
    /// The bytes of its record, as clp.h describes them. A range that no text of a reply can have makes a record that [`write_reply`] refuses.
    ///
    /// ```
    /// use smclp::face::KIND_GROUP;
    /// use smclp::Entry;
    ///
    /// assert!(Entry::Group(7..10).record().eq([KIND_GROUP, 0, 7, 0, 3]));
    /// let records: Vec<u8> = Entry::Group(0..70_000).record().collect();
    /// assert_eq!(smclp::write_reply(&records, &[b'a'; 65_535], &mut []).unwrap_err().number, 21);
    /// ```
    pub fn record(&self) -> impl Iterator<Item = u8> {
        let mut bytes = [0; face::ITEM_BYTES];
        let length = match self {
            Entry::Item { keyword, value } => {
                bytes[0] = face::KIND_ITEM;
                bytes[1..5].copy_from_slice(&part(keyword));
                bytes[5..].copy_from_slice(&part(value));
                face::ITEM_BYTES
            }
            Entry::Group(at) => {
                bytes[0] = face::KIND_GROUP;
                bytes[1..5].copy_from_slice(&part(at));
                face::GROUP_BYTES
            }
            Entry::EndGroup => {
                bytes[0] = face::KIND_END_GROUP;
                face::END_GROUP_BYTES
            }
            Entry::EndOutput => {
                bytes[0] = face::KIND_END_OUTPUT;
                face::END_OUTPUT_BYTES
            }
        };
        bytes.into_iter().take(length)
    }
}

/// The position and the length of a range, as a record has them; of one that does not fit, both as large as they can be, which is past the end of every text.
fn part(range: &Range<usize>) -> [u8; 4] {
    let length = range.end.checked_sub(range.start);
    let fields = [Some(range.start), length].map(|field| field.and_then(|n| u16::try_from(n).ok()));
    let [position, length] = match fields {
        [Some(position), Some(length)] => [position, length],
        _ => [u16::MAX; 2],
    };
    let ([a, b], [c, d]) = (position.to_be_bytes(), length.to_be_bytes());
    [a, b, c, d]
}

/// The entries of a reply, in its order.
#[derive(Clone, Debug)]
pub struct Entries<'a> {
    records: &'a [u8],
}

impl Iterator for Entries<'_> {
    type Item = Entry;

    fn next(&mut self) -> Option<Entry> {
        let (entry, rest) = match *self.records {
            [face::KIND_ITEM, a, b, c, d, e, f, g, h, ref rest @ ..] => {
                let keyword = range([a, b], [c, d]);
                let value = range([e, f], [g, h]);
                (Entry::Item { keyword, value }, rest)
            }
            [face::KIND_GROUP, a, b, c, d, ref rest @ ..] => {
                (Entry::Group(range([a, b], [c, d])), rest)
            }
            [face::KIND_END_GROUP, ref rest @ ..] => (Entry::EndGroup, rest),
            [face::KIND_END_OUTPUT, ref rest @ ..] => (Entry::EndOutput, rest),
            _ => return None,
        };
        self.records = rest;
        Some(entry)
    }
}

/// Writes the reply whose records are handed in, up to and with the first of an end of output; they point into a text, where values are plain bytes. Each line
/// ends with LF, and a value is put in quotes where it has to be. [`REPLY_BYTES`](crate::REPLY_BYTES) are always room enough.
///
/// What [`read_reply`] told is not written as it stands, or its quoted values would be quoted once more: each goes through [`reply_value`] first.
///
/// ```
/// use smclp::{write_reply, Entry};
///
/// let text = b"status0cpuNamea\"\nb";
/// let entries = [
///     Entry::Item { keyword: 0..6, value: 6..7 },
///     Entry::Group(7..10),
///     Entry::Item { keyword: 10..14, value: 14..18 },
///     Entry::EndGroup,
///     Entry::EndOutput,
/// ];
/// let records: Vec<u8> = entries.iter().flat_map(Entry::record).collect();
/// let mut room = [0; 100];
/// let reply = write_reply(&records, text, &mut room)?;
/// assert_eq!(reply, b"status=0\nbegingroup=cpu\nName=\"a`\"\nb\"\nendgroup\nendoutput\n");
///
/// let refusal = write_reply(&records[..14], text, &mut room).unwrap_err();
/// assert_eq!((refusal.number, refusal.place), (25, 14));
/// # Ok::<(), smclp::Refusal>(())
/// ```
pub fn write_reply<'r>(
    records: &[u8],
    text: &[u8],
    room: &'r mut [u8],
) -> Result<&'r [u8], Refusal> {
    let answer = face::write_reply(records, text, room);
    let length = accepted(answer.number, answer.value)?;
    Ok(&room[..length])
}

/// Writes the bytes that a value stands for, as a reply has it: a quoted one without its quotes and the backticks that escape, any other as it is. One that
/// begins with `"` and is no quoted value is refused as 21. As many bytes as it has are always room enough.
///
/// ```
/// let mut room = [0; 8];
/// assert_eq!(smclp::reply_value(b"\"a `\"b`c\"", &mut room)?, b"a \"b`c");
/// assert_eq!(smclp::reply_value(b"a \"b`c", &mut room)?, b"a \"b`c");
/// assert_eq!(smclp::reply_value(b"\"a\" b", &mut room).unwrap_err().number, 21);
/// # Ok::<(), smclp::Refusal>(())
/// ```
pub fn reply_value<'r>(raw: &[u8], room: &'r mut [u8]) -> Result<&'r [u8], Refusal> {
    let answer = face::reply_value(raw, room);
    let length = accepted(answer.number, answer.value)?;
    Ok(&room[..length])
}

//! Reading a line: its parts, and where they stand in it.

use crate::face;
use crate::refusal::{accepted, Refusal};
use crate::terms::term_from;
use crate::vocabulary::{CommandOption, Operator, Verb};
use core::ops::Range;

/// Reads a line; the records of its parts are written into the room, for which [`READING_BYTES`](crate::READING_BYTES) are always enough.
///
/// ```
/// use smclp::{CommandOption, Operator, Part, Verb, READING_BYTES};
///
/// let mut room = [0; READING_BYTES];
/// let line = b"show -level 2 /system1/cpu* Name";
/// let reading = smclp::read(line, &mut room)?;
/// assert!(reading.parts().eq([
///     Part::Verb(Verb::Show),
///     Part::Option { option: CommandOption::Level, argument: Some(12..13) },
///     Part::Target(14..27),
///     Part::Property { name: 28..32, operator: Operator::None, value: None },
/// ]));
/// assert_eq!(&line[14..27], b"/system1/cpu*");
/// # Ok::<(), smclp::Refusal>(())
/// ```
pub fn read<'a>(line: &'a [u8], room: &'a mut [u8]) -> Result<Reading<'a>, Refusal> {
    let answer = face::read(line, room);
    let length = accepted(answer.number, answer.value)?;
    let records = &room[..length];
    Ok(Reading { line, records })
}

/// A line that was read. Its parts come in the order of the line: the verb, the options, the target if there is one, the properties; a blank line has none.
#[derive(Clone, Copy, Debug)]
pub struct Reading<'a> {
    line: &'a [u8],
    records: &'a [u8],
}

impl<'a> Reading<'a> {
    /// The line that was read.
    ///
    /// ```
    /// use smclp::{read, Part, READING_BYTES};
    ///
    /// let mut room = [0; READING_BYTES];
    /// let reading = read(b"cd /system1", &mut room)?;
    /// let targets = reading.parts().filter_map(|part| match part {
    ///     Part::Target(at) => Some(&reading.line()[at]),
    ///     _ => None,
    /// });
    /// assert!(targets.eq([b"/system1"]));
    /// # Ok::<(), smclp::Refusal>(())
    /// ```
    pub fn line(&self) -> &'a [u8] {
        self.line
    }

    /// The verb, which every line has that is not blank.
    ///
    /// ```
    /// use smclp::{read, Verb, READING_BYTES};
    ///
    /// let mut room = [0; READING_BYTES];
    /// assert_eq!(read(b"CD ..", &mut room)?.verb(), Some(Verb::Cd));
    /// assert_eq!(read(b"  ", &mut room)?.verb(), None);
    /// # Ok::<(), smclp::Refusal>(())
    /// ```
    pub fn verb(&self) -> Option<Verb> {
        match *self.records {
            [face::KIND_VERB, number, ..] => Verb::from_number(number),
            _ => None,
        }
    }

    /// Its parts. A loop over the reading itself gives them too.
    ///
    /// ```
    /// use smclp::{read, Operator, Part, READING_BYTES};
    ///
    /// let mut room = [0; READING_BYTES];
    /// let line = b"set Name=\"a b\"";
    /// for part in read(line, &mut room)? {
    ///     if let Part::Property { name, operator, value: Some(value) } = part {
    ///         assert_eq!((&line[name], operator), (&b"Name"[..], Operator::Set));
    ///         assert_eq!(&line[value], b"\"a b\"");
    ///     }
    /// }
    /// # Ok::<(), smclp::Refusal>(())
    /// ```
    pub fn parts(&self) -> Parts<'a> {
        Parts {
            records: self.records,
        }
    }

    /// Its parts, each with its place in the line: the term of a verb or of an option (an argument is a term of its own), a target, a property from its name to
    /// its value's end. It costs a search for each verb and option.
    ///
    /// ```
    /// use smclp::{read, READING_BYTES};
    ///
    /// let mut room = [0; READING_BYTES];
    /// let marks = read(b" show -l 2 /cpu1 Name==x", &mut room)?.marks();
    /// assert!(marks.map(|(at, _)| at).eq([1..5, 6..8, 11..16, 17..24]));
    /// # Ok::<(), smclp::Refusal>(())
    /// ```
    pub fn marks(&self) -> Marks<'a> {
        Marks {
            line: self.line,
            place: 0,
            parts: self.parts(),
        }
    }

    /// Its records, as clp.h describes them.
    ///
    /// ```
    /// use smclp::face::{KIND_BLANK, KIND_VERB, VERB_CD};
    /// use smclp::{read, READING_BYTES};
    ///
    /// let mut room = [0; READING_BYTES];
    /// assert_eq!(read(b"cd", &mut room)?.records(), [KIND_VERB, VERB_CD]);
    /// assert_eq!(read(b"", &mut room)?.records(), [KIND_BLANK]);
    /// # Ok::<(), smclp::Refusal>(())
    /// ```
    pub fn records(&self) -> &'a [u8] {
        self.records
    }

    /// Writes its records as text, as the program `clplist` prints them. [`TEXT_BYTES`](crate::TEXT_BYTES) are always room enough.
    ///
    /// ```
    /// use smclp::{read, READING_BYTES, TEXT_BYTES};
    ///
    /// let (mut room, mut text) = ([0; READING_BYTES], [0; TEXT_BYTES]);
    /// let reading = read(b"cd /system1", &mut room)?;
    /// assert_eq!(reading.text(&mut text)?, b"verb 1\ntarget 3 8\n");
    /// # Ok::<(), smclp::Refusal>(())
    /// ```
    pub fn text<'r>(&self, room: &'r mut [u8]) -> Result<&'r [u8], Refusal> {
        let answer = face::records_text(self.records, room);
        let length = accepted(answer.number, answer.value)?;
        Ok(&room[..length])
    }
}

impl<'a> IntoIterator for Reading<'a> {
    type Item = Part;
    type IntoIter = Parts<'a>;

    fn into_iter(self) -> Parts<'a> {
        self.parts()
    }
}

/// A part of a line. Ranges are of the line's bytes, quotes, parentheses and backticks included.
#[derive(Clone, Debug, PartialEq, Eq, Hash)]
pub enum Part {
    /// The verb.
    Verb(Verb),
    /// An option.
    Option {
        /// Which one it is.
        option: CommandOption,
        /// Its argument, if it takes one. The word `all` as level's argument may have letters of either case.
        argument: Option<Range<usize>>,
    },
    /// The target.
    Target(Range<usize>),
    /// A property, or a topic of `help`, which has no operator.
    Property {
        /// Its name.
        name: Range<usize>,
        /// What stands between name and value.
        operator: Operator,
        /// Its value, if there is an operator.
        value: Option<Range<usize>>,
    },
}

/// The parts of a line, in its order.
#[derive(Clone, Debug)]
pub struct Parts<'a> {
    records: &'a [u8],
}

impl Iterator for Parts<'_> {
    type Item = Part;

    fn next(&mut self) -> Option<Part> {
        let (part, rest) = match *self.records {
            [face::KIND_VERB, verb, ref rest @ ..] => (Part::Verb(Verb::from_number(verb)?), rest),
            [face::KIND_OPTION, option, a, b, c, d, ref rest @ ..] => {
                let argument = range([a, b], [c, d]);
                let part = Part::Option {
                    option: CommandOption::from_number(option)?,
                    // a term has at least one byte
                    argument: Some(argument).filter(|argument| !argument.is_empty()),
                };
                (part, rest)
            }
            [face::KIND_TARGET, a, b, c, d, ref rest @ ..] => {
                (Part::Target(range([a, b], [c, d])), rest)
            }
            [face::KIND_PROPERTY, a, b, c, d, operator, e, f, g, h, ref rest @ ..] => {
                let operator = Operator::from_number(operator)?;
                let part = Part::Property {
                    name: range([a, b], [c, d]),
                    operator,
                    value: Some(range([e, f], [g, h])).filter(|_| operator != Operator::None),
                };
                (part, rest)
            }
            // the end, or the record of a blank line
            _ => return None,
        };
        self.records = rest;
        Some(part)
    }
}

/// The range of a position and a length, as a record has them.
pub(crate) fn range(position: [u8; 2], length: [u8; 2]) -> Range<usize> {
    let [start, length] = [position, length].map(|field| usize::from(u16::from_be_bytes(field)));
    start..start + length
}

/// The parts of a line with their places, in its order.
#[derive(Clone, Debug)]
pub struct Marks<'a> {
    line: &'a [u8],
    place: usize,
    parts: Parts<'a>,
}

impl Marks<'_> {
    /// The next term, after which the search goes on.
    fn term(&mut self) -> Option<Range<usize>> {
        let term = term_from(self.line, self.place).ok().flatten()?;
        self.place = term.end;
        Some(term)
    }
}

impl Iterator for Marks<'_> {
    type Item = (Range<usize>, Part);

    fn next(&mut self) -> Option<(Range<usize>, Part)> {
        let part = self.parts.next()?;
        let at = match &part {
            Part::Verb(_) => self.term()?,
            Part::Option { argument, .. } => {
                let at = self.term()?;
                if let Some(argument) = argument {
                    self.place = argument.end;
                }
                at
            }
            Part::Target(at) => at.clone(),
            Part::Property { name, value, .. } => name.start..value.as_ref().unwrap_or(name).end,
        };
        Some((at, part))
    }
}

/// Where the target stands in a line; `None` where there is none or the line is refused.
///
/// ```
/// assert_eq!(smclp::target(b"cd /system1"), Some(3..11));
/// assert_eq!(smclp::target(b"cd"), None);
/// ```
pub fn target(line: &[u8]) -> Option<Range<usize>> {
    let face::Part { position, length } = face::target(line);
    let [start, length] = [position as usize, length as usize];
    Some(start..start + length).filter(|at| !at.is_empty())
}

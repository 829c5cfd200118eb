//! "Terms and escapes": a line's terms, rows 1 to 5, and the bytes that a text stands for.

use crate::bytes::{grave_escapes, grave_width, parts_terms, GRAVE};
use crate::joiner::LINE_ROOM;
use crate::refusal::{
    Refusal, BYTE_NOT_PRINTABLE, GRAVE_AT_END, LINE_TOO_LONG, QUOTE_LEFT_OPEN, ROOM_TOO_SMALL,
    TOO_MANY_TERMS,
};
use crate::Part;

/// The most terms of a line.
pub const MOST_TERMS: usize = 64;

/// A scanned term: where it stands and what its bytes showed on the way.
#[derive(Clone, Copy)]
struct Scan {
    start: usize,
    end: usize,
    has_bare_equals: bool,
    has_quote: bool,
    /// The opening quote where the text ends inside one.
    open_quote: Option<usize>,
    /// The text's last byte is a GRAVE that escapes nothing.
    ends_in_lone_grave: bool,
}

/// A term of an accepted line, with what the command's rules ask about it.
#[derive(Clone, Copy, Default)]
pub(crate) struct Term {
    pub(crate) start: u16,
    pub(crate) end: u16,
    pub(crate) has_bare_equals: bool,
    pub(crate) has_quote: bool,
}

impl Term {
    pub(crate) fn part(self) -> Part {
        Part::between(usize::from(self.start), usize::from(self.end))
    }

    pub(crate) fn raw(self, line: &[u8]) -> &[u8] {
        &line[usize::from(self.start)..usize::from(self.end)]
    }
}

impl Scan {
    fn part(&self) -> Part {
        Part::between(self.start, self.end)
    }

    fn term(&self) -> Term {
        Term {
            start: self.start as u16,
            end: self.end as u16,
            has_bare_equals: self.has_bare_equals,
            has_quote: self.has_quote,
        }
    }
}

/// The terms of a line that meets none of rows 1 to 5.
pub(crate) struct Terms {
    all: [Term; MOST_TERMS],
    count: usize,
}

impl Terms {
    pub(crate) fn new() -> Terms {
        Terms {
            all: [Term::default(); MOST_TERMS],
            count: 0,
        }
    }

    pub(crate) fn as_slice(&self) -> &[Term] {
        &self.all[..self.count]
    }
}

/// The term at or after `place` as the half-open range of its bytes; any line, any place.
pub fn term_at(line: &[u8], place: usize) -> Option<std::ops::Range<usize>> {
    scan_term(line, place).map(|scan| scan.start..scan.end)
}

/// Whether `text` is one term without an unescaped `"`.
pub(crate) fn is_unquoted_term(text: &[u8]) -> bool {
    scan_term(text, 0)
        .is_some_and(|scan| scan.part() == Part::between(0, text.len()) && !scan.has_quote)
}

/// Rows 1 to 5: the line's refusal with its place, if one of them holds.
pub fn check_line(line: &[u8]) -> Result<(), Refusal> {
    scan_line(line, |_, _| ())
}

/// Rows 1 to 5, and the line's terms where none of them holds.
pub(crate) fn find_terms(line: &[u8], terms: &mut Terms) -> Result<(), Refusal> {
    terms.count = 0;
    scan_line(line, |index, scan| {
        if let Some(slot) = terms.all.get_mut(index) {
            *slot = scan.term();
            terms.count = index + 1;
        }
    })
}

/// Goes over the line once, showing each term with its index, and judges rows 1 to 5 in order.
#[inline]
fn scan_line(line: &[u8], mut show: impl FnMut(usize, &Scan)) -> Result<(), Refusal> {
    check_bytes(line)?;
    let mut count = 0;
    let mut place = 0;
    let mut start_of_65th = None;
    while let Some(scan) = scan_term(line, place) {
        if scan.ends_in_lone_grave {
            return Err(Refusal::new(GRAVE_AT_END, line.len() - 1));
        }
        if let Some(quote) = scan.open_quote {
            return Err(Refusal::new(QUOTE_LEFT_OPEN, quote));
        }
        if count == MOST_TERMS {
            start_of_65th = Some(scan.start);
        }
        show(count, &scan);
        count += 1;
        place = scan.end;
    }
    start_of_65th.map_or(Ok(()), |start| Err(Refusal::new(TOO_MANY_TERMS, start)))
}

/// Rows 1 and 2: the line's length, then its bytes.
fn check_bytes(line: &[u8]) -> Result<(), Refusal> {
    if line.len() > LINE_ROOM {
        return Err(Refusal::new(LINE_TOO_LONG, LINE_ROOM));
    }
    let is_odd = |byte: u8| !(0x20..=0x7e).contains(&byte);
    // Judged without an early way out, so that the common good line goes many bytes at a time.
    if line.iter().fold(false, |odd, &byte| odd | is_odd(byte)) {
        let place = line.iter().position(|&byte| is_odd(byte)).unwrap_or(0);
        return Err(Refusal::new(BYTE_NOT_PRINTABLE, place));
    }
    Ok(())
}

/// Scans the term at or after `place` as at a line's start.
#[inline]
fn scan_term(line: &[u8], place: usize) -> Option<Scan> {
    let spaces = line
        .get(place..)?
        .iter()
        .take_while(|&&byte| byte == b' ')
        .count();
    let start = place + spaces;
    if start == line.len() {
        return None;
    }
    let mut scan = Scan {
        start,
        end: start,
        has_bare_equals: false,
        has_quote: false,
        open_quote: None,
        ends_in_lone_grave: false,
    };
    while let Some(&byte) = line.get(scan.end) {
        let in_quote = scan.open_quote.is_some();
        let mut width = 1;
        if parts_terms(byte) {
            match byte {
                GRAVE => {
                    width = grave_width(line, scan.end, in_quote);
                    scan.ends_in_lone_grave = scan.end + 1 == line.len();
                }
                b'"' => {
                    scan.has_quote = true;
                    scan.open_quote = if in_quote { None } else { Some(scan.end) };
                }
                b' ' if !in_quote => break,
                b'=' if !in_quote => scan.has_bare_equals = true,
                _ => {}
            }
        }
        scan.end += width;
    }
    Some(scan)
}

/// The next term from `place` on, as the carried reader gives it: rows 1 to 5 come first.
pub fn next_term(line: &[u8], place: usize) -> Result<Option<Part>, Refusal> {
    check_line(line)?;
    Ok(scan_term(line, place).map(|scan| scan.part()))
}

/// A reader that carries the lent line with its place and yields the next term.
#[derive(Clone, Debug)]
pub struct TermReader<'l> {
    line: &'l [u8],
    place: usize,
    judged: Result<(), Refusal>,
}

impl<'l> TermReader<'l> {
    pub fn new(line: &'l [u8]) -> TermReader<'l> {
        TermReader::at(line, 0)
    }

    pub fn at(line: &'l [u8], place: usize) -> TermReader<'l> {
        TermReader {
            line,
            place,
            judged: check_line(line),
        }
    }

    pub fn place(&self) -> usize {
        self.place
    }

    /// Yields the next term and goes to its end; without a term, or refused, the place stays.
    pub fn next_term(&mut self) -> Result<Option<Part>, Refusal> {
        self.judged?;
        let found = scan_term(self.line, self.place);
        if let Some(scan) = &found {
            self.place = scan.end;
        }
        Ok(found.map(|scan| scan.part()))
    }
}

/// The bytes that a text stands for: quotes vanish, and an escaped byte is itself, plain.
#[derive(Clone, Debug)]
pub struct StoodFor<'t> {
    text: &'t [u8],
    place: usize,
    in_quote: bool,
}

pub fn stood_for(text: &[u8]) -> StoodFor<'_> {
    StoodFor {
        text,
        place: 0,
        in_quote: false,
    }
}

impl Iterator for StoodFor<'_> {
    type Item = u8;

    fn next(&mut self) -> Option<u8> {
        loop {
            let byte = *self.text.get(self.place)?;
            self.place += 1;
            match (byte, self.text.get(self.place)) {
                (GRAVE, Some(&next)) if grave_escapes(next, self.in_quote) => {
                    self.place += 1;
                    return Some(next);
                }
                (b'"', _) => self.in_quote = !self.in_quote,
                _ => return Some(byte),
            }
        }
    }
}

/// Writes the bytes that `text` stands for into lent room, and tells how many they are.
pub fn write_stood_for(text: &[u8], room: &mut [u8]) -> Result<usize, Refusal> {
    let needed = stood_for(text).count();
    let answer = room.get_mut(..needed).ok_or(ROOM_TOO_SMALL)?;
    for (slot, byte) in answer.iter_mut().zip(stood_for(text)) {
        *slot = byte;
    }
    Ok(needed)
}

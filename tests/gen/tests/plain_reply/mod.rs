//! Replies judged anew, by the letter of request e's two orders of judgement and by nothing of the
//! reader: a reply by its lines, groups inside groups; records by what they say; a value by a walk
//! over its bytes.

use clp_gen::reply::Said;

/// A refusal's number and its place.
pub type Refused = (u8, usize);

/// The most bytes of a reply or of a text that records point into.
const MOST_BYTES: usize = 65_535;

fn is_name(word: &[u8]) -> bool {
    let letters = b"abcdefghijklmnopqrstuvwxyzABCDEFGHIJKLMNOPQRSTUVWXYZ";
    let others = b"0123456789_";
    let is_letter = |byte: &u8| letters.contains(byte);
    (1..=64).contains(&word.len())
        && is_letter(&word[0])
        && word
            .iter()
            .all(|byte| is_letter(byte) || others.contains(byte))
}

fn is_reserved(word: &[u8]) -> bool {
    word == b"begingroup" || word == b"endgroup" || word == b"endoutput"
}

/// What a reply says, or how it is refused.
pub fn judged_reply(text: &[u8]) -> Result<Vec<Said>, Refused> {
    if text.len() > MOST_BYTES {
        return Err((21, 0));
    }
    let mut judge = Judge {
        text,
        at: 0,
        said: Vec::new(),
    };
    judge.lines(0)?;
    Ok(judge.said)
}

struct Judge<'t> {
    text: &'t [u8],
    at: usize,
    said: Vec<Said>,
}

impl<'t> Judge<'t> {
    /// The bytes up to the next end of line or the text's end.
    fn line(&self) -> &'t [u8] {
        let mut parts = self.text[self.at..].split(|byte| b"\r\n".contains(byte));
        parts.next().unwrap()
    }

    /// Goes past so many bytes and the end of line that follows them.
    fn pass(&mut self, length: usize) {
        self.at += length;
        let rest = &self.text[self.at..];
        let end = match rest {
            _ if rest.starts_with(b"\r\n") => 2,
            _ if rest.is_empty() => 0,
            _ => 1,
        };
        self.at += end;
    }

    /// The lines of a group so deep, up to its end; at depth 0 up to the output's end.
    fn lines(&mut self, depth: usize) -> Result<(), Refused> {
        while self.at < self.text.len() {
            let (start, line) = (self.at, self.line());
            if line.is_empty() || line[0] == b'#' {
                self.pass(line.len());
            } else if line == b"endoutput" {
                self.said.push(Said::EndOutput);
                return if depth == 0 { Ok(()) } else { Err((24, start)) };
            } else if line == b"endgroup" {
                self.said.push(Said::EndGroup);
                self.pass(line.len());
                return if depth > 0 { Ok(()) } else { Err((22, start)) };
            } else if let Some(type_name) = line.strip_prefix(b"begingroup=") {
                if !is_name(type_name) {
                    return Err((21, start));
                }
                if depth == 8 {
                    return Err((23, start));
                }
                let type_name = type_name.to_vec();
                self.said.push(Said::Group { type_name });
                self.pass(line.len());
                self.lines(depth + 1)?;
            } else {
                self.item(line)?;
            }
        }
        Err((25, self.text.len()))
    }

    fn item(&mut self, line: &[u8]) -> Result<(), Refused> {
        let start = self.at;
        let equals = line.iter().position(|&byte| byte == b'=');
        let keyword = &line[..equals.unwrap_or(0)];
        if !is_name(keyword) || is_reserved(keyword) {
            return Err((21, start));
        }
        let keyword = keyword.to_vec();
        let raw = &self.text[start + keyword.len() + 1..];
        let (length, value) = match raw.first() {
            Some(b'"') => quoted(raw).ok_or((25, self.text.len()))?,
            _ => {
                let plain = &line[keyword.len() + 1..];
                (plain.len(), plain.to_vec())
            }
        };
        match raw.get(length) {
            None | Some(b'\r' | b'\n') => {}
            Some(_) => return Err((21, start)),
        }
        self.pass(keyword.len() + 1 + length);
        self.said.push(Said::Item { keyword, value });
        Ok(())
    }
}

/// The length of the quoted value that a text begins with, and the bytes that it stands for; none
/// where it is not closed.
fn quoted(text: &[u8]) -> Option<(usize, Vec<u8>)> {
    let mut value = Vec::new();
    let mut bytes = text.iter().copied().enumerate().skip(1).peekable();
    while let Some((at, byte)) = bytes.next() {
        let next = bytes.peek().map(|&(_, next)| next);
        match (byte, next) {
            (b'"', _) => return Some((at + 1, value)),
            (b'`', Some(next @ (b'"' | b'`'))) => {
                value.push(next);
                bytes.next();
            }
            _ => value.push(byte),
        }
    }
    None
}

/// What a raw value stands for, or how it is refused.
pub fn judged_value(raw: &[u8]) -> Result<Vec<u8>, Refused> {
    if !raw.starts_with(b"\"") {
        return Ok(raw.to_vec());
    }
    match quoted(raw) {
        Some((length, value)) if length == raw.len() => Ok(value),
        _ => Err((21, 0)),
    }
}

/// What a record says and how many bytes it has; none where it is cut, of no kind, or names a part
/// past the text. Names are not judged.
fn said_at(records: &[u8], text: &[u8]) -> Option<(Said, usize)> {
    let field =
        |at: usize| Some(usize::from(*records.get(at)?) << 8 | usize::from(*records.get(at + 1)?));
    let part = |at: usize| {
        let (position, length) = (field(at)?, field(at + 2)?);
        let is_inside = position + length <= text.len();
        is_inside.then(|| text[position..position + length].to_vec())
    };
    match records.first()? {
        64 => {
            let (keyword, value) = (part(1)?, part(5)?);
            Some((Said::Item { keyword, value }, 9))
        }
        65 => Some((
            Said::Group {
                type_name: part(1)?,
            },
            5,
        )),
        66 => Some((Said::EndGroup, 1)),
        67 => Some((Said::EndOutput, 1)),
        _ => None,
    }
}

/// What records say up to and with their first end of output, each with its place; then, where there
/// is no such end, the place of the record that can't be told, or of the records' end.
pub fn told(records: &[u8], text: &[u8]) -> (Vec<(usize, Said)>, Option<usize>) {
    let (mut all, mut at) = (Vec::new(), 0);
    while let Some((said, length)) = said_at(&records[at..], text) {
        let is_last = said == Said::EndOutput;
        all.push((at, said));
        at += length;
        if is_last {
            return (all, None);
        }
    }
    (all, Some(at))
}

/// The line of what is said, by the writer's rule and without any judgement.
pub fn line_of(said: &Said) -> Vec<u8> {
    match said {
        Said::Item { keyword, value } => {
            let has_end = value.contains(&b'\r') || value.contains(&b'\n');
            let raw = match has_end || value.starts_with(b"\"") {
                true => [b"\"", &escaped(value)[..], b"\""].concat(),
                false => value.clone(),
            };
            [keyword, &b"="[..], &raw, b"\n"].concat()
        }
        Said::Group { type_name } => [b"begingroup=", &type_name[..], b"\n"].concat(),
        Said::EndGroup => b"endgroup\n".to_vec(),
        Said::EndOutput => b"endoutput\n".to_vec(),
    }
}

fn escaped(value: &[u8]) -> Vec<u8> {
    let mut escaped = Vec::with_capacity(value.len());
    for &byte in value {
        if byte == b'"' || byte == b'`' {
            escaped.push(b'`');
        }
        escaped.push(byte);
    }
    escaped
}

/// The reply that records over a text stand for, or how they are refused: record by record.
pub fn judged_writing(records: &[u8], text: &[u8]) -> Result<Vec<u8>, Refused> {
    if text.len() > MOST_BYTES {
        return Err((21, 0));
    }
    let (all, stopped) = told(records, text);
    let mut depth = 0;
    for (place, said) in &all {
        match said {
            Said::Item { keyword, .. } if !is_name(keyword) || is_reserved(keyword) => {
                return Err((21, *place));
            }
            Said::Item { .. } => {}
            Said::Group { type_name } if !is_name(type_name) => return Err((21, *place)),
            Said::Group { .. } if depth == 8 => return Err((23, *place)),
            Said::Group { .. } => depth += 1,
            Said::EndGroup if depth == 0 => return Err((22, *place)),
            Said::EndGroup => depth -= 1,
            Said::EndOutput if depth > 0 => return Err((24, *place)),
            Said::EndOutput => {}
        }
    }
    match stopped {
        Some(place) if place == records.len() => return Err((25, place)),
        Some(place) => return Err((21, place)),
        None => {}
    }
    let mut reply = Vec::new();
    for (_, said) in &all {
        reply.extend(line_of(said));
        if reply.len() > MOST_BYTES {
            return Err((21, 0));
        }
    }
    Ok(reply)
}

//! Board replies: good by the grammar, with every kind of end of line; spoiled by one line; about as
//! long as a reply may be; damaged, cut, noise.

use crate::damage::damage;
use crate::reply_value::{raw_of, value};
use crate::rng::Rng;

/// The most bytes of a reply.
pub const MOST_BYTES: usize = 65_535;

/// The most groups that are open at once.
const MOST_GROUPS: usize = 8;

const LINE_ENDS: [&str; 3] = ["\n", "\r", "\r\n"];

const KEYWORDS: [&str; 16] = [
    "commandline",
    "status",
    "status_tag",
    "error",
    "job_id",
    "errtype_desc",
    "message_arg",
    "ufip",
    "a",
    "Z_9",
    "endgroups",
    "Endgroup",
    "begingrou",
    "endoutput_",
    "BEGINGROUP",
    "abcdefghijklmnopqrstuvwxyz_ABCDEFGHIJKLMNOPQRSTUVWXYZ_0123456789",
];

/// Types of groups; the words that are no keyword are good as types.
const TYPES: [&str; 8] = [
    "message",
    "instance",
    "property",
    "g",
    "endgroup",
    "endoutput",
    "begingroup",
    "abcdefghijklmnopqrstuvwxyz_ABCDEFGHIJKLMNOPQRSTUVWXYZ_0123456789",
];

const COMMENTS: [&str; 6] = [
    "#",
    "# a=\"",
    "#endoutput",
    "##",
    "# \0\u{e4}",
    "#begingroup=g",
];

/// Lines of no form, whatever stands around them.
const BAD_LINES: [&str; 46] = [
    "x",
    " ",
    "\t",
    "\0",
    " #",
    "=",
    "=1",
    "1=1",
    "_a=1",
    "a-b=1",
    "a =1",
    " a=1",
    "\"a\"=1",
    "\u{e4}=1",
    "@=1",
    "[=1",
    "`=1",
    "{=1",
    "a",
    "endgroup ",
    "endgroup=",
    "endgroup=1",
    "endgroup=\"",
    "endgroups",
    " endgroup",
    "ENDGROUP",
    "endoutput ",
    "endoutput=",
    "endoutput=1",
    "endoutput=\"",
    "endoutputx",
    "endoutpu",
    " endoutput",
    "ENDOUTPUT",
    "begingroup",
    "begingroup ",
    "begingroup=",
    "begingroup=1",
    "begingroup=g ",
    "begingroup= g",
    "begingroup=\"g\"",
    "begingroup=\"",
    "begingroup =g",
    "1=\"",
    "abcdefghijklmnopqrstuvwxyz_ABCDEFGHIJKLMNOPQRSTUVWXYZ_0123456789x=1",
    "begingroup=abcdefghijklmnopqrstuvwxyz_ABCDEFGHIJKLMNOPQRSTUVWXYZ_0123456789x",
];

/// What stands after a closing quote where only the end of line may follow.
const JUNK: [&str; 8] = ["c", " ", "\"", "`", "#", "=", "\0", "\"\""];

/// Pieces of noise.
const PIECES: [&str; 20] = [
    "endoutput",
    "endoutput",
    "endgroup",
    "begingroup=",
    "begingroup=g",
    "a=",
    "a=1",
    "b=\"",
    "\"",
    "`",
    "=",
    "#",
    " ",
    "1",
    "g",
    "\n",
    "\n",
    "\r",
    "\r\n",
    "\0",
];

/// One thing that a reply says, as it was made; a value is the bytes that it stands for.
#[derive(Clone, Debug, PartialEq, Eq)]
pub enum Said {
    Item { keyword: Vec<u8>, value: Vec<u8> },
    Group { type_name: Vec<u8> },
    EndGroup,
    EndOutput,
}

/// A line of a reply, its end apart; a quoted value in it may hold ends of line of its own.
#[derive(Clone, Debug)]
pub struct Line {
    pub text: Vec<u8>,
    pub end: &'static [u8],
    /// How many groups are open before it.
    pub depth: usize,
}

/// A reply that is good by its making, as long as it isn't longer than a reply may be.
#[derive(Clone, Debug)]
pub struct Good {
    /// Up to and with the one that ends the output.
    pub lines: Vec<Line>,
    /// What follows them, which is not read.
    pub rest: Vec<u8>,
    pub said: Vec<Said>,
}

/// A reply that one line spoils, and how it is refused as long as it isn't too long.
#[derive(Clone, Debug)]
pub struct Spoiled {
    pub text: Vec<u8>,
    pub number: u8,
    pub place: usize,
}

impl Good {
    pub fn text(&self) -> Vec<u8> {
        let mut text = Vec::new();
        for line in &self.lines {
            text.extend_from_slice(&line.text);
            text.extend_from_slice(line.end);
        }
        text.extend_from_slice(&self.rest);
        text
    }

    /// The same reply with other ends of line, those in quotes apart.
    pub fn with_other_ends(&self, rng: &mut Rng) -> Good {
        let mut other = self.clone();
        for line in other.lines.iter_mut().filter(|line| !line.end.is_empty()) {
            line.end = rng.pick_text(&LINE_ENDS);
        }
        other
    }

    /// Puts a line in before another one, and what it says.
    fn insert(&mut self, at: usize, line: Line, said: Option<(usize, Said)>) {
        self.lines.insert(at, line);
        if let Some((at, said)) = said {
            self.said.insert(at, said);
        }
    }
}

/// One reply: good, spoiled by one line, damaged, cut, or noise; now and then about as long as a
/// reply may be.
pub fn reply(rng: &mut Rng) -> Vec<u8> {
    match rng.below(20) {
        0..=8 => good_reply(rng).text(),
        9..=13 => spoiled_reply(rng).text,
        14 | 15 => {
            let mut text = good_reply(rng).text();
            damage(rng, &mut text);
            text
        }
        16 | 17 => {
            let mut text = good_reply(rng).text();
            let left = rng.below(text.len() + 1);
            text.truncate(left);
            text
        }
        _ => noise(rng),
    }
}

/// A reply by the grammar; one in two hundred is about as long as it may be, or just longer.
pub fn good_reply(rng: &mut Rng) -> Good {
    let mut good = short_reply(rng);
    if rng.below(200) == 0 {
        lengthen(rng, &mut good);
    }
    good
}

/// A reply with one line put in that is refused where it stands.
pub fn spoiled_reply(rng: &mut Rng) -> Spoiled {
    let mut good = good_reply(rng);
    let deepest = good.lines.iter().map(|line| line.depth).max();
    let at = loop {
        let at = rng.below(good.lines.len());
        // A place where no group more may be opened is taken more often than others.
        let is_deepest = deepest == Some(good.lines[at].depth);
        if deepest != Some(MOST_GROUPS) || is_deepest || rng.percent(4) {
            break at;
        }
    };
    let depth = good.lines[at].depth;
    let (text, number) = bad_line(rng, depth);
    let before = good.lines[..at].iter();
    let place = before.map(|line| line.text.len() + line.end.len()).sum();
    let end = rng.pick_text(&LINE_ENDS);
    good.insert(at, Line { text, end, depth }, None);
    Spoiled {
        text: good.text(),
        number,
        place,
    }
}

/// A line that is refused where so many groups are open, and its number.
fn bad_line(rng: &mut Rng, depth: usize) -> (Vec<u8>, u8) {
    match depth {
        _ if rng.percent(40) => (of_no_form(rng), 21),
        0 => (b"endgroup".to_vec(), 22),
        MOST_GROUPS if rng.percent(70) => (group_line(rng.pick_text(&TYPES)), 23),
        _ => (b"endoutput".to_vec(), 24),
    }
}

/// A line of no form: one of the list, or a quoted value with something after its closing quote.
fn of_no_form(rng: &mut Rng) -> Vec<u8> {
    if rng.percent(75) {
        return rng.pick_text(&BAD_LINES).to_vec();
    }
    let held = value(rng);
    let escaped = held.iter().flat_map(|&byte| match byte {
        b'"' | b'`' => vec![b'`', byte],
        _ => vec![byte],
    });
    let value: Vec<u8> = escaped.collect();
    [b"a=\"", &value[..], b"\"", rng.pick_text(&JUNK)].concat()
}

fn short_reply(rng: &mut Rng) -> Good {
    let end = match rng.percent(50) {
        true => Some(rng.pick_text(&LINE_ENDS)),
        false => None,
    };
    let mut maker = Maker {
        lines: Vec::new(),
        said: Vec::new(),
        depth: 0,
        end,
    };
    // Now and then groups are opened one after another, as deep as they may go.
    if rng.percent(15) {
        for _ in 0..*rng.pick(&[6, 7, MOST_GROUPS, MOST_GROUPS]) {
            maker.put_group(rng);
        }
    }
    let most = *rng.pick(&[0, 2, 6, 6, 12, 60]);
    for _ in 0..rng.between(0, most) {
        maker.put_any(rng);
    }
    while maker.depth > 0 {
        maker.put_filling(rng);
        maker.end_group(rng);
    }
    maker.put_filling(rng);
    maker.put(rng, b"endoutput", Some(Said::EndOutput));
    let Maker {
        mut lines, said, ..
    } = maker;
    let mut rest = Vec::new();
    match rng.below(4) {
        0 => rest = noise(rng),
        1 => {}
        _ => lines.last_mut().expect("a line").end = b"",
    }
    Good { lines, rest, said }
}

/// A reply while it is made.
struct Maker {
    lines: Vec<Line>,
    said: Vec<Said>,
    depth: usize,
    /// One end for all lines, or any.
    end: Option<&'static [u8]>,
}

impl Maker {
    fn put(&mut self, rng: &mut Rng, text: &[u8], said: Option<Said>) {
        let end = match self.end {
            Some(end) => end,
            None => rng.pick_text(&LINE_ENDS),
        };
        self.lines.push(Line {
            text: text.to_vec(),
            end,
            depth: self.depth,
        });
        self.said.extend(said);
    }

    fn put_any(&mut self, rng: &mut Rng) {
        match rng.below(20) {
            0..=11 => {
                let (text, said) = item(rng);
                self.put(rng, &text, Some(said));
            }
            12..=14 if self.depth < MOST_GROUPS => self.put_group(rng),
            15..=17 if self.depth > 0 => self.end_group(rng),
            _ => self.put_filling(rng),
        }
    }

    fn put_group(&mut self, rng: &mut Rng) {
        let type_name = rng.pick_text(&TYPES);
        let said = Said::Group {
            type_name: type_name.to_vec(),
        };
        self.put(rng, &group_line(type_name), Some(said));
        self.depth += 1;
    }

    fn end_group(&mut self, rng: &mut Rng) {
        self.put(rng, b"endgroup", Some(Said::EndGroup));
        self.depth -= 1;
    }

    /// A line that means nothing, or none.
    fn put_filling(&mut self, rng: &mut Rng) {
        match rng.below(5) {
            0 => self.put(rng, b"", None),
            1 => {
                let text = rng.pick_text(&COMMENTS);
                self.put(rng, text, None);
            }
            _ => {}
        }
    }
}

pub(crate) fn group_line(type_name: &[u8]) -> Vec<u8> {
    [b"begingroup=", type_name].concat()
}

fn item(rng: &mut Rng) -> (Vec<u8>, Said) {
    let (keyword, value) = (rng.pick_text(&KEYWORDS), value(rng));
    let line = [keyword, b"=", &raw_of(rng, &value)].concat();
    let keyword = keyword.to_vec();
    (line, Said::Item { keyword, value })
}

/// Makes the reply about as long as a reply may be: by one line, by many small items, or by what
/// follows its end.
fn lengthen(rng: &mut Rng, good: &mut Good) {
    let wanted = rng.between(MOST_BYTES - 9, MOST_BYTES + 5);
    let missing = wanted.saturating_sub(good.text().len());
    let line = |text: Vec<u8>| Line {
        text,
        end: b"\n",
        depth: 0,
    };
    let item = |keyword: &[u8], value: &[u8]| Said::Item {
        keyword: keyword.to_vec(),
        value: value.to_vec(),
    };
    // No group is open before the first line. The shortest of these lines has eight bytes.
    if missing < 8 {
        return;
    }
    match rng.below(10) {
        0 | 1 => good.insert(0, line(vec![b'#'; missing - 1]), None),
        // GRAVEs that stay alone: the value, which is quoted again, is written with two for each.
        2..=4 => {
            let pairs = (missing - "a=\"\n\"\n".len()) / 2;
            let value = [b"\n", &b"`x".repeat(pairs)[..]].concat();
            let text = [b"a=\"", &value[..], b"\""].concat();
            good.insert(0, line(text), Some((0, item(b"a", &value))));
        }
        5 | 6 => {
            let value = vec![*rng.pick(b"x`\"#"); missing - 4];
            let said = item(b"ab", &[b"x", &value[1..]].concat());
            let text = [b"ab=x", &value[1..]].concat();
            good.insert(0, line(text), Some((0, said)));
        }
        7 => {
            let count = missing / 3;
            let lines = (0..count).map(|_| line(b"a=".to_vec()));
            good.lines.splice(0..0, lines);
            good.said.splice(0..0, (0..count).map(|_| item(b"a", b"")));
        }
        _ if good.lines.last().is_some_and(|line| !line.end.is_empty()) => {
            good.rest.resize(good.rest.len() + missing, b'x');
        }
        _ => good.insert(0, line(vec![b'#'; missing - 1]), None),
    }
}

/// Pieces of replies in no order.
fn noise(rng: &mut Rng) -> Vec<u8> {
    let count = rng.below(14);
    (0..count)
        .flat_map(|_| rng.pick_text(&PIECES).to_vec())
        .collect()
}

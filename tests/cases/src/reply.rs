//! The input of `replycases`: cases one after another. A case is its kind (1 to read a reply, 2 to
//! write records as one, 3 to tell what a raw value stands for), the room in two bytes, high first,
//! the records and the text, or the raw value. Records and text are pieces: how many there are, in
//! one byte; of each how often it is repeated and its length, two bytes each, then its bytes.
//!
//! The cases are those of document 02's request e, but one, whose answer is 65,533 runs of bytes (a
//! line of over half a million): `a=` written 21,841 times. It goes through the library in the test
//! of all those cases. Then come boundaries.

use clp_vectors::reply_records::{group, item, END_GROUP, END_OUTPUT};
use clp_vectors::{ToReply, REQUEST_E};

use crate::reply_answers::answer;
use crate::stored::{put_number, MOST_BYTES};

pub(crate) const READ: u8 = 1;
pub(crate) const WRITE: u8 = 2;
pub(crate) const VALUE: u8 = 3;

/// The most bytes of an answer's line, of records or of a text, and of room that is enough.
const MOST_LINE_BYTES: usize = 8192;
const MOST_BLOB_BYTES: usize = 200_000;
const MOST_ROOM: usize = 65_535;

/// A case before it is bytes.
#[derive(PartialEq)]
pub(crate) struct Asked {
    pub(crate) kind: u8,
    pub(crate) room: usize,
    pub(crate) records: Vec<u8>,
    pub(crate) text: Vec<u8>,
}

impl Asked {
    fn read(reply: impl AsRef<[u8]>) -> Asked {
        Asked::new(READ, &[], reply.as_ref())
    }

    fn write(records: &[&[u8]], text: impl AsRef<[u8]>) -> Asked {
        Asked::new(WRITE, &records.concat(), text.as_ref())
    }

    fn value(raw: impl AsRef<[u8]>) -> Asked {
        Asked::new(VALUE, &[], raw.as_ref())
    }

    /// The case with room that is enough.
    fn new(kind: u8, records: &[u8], text: &[u8]) -> Asked {
        let (records, text) = (records.to_vec(), text.to_vec());
        let mut asked = Asked {
            kind,
            room: MOST_ROOM,
            records,
            text,
        };
        // Three bytes more than are needed show that these stay; a refused case keeps all its room.
        if let Some(needed) = asked.needed().filter(|&needed| needed < 1000) {
            asked.room = needed + 3;
        }
        asked
    }

    fn with_room(self, room: usize) -> Asked {
        Asked { room, ..self }
    }

    /// How many bytes are written where nothing is refused.
    fn needed(&self) -> Option<usize> {
        let line = answer(self);
        let (length, _) = line.strip_prefix("wrote ")?.split_once(' ')?;
        length.parse().ok()
    }
}

/// The whole input.
pub fn input() -> Vec<u8> {
    let mut input = Vec::new();
    for asked in cases() {
        let line = answer(&asked);
        assert!(line.len() <= MOST_LINE_BYTES, "{} bytes", line.len());
        put_case(&mut input, &asked);
    }
    assert!(input.len() <= MOST_BYTES, "{} bytes", input.len());
    input
}

fn cases() -> impl Iterator<Item = Asked> {
    let all = [
        cases_of_request_e(),
        replies(),
        records(),
        values(),
        rooms(),
    ];
    all.into_iter().flatten()
}

fn put_case(input: &mut Vec<u8>, asked: &Asked) {
    input.push(asked.kind);
    put_number(input, asked.room);
    put_blob(input, &asked.records);
    put_blob(input, &asked.text);
}

/// Bytes as pieces: runs of repeated bytes, and what stands between them.
fn put_blob(input: &mut Vec<u8>, bytes: &[u8]) {
    assert!(bytes.len() <= MOST_BLOB_BYTES, "{} bytes", bytes.len());
    let pieces = pieces_of(bytes);
    input.push(pieces.len().try_into().expect("at most 255 pieces"));
    for (piece, times) in pieces {
        put_number(input, times);
        put_number(input, piece.len());
        input.extend_from_slice(piece);
    }
}

/// The most bytes of what is repeated, and the least that a run must save.
const MOST_REPEATED: usize = 16;
const WORTH_A_PIECE: usize = 16;

fn pieces_of(bytes: &[u8]) -> Vec<(&[u8], usize)> {
    let (mut pieces, mut start, mut at) = (Vec::new(), 0, 0);
    while at < bytes.len() {
        let Some((run, times)) = run_of(&bytes[at..]) else {
            at += 1;
            continue;
        };
        pieces.extend((start < at).then_some((&bytes[start..at], 1)));
        pieces.push((run, times));
        at += run.len() * times;
        start = at;
    }
    pieces.extend((start < at).then_some((&bytes[start..], 1)));
    pieces
}

/// The run that bytes begin with and that saves most, if one is worth a piece.
fn run_of(bytes: &[u8]) -> Option<(&[u8], usize)> {
    let runs = (1..=MOST_REPEATED.min(bytes.len())).map(|width| {
        let run = &bytes[..width];
        let times = bytes
            .chunks(width)
            .take_while(|chunk| *chunk == run)
            .count();
        (run, times.min(MOST_ROOM))
    });
    let saved = |(run, times): &(&[u8], usize)| run.len() * (times - 1);
    // Of those that save as much, the shortest.
    let best = runs.rev().max_by_key(saved)?;
    (saved(&best) > WORTH_A_PIECE).then_some(best)
}

/// Those whose answers are not too long.
fn cases_of_request_e() -> Vec<Asked> {
    let mut left_out = 0;
    let mut all = Vec::new();
    for case in REQUEST_E.cases(5) {
        let row = case.asked_reply();
        let asked = match &row.asked {
            ToReply::Read(reply) => Asked::read(reply),
            ToReply::Write { records, text } => Asked::write(&[records], text),
        };
        let room = row.room.unwrap_or(asked.room);
        let asked = asked.with_room(room);
        match answer(&asked).len() > MOST_LINE_BYTES {
            true => left_out += 1,
            false => all.push(asked),
        }
    }
    assert_eq!((all.len(), left_out), (194, 1));
    all
}

/// So many times the same bytes.
fn many(byte: u8, count: usize) -> Vec<u8> {
    vec![byte; count]
}

/// Replies at the edges of the rules.
fn replies() -> Vec<Asked> {
    let mut all = Vec::new();
    let mut each = |reply: &[u8]| all.push(Asked::read(reply));
    // fields of two bytes, and the last places of a text
    each(
        &[
            &many(b'\n', 258),
            &b"abc="[..],
            &many(b'x', 772),
            b"\nendoutput",
        ]
        .concat(),
    );
    each(&[&many(b'\n', 761), &b"begingroup=g\nendgroup\nendoutput"[..]].concat());
    each(&[&many(b'\n', 65_523), &b"a=\nendoutput"[..]].concat());
    each(&[&many(b'\r', 65_526), &b"endoutput"[..]].concat());
    // what comes first
    for length in [65_535, 65_536] {
        for begin in [
            &b"endgroup\n"[..],
            b"x\n",
            b"a=\"",
            b"begingroup=g\nendoutput\n",
        ] {
            each(&[begin, &many(b'x', length - begin.len())].concat());
        }
    }
    for reply in [
        "x\nendgroup\nendoutput",
        "a=1\n?\na=\"",
        "endgroup\nx\nendoutput",
        "a=1\nendgroup\na=\"",
        "begingroup=g\nendoutput\nx",
        "a=\"\nendgroup\n?\nendoutput",
        "begingroup=g\nbegingroup=g\n",
        "begingroup=g\nx",
    ] {
        each(reply.as_bytes());
    }
    // names
    for name in [
        "a",
        "Z9_",
        "zZ0123456789",
        "1",
        "_a",
        "a.",
        "@",
        "[",
        "`",
        "{",
        "a\0",
        "\u{e4}",
    ] {
        each(format!("{name}=1\nendoutput").as_bytes());
        each(format!("begingroup={name}\nendgroup\nendoutput").as_bytes());
    }
    for length in [64, 65] {
        each(&[&many(b'n', length), &b"=1\nendoutput"[..]].concat());
        each(
            &[
                b"begingroup=",
                &many(b'n', length)[..],
                b"\nendgroup\nendoutput",
            ]
            .concat(),
        );
    }
    // lines that are almost one of the words
    for line in ["endgroup", "endoutput", "begingroup=g", "begingroup"] {
        for after in ["", " ", "=", "=1", "s", "s=1", "=\"", "\t", "\0"] {
            each(format!("{line}{after}\nendoutput").as_bytes());
            each(format!("begingroup=g\n{line}{after}").as_bytes());
        }
        each(format!(" {line}\nendoutput").as_bytes());
        each(format!("{}\nendoutput", line.to_uppercase()).as_bytes());
    }
    // depth
    for depth in 0..=10 {
        let (begin, end) = ("begingroup=g\n".repeat(depth), "endgroup\n".repeat(depth));
        each(format!("{begin}{end}endoutput").as_bytes());
        each(format!("{begin}endoutput").as_bytes());
        each(format!("{begin}{end}endgroup\nendoutput").as_bytes());
    }
    // values of any byte, and each byte after a closing quote
    let plain: Vec<u8> = (0..=255).filter(|byte| !b"\r\n".contains(byte)).collect();
    each(&[b"a=", &plain[..], b"\nendoutput"].concat());
    for byte in 0..=255 {
        each(&[b"a=\"b\"", &[byte][..], b"endoutput"].concat());
    }
    // ends of line between and inside
    for end in ["\n", "\r", "\r\n", "\n\r", "\r\r\n\n"] {
        each(
            format!(
                "a=1{end}b=\"{end}\"{end}#x{end}{end}begingroup=g{end}endgroup{end}endoutput{end}"
            )
            .as_bytes(),
        );
    }
    // GRAVEs before a closing quote
    for graves in 0..=5 {
        each(format!("a=\"b{}\"\nendoutput", "`".repeat(graves)).as_bytes());
    }
    // the most records that there are don't fit into this room
    each(&[b"a=\n".repeat(21_842), b"endoutput".to_vec()].concat());
    all
}

/// Records at the edges of the rules.
fn records() -> Vec<Asked> {
    let mut all = Vec::new();
    let mut each = |records: &[&[u8]], text: &[u8]| all.push(Asked::write(records, text));
    let good = item((0, 1), (0, 0));
    for kind in (0..64).chain(68..=255) {
        each(&[&good, &[kind], END_OUTPUT], b"a");
    }
    for length in 1..9 {
        each(&[&good, &good[..length]], b"a");
    }
    for length in 1..5 {
        each(&[&good, &group(0, 1)[..length]], b"a");
    }
    // parts at the end of the text and past it
    for (position, length) in [
        (0, 2),
        (0, 3),
        (1, 1),
        (1, 2),
        (2, 0),
        (2, 1),
        (3, 0),
        (65_535, 0),
        (1, 65_535),
        (65_535, 65_535),
    ] {
        each(&[&item((position, length), (0, 0)), END_OUTPUT], b"ab");
        each(&[&item((0, 1), (position, length)), END_OUTPUT], b"ab");
        each(&[&group(position, length), END_GROUP, END_OUTPUT], b"ab");
    }
    // names
    let words = b"begingroupendgroupendoutput1a=#a_";
    for (position, length) in [
        (0, 0),
        (0, 10),
        (0, 9),
        (10, 8),
        (10, 7),
        (18, 9),
        (17, 9),
        (27, 1),
        (28, 1),
        (28, 2),
        (29, 1),
        (30, 2),
        (31, 2),
        (32, 1),
    ] {
        each(&[&item((position, length), (28, 1)), END_OUTPUT], words);
        each(&[&group(position, length), END_GROUP, END_OUTPUT], words);
    }
    for length in [64, 65] {
        each(&[&item((0, length), (0, 0)), END_OUTPUT], &many(b'n', 65));
        each(&[&group(0, length), END_GROUP, END_OUTPUT], &many(b'n', 65));
    }
    // depth and order
    for depth in 0..=10 {
        let (begin, end) = (group(0, 1).repeat(depth), END_GROUP.repeat(depth));
        each(&[&begin, &end, END_OUTPUT], b"g");
        each(&[&begin, END_OUTPUT], b"g");
        each(&[&begin, &end, END_GROUP, END_OUTPUT], b"g");
        each(&[&begin, &end], b"g");
        each(&[&begin, &group(0, 2), END_OUTPUT], b"g");
    }
    each(&[END_OUTPUT, END_GROUP, &[0], &[64]], b"");
    each(&[&item((0, 10), (10, 1)), END_OUTPUT], b"begingroupg");
    // a value of each byte, alone and among others
    for byte in 0..=255 {
        each(
            &[
                &item((0, 1), (1, 1)),
                &item((0, 1), (1, 3)),
                &item((0, 1), (2, 2)),
                END_OUTPUT,
            ],
            &[b'a', byte, b'b', byte],
        );
    }
    let graves: &[&[u8]] = &[
        b"`", b"``", b"`\"", b"\"`", b"\n`", b"\n\"", b"\n`\"`", b"\"\"\"", b"\r\n`x`",
    ];
    for value in graves {
        each(
            &[&item((0, 1), (1, value.len() as u16)), END_OUTPUT],
            &[b"a", *value].concat(),
        );
    }
    // as long as a reply may be, and longer
    let long = [b"a", &many(b'x', 65_534)[..]].concat();
    for length in [65_522, 65_523, 65_534] {
        each(&[&item((0, 1), (1, length)), END_OUTPUT], &long);
        each(&[&item((0, 1), (1, length))], &long);
        each(&[&item((0, 1), (1, length)), END_GROUP], &long);
    }
    // quotes and GRAVEs count
    for length in [65_420, 65_421] {
        let text = [
            &b"a\n"[..],
            &many(b'"', 100),
            &many(b'x', usize::from(length) - 101),
        ]
        .concat();
        each(&[&item((0, 1), (1, length)), END_OUTPUT], &text);
    }
    for end in [END_OUTPUT, END_GROUP, &[0]] {
        each(&[&item((0, 1), (0, 65_535)).repeat(22_000), end], &long);
        each(&[&item((0, 1), (0, 0)).repeat(22_000), end], b"a");
    }
    for text in [65_535, 65_536] {
        each(
            &[&item((65_534, 1), (65_535, 0)), END_OUTPUT],
            &many(b'a', text),
        );
    }
    all
}

/// Raw values.
fn values() -> Vec<Asked> {
    let mut all = Vec::new();
    let mut each = |raw: &[u8]| all.push(Asked::value(raw));
    for raw in ["", "a", " ", "`", "``\"", "a\"b\"", "a\nb", "\r", "\0"] {
        each(raw.as_bytes());
    }
    // in quotes, and with something before, after or missing
    for inside in [
        "", "b", "b\nc\r\n", "`\"", "``", "`b", "b`\n", "```\"", "a```b``", "`", "```", "\"",
        "b\"c", "`\"`", "``\"",
    ] {
        for raw in [
            format!("\"{inside}\""),
            format!("\"{inside}"),
            format!("\"{inside}\"c"),
            format!("\"{inside}\"\""),
            format!("x\"{inside}\""),
        ] {
            each(raw.as_bytes());
        }
    }
    for byte in 0..=255 {
        each(&[b'"', byte, b'"']);
        each(&[b'"', b'`', byte, b'"']);
    }
    for length in [65_535, 65_536, 150_000] {
        each(&many(b'x', length));
        each(&[b"\"", &many(b'x', length)[..], b"\""].concat());
        each(&[b"\"", &many(b'`', length + length % 2)[..], b"\""].concat());
    }
    all
}

/// Every room from none to one byte more than is needed.
fn rooms() -> Vec<Asked> {
    let mut all = Vec::new();
    let asked: [fn() -> Asked; 5] = [
        || Asked::read("a=1\nbegingroup=g\nendgroup\nendoutput"),
        || Asked::write(&[&item((0, 1), (1, 2)), END_OUTPUT], "a\n\""),
        || Asked::write(&[&group(0, 1), END_GROUP, END_OUTPUT], "g"),
        || Asked::value("\"b`\"``c\""),
        || Asked::value("plain"),
    ];
    for asked in asked {
        let needed = asked().needed().expect("a good case");
        all.extend((0..=needed + 1).map(|room| asked().with_room(room)));
    }
    // a refusal comes before room that is too small
    for reply in [
        "a=1\nx",
        "a=1\nendgroup",
        "begingroup=g\nendoutput",
        "a=1\n",
    ] {
        all.push(Asked::read(reply).with_room(0));
    }
    for last in [&[0][..], END_GROUP, &[]] {
        all.push(Asked::write(&[&item((0, 1), (0, 1)), last], "a").with_room(0));
    }
    all.push(Asked::value("\"b").with_room(0));
    all
}

#[cfg(test)]
mod tests {
    use super::*;
    use crate::reply_answers::taken;
    use crate::stored::Bytes;

    #[test]
    fn a_case_is_taken_out_as_it_was_put_in() {
        let mut met = [0; 3];
        for asked in cases() {
            let mut bytes = Vec::new();
            put_case(&mut bytes, &asked);
            let mut input = Bytes(&bytes);
            assert!(taken(&mut input) == asked && input.0.is_empty());
            met[usize::from(asked.kind) - 1] += 1;
        }
        assert!(met.iter().all(|&count| count > 500), "{met:?}");
    }

    #[test]
    fn pieces_are_runs_and_what_stands_between() {
        let bytes = [&b"ab"[..], &[b'x'; 65_536], b"abcabc", &b"ab".repeat(20)].concat();
        let expected: [(&[u8], usize); 4] =
            [(b"ab", 1), (b"x", 65_535), (b"xabcabc", 1), (b"ab", 20)];
        assert_eq!(pieces_of(&bytes), expected);
        assert!(pieces_of(b"").is_empty());
    }
}

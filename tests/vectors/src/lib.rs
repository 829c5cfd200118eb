//! Cases that come with the papers, as files: a case to a line, its cells parted by a tab.
//!
//! A file's first line begins with `#` and names the columns. Whatever can't be read stops the
//! test with the file's name and the line's number; no line is passed over.
//!
//! A file holds after the request that it belongs to. Cases that a later request answers otherwise
//! stand in `changed.tsv`, each with its new answer; the files themselves stay as they came.

#![forbid(unsafe_code)]

mod reply;
pub mod reply_records;
mod tree;

use std::fmt::Debug;

pub use reply::{AskedReply, ToReply};
pub use tree::{Asked, Checked, ToResolve};

/// A file of cases, and how many it has.
pub struct Vectors {
    pub name: &'static str,
    pub text: &'static str,
    pub count: usize,
}

/// Document 02, request a: line, reading, canonical writing.
pub const REQUEST_A: Vectors = Vectors {
    name: "02-a.tsv",
    text: include_str!("../02-a.tsv"),
    count: 104,
};

/// Document 02, request b: line, reading.
pub const REQUEST_B: Vectors = Vectors {
    name: "02-b.tsv",
    text: include_str!("../02-b.tsv"),
    count: 191,
};

/// Document 02, request c: what is read, a line or a text to resolve; its bytes; the answer.
pub const REQUEST_C: Vectors = Vectors {
    name: "02-c.tsv",
    text: include_str!("../02-c.tsv"),
    count: 235,
};

/// The tree in which request c's texts are resolved, `node 0 a 1`, from its root and with this room.
pub const TREE_C: &[u8; 22] = b"\x10\0\0\x01a\0\0\0\0\0\0\0\0\0\0\0\0\0\0\0\0\x01";
pub const ROOM_C: usize = 9;

/// Document 02, request d: what is asked, a check or a text to resolve; the tree; the arguments; the
/// answer; the tree after, of which there is none here.
pub const REQUEST_D: Vectors = Vectors {
    name: "02-d.tsv",
    text: include_str!("../02-d.tsv"),
    count: 51,
};

/// Document 02, request e: what is asked, to read a reply or to write one; the records that are
/// written; the reply or the text; the room; the answer.
pub const REQUEST_E: Vectors = Vectors {
    name: "02-e.tsv",
    text: include_str!("../02-e.tsv"),
    count: 195,
};

/// The cases that a later request changed: which case, its line, the request, the reading since
/// then. Each is refused now, and a refused line's writing is that refusal.
const CHANGED: Vectors = Vectors {
    name: "changed.tsv",
    text: include_str!("../changed.tsv"),
    count: 6,
};

/// What a case expects: bytes, or a refusal.
pub type Answer = Result<Vec<u8>, Refused>;

/// What a text to resolve expects: node numbers, none for a session; or a refusal.
pub type Addressed = Result<Option<Vec<u16>>, Refused>;

#[derive(Clone, Copy, Debug, PartialEq, Eq)]
pub struct Refused {
    pub number: u8,
    pub place: usize,
}

/// One case: its cells, the line of the file where it stands, and the refusal that a later request
/// made of its answer.
#[derive(Debug)]
pub struct Case {
    pub at: String,
    cells: Vec<&'static str>,
    since: Option<Refused>,
}

impl Vectors {
    /// All cases of a file that has so many columns, as they are answered since the last request.
    pub fn cases(&self, columns: usize) -> Vec<Case> {
        self.cases_since(columns, &CHANGED)
    }

    /// The same with a file of changes; one that names no case of this file, or another line there, stops the test.
    fn cases_since(&self, columns: usize, changed: &Vectors) -> Vec<Case> {
        let mut cases = self.rows(columns);
        for change in changed.rows(4) {
            let (file, _) = change.cell(0, |cell| cell.split_once(':'));
            if file != self.name {
                continue;
            }
            let case = cases.iter_mut().find(|case| case.at == change.cells[0]);
            let case = case.unwrap_or_else(|| panic!("{}: no such case", change.at));
            assert_eq!(case.cells[0], change.cells[1], "{}: another line", change.at);
            let since = case.since.replace(change.cell(3, refusal_of));
            assert_eq!(since, None, "{}: changed twice", change.at);
        }
        cases
    }

    /// All rows of a file that has so many columns; a file with more or fewer than said stops the test.
    fn rows(&self, columns: usize) -> Vec<Case> {
        let ended = self.text.strip_suffix('\n');
        let lines = ended.unwrap_or_else(|| panic!("{}: the last line has no end", self.name));
        let all = lines.split('\n').zip(1..).map(|(line, number)| {
            let at = format!("{}:{number}", self.name);
            let cells: Vec<&str> = line.split('\t').collect();
            assert_eq!(cells.len(), columns, "{at}: not {columns} columns: {line}");
            assert_eq!(line.starts_with('#'), number == 1, "{at}: {line}");
            Case { at, cells, since: None }
        });
        let cases: Vec<Case> = all.skip(1).collect();
        assert_eq!(cases.len(), self.count, "{}: so many cases", self.name);
        cases
    }
}

impl Case {
    /// The cell as bytes.
    pub fn bytes(&self, column: usize) -> Vec<u8> {
        self.cell(column, bytes_of)
    }

    /// The cell as one of these words.
    pub fn word(&self, column: usize, words: &[&'static str]) -> &'static str {
        self.cell(column, |cell| words.iter().copied().find(|&word| word == cell))
    }

    /// The cell as what a text addresses.
    pub fn addressed(&self, column: usize) -> Addressed {
        self.since(self.cell(column, |cell| or_refused(cell, addressed_of)))
    }

    /// The cell as a reading, in the bytes of its records.
    pub fn reading(&self, column: usize) -> Answer {
        self.since(self.cell(column, |cell| or_refused(cell, records_of)))
    }

    /// The cell as something written.
    pub fn writing(&self, column: usize) -> Answer {
        self.since(self.cell(column, |cell| or_refused(cell, bytes_of)))
    }

    /// The answer since the last request, from what the file has; a change that changes nothing stops the test.
    fn since<T: Debug + PartialEq>(&self, answer: Result<T, Refused>) -> Result<T, Refused> {
        let Some(refused) = self.since else {
            return answer;
        };
        assert_ne!(answer, Err(refused), "{}: not changed", self.at);
        Err(refused)
    }

    fn cell<T>(&self, column: usize, read: impl Fn(&'static str) -> Option<T>) -> T {
        let cell = self.cells[column];
        read(cell).unwrap_or_else(|| panic!("{}: of no form: {cell}", self.at))
    }
}

/// What places and repetitions stay below: two bytes, but in the cases of request e.
const TWO_BYTES: usize = 65_536;
const WIDE: usize = 1_000_000;

/// A refusal where the cell is one, otherwise what `read` makes of it.
fn or_refused<T>(cell: &str, read: impl Fn(&str) -> Option<T>) -> Option<Result<T, Refused>> {
    or_refused_below(TWO_BYTES, cell, read)
}

/// The same with a place below a limit.
fn or_refused_below<T>(
    limit: usize,
    cell: &str,
    read: impl Fn(&str) -> Option<T>,
) -> Option<Result<T, Refused>> {
    if cell.starts_with("refusal ") {
        refusal_below(limit, cell).map(Err)
    } else {
        read(cell).map(Ok)
    }
}

/// `refusal NUMBER at PLACE`
fn refusal_of(cell: &str) -> Option<Refused> {
    refusal_below(TWO_BYTES, cell)
}

fn refusal_below(limit: usize, cell: &str) -> Option<Refused> {
    let (number, place) = cell.strip_prefix("refusal ")?.split_once(" at ")?;
    Some(Refused {
        number: number_of(number)?.try_into().ok()?,
        place: number_below(limit, place)?,
    })
}

/// A decimal number of two bytes as it is printed: digits alone, and no leading zero.
fn number_of(text: &str) -> Option<u16> {
    number_below(TWO_BYTES, text)?.try_into().ok()
}

/// The same below a limit.
fn number_below(limit: usize, text: &str) -> Option<usize> {
    let number: usize = text.parse().ok()?;
    (number < limit && number.to_string() == text).then_some(number)
}

/// `nodes` and node numbers, or `session`.
fn addressed_of(cell: &str) -> Option<Option<Vec<u16>>> {
    if cell == "session" {
        return Some(None);
    }
    let numbers = cell.strip_prefix("nodes ")?.split(' ');
    numbers.map(number_of).collect::<Option<Vec<u16>>>().map(Some)
}

/// Records as the lister prints them, joined by `; `.
fn records_of(cell: &str) -> Option<Vec<u8>> {
    let records: Option<Vec<Vec<u8>>> = cell.split("; ").map(record_of).collect();
    Some(records?.concat())
}

/// One record: its kind, then each field in its width.
fn record_of(text: &str) -> Option<Vec<u8>> {
    let mut words = text.split(' ');
    let (kind, widths): (u8, &[usize]) = match words.next()? {
        "verb" => (1, &[1]),
        "option" => (2, &[1, 2, 2]),
        "target" => (3, &[2, 2]),
        "property" => (4, &[2, 2, 1, 2, 2]),
        "blank" => (6, &[]),
        _ => return None,
    };
    let mut record = vec![kind];
    for &width in widths {
        let field = number_of(words.next()?)?.to_be_bytes();
        let (unused, used) = field.split_at(2 - width);
        if unused.iter().any(|&byte| byte != 0) {
            return None;
        }
        record.extend_from_slice(used);
    }
    words.next().is_none().then_some(record)
}

/// Pieces of bytes joined by ` + `, and nothing else.
fn bytes_of(cell: &str) -> Option<Vec<u8>> {
    bytes_below(TWO_BYTES, cell)
}

/// The same with each repeated less often than a limit.
fn bytes_below(limit: usize, cell: &str) -> Option<Vec<u8>> {
    let (bytes, rest) = pieces_below(limit, cell.as_bytes())?;
    rest.is_empty().then_some(bytes)
}

/// The pieces that `text` begins with, joined by ` + `, and what follows them.
fn pieces_of(text: &[u8]) -> Option<(Vec<u8>, &[u8])> {
    pieces_below(TWO_BYTES, text)
}

fn pieces_below(limit: usize, text: &[u8]) -> Option<(Vec<u8>, &[u8])> {
    let (mut bytes, mut rest) = piece_below(limit, text)?;
    while let Some(next) = rest.strip_prefix(b" + ") {
        let (piece, after) = piece_below(limit, next)?;
        bytes.extend(piece);
        rest = after;
    }
    Some((bytes, rest))
}

/// The piece that `text` begins with, such as `b'a'` or `b'a'*65`, and what follows it.
fn piece_below(limit: usize, text: &[u8]) -> Option<(Vec<u8>, &[u8])> {
    let (bytes, rest) = quoted(text.strip_prefix(b"b'")?)?;
    let Some(rest) = rest.strip_prefix(b"*") else {
        return Some((bytes, rest));
    };
    let digits = rest.iter().take_while(|byte| byte.is_ascii_digit()).count();
    let (times, rest) = rest.split_at(digits);
    let times = number_below(limit, std::str::from_utf8(times).ok()?)?;
    Some((bytes.repeat(times), rest))
}

/// The bytes up to the closing `'`, and what follows it; five escapes, all else as itself.
fn quoted(text: &[u8]) -> Option<(Vec<u8>, &[u8])> {
    let mut bytes = Vec::new();
    let mut rest = text;
    loop {
        let (byte, after) = match rest {
            [b'\'', after @ ..] => return Some((bytes, after)),
            [b'\\', b'n', after @ ..] => (b'\n', after),
            [b'\\', b'r', after @ ..] => (b'\r', after),
            [b'\\', b't', after @ ..] => (b'\t', after),
            [b'\\', b'\\', after @ ..] => (b'\\', after),
            [b'\\', b'x', high, low, after @ ..] => (16 * hex(*high)? + hex(*low)?, after),
            [b'\\', ..] => return None,
            [byte @ b' '..=b'~', after @ ..] => (*byte, after),
            _ => return None,
        };
        bytes.push(byte);
        rest = after;
    }
}

fn hex(digit: u8) -> Option<u8> {
    Some(char::from(digit).to_digit(16)? as u8)
}

#[cfg(test)]
mod tests {
    use super::*;

    #[test]
    fn bytes_in_each_form() {
        let expected: [(&str, &[u8]); 7] = [
            ("b''", b""),
            ("b'a \"`~'", b"a \"`~"),
            (r"b'\n\r\t\\\x27\x00\xfF'", b"\n\r\t\\'\x00\xff"),
            ("b'ab'*3", b"ababab"),
            ("b'a'*0", b""),
            ("b'a + b' + b'c'", b"a + bc"),
            ("b'a'*2 + b'' + b'b'*1", b"aab"),
        ];
        for (cell, bytes) in expected {
            assert_eq!(bytes_of(cell).as_deref(), Some(bytes), "{cell}");
        }
    }

    #[test]
    fn bytes_of_no_form() {
        let cells = [
            "",
            "a",
            "b'",
            "b'a",
            "'a'",
            "\"a\"",
            "b'a' ",
            " b'a'",
            "b'a'b'c'",
            "b'a' + ",
            "b'a'+b'c'",
            "b'a'*",
            "b'a'*-1",
            "b'a'*02",
            "b'a'*65536",
            r"b'\'",
            r"b'\''",
            r"b'\q'",
            r"b'\x4'",
            r"b'\x4g'",
            "b'\t'",
            "b'\u{e4}'",
        ];
        for cell in cells {
            assert_eq!(bytes_of(cell), None, "{cell}");
        }
    }

    #[test]
    fn readings_in_each_form() {
        let expected: [(&str, &[u8]); 4] = [
            ("blank", &[6]),
            ("verb 13", &[1, 13]),
            (
                "verb 10; option 8 258 3; target 14 1024",
                &[1, 10, 2, 8, 1, 2, 0, 3, 3, 0, 14, 4, 0],
            ),
            (
                "property 1 2 0 3 65535",
                &[4, 0, 1, 0, 2, 0, 0, 3, 255, 255],
            ),
        ];
        for (cell, bytes) in expected {
            assert_eq!(or_refused(cell, records_of), Some(Ok(bytes.to_vec())));
        }
        let refused = Refused {
            number: 12,
            place: 1024,
        };
        let cell = "refusal 12 at 1024";
        assert_eq!(or_refused(cell, records_of), Some(Err(refused)));
        assert_eq!(or_refused(cell, bytes_of), Some(Err(refused)));
    }

    #[test]
    fn what_a_text_addresses_in_each_form() {
        let read = |cell| or_refused(cell, addressed_of);
        assert_eq!(read("session"), Some(Ok(None)));
        assert_eq!(read("nodes 0"), Some(Ok(Some(vec![0]))));
        assert_eq!(read("nodes 2 65535"), Some(Ok(Some(vec![2, 65535]))));
        let refused = Refused { number: 17, place: 0 };
        assert_eq!(read("refusal 17 at 0"), Some(Err(refused)));
        for cell in ["", "nodes", "nodes ", "node 1", "nodes 1 ", "nodes 01", "nodes -1", "sessions", "session 1", "1"] {
            assert_eq!(read(cell), None, "{cell}");
        }
    }

    #[test]
    fn words_are_those_of_the_file_alone() {
        let text = "# what\tinput\nline\tb''\n";
        let cases = Vectors { name: "file", text, count: 1 }.cases(2);
        assert_eq!(cases[0].word(0, &["text", "line"]), "line");
        let stopped = std::panic::catch_unwind(|| cases[0].word(0, &["text"])).expect_err("no such word");
        assert_eq!(stopped.downcast_ref::<String>().unwrap(), "file:2: of no form: line");
    }

    #[test]
    fn the_tree_of_request_c() {
        let tag = [b"a".as_slice(), &[0; 15]].concat();
        assert_eq!(TREE_C[..], [&[16, 0, 0, 1], &tag[..], &[0, 1]].concat());
    }

    #[test]
    fn readings_of_no_form() {
        let cells = [
            "",
            "verb",
            "verb ",
            "verb 256",
            "verb 1 2",
            "verb 01",
            "verb +1",
            "verb -1",
            "verb x",
            "Verb 1",
            "verbs 1",
            " verb 1",
            "verb 1 ",
            "verb  1",
            "verb 1;",
            "verb 1;target 1 1",
            "verb 1; ",
            "option 1 2",
            "target 65536 1",
            "property 1 2 256 3 4",
            "blank 0",
            "cut",
            "refusal",
            "refusal 12",
            "refusal 12 7",
            "refusal 12 at",
            "refusal 256 at 7",
            "refusal 12 at 65536",
            "refusal 12 at 7 ",
            "verb 1; refusal 12 at 7",
            "b'show'",
        ];
        for cell in cells {
            assert_eq!(or_refused(cell, records_of), None, "{cell}");
        }
    }

    /// What a file of two columns with this text makes a test say as it stops.
    fn complaint(text: &'static str) -> String {
        let read = move || {
            let name = "file";
            let cases = Vectors { name, text, count: 1 }.cases(2);
            let answers = cases.iter().map(|case| (case.bytes(0), case.reading(1)));
            answers.count()
        };
        let stopped = std::panic::catch_unwind(read).expect_err(text);
        stopped.downcast_ref::<String>().unwrap().clone()
    }

    #[test]
    fn changes_are_of_cases_in_files_of_earlier_requests() {
        let files = [REQUEST_A, REQUEST_B, REQUEST_C, REQUEST_D, REQUEST_E].map(|file| file.name);
        for change in CHANGED.rows(4) {
            let (file, _) = change.cells[0].split_once(':').expect("a file and a line");
            assert!(files.contains(&file), "{}: no such file: {file}", change.at);
            let by = format!("02-{}.tsv", change.cells[2]);
            assert!(by.as_str() > file && by.len() == file.len(), "{}: {by}", change.at);
        }
    }

    /// What the one case of `02-a.tsv` here is answered with such a change, or what the test says as it stops.
    fn changed(change: &'static str) -> Result<Answer, String> {
        let text = "# line\treading\nb'cd -f'\tverb 1; option 5 5 0\n";
        let name = "02-a.tsv";
        let read = move || {
            let changed = Vectors { name: "changed", text: change, count: 1 };
            let cases = Vectors { name, text, count: 1 }.cases_since(2, &changed);
            cases[0].reading(1)
        };
        std::panic::catch_unwind(read).map_err(|said| said.downcast_ref::<String>().unwrap().clone())
    }

    #[test]
    fn a_change_names_its_case_and_changes_it() {
        let refused = |number, place| Ok(Err(Refused { number, place }));
        let same = Ok(Ok(vec![1, 1, 2, 5, 0, 5, 0, 0]));
        assert_eq!(changed("#\t\t\t\n02-a.tsv:2\tb'cd -f'\tb\trefusal 20 at 3\n"), refused(20, 3));
        assert_eq!(changed("#\t\t\t\n02-b.tsv:2\tb'cd -f'\tb\trefusal 20 at 3\n"), same);
        let bad = [
            ("#\t\t\t\n02-a.tsv:3\tb'cd -f'\tb\trefusal 20 at 3\n", "changed:2: no such case"),
            ("#\t\t\t\n02-a.tsv\tb'cd -f'\tb\trefusal 20 at 3\n", "changed:2: of no form"),
            ("#\t\t\t\n02-a.tsv:2\tb'cd -F'\tb\trefusal 20 at 3\n", "changed:2: another line"),
            ("#\t\t\t\n02-a.tsv:2\tb'cd -f'\tb\tverb 1\n", "changed:2: of no form"),
            ("#\t\t\t\n", "changed: so many cases"),
        ];
        for (change, expected) in bad {
            let said = changed(change).expect_err(change);
            assert!(said.contains(expected), "{change:?}: {said}");
        }
    }

    #[test]
    fn a_change_of_what_is_said_of_a_tree_holds_too() {
        let text = "# what\tanswer\ncheck\tgood\nresolve\tnodes 0\n";
        let changes = "#\t\t\t\nx:2\tcheck\tf\trefusal 15 at 22\nx:3\tresolve\tf\trefusal 16 at 0\n";
        let changed = Vectors { name: "changed", text: changes, count: 2 };
        let cases = Vectors { name: "x", text, count: 2 }.cases_since(2, &changed);
        assert_eq!(cases[0].checked(1), Err(Refused { number: 15, place: 22 }));
        assert_eq!(cases[1].addressed(1), Err(Refused { number: 16, place: 0 }));
    }

    #[test]
    fn a_change_that_changes_nothing_stops_the_test() {
        let text = "# line\treading\nb'cd -f'\trefusal 20 at 3\n";
        let twice = "#\t\t\t\nx:2\tb'cd -f'\tb\trefusal 8 at 3\nx:2\tb'cd -f'\tc\trefusal 9 at 3\n";
        let once = "#\t\t\t\nx:2\tb'cd -f'\tb\trefusal 20 at 3\n";
        for (changes, count, expected) in [(once, 1, "x:2: not changed"), (twice, 2, "changed:3: changed twice")] {
            let read = move || {
                let changed = Vectors { name: "changed", text: changes, count };
                Vectors { name: "x", text, count: 1 }.cases_since(2, &changed)[0].reading(1)
            };
            let stopped = std::panic::catch_unwind(read).expect_err(changes);
            let said = stopped.downcast_ref::<String>().unwrap();
            assert!(said.contains(expected), "{said}");
        }
    }

    #[test]
    fn what_cannot_be_read_is_told_with_its_line() {
        let good = "# line\treading\nb'cd'\tverb 1\n";
        let name = "file";
        let file = |count| Vectors { name, text: good, count };
        assert_eq!(file(1).cases(2).len(), 1);
        assert!(std::panic::catch_unwind(|| file(2).cases(2)).is_err());
        let bad = [
            ("", "file: the last line has no end"),
            ("# line\treading\nb'cd'\tverb 1", "file: the last line"),
            ("b'cd'\tverb 1\n", "file:1: "),
            ("# line\treading\nb'cd'\tverb 1\n\n", "file:3: "),
            ("# line\treading\nb'cd'\n", "file:2: "),
            ("# line\treading\nb'cd'\tverb 1\tb''\n", "file:2: "),
            ("# line\treading\n# b'cd'\tverb 1\n", "file:2: "),
            (
                "# line\treading\nb'cd\tverb 1\n",
                "file:2: of no form: b'cd",
            ),
            ("# line\treading\nb'cd'\tverb 1\r\n", "file:2: of no form: "),
            ("# line\treading\nb'cd'\tverb one\n", "file:2: of no form: "),
        ];
        for (text, expected) in bad {
            let said = complaint(text);
            assert!(said.contains(expected), "{text:?}: {said}");
        }
    }
}

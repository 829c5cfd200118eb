//! Replies as the cases write them: what is asked, a reply to read or records to write as one, and
//! its answer.

use crate::tree::raw_of;
use crate::{bytes_below, number_below, number_of, or_refused_below, Answer, Case, WIDE};

/// What a case asks: to read a reply, or to write the one that records over a text stand for.
#[derive(Debug, PartialEq, Eq)]
pub enum ToReply {
    Read(Vec<u8>),
    Write { records: Vec<u8>, text: Vec<u8> },
}

/// What a case asks, with what room, none where any room that is enough will do; and the answer.
#[derive(Debug, PartialEq, Eq)]
pub struct AskedReply {
    pub asked: ToReply,
    pub room: Option<usize>,
    pub answer: Answer,
}

impl Case {
    /// The row as what is asked of replies: what, records, text, room, answer. Only a row that
    /// writes has records; a row that reads is answered by records, the other by a reply.
    pub fn asked_reply(&self) -> AskedReply {
        let text = self.cell(2, bytes_of);
        let (asked, answer) = match self.word(0, &["read", "write"]) {
            "read" => {
                self.empty(1);
                (
                    ToReply::Read(text),
                    self.cell(4, |cell| or_refused_below(WIDE, cell, answer_of)),
                )
            }
            _ => {
                let records = self.cell(1, records_of);
                let answer = self.cell(4, |cell| or_refused_below(WIDE, cell, bytes_of));
                (ToReply::Write { records, text }, answer)
            }
        };
        AskedReply {
            asked,
            room: self.cell(3, room_of),
            answer: self.since(answer),
        }
    }
}

/// A reply's bytes may repeat more often than a line's.
fn bytes_of(cell: &str) -> Option<Vec<u8>> {
    bytes_below(WIDE, cell)
}

/// A number of bytes, or nothing.
fn room_of(cell: &str) -> Option<Option<usize>> {
    match cell {
        "" => Some(None),
        _ => number_below(WIDE, cell).map(Some),
    }
}

/// Records that are lent: joined by `; `, or `none`; bytes of no record may be among them.
fn records_of(cell: &str) -> Option<Vec<u8>> {
    if cell == "none" {
        return Some(Vec::new());
    }
    let records = cell
        .split("; ")
        .map(|text| match text.strip_prefix("raw ") {
            Some(digits) => raw_of(digits),
            None => record_run_of(text),
        });
    Some(records.collect::<Option<Vec<Vec<u8>>>>()?.concat())
}

/// Records that are an answer: at least one, and all of their kinds.
fn answer_of(cell: &str) -> Option<Vec<u8>> {
    let records = cell.split("; ").map(record_run_of);
    Some(records.collect::<Option<Vec<Vec<u8>>>>()?.concat())
}

/// One record, or with ` x TIMES` after it so many of them, at least two.
fn record_run_of(text: &str) -> Option<Vec<u8>> {
    let Some((record, times)) = text.split_once(" x ") else {
        return record_of(text);
    };
    let times = number_below(WIDE, times).filter(|&times| times > 1)?;
    Some(record_of(record)?.repeat(times))
}

/// One record: its kind, then each field in two bytes.
fn record_of(text: &str) -> Option<Vec<u8>> {
    let mut words = text.split(' ');
    let (kind, fields) = match words.next()? {
        "item" => (64, 4),
        "group" => (65, 2),
        "endgroup" => (66, 0),
        "endoutput" => (67, 0),
        _ => return None,
    };
    let mut record = vec![kind];
    for _ in 0..fields {
        record.extend(number_of(words.next()?)?.to_be_bytes());
    }
    words.next().is_none().then_some(record)
}

#[cfg(test)]
mod tests {
    use super::*;
    use crate::{Refused, Vectors};

    #[test]
    fn records_in_each_form() {
        let expected: [(&str, &[u8]); 6] = [
            ("none", &[]),
            ("endoutput", &[67]),
            (
                "item 1 258 0 65535; endgroup",
                &[64, 0, 1, 1, 2, 0, 0, 255, 255, 66],
            ),
            ("group 513 3; endgroup x 3", &[65, 2, 1, 0, 3, 66, 66, 66]),
            ("group 0 1 x 2", &[65, 0, 0, 0, 1, 65, 0, 0, 0, 1]),
            ("raw 40fF; raw 00; endoutput", &[64, 255, 0, 67]),
        ];
        for (cell, bytes) in expected {
            assert_eq!(records_of(cell).as_deref(), Some(bytes), "{cell}");
            let is_answer = !cell.contains("raw") && cell != "none";
            assert_eq!(
                answer_of(cell).as_deref(),
                is_answer.then_some(bytes),
                "{cell}"
            );
        }
        assert_eq!(
            records_of("item 0 1 0 0 x 21842").map(|all| all.len()),
            Some(196_578)
        );
    }

    #[test]
    fn records_of_no_form() {
        let cells = [
            "",
            " ",
            "None",
            "none; endoutput",
            "none ",
            "item",
            "item 1 2 3",
            "item 1 2 3 4 5",
            "item 1 2 3 65536",
            "item 1 2 3 04",
            "item 1 2 3 -4",
            "item 1 2 3 ",
            " item 1 2 3 4",
            "item  1 2 3 4",
            "Item 1 2 3 4",
            "group 1",
            "group 1 2 3",
            "group 1 2 x",
            "group 1 2 x ",
            "group 1 2 x 0",
            "group 1 2 x 1",
            "group 1 2 x 02",
            "group 1 2 x -2",
            "group 1 2 x 1000000",
            "group 1 2 x 2 x 2",
            "group 1 2 X 2",
            "group 1 2 x 2 ",
            "endgroup 1",
            "endgroups",
            "endoutput;",
            "endoutput; ",
            "endoutput;endoutput",
            "endoutput , endoutput",
            "raw",
            "raw ",
            "raw 4",
            "raw 4g",
            "raw 40 40",
            "raw 40 x 2",
            "verb 1",
            "b''",
            "refusal 21 at 0",
        ];
        for cell in cells {
            assert_eq!(records_of(cell), None, "{cell}");
            assert_eq!(answer_of(cell), None, "{cell}");
        }
    }

    /// What the one row of a file of five columns asks; or what the test says as it stops.
    fn asked(row: &str) -> Result<AskedReply, String> {
        let text: &'static str = format!("#\t\t\t\t\n{row}\n").leak();
        let read = move || {
            Vectors {
                name: "file",
                text,
                count: 1,
            }
            .cases(5)[0]
                .asked_reply()
        };
        std::panic::catch_unwind(read)
            .map_err(|said| said.downcast_ref::<String>().unwrap().clone())
    }

    #[test]
    fn rows_in_each_form() {
        let refused = |number, place| Err(Refused { number, place });
        let read = |reply: &[u8], room, answer| AskedReply {
            asked: ToReply::Read(reply.to_vec()),
            room,
            answer,
        };
        let write = |records: &[u8], text: &[u8], room, answer| AskedReply {
            asked: ToReply::Write {
                records: records.to_vec(),
                text: text.to_vec(),
            },
            room,
            answer,
        };
        let rows = [
            (
                "read\t\tb'endoutput'\t\tendoutput",
                read(b"endoutput", None, Ok(vec![67])),
            ),
            (
                "read\t\tb''\t0\trefusal 25 at 0",
                read(b"", Some(0), refused(25, 0)),
            ),
            (
                "read\t\tb'x'*2\t65536\trefusal 21 at 196578",
                read(b"xx", Some(65_536), refused(21, 196_578)),
            ),
            (
                "write\tnone\tb''\t10\trefusal 25 at 0",
                write(b"", b"", Some(10), refused(25, 0)),
            ),
            (
                r"write	endoutput; raw 00	b'a'		b'endoutput\n'",
                write(&[67, 0], b"a", None, Ok(b"endoutput\n".to_vec())),
            ),
        ];
        for (row, expected) in rows {
            assert_eq!(asked(row), Ok(expected), "{row}");
        }
    }

    #[test]
    fn rows_of_no_form() {
        let rows = [
            ("value\t\tb''\t\tendoutput", "value"),
            ("\t\tb''\t\tendoutput", ""),
            ("read\tnone\tb''\t\tendoutput", "none"),
            ("read\t\t\t\tendoutput", ""),
            ("read\t\tb'\t\tendoutput", "b'"),
            ("read\t\tb''\t \tendoutput", " "),
            ("read\t\tb''\t01\tendoutput", "01"),
            ("read\t\tb''\t-1\tendoutput", "-1"),
            ("read\t\tb''\t1000000\tendoutput", "1000000"),
            ("read\t\tb''\t\t", ""),
            ("read\t\tb''\t\tnone", "none"),
            ("read\t\tb''\t\traw 43", "raw 43"),
            ("read\t\tb''\t\tb'endoutput'", "b'endoutput'"),
            ("read\t\tb''\t\trefusal 25", "refusal 25"),
            ("read\t\tb''\t\tendoutput\r", "endoutput\r"),
            ("write\t\tb''\t\tb''", ""),
            ("write\titem\tb''\t\tb''", "item"),
            ("write\tendoutput\tb''\t\tendoutput", "endoutput"),
        ];
        for (row, cell) in rows {
            assert_eq!(
                asked(row),
                Err(format!("file:2: of no form: {cell}")),
                "{row}"
            );
        }
    }

    #[test]
    fn a_change_of_what_is_said_of_a_reply_holds_too() {
        let text = "#\t\t\t\t\nread\t\tb'endoutput'\t\tendoutput\n";
        let changes = "#\t\t\t\nx:2\tread\tf\trefusal 21 at 0\n";
        let changed = Vectors {
            name: "changed",
            text: changes,
            count: 1,
        };
        let cases = Vectors {
            name: "x",
            text,
            count: 1,
        }
        .cases_since(5, &changed);
        let refused = Refused {
            number: 21,
            place: 0,
        };
        assert_eq!(cases[0].asked_reply().answer, Err(refused));
    }
}

//! Replies, request e of document 02: each row of its table of readings, its records and its two
//! orders of judgement, the boundaries, values, the program, and DSP0214's own example replies.

use std::io::Write;
use std::process::{Command, Stdio};
use std::time::Instant;

use clp_reader::clpreply::list_reply;
use clp_reader::refusal::Refusal;
use clp_reader::reply::read_reply;
use clp_reader::reply_items::{items_of_records, items_of_reply, ReplyItem};
use clp_reader::reply_records::{reply_records, ReplyRecord};
use clp_reader::reply_value::reply_value;
use clp_reader::reply_writer::write_reply;
use clp_reader::Part;
use clp_vectors::reply_records::{group, item, END_GROUP, END_OUTPUT};

const NO_ROOM: Refusal = Refusal {
    number: 19,
    place: 0,
};

fn refusal(number: u8, place: usize) -> Refusal {
    Refusal { number, place }
}

/// What a call writes into room of a size; the rest of the room stays as it was.
fn answer_in(
    size: usize,
    call: impl Fn(&mut [u8]) -> Result<usize, Refusal>,
) -> Result<Vec<u8>, Refusal> {
    let mut room = vec![0xaa; size];
    let answer = call(&mut room);
    let rest = &room[*answer.as_ref().unwrap_or(&0)..];
    assert!(rest.iter().all(|&byte| byte == 0xaa), "{size}: {answer:?}");
    answer.map(|length| room[..length].to_vec())
}

/// The same with room that is enough, with exactly what is needed, and with one byte less.
fn answer(call: impl Fn(&mut [u8]) -> Result<usize, Refusal>) -> Result<Vec<u8>, Refusal> {
    let answer = answer_in(200_000, &call);
    let needed = answer.as_ref().map_or(0, Vec::len);
    assert_eq!(answer_in(needed, &call), answer);
    if needed > 0 {
        assert_eq!(answer_in(needed - 1, &call), Err(NO_ROOM));
    }
    answer
}

fn read(reply: &[u8]) -> Result<Vec<u8>, Refusal> {
    answer(|room| read_reply(reply, room))
}

fn written(records: &[u8], text: &[u8]) -> Result<Vec<u8>, Refusal> {
    answer(|room| write_reply(records, text, room))
}

fn value(raw: &[u8]) -> Result<Vec<u8>, Refusal> {
    answer(|room| reply_value(raw, room))
}

/// `expected` has `|` for each line's end but the last; the records themselves are read as well.
fn assert_read(reply: &[u8], expected: &str) {
    let shown = reply.escape_ascii();
    let text = String::from_utf8(list_reply(reply)).unwrap();
    assert_eq!(
        text,
        format!("{}\n", expected.replace('|', "\n")),
        "{shown}"
    );
    assert_eq!(
        read(reply).is_err(),
        expected.starts_with("refusal "),
        "{shown}"
    );
}

/// Asserts that each reply gives `expected`.
fn assert_each(replies: &[&str], expected: &str) {
    for reply in replies {
        assert_read(reply.as_bytes(), expected);
    }
}

/// Asserts that each reply is refused as `number` at its place.
fn assert_refused(number: u8, replies: &[(&str, usize)]) {
    for (reply, place) in replies {
        assert_read(reply.as_bytes(), &format!("refusal {number} {place}"));
        assert_eq!(read(reply.as_bytes()), Err(refusal(number, *place)));
    }
}

/// The reply of one item with the keyword `a` and this value.
fn item_written(value: &[u8]) -> Vec<u8> {
    let records = [item((0, 1), (1, value.len() as u16)), END_OUTPUT.to_vec()].concat();
    written(&records, &[b"a", value].concat()).unwrap()
}

fn said(keyword: &str, value: &[u8]) -> ReplyItem {
    ReplyItem::Item {
        keyword: keyword.into(),
        value: value.to_vec(),
    }
}

mod records {
    use super::*;

    #[test]
    fn each_kind_has_its_bytes() {
        let reply = b"a=1\nbegingroup=g\nendgroup\nendoutput";
        let records = read(reply).unwrap();
        let expected = [
            &[64, 0, 0, 0, 1, 0, 2, 0, 1][..],
            &[65, 0, 15, 0, 1],
            &[66],
            &[67],
        ];
        assert_eq!(records, expected.concat());
        let part = |position, length| Part { position, length };
        let told = [
            ReplyRecord::Item {
                keyword: part(0, 1),
                value: part(2, 1),
            },
            ReplyRecord::Group {
                type_name: part(15, 1),
            },
            ReplyRecord::EndGroup,
            ReplyRecord::EndOutput,
        ];
        assert!(reply_records(&records).eq(told));
    }

    #[test]
    fn fields_have_their_high_byte_first() {
        let reply = [&[b'\n'; 258][..], b"abc=", &[b'x'; 772], b"\nendoutput"].concat();
        let item = [64, 1, 2, 0, 3, 1, 6, 3, 4, 67];
        assert_eq!(read(&reply), Ok(item.to_vec()));
        let type_at_772 = [&[b'\n'; 761][..], b"begingroup=g\nendgroup\nendoutput"].concat();
        let expected = [65, 3, 4, 0, 1, 66, 67];
        assert_eq!(read(&type_at_772), Ok(expected.to_vec()));
        let text = [&[b'x'; 772][..], b"abc"].concat();
        let records = [64, 3, 4, 0, 3, 0, 1, 3, 2, 67];
        let reply = [b"abc=", &[b'x'; 770][..], b"\nendoutput\n"].concat();
        assert_eq!(written(&records, &text), Ok(reply));
        let records = [65, 3, 4, 0, 3, 66, 67];
        let reply = b"begingroup=abc\nendgroup\nendoutput\n".to_vec();
        assert_eq!(written(&records, &text), Ok(reply));
    }

    #[test]
    fn places_up_to_the_last_one_of_a_text() {
        let reply = [&[b'\n'; 65_523][..], b"a=\nendoutput"].concat();
        assert_eq!(reply.len(), 65_535);
        assert_read(&reply, "item 65523 1 65525 0|endoutput");
        let records = [item((65_534, 1), (65_535, 0)), END_OUTPUT.to_vec()].concat();
        let text = vec![b'a'; 65_535];
        assert_eq!(written(&records, &text), Ok(b"a=\nendoutput\n".to_vec()));
    }
}

/// "Order of judgement, reader".
mod judging_a_reply {
    use super::*;

    #[test]
    fn a_text_over_65535_bytes_comes_first() {
        let reply = |length: usize| [b"endgroup\n", &vec![b'x'; length - 9][..]].concat();
        assert_read(&reply(65_536), "refusal 21 0");
        assert_read(&reply(65_535), "refusal 22 0");
    }

    #[test]
    fn the_first_in_reading_order_wins() {
        assert_refused(21, &[("x\nendgroup\nendoutput", 0), ("a=1\n?\na=\"", 4)]);
        assert_refused(
            22,
            &[("endgroup\nx\nendoutput", 0), ("a=1\nendgroup\na=\"", 4)],
        );
        let nine = "begingroup=g\n".repeat(9);
        assert_refused(23, &[(&format!("{nine}x\nendoutput"), 104), (&nine, 104)]);
        assert_refused(24, &[("begingroup=g\nendoutput\nx", 13)]);
        assert_refused(25, &[("a=\"\nendgroup\n?\nendoutput", 24)]);
    }

    #[test]
    fn the_end_without_endoutput_is_25_last() {
        let open = "begingroup=g\nbegingroup=g\n";
        assert_refused(25, &[("", 0), ("\n", 1), ("#", 1), ("a=1", 3), (open, 26)]);
        assert_refused(25, &[("begingroup=g\nendgroup\n", 22), ("\r\n\r\n", 4)]);
        assert_refused(21, &[("begingroup=g\nx", 13)]);
    }

    #[test]
    fn records_that_do_not_fit_are_19_after_all() {
        let in_room = |size, reply: &[u8]| answer_in(size, |room| read_reply(reply, room));
        let whole = b"a=1\nbegingroup=g\nendgroup\nendoutput";
        assert_eq!(in_room(16, whole).map(|records| records.len()), Ok(16));
        for size in 0..16 {
            assert_eq!(in_room(size, whole), Err(NO_ROOM));
        }
        assert_eq!(in_room(0, b"a=1\nx\nendoutput"), Err(refusal(21, 4)));
        assert_eq!(in_room(0, b"a=1\nendgroup"), Err(refusal(22, 4)));
        assert_eq!(in_room(0, b"begingroup=g\nendoutput"), Err(refusal(24, 13)));
        assert_eq!(in_room(0, b"a=1\n"), Err(refusal(25, 4)));
        assert_eq!(in_room(0, &[b'#'; 65_536]), Err(refusal(21, 0)));
    }

    #[test]
    fn a_name_has_1_to_64_bytes_by_the_rule() {
        let named = |name: &str| format!("{name}=1\nendoutput");
        let grouped = |name: &str| format!("begingroup={name}\nendgroup\nendoutput");
        for name in ["a", "Z9_", "a_", "zZ0123456789", &"a".repeat(64)] {
            let length = name.len();
            let expected = format!("item 0 {length} {} 1|endoutput", length + 1);
            assert_read(named(name).as_bytes(), &expected);
            let expected = format!("group 11 {length}|endgroup|endoutput");
            assert_read(grouped(name).as_bytes(), &expected);
        }
        for name in [
            "",
            "1",
            "_a",
            "a-b",
            "a b",
            "a.",
            "\u{e4}",
            "@",
            "[",
            "`",
            "{",
            &"a".repeat(65),
        ] {
            assert_refused(21, &[(&named(name), 0), (&grouped(name), 0)]);
        }
    }
}

/// "Order of judgement, writer".
mod judging_records {
    use super::*;

    fn refused(records: &[&[u8]], text: &[u8]) -> (u8, usize) {
        let refusal = written(&records.concat(), text).unwrap_err();
        (refusal.number, refusal.place)
    }

    #[test]
    fn a_text_over_65535_bytes_comes_first() {
        for records in [&[][..], END_GROUP, &[0], END_OUTPUT] {
            assert_eq!(refused(&[records], &[b'a'; 65_536]), (21, 0));
        }
        assert_eq!(refused(&[END_GROUP], &[b'a'; 65_535]), (22, 0));
    }

    #[test]
    fn a_bad_record_is_21_at_its_start() {
        let good = item((0, 1), (0, 0));
        for kind in (0..64).chain(68..=255) {
            assert_eq!(refused(&[&good, &[kind; 9], END_OUTPUT], b"a"), (21, 9));
        }
        for length in 1..9 {
            assert_eq!(refused(&[&good, &good[..length]], b"a"), (21, 9));
        }
        for length in 1..5 {
            assert_eq!(refused(&[&good, &group(0, 1)[..length]], b"a"), (21, 9));
        }
        for parts in [
            ((0, 1), (0, 3)),
            ((0, 1), (3, 0)),
            ((1, 2), (0, 0)),
            ((65_535, 65_535), (0, 0)),
        ] {
            assert_eq!(
                refused(&[&good, &item(parts.0, parts.1), END_OUTPUT], b"ab"),
                (21, 9)
            );
        }
        for (position, length) in [(0, 3), (2, 1), (3, 0), (65_535, 1)] {
            assert_eq!(
                refused(
                    &[&good, &group(position, length), END_GROUP, END_OUTPUT],
                    b"ab"
                ),
                (21, 9)
            );
        }
    }

    #[test]
    fn what_would_not_read_back_is_refused_at_the_record() {
        let text = b"begingroupendgroupendoutput1a=#a";
        for keyword in [
            (0, 0),
            (0, 10),
            (10, 8),
            (18, 9),
            (27, 1),
            (28, 2),
            (29, 1),
            (30, 2),
            (26, 2),
        ] {
            let is_name = keyword == (26, 2);
            let records = [item(keyword, (0, 1)), END_OUTPUT.to_vec()].concat();
            assert_eq!(written(&records, text).is_ok(), is_name, "{keyword:?}");
            let records = [
                group(keyword.0, keyword.1),
                END_GROUP.to_vec(),
                END_OUTPUT.to_vec(),
            ]
            .concat();
            let is_reserved = (8..=10).contains(&keyword.1);
            assert_eq!(
                written(&records, text).is_ok(),
                is_name || is_reserved,
                "{keyword:?}"
            );
        }
        let open = group(28, 1);
        assert_eq!(refused(&[END_GROUP, END_OUTPUT], text), (22, 0));
        assert_eq!(
            refused(&[&open, END_GROUP, END_GROUP, END_OUTPUT], text),
            (22, 6)
        );
        assert_eq!(
            refused(&[&open.repeat(9), &END_GROUP.repeat(9), END_OUTPUT], text),
            (23, 40)
        );
        assert_eq!(refused(&[&open, END_OUTPUT], text), (24, 5));
        assert_eq!(refused(&[&open, END_GROUP], text), (25, 6));
        assert_eq!(refused(&[], text), (25, 0));
    }

    #[test]
    fn nothing_after_the_first_endoutput_is_looked_at() {
        let records = [END_OUTPUT, END_GROUP, &[0], &[64]].concat();
        assert_eq!(written(&records, b""), Ok(b"endoutput\n".to_vec()));
        assert_eq!(items_of_records(&records, b""), [ReplyItem::EndOutput]);
    }

    #[test]
    fn over_65535_bytes_written_is_21_at_0_after_all_but_19() {
        let long = |length: u16| [item((0, 1), (1, length)), END_OUTPUT.to_vec()].concat();
        let text = [b"a", &[b'x'; 65_534][..]].concat();
        let reply = written(&long(65_522), &text).unwrap();
        assert_eq!(reply.len(), 65_535);
        assert_eq!(written(&long(65_523), &text), Err(refusal(21, 0)));
        let in_no_room = |records: &[u8]| answer_in(0, |room| write_reply(records, &text, room));
        assert_eq!(in_no_room(&long(65_522)), Err(NO_ROOM));
        assert_eq!(in_no_room(&long(65_523)), Err(refusal(21, 0)));
        let then = |last: &[u8]| [&long(65_523)[..9], last].concat();
        assert_eq!(written(&then(END_GROUP), &text), Err(refusal(22, 9)));
        assert_eq!(written(&then(&[0]), &text), Err(refusal(21, 9)));
    }

    /// Each record names the longest value, or an empty one: the time is that of the records, not of
    /// the product, which would be thousands of times as long.
    #[test]
    fn many_records_may_name_one_long_value() {
        let text = [b"a", &[b'x'; 65_534][..]].concat();
        let seconds = |length: u16| {
            let records = item((0, 1), (0, length)).repeat(100_000);
            let ended = [&records[..], END_OUTPUT].concat();
            let times = (0..3).map(|_| {
                let began = Instant::now();
                assert_eq!(
                    write_reply(&records, &text, &mut []),
                    Err(refusal(25, 900_000))
                );
                assert_eq!(write_reply(&ended, &text, &mut []), Err(refusal(21, 0)));
                began.elapsed().as_secs_f64()
            });
            times.fold(f64::MAX, f64::min)
        };
        let (short, long) = (seconds(0), seconds(65_535));
        assert!(long < 50.0 * short, "{long} s against {short} s");
    }

    #[test]
    fn a_writing_that_does_not_fit_is_19_last() {
        let records = [&item((0, 1), (1, 2))[..], END_OUTPUT].concat();
        let in_room =
            |size, records: &[u8]| answer_in(size, |room| write_reply(records, b"a\n\"", room));
        let reply = b"a=\"\n`\"\"\nendoutput\n";
        assert_eq!(in_room(reply.len(), &records), Ok(reply.to_vec()));
        for size in 0..reply.len() {
            assert_eq!(in_room(size, &records), Err(NO_ROOM));
        }
        assert_eq!(in_room(0, &records[..9]), Err(refusal(25, 9)));
        assert_eq!(in_room(0, &[0]), Err(refusal(21, 0)));
    }
}

/// The table of points, row by row.
mod points {
    use super::*;

    #[test]
    fn an_empty_value_is_an_item_of_length_0() {
        assert_each(
            &["a=\nendoutput", "a=\rendoutput"],
            "item 0 1 2 0|endoutput",
        );
        assert_eq!(item_written(b""), b"a=\nendoutput\n");
    }

    #[test]
    fn a_quote_that_is_not_the_first_byte_is_plain() {
        let replies = [
            "a=b\"c\nendoutput",
            "a=b\"\"\nendoutput",
            "a=`\"`\nendoutput",
            "a= \"b\nendoutput",
        ];
        let lengths = [3, 3, 3, 3];
        for (reply, length) in replies.iter().zip(lengths) {
            assert_read(reply.as_bytes(), &format!("item 0 1 2 {length}|endoutput"));
        }
        for plain in [&b"b\"c"[..], b"`\"`", b"``", b" \"b\"", b"`"] {
            assert_eq!(value(plain), Ok(plain.to_vec()));
            assert_eq!(
                item_written(plain),
                [b"a=", plain, b"\nendoutput\n"].concat()
            );
        }
    }

    #[test]
    fn a_read_value_has_its_quotes_and_graves() {
        assert_read(b"a=\"\"\nendoutput", "item 0 1 2 2|endoutput");
        assert_read(b"a=\"b`\"``\"\nendoutput", "item 0 1 2 7|endoutput");
    }

    #[test]
    fn a_value_may_have_any_bytes() {
        let plain: Vec<u8> = (0..=255).filter(|byte| !b"\r\n".contains(byte)).collect();
        let reply = [b"a=", &plain[..], b"\nendoutput"].concat();
        assert_read(&reply, "item 0 1 2 254|endoutput");
        assert_eq!(items_of_reply(&reply).unwrap()[0], said("a", &plain));
        let all: Vec<u8> = (0..=255).collect();
        let reply = item_written(&all);
        assert_eq!(items_of_reply(&reply).unwrap()[0], said("a", &all));
        for byte in 0..=255 {
            let expected = match byte {
                b'\r' | b'\n' => vec![b'"', byte, b'"'],
                b'"' => b"\"`\"\"".to_vec(),
                _ => vec![byte],
            };
            let reply = item_written(&[byte]);
            assert_eq!(reply, [b"a=", &expected[..], b"\nendoutput\n"].concat());
            assert_eq!(items_of_reply(&reply).unwrap()[0], said("a", &[byte]));
        }
    }

    #[test]
    fn an_empty_line_has_no_bytes_at_all() {
        let empty = ["\nendoutput", "\r\n\r\nendoutput", "\r\n\n\rendoutput"];
        assert_each(&empty, "endoutput");
        assert_each(
            &["#\nendoutput", "#endgroup\rendoutput", "# a=\"\nendoutput"],
            "endoutput",
        );
        assert_refused(
            21,
            &[
                (" \nendoutput", 0),
                (" #\nendoutput", 0),
                ("\t\nendoutput", 0),
            ],
        );
        assert_refused(21, &[("\n \nendoutput", 1), ("# x\n #\nendoutput", 4)]);
    }

    #[test]
    fn comments_empty_lines_and_endoutput_in_quotes_are_the_value() {
        let reply = b"a=\"\n#\n\n\r\nendoutput\nendgroup\n\"\nendoutput";
        assert_read(reply, "item 0 1 2 27|endoutput");
        let expected = [
            said("a", b"\n#\n\n\r\nendoutput\nendgroup\n"),
            ReplyItem::EndOutput,
        ];
        assert_eq!(items_of_reply(reply).unwrap(), expected);
    }

    #[test]
    fn the_two_words_are_whole_lines() {
        for line in [
            "endgroup ",
            "endgroup=",
            "endoutput=1",
            "endoutputx",
            "begingroup",
        ] {
            assert_refused(21, &[(&format!("{line}\nendoutput"), 0), (line, 0)]);
            let grouped = format!("begingroup=g\n{line}\nendgroup\nendoutput");
            assert_refused(21, &[(&grouped, 13)]);
        }
        assert_refused(
            21,
            &[
                (" endgroup\nendoutput", 0),
                ("endoutput ", 0),
                ("endgroups", 0),
            ],
        );
    }

    #[test]
    fn words_that_only_look_like_the_three_are_keywords() {
        assert_read(b"endgroups=1\nendoutput", "item 0 9 10 1|endoutput");
        assert_read(b"Endgroup=1\nendoutput", "item 0 8 9 1|endoutput");
        assert_read(b"begingrou=1\nendoutput", "item 0 9 10 1|endoutput");
        assert_read(b"endoutput_=1\nendoutput", "item 0 10 11 1|endoutput");
    }

    #[test]
    fn the_three_words_are_exact() {
        assert_refused(
            21,
            &[
                ("ENDOUTPUT", 0),
                ("EndOutput\nendoutput", 0),
                ("ENDGROUP\nendoutput", 0),
            ],
        );
        assert_read(b"BEGINGROUP=g\nendoutput", "item 0 10 11 1|endoutput");
    }

    #[test]
    fn a_quoted_group_type_is_21() {
        assert_refused(
            21,
            &[
                ("begingroup=\"g\"\nendgroup\nendoutput", 0),
                ("begingroup=\"", 0),
            ],
        );
    }

    #[test]
    fn a_reserved_word_may_be_a_group_type() {
        for (word, length) in [("endgroup", 8), ("begingroup", 10), ("endoutput", 9)] {
            let reply = format!("begingroup={word}\nendgroup\nendoutput");
            assert_read(
                reply.as_bytes(),
                &format!("group 11 {length}|endgroup|endoutput"),
            );
            let records = [group(0, length), END_GROUP.to_vec(), END_OUTPUT.to_vec()].concat();
            assert_eq!(
                written(&records, word.as_bytes()),
                Ok(format!("{reply}\n").into_bytes())
            );
        }
    }

    #[test]
    fn of_21_and_23_in_one_line_21_comes_first() {
        let open = "begingroup=g\n".repeat(8);
        for bad in ["", "1", "g ", "\"g\""] {
            assert_refused(21, &[(&format!("{open}begingroup={bad}\n"), 104)]);
        }
        assert_refused(23, &[(&format!("{open}begingroup=g\n"), 104)]);
        let records = [group(0, 1).repeat(8), group(1, 1)].concat();
        assert_eq!(written(&records, b"g1"), Err(refusal(21, 40)));
        let records = [group(0, 1).repeat(8), group(0, 1)].concat();
        assert_eq!(written(&records, b"g1"), Err(refusal(23, 40)));
    }

    #[test]
    fn the_place_after_a_quote_that_closes_later_is_where_the_item_began() {
        assert_refused(21, &[("a=\"\n\"b", 0), ("a=\"\n\"b\nendoutput", 0)]);
        assert_refused(21, &[("x=1\n\na=\"\r\n\n\" \nendoutput", 5)]);
    }

    #[test]
    fn after_the_closing_quote_only_the_end_of_line_follows() {
        for after in ["c", " ", "\"", "`", "#", "=", "\t", "\0"] {
            assert_refused(
                21,
                &[
                    (&format!("a=\"b\"{after}\nendoutput"), 0),
                    (&format!("a=\"b\"{after}"), 0),
                ],
            );
        }
        for after in ["\n", "\r", "\r\n", "\n\r"] {
            assert_read(
                format!("a=\"b\"{after}endoutput").as_bytes(),
                "item 0 1 2 3|endoutput",
            );
        }
        assert_refused(25, &[("a=\"b\"", 5)]);
    }

    #[test]
    fn an_open_quote_is_25_at_the_end() {
        assert_refused(
            25,
            &[("a=\"", 3), ("a=\"b`\"", 6), ("a=\"b`", 5), ("a=\"``", 5)],
        );
        assert_refused(25, &[("a=\"\nendoutput\n", 14), ("begingroup=g\na=\"", 16)]);
        assert_refused(
            21,
            &[
                ("1=\"", 0),
                ("endgroup=\"", 0),
                ("begingroup=\"", 0),
                ("=\"", 0),
            ],
        );
        assert_refused(22, &[("endgroup\na=\"", 0)]);
    }

    #[test]
    fn a_last_line_may_be_cut_short() {
        assert_refused(
            21,
            &[
                ("endoutpu", 0),
                ("a=1\nendgrou", 4),
                ("begingroup=g\nendgroup\ne", 22),
            ],
        );
        assert_read(b"endoutput", "endoutput");
    }

    #[test]
    fn what_follows_endoutput_counts_but_is_not_read() {
        assert_each(
            &[
                "endoutput\njunk",
                "endoutput\na=\"",
                "endoutput\r\nendgroup",
            ],
            "endoutput",
        );
        let reply = |length: usize| [b"endoutput\n", &vec![b'x'; length - 10][..]].concat();
        assert_read(&reply(65_535), "endoutput");
        assert_read(&reply(65_536), "refusal 21 0");
    }

    #[test]
    fn a_cr_lf_is_one_end_of_line() {
        let replies = [
            "a=1\nendoutput",
            "a=1\rendoutput",
            "a=1\r\nendoutput",
            "a=1\n\rendoutput",
        ];
        assert_each(&replies, "item 0 1 2 1|endoutput");
        assert_each(
            &["endoutput\r\n", "endoutput\r", "endoutput\n"],
            "endoutput",
        );
        assert_read(
            b"begingroup=g\r\nendgroup\rendoutput",
            "group 11 1|endgroup|endoutput",
        );
        // Without joining: a GRAVE before an end of line is the value's last byte.
        assert_read(b"a=1`\nendoutput", "item 0 1 2 2|endoutput");
    }

    #[test]
    fn empty_groups_empty_replies_and_repeated_keywords_are_good() {
        assert_read(
            b"begingroup=g\nendgroup\nendoutput",
            "group 11 1|endgroup|endoutput",
        );
        assert_read(b"endoutput", "endoutput");
        assert_read(
            b"a=1\na=1\nendoutput",
            "item 0 1 2 1|item 4 1 6 1|endoutput",
        );
        assert_eq!(written(END_OUTPUT, b""), Ok(b"endoutput\n".to_vec()));
    }

    /// So many groups inside each other, read and written.
    fn nested(depth: usize) -> (Result<Vec<u8>, Refusal>, Result<Vec<u8>, Refusal>) {
        let reply =
            ["begingroup=g\n".repeat(depth), "endgroup\n".repeat(depth)].concat() + "endoutput\n";
        let records = [
            &group(0, 1).repeat(depth),
            &END_GROUP.repeat(depth),
            END_OUTPUT,
        ]
        .concat();
        let (of_reply, of_records) = (read(reply.as_bytes()), written(&records, b"g"));
        if let Ok(written) = &of_records {
            assert_eq!(*written, reply.into_bytes());
        }
        (of_reply, of_records)
    }

    #[test]
    fn eight_groups_may_be_open() {
        for depth in 0..=8 {
            let (of_reply, of_records) = nested(depth);
            assert_eq!(of_reply.map(|records| records.len()), Ok(6 * depth + 1));
            assert!(of_records.is_ok());
        }
        assert_eq!(nested(9), (Err(refusal(23, 104)), Err(refusal(23, 40))));
        let again =
            "begingroup=g\n".repeat(8) + "endgroup\nbegingroup=g\n" + &"endgroup\n".repeat(8);
        assert!(read((again + "endoutput").as_bytes()).is_ok());
    }

    #[test]
    fn among_records_the_first_trouble_wins() {
        assert_eq!(written(&[68, 66], b""), Err(refusal(21, 0)));
        assert_eq!(written(&[66, 68], b""), Err(refusal(22, 0)));
        let bad_part = [item((0, 1), (5, 5)), END_GROUP.to_vec()].concat();
        assert_eq!(written(&bad_part, b"a"), Err(refusal(21, 0)));
    }

    #[test]
    fn an_empty_part_past_the_text_is_bad() {
        let at = |place| [item((0, 1), (place, 0)), END_OUTPUT.to_vec()].concat();
        assert_eq!(written(&at(2), b"a"), Err(refusal(21, 0)));
        assert_eq!(written(&at(1), b"a"), Ok(b"a=\nendoutput\n".to_vec()));
    }

    #[test]
    fn begingroup_is_no_keyword_whatever_the_value() {
        let records = [item((0, 10), (10, 1)), END_OUTPUT.to_vec()].concat();
        assert_eq!(written(&records, b"begingroupg"), Err(refusal(21, 0)));
    }

    #[test]
    fn the_writers_25_is_at_the_end_of_the_records() {
        let two = item((0, 1), (0, 1)).repeat(2);
        assert_eq!(written(&two, b"a"), Err(refusal(25, 18)));
        assert_eq!(
            written(&[group(0, 1), two].concat(), b"a"),
            Err(refusal(25, 23))
        );
    }

    #[test]
    fn without_endoutput_a_long_writing_is_25() {
        let text = [b"a", &[b'x'; 65_523][..]].concat();
        assert_eq!(
            written(&item((0, 1), (1, 65_523)), &text),
            Err(refusal(25, 9))
        );
        let many = item((0, 1), (0, 0)).repeat(21_842);
        assert_eq!(written(&many, b"a"), Err(refusal(25, 196_578)));
    }

    #[test]
    fn places_in_long_records_are_as_they_are() {
        let items = item((0, 1), (0, 0)).repeat(10_000);
        assert_eq!(
            written(&[&items[..], &[0]].concat(), b"a"),
            Err(refusal(21, 90_000))
        );
        assert_eq!(
            written(&[&items[..], END_GROUP].concat(), b"a"),
            Err(refusal(22, 90_000))
        );
        let open = [&items[..], &group(0, 1), END_OUTPUT].concat();
        assert_eq!(written(&open, b"a"), Err(refusal(24, 90_005)));
    }

    #[test]
    fn what_was_written_reads_back_and_what_was_read_is_quoted_once_more() {
        let text = b"ka\"`b\nc";
        let records = [
            item((0, 1), (1, 6)),
            item((0, 2), (2, 3)),
            END_OUTPUT.to_vec(),
        ]
        .concat();
        let reply = written(&records, text).unwrap();
        assert_eq!(reply, b"k=\"a`\"``b\nc\"\nka=\"`\"``b\"\nendoutput\n");
        let expected = [
            said("k", b"a\"`b\nc"),
            said("ka", b"\"`b"),
            ReplyItem::EndOutput,
        ];
        assert_eq!(items_of_reply(&reply).unwrap(), expected);
        assert_eq!(items_of_records(&records, text), expected);
        let of_reply = read(&reply).unwrap();
        let again = written(&of_reply, &reply).unwrap();
        let raw = [
            said("k", b"\"a`\"``b\nc\""),
            said("ka", b"\"`\"``b\""),
            ReplyItem::EndOutput,
        ];
        assert_eq!(items_of_reply(&again).unwrap(), raw);
    }
}

/// The limit on a reply's and a text's length, on each side.
mod limits {
    use super::*;

    #[test]
    fn a_reply_of_65535_and_65536_bytes() {
        assert_read(&[b'#'; 65_535], "refusal 25 65535");
        assert_read(&[b'#'; 65_536], "refusal 21 0");
        let reply = |length: usize| [b"a=", &vec![b'x'; length - 12][..], b"\nendoutput"].concat();
        assert_read(&reply(65_535), "item 0 1 2 65523|endoutput");
        assert_read(&reply(65_536), "refusal 21 0");
        let open = |length: usize| [b"a=\"", &vec![b'x'; length - 3][..]].concat();
        assert_read(&open(65_535), "refusal 25 65535");
        assert_read(&open(65_536), "refusal 21 0");
    }

    #[test]
    fn the_most_records_that_a_reply_gives() {
        let reply = [b"a=\n".repeat(21_842), b"endoutput".to_vec()].concat();
        assert_eq!(reply.len(), 65_535);
        assert_eq!(
            read(&reply).map(|records| records.len()),
            Ok(3 * 65_526 + 1)
        );
    }

    #[test]
    fn a_text_of_65535_and_65536_bytes() {
        assert_eq!(
            written(END_OUTPUT, &[b'x'; 65_535]),
            Ok(b"endoutput\n".to_vec())
        );
        assert_eq!(written(END_OUTPUT, &[b'x'; 65_536]), Err(refusal(21, 0)));
    }

    #[test]
    fn a_writing_of_65535_and_65536_bytes() {
        let many = |count| [item((0, 1), (0, 0)).repeat(count), END_OUTPUT.to_vec()].concat();
        let reply = [b"a=\n".repeat(21_841), b"endoutput\n".to_vec()].concat();
        assert_eq!(written(&many(21_841), b"a"), Ok(reply));
        assert_eq!(written(&many(21_842), b"a"), Err(refusal(21, 0)));
        let one_more = [item((0, 1), (0, 2)), many(21_841)].concat();
        assert_eq!(written(&one_more, b"ab"), Err(refusal(21, 0)));
    }

    /// Quotes and GRAVEs count: a value grows by two and by one for each byte that needs a GRAVE.
    #[test]
    fn a_quoted_writing_of_65535_and_65536_bytes() {
        let quoted = |length: usize, marks: usize| {
            let value = [
                &b"\n"[..],
                &b"\"".repeat(marks),
                &vec![b'x'; length - 1 - marks],
            ]
            .concat();
            let records = [item((0, 1), (1, length as u16)), END_OUTPUT.to_vec()].concat();
            written(&records, &[b"a", &value[..]].concat()).map(|reply| reply.len())
        };
        assert_eq!(
            (quoted(65_520, 0), quoted(65_521, 0)),
            (Ok(65_535), Err(refusal(21, 0)))
        );
        assert_eq!(
            (quoted(65_519, 1), quoted(65_520, 1)),
            (Ok(65_535), Err(refusal(21, 0)))
        );
        assert_eq!(
            (quoted(60_000, 5_520), quoted(60_000, 5_521)),
            (Ok(65_535), Err(refusal(21, 0)))
        );
    }
}

mod values {
    use super::*;

    #[test]
    fn a_plain_value_is_as_it_is() {
        for raw in [
            &b""[..],
            b"a",
            b" ",
            b"`",
            b"``\"",
            b"a\"b\"",
            b"a\nb",
            b"\r",
            b"\0\xff",
        ] {
            assert_eq!(value(raw), Ok(raw.to_vec()));
        }
    }

    #[test]
    fn a_quoted_value_loses_its_quotes_and_graves() {
        let expected: [(&[u8], &[u8]); 9] = [
            (b"\"\"", b""),
            (b"\"b\"", b"b"),
            (b"\"b\nc\r\n\"", b"b\nc\r\n"),
            (b"\"`\"\"", b"\""),
            (b"\"``\"", b"`"),
            (b"\"`b\"", b"`b"),
            (b"\"b`\n\"", b"b`\n"),
            (b"\"```\"\"", b"`\""),
            (b"\"a```b``\"", b"a``b`"),
        ];
        for (raw, meant) in expected {
            assert_eq!(value(raw).as_deref(), Ok(meant), "{}", raw.escape_ascii());
        }
    }

    #[test]
    fn what_begins_with_a_quote_and_is_no_quoted_value_is_21_at_0() {
        for raw in [
            "\"", "\"b", "\"b`\"", "\"b`", "\"```\"", "\"b\"c", "\"b\" ", "\"\"\"", "\"b\"\n",
            "\"\"\"\"",
        ] {
            assert_eq!(value(raw.as_bytes()), Err(refusal(21, 0)), "{raw}");
            assert_eq!(reply_value(raw.as_bytes(), &mut []), Err(refusal(21, 0)));
        }
    }

    #[test]
    fn a_value_has_no_bound() {
        let plain = vec![b'x'; 150_000];
        assert_eq!(value(&plain), Ok(plain.clone()));
        let quoted = [b"\"", &b"``".repeat(100_000)[..], b"\""].concat();
        assert_eq!(value(&quoted), Ok(vec![b'`'; 100_000]));
    }
}

mod program {
    use super::*;

    /// What the program itself prints.
    fn printed(reply: &[u8]) -> String {
        let mut child = Command::new(env!("CARGO_BIN_EXE_clpreply_rs"))
            .stdin(Stdio::piped())
            .stdout(Stdio::piped())
            .spawn()
            .unwrap();
        child.stdin.take().unwrap().write_all(reply).unwrap();
        let output = child.wait_with_output().unwrap();
        assert!(output.status.success());
        String::from_utf8(output.stdout).unwrap()
    }

    #[test]
    fn records_are_printed_a_line_each() {
        let reply = b"# x\r\nstatus=0\r\nbegingroup=message\r\nmessage=\"a\r\nb\"\r\nendgroup\r\nendoutput\r\n";
        let expected = "item 5 6 12 1\ngroup 26 7\nitem 35 7 43 6\nendgroup\nendoutput\n";
        assert_eq!(printed(reply), expected);
    }

    #[test]
    fn a_refused_reply_prints_its_refusal_alone() {
        assert_eq!(printed(b"a=1\nbegingroup=g\nendoutput"), "refusal 24 17\n");
        assert_eq!(printed(b""), "refusal 25 0\n");
    }

    #[test]
    fn an_input_over_65535_bytes_is_21_at_0() {
        let reply = |length: usize| [b"endoutput\n", &vec![b'x'; length - 10][..]].concat();
        assert_eq!(printed(&reply(65_535)), "endoutput\n");
        assert_eq!(printed(&reply(65_536)), "refusal 21 0\n");
        assert_eq!(printed(&reply(1_000_000)), "refusal 21 0\n");
    }
}

/// DSP0214's own example replies.
mod dsp0214 {
    use super::*;

    const REPLIES: &str = include_str!("../../dsp0214-replies.txt");

    /// The replies, each with the name that stands above it.
    fn replies() -> Vec<(&'static str, &'static str)> {
        let replies = REPLIES.split_inclusive("\nendoutput\n").map(|reply| {
            let names = reply.lines().filter_map(|line| line.strip_prefix("# "));
            (names.last().expect("a name"), reply)
        });
        replies.collect()
    }

    /// What the lines say by themselves: no value of the document is quoted.
    fn expected(reply: &str) -> Vec<ReplyItem> {
        let lines = reply
            .lines()
            .filter(|line| !line.starts_with('#') && !line.is_empty());
        let items = lines.map(|line| match line.split_once('=') {
            Some(("begingroup", name)) => ReplyItem::Group {
                type_name: name.into(),
            },
            Some((keyword, value)) => said(keyword, value.as_bytes()),
            None if line == "endgroup" => ReplyItem::EndGroup,
            None => {
                assert_eq!(line, "endoutput");
                ReplyItem::EndOutput
            }
        });
        items.collect()
    }

    /// Records over a text of their own that say these items.
    fn records_of(items: &[ReplyItem]) -> (Vec<u8>, Vec<u8>) {
        let (mut records, mut text) = (Vec::new(), Vec::new());
        let mut part = |bytes: &[u8]| {
            text.extend_from_slice(bytes);
            ((text.len() - bytes.len()) as u16, bytes.len() as u16)
        };
        for said in items {
            match said {
                ReplyItem::Item { keyword, value } => {
                    records.extend(item(part(keyword), part(value)))
                }
                ReplyItem::Group { type_name } => {
                    let (position, length) = part(type_name);
                    records.extend(group(position, length));
                }
                ReplyItem::EndGroup => records.extend(END_GROUP),
                ReplyItem::EndOutput => records.extend(END_OUTPUT),
            }
        }
        (records, text)
    }

    /// Two are refused as printed: a group without a type, and one end of a group too many.
    fn is_refused(name: &str) -> Option<(u8, &'static str)> {
        match name {
            "6.10.5 set, example 10" => Some((21, "begingroup\nufip=/system78/enetport2\n")),
            "6.11.5 show, example 12" => Some((
                22,
                "endgroup\nbeingroup=association\nufct=AssociatedCooling\nufip=/system1\nendgroup\n\
                 beingroup=verbs\nverb=show\nverb=set\nendgroup\nendoutput\n",
            )),
            _ => None,
        }
    }

    #[test]
    fn each_is_read_written_back_and_read_again() {
        let replies = replies();
        assert_eq!(replies.len(), 27);
        let mut refused = 0;
        for (name, reply) in replies {
            if let Some((number, line)) = is_refused(name) {
                let place = reply.find(line).expect(line);
                assert_refused(number, &[(reply, place)]);
                refused += 1;
                continue;
            }
            let items = expected(reply);
            for end in ["\n", "\r", "\r\n"] {
                let with_end = reply.replace('\n', end);
                assert_eq!(
                    items_of_reply(with_end.as_bytes()).as_ref(),
                    Ok(&items),
                    "{name}"
                );
            }
            let (records, text) = records_of(&items);
            let back = written(&records, &text).unwrap();
            let lines = reply
                .lines()
                .filter(|line| !line.starts_with('#') && !line.is_empty());
            let plain: String = lines.map(|line| format!("{line}\n")).collect();
            assert_eq!(String::from_utf8(back.clone()).unwrap(), plain, "{name}");
            assert_eq!(items_of_reply(&back), Ok(items), "{name}");
        }
        assert_eq!(refused, 2);
    }

    #[test]
    fn the_keywords_of_status_error_and_job_are_there() {
        let all: Vec<ReplyItem> = replies()
            .into_iter()
            .filter(|(name, _)| is_refused(name).is_none())
            .flat_map(|(_, reply)| items_of_reply(reply.as_bytes()).unwrap())
            .collect();
        for (keyword, value) in [
            ("status", "0"),
            ("status", "3"),
            ("status_tag", "COMMAND COMPLETED"),
            ("status_tag", "COMMAND EXECUTION FAILED"),
            ("error", "246"),
            ("error_tag", "INVALID TARGET"),
            ("job_id", "2359"),
            ("errtype", "1"),
            ("errtype_desc", "Other"),
            ("cimstat", "7"),
            ("cimstat_desc", "CIM_ERR_NOT_SUPPORTED"),
            ("severity_desc", "Low"),
            ("probcause_desc", "Login Attempts Failed"),
            ("recmdaction", "Configure partner NIC prior to enabling."),
            ("message_arg", "Insertion value 1 for the message"),
            ("timestamp", "20050130145904.000000-300"),
            ("examine", "If run without the examine option, this command will return help about \"/system1\"."),
        ] {
            assert!(all.contains(&said(keyword, value.as_bytes())), "{keyword}={value}");
        }
        let group = |name: &str| ReplyItem::Group {
            type_name: name.into(),
        };
        for name in ["message", "instance", "property", "source", "destination"] {
            assert!(all.contains(&group(name)), "{name}");
        }
    }
}

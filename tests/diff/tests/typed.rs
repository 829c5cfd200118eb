//! What the crate smclp tells in Rust's own terms is what its face tells, on generated lines, captures, trees and replies.

use clp_gen::{capture, line, reply, reply_records, reply_value, tree, Rng};
use clp_reader::records::{records, Record};
use clp_reader::reply_records::ReplyRecord;
use smclp::face::{self, Answer};
use smclp::{CommandOption, Entry, Joiner, Operator, Part, Refusal, Resolved, Tree, Verb};
use std::ops::Range;

/// An answer as a result.
fn result(number: u64, value: u64) -> Result<usize, Refusal> {
    let value = usize::try_from(value).unwrap();
    match number {
        0 => Ok(value),
        _ => Err(Refusal {
            number,
            place: value,
        }),
    }
}

/// A call of the face that writes into room of a size, and what it wrote.
fn written(size: usize, call: impl Fn(&mut [u8]) -> Answer) -> Result<Vec<u8>, Refusal> {
    let mut room = vec![0xaa; size];
    let answer = call(&mut room);
    let length = result(answer.number, answer.value)?;
    room.truncate(length);
    Ok(room)
}

/// Room that is enough, or just enough, or a byte less.
fn size_for(rng: &mut Rng, enough: usize, needed: usize) -> usize {
    *rng.pick(&[enough, needed, needed.saturating_sub(1)])
}

fn range(part: clp_reader::Part) -> Range<usize> {
    let start = usize::from(part.position);
    start..start + usize::from(part.length)
}

/// A record as the independent reader takes it apart, in the crate's terms.
fn part_of(record: Record) -> Part {
    match record {
        Record::Verb { number } => Part::Verb(Verb::from_number(number).unwrap()),
        Record::Option { number, argument } => Part::Option {
            option: CommandOption::from_number(number).unwrap(),
            argument: Some(range(argument)).filter(|argument| argument.start < argument.end),
        },
        Record::Target { part } => Part::Target(range(part)),
        Record::Property {
            name,
            operator,
            value,
        } => Part::Property {
            name: range(name),
            operator: Operator::from_number(operator).unwrap(),
            value: (operator != 0).then(|| range(value)),
        },
        other => panic!("no part of a line: {other:?}"),
    }
}

#[test]
fn readings() {
    let mut rng = Rng::new(41);
    let (mut accepted, mut blank, mut refused) = (0, 0, [0; 21]);
    for _ in 0..50_000 {
        let line = line::line(&mut rng);
        let needed =
            written(face::READING_BYTES, |room| face::read(&line, room)).map_or(0, |all| all.len());
        let size = size_for(&mut rng, face::READING_BYTES, needed);
        let mut room = vec![0x55; size];
        let expected = written(size, |room| face::read(&line, room));
        match smclp::read(&line, &mut room) {
            Err(refusal) => {
                assert_eq!(Err(refusal), expected, "{}", line.escape_ascii());
                refused[refusal.number as usize] += 1;
            }
            Ok(reading) => {
                assert_eq!(
                    (reading.line(), reading.records()),
                    (&line[..], &expected.unwrap()[..])
                );
                assert_parts(&mut rng, reading);
                accepted += 1;
                blank += usize::from(reading.verb().is_none());
            }
        }
    }
    let met = |number: &usize| refused[*number] > 0;
    assert!(accepted > 10_000 && blank > 10, "{accepted} {blank}");
    assert!(
        (1..=14).chain([19, 20]).all(|number| met(&number)),
        "{refused:?}"
    );
}

fn assert_parts(rng: &mut Rng, reading: smclp::Reading) {
    let shown = reading.line().escape_ascii();
    let is_blank = reading.records() == [face::KIND_BLANK];
    let expected: Vec<Part> = match is_blank {
        true => Vec::new(),
        false => records(reading.records()).map(part_of).collect(),
    };
    assert!(reading.parts().eq(expected.iter().cloned()), "{shown}");
    assert!(reading.into_iter().eq(expected.iter().cloned()), "{shown}");
    assert_eq!(
        reading.verb().map(Part::Verb).as_ref(),
        expected.first(),
        "{shown}"
    );
    assert_marks(reading);

    let text = |room: &mut [u8]| face::records_text(reading.records(), room);
    let needed = written(face::TEXT_BYTES, text).unwrap().len();
    let size = size_for(rng, face::TEXT_BYTES, needed);
    let mut room = vec![0x55; size];
    assert_eq!(
        reading.text(&mut room).map(<[u8]>::to_vec),
        written(size, text),
        "{shown}"
    );
}

/// Marks and arguments are the terms of the line, each once, and those of verb and options have their names.
fn assert_marks(reading: smclp::Reading) {
    let line = reading.line();
    let mut terms = Vec::new();
    let mut parts = Vec::new();
    for (at, part) in reading.marks() {
        let text = line[at.clone()].to_ascii_lowercase();
        terms.push(at);
        match &part {
            Part::Verb(verb) => assert_eq!(text, verb.name().as_bytes()),
            Part::Option { option, argument } => {
                let is_long = text == format!("-{option}").as_bytes();
                assert!(is_long || text.len() == 2, "{}", line.escape_ascii());
                terms.extend(argument.clone());
            }
            Part::Target(_) | Part::Property { .. } => {}
        }
        parts.push(part);
    }
    assert!(reading.parts().eq(parts), "{}", line.escape_ascii());
    assert!(
        smclp::terms(line).unwrap().eq(terms),
        "{}",
        line.escape_ascii()
    );
}

/// The terms of a line, call by call.
fn terms_by_the_face(line: &[u8]) -> Result<Vec<Range<usize>>, Refusal> {
    let (mut terms, mut place) = (Vec::new(), 0);
    loop {
        let term = face::next_term(line, place);
        let start = result(term.number, term.value)?;
        if term.value == face::NONE {
            return Ok(terms);
        }
        place = start + term.length as usize;
        terms.push(start..place);
    }
}

#[test]
fn terms_targets_and_writings() {
    let mut rng = Rng::new(42);
    let mut refused = [0; 6];
    for _ in 0..50_000 {
        let line = line::line(&mut rng);
        let shown = line.escape_ascii();
        let terms = smclp::terms(&line).map(Iterator::collect);
        assert_eq!(terms, terms_by_the_face(&line), "{shown}");
        refused[terms.map_or_else(|refusal| refusal.number as usize, |_| 0)] += 1;

        let face::Part { position, length } = face::target(&line);
        let target = (length > 0).then(|| position as usize..(position + length) as usize);
        assert_eq!(smclp::target(&line), target, "{shown}");

        let canonical = |room: &mut [u8]| face::canonical(&line, room);
        let needed = written(face::CANONICAL_BYTES, canonical).map_or(0, |writing| writing.len());
        let size = size_for(&mut rng, face::CANONICAL_BYTES, needed);
        let mut room = vec![0x55; size];
        let writing = smclp::canonical(&line, &mut room).map(<[u8]>::to_vec);
        assert_eq!(writing, written(size, canonical), "{shown}");

        let meant = |room: &mut [u8]| face::meant(&line, room);
        let needed = written(line.len(), meant).unwrap().len();
        let size = size_for(&mut rng, line.len(), needed);
        let mut room = vec![0x55; size];
        let bytes = smclp::meant(&line, &mut room).map(<[u8]>::to_vec);
        assert_eq!(bytes, written(size, meant), "{shown}");
    }
    assert!(refused.iter().all(|&count| count > 0), "{refused:?}");
}

#[test]
fn captures_in_any_cuts() {
    let mut rng = Rng::new(43);
    // one joiner for all captures: after an end it is as new
    let (mut joiner, mut buffer) = (Joiner::new(), [0; face::LINE_BYTES]);
    let (mut lines, mut too_long, mut cut) = (0, 0, 0);
    for _ in 0..3_000 {
        let capture = capture::capture(&mut rng, 12);
        let shown = capture.escape_ascii();
        let (mut rest, mut state) = (&capture[..], 0);
        for length in capture::cuts(&mut rng, capture.len()) {
            let (mut part, later) = rest.split_at(length);
            rest = later;
            loop {
                let expected = face::join(state, &mut buffer, part);
                state = expected.state;
                let left = &part[expected.used as usize..];
                let ended = joiner.join(&mut part);
                assert_eq!(part, left, "{shown}");
                if expected.value == face::NONE {
                    assert_eq!((ended, part), (None, &[][..]), "{shown}");
                    break;
                }
                let line = result(expected.number, expected.value);
                lines += usize::from(line.is_ok());
                too_long += usize::from(line.is_err());
                assert_eq!(ended, Some(line.map(|length| &buffer[..length])), "{shown}");
                assert_eq!(joiner.buffer(), &buffer, "{shown}");
            }
        }
        let is_cut = face::end(state).value == 1;
        let held = (state & face::STATE_HELD) as usize;
        cut += usize::from(is_cut);
        assert_eq!(joiner.end(), is_cut.then(|| &buffer[..held]), "{shown}");
    }
    assert!(
        lines > 5_000 && too_long > 100 && cut > 100,
        "{lines} {too_long} {cut}"
    );
}

#[test]
fn trees() {
    let mut rng = Rng::new(44);
    let (mut good, mut bad, mut sessions, mut nodes) = (0, 0, 0, 0);
    for _ in 0..2_000 {
        let made = tree::tree(&mut rng);
        let answer = face::check_tree(&made.bytes);
        let checked = result(answer.number, answer.value);
        let tree = match Tree::new(&made.bytes) {
            Err(refusal) => {
                assert_eq!(Err(refusal), checked);
                bad += 1;
                continue;
            }
            Ok(tree) => tree,
        };
        assert_eq!((checked, tree.records()), (Ok(0), &made.bytes[..]));
        good += 1;
        for _ in 0..10 {
            let node = rng.below(made.nodes.len() + 2) as u16;
            let path = |room: &mut [u8]| face::full_path(&made.bytes, node.into(), room);
            let needed = written(face::PATH_BYTES, path).map_or(0, |path| path.len());
            let size = size_for(&mut rng, face::PATH_BYTES, needed);
            let mut room = vec![0x55; size];
            assert_eq!(
                tree.full_path(node, &mut room).map(<[u8]>::to_vec),
                written(size, path)
            );

            let default = tree::default_target(&mut rng, &made);
            let text = tree::path(&mut rng, &made, default);
            let size = *rng.pick(&[face::TREE_NODES, 1, 0]);
            let (mut ours, mut theirs) = (vec![7; size], vec![7; size]);
            let answer = face::resolve(&text, &made.bytes, default.into(), &mut theirs);
            let expected = match (answer.number, answer.value) {
                (0, face::SESSION) => Ok(Resolved::Session),
                (number, value) => {
                    result(number, value).map(|count| Resolved::Nodes(&theirs[..count]))
                }
            };
            sessions += usize::from(expected == Ok(Resolved::Session));
            nodes += usize::from(matches!(expected, Ok(Resolved::Nodes(_))));
            assert_eq!(
                tree.resolve(&text, default, &mut ours),
                expected,
                "{}",
                text.escape_ascii()
            );
        }
    }
    assert!(
        good > 500 && bad > 200 && sessions > 50 && nodes > 2_000,
        "{good} {bad} {sessions} {nodes}"
    );
}

#[test]
fn records_of_nodes() {
    let mut rng = Rng::new(45);
    for _ in 0..200 {
        let count = rng.below(70);
        let made = tree::intact_tree(&mut rng, count);
        let nodes = made.nodes.iter().map(|node| {
            let tag = std::str::from_utf8(&node.tag).unwrap();
            Tree::node(node.parent, tag, node.number)
        });
        assert_eq!(nodes.flatten().collect::<Vec<u8>>(), made.bytes);
    }
    for length in [0, 17, 255, 256, 260, 272, 100_000] {
        let record = Tree::node(0, &"a".repeat(length), 1);
        assert!(Tree::new(&record).is_err(), "a tag of {length} letters");
    }
}

/// A record of a reply as the independent reader takes it apart, in the crate's terms.
fn entry_of(record: ReplyRecord) -> Entry {
    match record {
        ReplyRecord::Item { keyword, value } => Entry::Item {
            keyword: range(keyword),
            value: range(value),
        },
        ReplyRecord::Group { type_name } => Entry::Group(range(type_name)),
        ReplyRecord::EndGroup => Entry::EndGroup,
        ReplyRecord::EndOutput => Entry::EndOutput,
    }
}

#[test]
fn replies_read() {
    let mut rng = Rng::new(46);
    let (mut accepted, mut items, mut refused) = (0, 0, [0; 26]);
    for _ in 0..20_000 {
        let text = reply::reply(&mut rng);
        let shown = text.escape_ascii();
        let read = |room: &mut [u8]| face::read_reply(&text, room);
        let enough = 3 * text.len();
        let needed = written(enough, read).map_or(0, |all| all.len());
        let size = size_for(&mut rng, enough, needed);
        let mut room = vec![0x55; size];
        let expected = written(size, read);
        let reply = match smclp::read_reply(&text, &mut room) {
            Err(refusal) => {
                assert_eq!(Err(refusal), expected, "{shown}");
                refused[refusal.number as usize] += 1;
                continue;
            }
            Ok(reply) => reply,
        };
        assert_eq!(
            (reply.text(), reply.records()),
            (&text[..], &expected.unwrap()[..])
        );
        let entries = clp_reader::reply_records::reply_records(reply.records()).map(entry_of);
        let entries: Vec<Entry> = entries.collect();
        assert_eq!(entries.last(), Some(&Entry::EndOutput), "{shown}");
        assert!(reply.entries().eq(entries.iter().cloned()), "{shown}");
        assert!(reply.into_iter().eq(entries.iter().cloned()), "{shown}");
        let records = entries.iter().flat_map(Entry::record);
        assert!(records.eq(reply.records().iter().copied()), "{shown}");
        accepted += 1;
        for entry in entries {
            if let Entry::Item { value, .. } = entry {
                assert_value(&mut rng, &text[value]);
                items += 1;
            }
        }
    }
    assert!(accepted > 5_000 && items > 10_000, "{accepted} {items}");
    assert!(
        (21..=25).chain([19]).all(|number| refused[number] > 20),
        "{refused:?}"
    );
}

/// What a raw value stands for, or why it is refused.
fn assert_value(rng: &mut Rng, raw: &[u8]) -> Option<u64> {
    let meant = |room: &mut [u8]| face::reply_value(raw, room);
    let needed = written(raw.len(), meant).map_or(0, |all| all.len());
    let size = size_for(rng, raw.len(), needed);
    let mut room = vec![0x55; size];
    let value = smclp::reply_value(raw, &mut room).map(<[u8]>::to_vec);
    assert_eq!(value, written(size, meant), "{}", raw.escape_ascii());
    value.err().map(|refusal| refusal.number)
}

#[test]
fn replies_written() {
    let mut rng = Rng::new(47);
    let (mut accepted, mut refused) = (0, [0; 26]);
    for _ in 0..20_000 {
        let reply_records::ToWrite { records, text } = reply_records::to_write(&mut rng);
        let write = |room: &mut [u8]| face::write_reply(&records, &text, room);
        let needed = written(face::REPLY_BYTES, write).map_or(0, |all| all.len());
        let size = size_for(&mut rng, face::REPLY_BYTES, needed);
        let mut room = vec![0x55; size];
        let reply = smclp::write_reply(&records, &text, &mut room).map(<[u8]>::to_vec);
        assert_eq!(reply, written(size, write));
        match reply {
            Ok(_) => accepted += 1,
            Err(refusal) => refused[refusal.number as usize] += 1,
        }
    }
    assert!(accepted > 3_000, "{accepted}");
    assert!(
        (21..=25).chain([19]).all(|number| refused[number] > 20),
        "{refused:?}"
    );
    let mut values = [0; 26];
    for _ in 0..20_000 {
        let raw = reply_value::raw_value(&mut rng).raw;
        values[assert_value(&mut rng, &raw).unwrap_or(0) as usize] += 1;
    }
    assert!(
        [0, 19, 21].iter().all(|&number| values[number] > 1_000),
        "{values:?}"
    );
}

/// A range that no text of a reply can have makes a record that is refused, whatever the text.
#[test]
fn records_of_entries() {
    let text = vec![b'a'; face::REPLY_BYTES];
    let mut room = vec![0; face::REPLY_BYTES];
    let (most, end) = (face::REPLY_BYTES, usize::MAX);
    #[allow(clippy::reversed_empty_ranges)]
    let bad = [
        0..most + 1,
        most + 1..most + 1,
        most + 1..most + 2,
        end..end,
        0..end,
        2..1,
        end..0,
    ];
    for part in bad {
        let item = |keyword: &Range<usize>, value: &Range<usize>| Entry::Item {
            keyword: keyword.clone(),
            value: value.clone(),
        };
        for entry in [
            item(&part, &(0..1)),
            item(&(0..1), &part),
            Entry::Group(part.clone()),
        ] {
            let records: Vec<u8> = entry.record().chain(Entry::EndOutput.record()).collect();
            let refusal = smclp::write_reply(&records, &text, &mut room).unwrap_err();
            assert_eq!((refusal.number, refusal.place), (21, 0), "{entry:?}");
        }
    }
    // what a text can have is told as it is
    let item = Entry::Item {
        keyword: most - 1..most,
        value: most..most,
    };
    let records: Vec<u8> = item.record().chain(Entry::EndOutput.record()).collect();
    assert_eq!(records, [64, 255, 254, 0, 1, 255, 255, 0, 0, 67]);
    assert_eq!(
        smclp::write_reply(&records, &text, &mut room),
        Ok(&b"a=\nendoutput\n"[..])
    );
}

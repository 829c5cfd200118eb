//! The independent reader and writer of replies held to what the generator made, and to a judgement
//! anew (`plain_reply`).

mod plain_reply;

use clp_gen::board::board_reply;
use clp_gen::reply::{good_reply, reply, spoiled_reply, Good, Said, MOST_BYTES};
use clp_gen::reply_records::{laid_out, to_write, ToWrite};
use clp_gen::reply_value::{raw_value, value};
use clp_gen::Rng;
use clp_reader::refusal::Refusal;
use clp_reader::reply::read_reply;
use clp_reader::reply_items::{items_of_records, items_of_reply, ReplyItem};
use clp_reader::reply_records::{reply_records, ReplyRecord};
use clp_reader::reply_value::reply_value;
use clp_reader::reply_writer::write_reply;
use plain_reply::{judged_reply, judged_value, judged_writing, line_of, told, Refused};

const REPLIES: usize = 100_000;
const CANARY: u8 = 0xa5;

/// What a call writes into lent room of a size, and nothing else of it.
fn answer_in(
    size: usize,
    call: impl Fn(&mut [u8]) -> Result<usize, Refusal>,
) -> Result<Vec<u8>, Refused> {
    let mut room = vec![CANARY; size];
    let answer = call(&mut room);
    let rest = &room[*answer.as_ref().unwrap_or(&0)..];
    assert!(rest.iter().all(|&byte| byte == CANARY));
    match answer {
        Ok(length) => Ok(room[..length].to_vec()),
        Err(Refusal { number, place }) => Err((number, place)),
    }
}

/// The same with more room than is needed, with exactly so much, and with one byte less.
fn answer(
    most: usize,
    call: impl Fn(&mut [u8]) -> Result<usize, Refusal>,
) -> Result<Vec<u8>, Refused> {
    let answer = answer_in(most + 3, &call);
    let needed = answer.as_ref().map_or(0, Vec::len);
    assert_eq!(answer_in(needed, &call), answer);
    if needed > 0 {
        assert_eq!(answer_in(needed - 1, &call), Err((19, 0)));
    }
    answer
}

fn records_of(reply: &[u8]) -> Result<Vec<u8>, Refused> {
    answer(3 * reply.len(), |room| read_reply(reply, room))
}

/// What is written where so many bytes are expected; a refused writing has some room as well.
fn written(records: &[u8], text: &[u8], expected: usize) -> Result<Vec<u8>, Refused> {
    answer(expected.max(50), |room| write_reply(records, text, room))
}

fn shown(records: &[u8], text: &[u8]) -> String {
    format!("{} over {}", records.escape_ascii(), text.escape_ascii())
}

/// What the reader says in the generator's terms.
fn said_by_the_reader(reply: &[u8]) -> Result<Vec<Said>, Refused> {
    let items = items_of_reply(reply).map_err(|Refusal { number, place }| (number, place))?;
    Ok(items.into_iter().map(said_of).collect())
}

fn said_of(item: ReplyItem) -> Said {
    match item {
        ReplyItem::Item { keyword, value } => Said::Item { keyword, value },
        ReplyItem::Group { type_name } => Said::Group { type_name },
        ReplyItem::EndGroup => Said::EndGroup,
        ReplyItem::EndOutput => Said::EndOutput,
    }
}

/// A reply as it was made, in the generator's terms; one that is too long is refused.
fn made(good: &Good) -> Result<Vec<Said>, Refused> {
    match good.text().len() > MOST_BYTES {
        true => Err((21, 0)),
        false => Ok(good.said.clone()),
    }
}

/// How often answers were met: accepted at 0, refused by number.
fn count(met: &mut [usize; 26], number: u8) {
    met[usize::from(number)] += 1;
}

#[test]
fn a_reply_is_read_as_it_is_judged_anew() {
    let mut rng = Rng::new(30);
    let mut met = [0; 26];
    let (mut deep, mut long) = (0, 0);
    for _ in 0..REPLIES {
        let reply = reply(&mut rng);
        let shown = reply.escape_ascii();
        let judged = judged_reply(&reply);
        assert_eq!(said_by_the_reader(&reply), judged, "{shown}");
        let records = records_of(&reply);
        assert_eq!(records.as_ref().err(), judged.as_ref().err(), "{shown}");
        if let Ok(records) = &records {
            check_order(&reply, records);
        }
        count(
            &mut met,
            judged.as_ref().map_or_else(|refused| refused.0, |_| 0),
        );
        deep += usize::from(judged.is_ok_and(|said| depth_of(&said) == 8));
        long += usize::from(reply.len().abs_diff(MOST_BYTES) < 10);
    }
    println!(
        "replies: accepted {}, refused by number 21 to 25 {:?}",
        met[0],
        &met[21..]
    );
    println!("replies: {deep} with eight open groups, {long} of about 65,535 bytes");
    assert!((REPLIES / 100 * 40..REPLIES / 100 * 65).contains(&met[0]));
    assert!(
        met[21..].iter().all(|&count| count > REPLIES / 200),
        "{met:?}"
    );
    assert!(deep > REPLIES / 200 && long > REPLIES / 400);
}

/// The most groups that are open at once.
fn depth_of(said: &[Said]) -> usize {
    let mut depth = 0;
    let depths = said.iter().map(|said| {
        match said {
            Said::Group { .. } => depth += 1,
            Said::EndGroup => depth -= 1,
            _ => {}
        }
        depth
    });
    depths.max().unwrap_or(0)
}

/// Records name parts of the reply in its order, none of which share a byte, each where it must
/// stand: a type after `begingroup=`, a value after its keyword's `=`.
fn check_order(reply: &[u8], records: &[u8]) {
    let mut end = 0;
    for record in reply_records(records) {
        let parts = match record {
            ReplyRecord::Item { keyword, value } => vec![keyword, value],
            ReplyRecord::Group { type_name } => vec![type_name],
            ReplyRecord::EndGroup | ReplyRecord::EndOutput => vec![],
        };
        for part in parts {
            let start = usize::from(part.position);
            assert!(end <= start && start + usize::from(part.length) <= reply.len());
            end = start + usize::from(part.length);
        }
        match record {
            ReplyRecord::Item { keyword, value } => {
                let start = usize::from(keyword.position);
                assert!(start == 0 || b"\r\n".contains(&reply[start - 1]));
                let equals = start + usize::from(keyword.length);
                assert_eq!(
                    (reply[equals], usize::from(value.position)),
                    (b'=', equals + 1)
                );
                assert!(matches!(reply.get(end), None | Some(b'\r' | b'\n')));
            }
            ReplyRecord::Group { type_name } => {
                let start = usize::from(type_name.position);
                assert!(reply[..start].ends_with(b"begingroup="));
            }
            ReplyRecord::EndGroup | ReplyRecord::EndOutput => {}
        }
    }
}

#[test]
fn a_good_reply_is_read_as_it_was_made() {
    let mut rng = Rng::new(31);
    let (mut quoted, mut too_long, mut ends) = (0, 0, [0; 3]);
    for _ in 0..REPLIES {
        let good = good_reply(&mut rng);
        let text = good.text();
        let shown = text.escape_ascii();
        assert_eq!(said_by_the_reader(&text), made(&good), "{shown}");
        assert_eq!(judged_reply(&text), made(&good), "{shown}");
        too_long += usize::from(text.len() > MOST_BYTES);
        for line in &good.lines {
            quoted += usize::from(line.text.contains(&b'"') && line.text.contains(&b'\n'));
            let kinds = [&b"\n"[..], b"\r", b"\r\n"];
            if let Some(kind) = kinds.iter().position(|&kind| kind == line.end) {
                ends[kind] += 1;
            }
        }
    }
    println!("good replies: {quoted} quoted values over lines, {too_long} too long, ends {ends:?}");
    assert!(quoted > REPLIES / 4 && too_long > REPLIES / 1000);
    assert!(ends.iter().all(|&count| count > REPLIES));
}

#[test]
fn another_end_of_line_outside_quotes_changes_nothing_that_is_said() {
    let mut rng = Rng::new(32);
    let (mut changed, mut refused) = (0, 0);
    for _ in 0..REPLIES {
        let good = good_reply(&mut rng);
        let other = good.with_other_ends(&mut rng);
        let (text, other_text) = (good.text(), other.text());
        let shown = other_text.escape_ascii();
        assert_eq!(said_by_the_reader(&other_text), made(&other), "{shown}");
        changed += usize::from(text != other_text);
        refused += usize::from(made(&good).is_ok() != made(&other).is_ok());
    }
    println!("replies with other ends {changed}, too long by one of them {refused}");
    assert!(changed > REPLIES / 2 && refused > 0);
}

#[test]
fn one_line_spoils_a_reply_where_it_stands() {
    let mut rng = Rng::new(33);
    let mut met = [0; 26];
    for _ in 0..REPLIES {
        let spoiled = spoiled_reply(&mut rng);
        let expected = match spoiled.text.len() > MOST_BYTES {
            true => (21, 0),
            false => (spoiled.number, spoiled.place),
        };
        let shown = spoiled.text.escape_ascii();
        assert_eq!(records_of(&spoiled.text), Err(expected), "{shown}");
        assert_eq!(judged_reply(&spoiled.text), Err(expected), "{shown}");
        count(&mut met, expected.0);
    }
    println!("spoiled replies by number 21 to 24 {:?}", &met[21..25]);
    assert!(
        met[21..25].iter().all(|&count| count > REPLIES / 200),
        "{met:?}"
    );
}

/// What was read, with its values made plain, can be written; what is then read is the same. Only a
/// writing that is too long is refused, as 21 at 0.
#[test]
fn what_was_read_is_written_and_read_again() {
    let mut rng = Rng::new(34);
    let (mut accepted, mut too_long) = (0, 0);
    for _ in 0..REPLIES {
        let reply = reply(&mut rng);
        let Ok(said) = said_by_the_reader(&reply) else {
            continue;
        };
        let ToWrite { records, text } = laid_out(&mut rng, &said);
        let shown = reply.escape_ascii();
        // Plain values and names never have more bytes than they had in the reply.
        assert!(text.len() <= 2 * MOST_BYTES, "{shown}");
        if text.len() > MOST_BYTES {
            continue;
        }
        let length: usize = said.iter().map(|said| line_of(said).len()).sum();
        if length > MOST_BYTES {
            assert_eq!(written(&records, &text, 0), Err((21, 0)), "{shown}");
            too_long += 1;
            continue;
        }
        let back = written(&records, &text, length).expect("it was read");
        assert_eq!(back.len(), length, "{shown}");
        assert_eq!(said_by_the_reader(&back).as_ref(), Ok(&said), "{shown}");
        assert_eq!(judged_reply(&back), Ok(said), "{shown}");
        accepted += 1;
    }
    println!("read, written and read again {accepted}, too long to be written {too_long}");
    assert!(accepted > REPLIES / 100 * 40 && too_long > 20);
}

/// A reader's own records over its own text are written with their values as they stood there.
#[test]
fn a_readers_own_records_are_quoted_once_more() {
    let mut rng = Rng::new(35);
    let mut quoted = 0;
    for _ in 0..REPLIES / 5 {
        let reply = good_reply(&mut rng).text();
        let Ok(records) = records_of(&reply) else {
            continue;
        };
        let Ok(back) = written(&records, &reply, 2 * reply.len()) else {
            continue;
        };
        let raw: Vec<Said> = items_of_records(&records, &reply)
            .into_iter()
            .map(said_of)
            .collect();
        let (told, _) = told(&records, &reply);
        assert!(told.iter().map(|(_, said)| said).eq(&raw));
        assert_eq!(said_by_the_reader(&back).as_ref(), Ok(&raw));
        quoted += usize::from(said_by_the_reader(&reply).as_ref() != Ok(&raw));
    }
    assert!(quoted > REPLIES / 50, "{quoted}");
}

#[test]
fn records_are_written_as_they_are_judged_anew() {
    let mut rng = Rng::new(36);
    let mut met = [0; 26];
    let (mut long_records, mut too_long, mut about) = (0, 0, 0);
    for _ in 0..REPLIES {
        let ToWrite { records, text } = to_write(&mut rng);
        let judged = judged_writing(&records, &text);
        let length = judged.as_ref().map_or(0, Vec::len);
        let shown = || shown(&records, &text);
        assert_eq!(written(&records, &text, length), judged, "{}", shown());
        let number = judged.as_ref().map_or_else(|refused| refused.0, |_| 0);
        count(&mut met, number);
        long_records += usize::from(judged.as_ref().is_err_and(|refused| refused.1 > MOST_BYTES));
        let (all, stopped) = told(&records, &text);
        let bytes: usize = all.iter().map(|(_, said)| line_of(said).len()).sum();
        let is_too_long = stopped.is_none() && bytes > MOST_BYTES;
        too_long += usize::from(is_too_long && judged == Err((21, 0)));
        about += usize::from(judged.is_ok_and(|reply| reply.len() > MOST_BYTES - 10));
    }
    println!(
        "records: written {}, refused by number 21 to 25 {:?}",
        met[0],
        &met[21..]
    );
    println!("records: {about} written with about 65,535 bytes, {too_long} too long, {long_records} refused past place 65,535");
    assert!((REPLIES / 100 * 40..REPLIES / 100 * 75).contains(&met[0]));
    assert!(
        met[21..].iter().all(|&count| count > REPLIES / 200),
        "{met:?}"
    );
    assert!(about > 100 && too_long > 100 && long_records > 100);
}

/// The writer accepts exactly what reads back: the lines that records stand for, written without any
/// judgement, are read as what they say and are not too long. What it refuses as 22 to 25 is refused
/// so by who reads those lines.
#[test]
fn the_writer_refuses_exactly_what_would_not_read_back() {
    let mut rng = Rng::new(37);
    let mut met = [0; 2];
    for _ in 0..REPLIES {
        let ToWrite { records, text } = to_write(&mut rng);
        if text.len() > MOST_BYTES {
            continue;
        }
        let shown = || shown(&records, &text);
        let (all, stopped) = told(&records, &text);
        let lines: Vec<Vec<u8>> = all.iter().map(|(_, said)| line_of(said)).collect();
        let reply = lines.concat();
        let said: Vec<Said> = all.iter().map(|(_, said)| said.clone()).collect();
        let read_back = judged_reply(&reply);
        let answer = write_reply(&records, &text, &mut vec![0; MOST_BYTES]);
        let is_good = stopped.is_none() && read_back.as_ref() == Ok(&said);
        assert_eq!(answer.is_ok(), is_good, "{}", shown());
        met[usize::from(is_good)] += 1;
        let Err(Refusal { number, place }) = answer else {
            continue;
        };
        // The line of the refused record, as far as all lines before it can be read.
        let before = all.iter().take_while(|(at, _)| *at < place).count();
        let line = lines[..before].concat().len();
        match number {
            22..=24 if reply.len() <= MOST_BYTES => {
                assert_eq!(read_back, Err((number, line)), "{}", shown());
            }
            25 if reply.len() <= MOST_BYTES => {
                assert_eq!(place, records.len(), "{}", shown());
                assert_eq!(read_back, Err((25, reply.len())), "{}", shown());
            }
            22..=25 => assert_eq!(read_back, Err((21, 0)), "{}", shown()),
            _ => assert_eq!(number, 21, "{}", shown()),
        }
    }
    println!("records that don't read back and that do {met:?}");
    assert!(met.iter().all(|&count| count > REPLIES / 5));
}

#[test]
fn a_value_stands_for_what_it_was_made_of() {
    let mut rng = Rng::new(38);
    // Made to stand for something, good by chance, refused.
    let mut met = [0; 3];
    for _ in 0..REPLIES {
        let made = raw_value(&mut rng);
        let shown = made.raw.escape_ascii();
        let judged = judged_value(&made.raw);
        let answer = answer(made.raw.len(), |room| reply_value(&made.raw, room));
        assert_eq!(answer, judged, "{shown}");
        match made.meant {
            Some(meant) => {
                assert_eq!(judged, Ok(meant), "{shown}");
                met[0] += 1;
            }
            None => met[if judged.is_ok() { 1 } else { 2 }] += 1,
        }
    }
    println!("values as made, good by chance, refused {met:?}");
    assert!(met.iter().all(|&count| count > REPLIES / 50), "{met:?}");
}

/// A value that is written stands for itself when it is read, and is quoted only where it must be.
#[test]
fn a_written_value_is_quoted_exactly_where_it_must_be() {
    let mut rng = Rng::new(39);
    let mut met = [0; 2];
    for _ in 0..REPLIES {
        let value = value(&mut rng);
        let text = [b"a", &value[..]].concat();
        let length = (value.len() as u16).to_be_bytes();
        let records = [64, 0, 0, 0, 1, 0, 1, length[0], length[1], 67];
        let reply = written(&records, &text, 2 * text.len() + 20).expect("one item");
        let raw = &reply[2..reply.len() - "\nendoutput\n".len()];
        let must_be =
            value.first() == Some(&b'"') || value.iter().any(|byte| b"\r\n".contains(byte));
        assert_eq!(
            raw.first() == Some(&b'"'),
            must_be,
            "{}",
            value.escape_ascii()
        );
        assert_eq!(
            judged_value(raw).as_ref(),
            Ok(&value),
            "{}",
            value.escape_ascii()
        );
        if !must_be {
            assert_eq!(raw, value);
        }
        met[usize::from(must_be)] += 1;
    }
    assert!(met.iter().all(|&count| count > REPLIES / 5), "{met:?}");
}

/// The benchmark's replies: good, of about the size that is asked for, with items of 10 to 40 bytes,
/// groups, and some quoted values.
#[test]
fn a_boards_reply_is_good_and_of_its_size() {
    for size in [1 << 10, 1 << 12, 1 << 14, MOST_BYTES] {
        let reply = board_reply(&mut Rng::new(1), size);
        assert!(
            (size - 120..=size).contains(&reply.len()),
            "{size}: {}",
            reply.len()
        );
        let said = said_by_the_reader(&reply).expect("a good reply");
        assert_eq!(judged_reply(&reply).as_ref(), Ok(&said));
        let lengths = said.iter().filter_map(|said| match said {
            Said::Item { .. } => Some(line_of(said).len()),
            _ => None,
        });
        let lengths: Vec<usize> = lengths.collect();
        let usual = lengths
            .iter()
            .filter(|length| (9..=42).contains(*length))
            .count();
        assert!(
            usual * 10 > lengths.len() * 9,
            "{size}: {usual} of {}",
            lengths.len()
        );
        let groups = said
            .iter()
            .filter(|said| matches!(said, Said::Group { .. }))
            .count();
        let quoted = reply.windows(2).filter(|pair| pair == b"=\"").count();
        println!(
            "{size}: {} items, {groups} groups, {quoted} quoted",
            lengths.len()
        );
        assert!(groups * 30 > lengths.len() && quoted * 50 > lengths.len());
    }
}

#[test]
fn the_same_seed_gives_the_same_replies() {
    let draw = |seed| {
        let mut rng = Rng::new(seed);
        let made = to_write(&mut rng);
        (
            reply(&mut rng),
            made.records,
            made.text,
            raw_value(&mut rng).raw,
        )
    };
    assert_eq!(draw(11), draw(11));
    assert_ne!(draw(11), draw(12));
}

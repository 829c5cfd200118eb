//! DSP0214's own example commands, held to what docs/DIFFERENCES.md says of them: which are refused, with number and place, and that all others are read;
//! and its example replies, read, made plain and written by both alike.

use smclp::face;
use clp_reader::reading::read;
use clp_reader::reply::read_reply;
use clp_reader::reply_records::{reply_records, ReplyRecord};

const EXAMPLES: &str = include_str!("../../dsp0214-examples.txt");
const REPLIES: &str = include_str!("../../dsp0214-replies.txt");
const DIFFERENCES: &str = include_str!("../../../docs/DIFFERENCES.md");

/// The answer of the proved library and that of the independent reader, if they refuse the line.
fn refusals(line: &str) -> [Option<(u64, u64)>; 2] {
    let answer = face::read(line.as_bytes(), &mut [0; face::READING_BYTES]);
    let ours = (answer.number != 0).then_some((answer.number, answer.value));
    let theirs = read(line.as_bytes(), &mut [0; face::READING_BYTES]).err();
    [ours, theirs.map(|refusal| (u64::from(refusal.number), refusal.place as u64))]
}

fn examples() -> Vec<&'static str> {
    EXAMPLES.lines().filter(|line| !line.starts_with('#')).collect()
}

fn section() -> &'static str {
    DIFFERENCES.split("\n## DSP0214's own examples\n").nth(1).expect("the section")
}

/// The section on the examples: its sentence, and the refused lines of its table, each with number and place.
fn claimed() -> (&'static str, Vec<(&'static str, u64, u64)>) {
    let section = section();
    let rows = section.lines().filter(|line| line.starts_with("| 6."));
    let refused = rows.map(|row| {
        let cells: Vec<&str> = row.split(" | ").collect();
        let (number, place) = cells[2].split_once(" at ").expect("NUMBER at PLACE");
        (cells[1].trim_matches('`'), number.parse().unwrap(), place.parse().unwrap())
    });
    (section.trim_start().lines().next().unwrap(), refused.collect())
}

#[test]
fn the_examples_are_read_or_refused_as_docs_differences_says() {
    let (sentence, refused) = claimed();
    let examples = examples();
    let read_count = examples.len() - refused.len();
    for count in [examples.len(), read_count, refused.len()] {
        assert!(sentence.contains(&format!(" {count} ")), "{count}: {sentence}");
    }
    for (line, ..) in &refused {
        assert!(examples.contains(line), "not among the examples: {line}");
    }
    for line in examples {
        let expected = refused.iter().find(|row| row.0 == line).map(|row| (row.1, row.2));
        assert_eq!(refusals(line), [expected; 2], "{line}");
    }
    assert!(sentence.contains(" none of them as 20 ") && refused.iter().all(|row| row.1 != 20));
}

/// The one command of clause 7 with an option that its verb can't have, by the section's last sentence.
#[test]
fn stop_has_no_level() {
    let claim = "`stop -l all` (7.9.2, example 3) is 20 at 5: ";
    assert!(section().contains(claim));
    assert_eq!(refusals("stop -l all"), [Some((20, 5)); 2]);
}

/// What a call of the proved library writes.
fn written(call: impl Fn(&mut [u8]) -> face::Answer) -> Vec<u8> {
    let mut room = vec![0; face::REPLY_RECORDS_BYTES];
    let answer = call(&mut room);
    assert_eq!(answer.number, 0);
    room.truncate(answer.value as usize);
    room
}

/// The replies have no quoted values, no CR and no quote at a value's start, so their own records write them once more, but for comments and empty lines.
#[test]
fn the_example_replies_are_read_and_written() {
    let mut met = [0; 2];
    for reply in REPLIES.split_inclusive("\nendoutput\n") {
        let mut room = vec![0; face::REPLY_RECORDS_BYTES];
        let theirs = read_reply(reply.as_bytes(), &mut room);
        let ours = face::read_reply(reply.as_bytes(), &mut vec![0; face::REPLY_RECORDS_BYTES]);
        let Ok(length) = theirs else {
            let refusal = theirs.unwrap_err();
            assert_eq!((ours.number, ours.value), (refusal.number.into(), refusal.place as u64), "{reply}");
            met[1] += 1;
            continue;
        };
        let records = written(|room| face::read_reply(reply.as_bytes(), room));
        assert_eq!(records, room[..length], "{reply}");
        for record in reply_records(&records) {
            if let ReplyRecord::Item { value, .. } = record {
                let raw = value.of(reply.as_bytes());
                assert_eq!(written(|room| face::reply_value(raw, room)), raw);
            }
        }
        let lines = reply.lines().filter(|line| !line.is_empty() && !line.starts_with('#'));
        let plain: String = lines.map(|line| format!("{line}\n")).collect();
        let back = written(|room| face::write_reply(&records, reply.as_bytes(), room));
        assert_eq!(String::from_utf8(back).unwrap(), plain);
        met[0] += 1;
    }
    assert_eq!(met, [25, 2]);
}

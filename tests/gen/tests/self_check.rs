//! The independent reader held against itself on generated inputs: what the demands promise.

mod common;

use std::collections::{BTreeMap, BTreeSet};
use std::ops::Range;

use clp_gen::crowded::{crowded, crowded_tree, Crowded, Difference, Pair, DIFFERENCES};
use clp_gen::excluded::{excluded, excluded_line, Excluded};
use clp_gen::options::{excluded_by, is_excluded, options_of, VERBS};
use clp_gen::shout::NEXT_TO_LETTERS;
use clp_gen::{capture, line, tree, Rng};
use clp_reader::canonical::write_canonical;
use clp_reader::clplist::{list_capture, Lister};
use clp_reader::joiner::{end, join, Ended, Joined, State, LINE_ROOM};
use clp_reader::reading::{read, target_part};
use clp_reader::records::{records, Record};
use clp_reader::refusal::Refusal;
use clp_reader::same::same_command;
use clp_reader::terms::{check_line, next_term, stood_for, write_stood_for, TermReader};
use clp_reader::tree::{check_tree, full_path, resolve, Resolved};
use common::{refused_term, terms_of, verb_of};

const LINES: usize = 200_000;
const CANARY: u8 = 0xa5;

fn no_room() -> Refusal {
    Refusal {
        number: 19,
        place: 0,
    }
}

fn canonical_of(line: &[u8]) -> Result<Vec<u8>, Refusal> {
    let mut room = [CANARY; 4200];
    let length = write_canonical(line, &mut room)?;
    assert!(room[length..].iter().all(|&byte| byte == CANARY));
    Ok(room[..length].to_vec())
}

#[test]
fn a_canonical_writing_reads_back_and_stays_as_it_is() {
    let mut rng = Rng::new(1);
    let (mut accepted, mut too_long) = (0, 0);
    let mut refused = [0; 21];
    for _ in 0..LINES {
        let line = line::line(&mut rng);
        match canonical_of(&line) {
            Ok(writing) => {
                accepted += 1;
                too_long += usize::from(writing.len() > 1024);
                check_writing(&line, &writing);
            }
            Err(refusal) => refused[usize::from(refusal.number)] += 1,
        }
    }
    println!("accepted {accepted}, of these written past 1,024 bytes {too_long}");
    println!("refused by number {refused:?}");
    // About half, so that neither side is tried too seldom.
    assert!((LINES / 100 * 45..LINES / 100 * 65).contains(&accepted));
    assert!(refused[1..=14].iter().all(|&count| count > 50));
    assert!(refused[20] > LINES / 50);
}

fn check_writing(line: &[u8], writing: &[u8]) {
    let shown = line.escape_ascii();
    if writing.len() > 1024 {
        let refusal = canonical_of(writing).unwrap_err();
        assert_eq!((refusal.number, refusal.place), (1, 1024), "{shown}");
        return;
    }
    assert!(same_command(line, writing), "{shown}");
    assert_eq!(canonical_of(writing).as_deref(), Ok(writing), "{shown}");
}

#[test]
fn two_writings_are_equal_exactly_when_the_commands_are_the_same() {
    let mut rng = Rng::new(2);
    let mut same_count = 0;
    for _ in 0..LINES {
        let left = line::line(&mut rng);
        let mut right = left.clone();
        clp_gen::damage::damage(&mut rng, &mut right);
        let (Ok(of_left), Ok(of_right)) = (canonical_of(&left), canonical_of(&right)) else {
            assert!(!same_command(&left, &right));
            continue;
        };
        let same = same_command(&left, &right);
        same_count += usize::from(same);
        assert_eq!(same, of_left == of_right, "{}", left.escape_ascii());
    }
    assert!(same_count > 1000, "{same_count}");
}

/// The records of an accepted line.
fn records_of(line: &[u8]) -> Result<Vec<u8>, Refusal> {
    let mut room = [CANARY; 399];
    let reading = read(line, &mut room)?;
    Ok(room[..reading.length].to_vec())
}

/// What matches in either case.
#[derive(Clone, Copy)]
enum Name {
    Verb,
    Option,
    Level,
}

/// Where such names stand in an accepted line: its verb, each option's term, level's argument.
fn names_of(line: &[u8], bytes: &[u8]) -> Vec<(Name, Range<usize>)> {
    let mut reader = TermReader::new(line);
    let mut next_term = || {
        let part = reader.next_term().unwrap().unwrap();
        usize::from(part.position)..usize::from(part.position + part.length)
    };
    let mut names = Vec::new();
    for record in records(bytes) {
        match record {
            Record::Verb { .. } => names.push((Name::Verb, next_term())),
            Record::Option { number, argument } => {
                names.push((Name::Option, next_term()));
                if argument.length > 0 {
                    let term = next_term();
                    names.extend((number == 8).then_some((Name::Level, term)));
                }
            }
            _ => {}
        }
    }
    names
}

/// The letters of an accepted line: those of its names, and all others.
fn letters_of(line: &[u8], bytes: &[u8]) -> (Vec<usize>, Vec<usize>) {
    let names = names_of(line, bytes);
    let in_a_name = |at: &usize| names.iter().any(|(_, place)| place.contains(at));
    let letters = (0..line.len()).filter(|&at| line[at].is_ascii_alphabetic());
    letters.partition(in_a_name)
}

/// Shows of so many generated lines those that are accepted, each with its records.
fn accepted_lines(rng: &mut Rng, count: usize, mut show: impl FnMut(&mut Rng, &[u8], &[u8])) {
    for _ in 0..count {
        let line = line::line(rng);
        if let Ok(bytes) = records_of(&line) {
            show(rng, &line, &bytes);
        }
    }
}

#[test]
fn the_case_of_names_changes_those_bytes_alone() {
    let (mut lines, mut levels) = (0, 0);
    accepted_lines(&mut Rng::new(12), LINES / 2, |rng, line, bytes| {
        let shown = line.escape_ascii();
        let mut other = line.to_vec();
        for at in letters_of(line, bytes).0 {
            other[at] ^= *rng.pick(&[0, 0x20]);
        }
        assert_eq!(records_of(&other).as_deref(), Ok(bytes), "{shown}");
        assert!(same_command(line, &other), "{shown}");
        let writing = canonical_of(line).unwrap();
        assert_eq!(canonical_of(&other), Ok(writing.clone()), "{shown}");
        if let Ok(of_writing) = records_of(&writing) {
            let names = letters_of(&writing, &of_writing).0;
            let is_lower = |&at: &usize| writing[at].is_ascii_lowercase();
            assert!(names.iter().all(is_lower), "{shown}");
        }
        lines += usize::from(other != line);
        let mut names = names_of(line, bytes).into_iter();
        levels += usize::from(names.any(|(name, place)| {
            matches!(name, Name::Level) && other[place.clone()] != line[place]
        }));
    });
    println!("lines with names in another case {lines}, with level's all in one {levels}");
    assert!(lines > LINES / 5 && levels > 1000);
}

#[test]
fn the_case_of_any_other_letter_changes_the_command() {
    let (mut commands, mut sessions) = (0, 0);
    accepted_lines(&mut Rng::new(13), LINES / 2, |rng, line, bytes| {
        let others = letters_of(line, bytes).1;
        if others.is_empty() {
            return;
        }
        let shown = line.escape_ascii();
        let mut other = line.to_vec();
        other[*rng.pick(&others)] ^= 0x20;
        assert!(!same_command(line, &other), "{shown}");
        let writing = canonical_of(line).unwrap();
        match canonical_of(&other) {
            // The writing has that letter in its other case, and is otherwise as it was.
            Ok(of_other) => {
                let apart = writing.iter().zip(&of_other).filter(|(a, b)| a != b);
                assert_eq!(apart.count(), 1, "{shown}");
                assert!(writing.eq_ignore_ascii_case(&of_other), "{shown}");
                commands += 1;
            }
            // Another case makes `SESSION` no target.
            Err(refusal) => {
                assert_eq!(target_part(line).of(line), b"SESSION", "{shown}");
                assert_eq!(refusal.number, 12, "{shown}");
                sessions += 1;
            }
        }
    });
    println!("other commands {commands}, refused as SESSION no more {sessions}");
    assert!(commands > LINES / 5 && sessions > 100);
}

#[test]
fn no_other_byte_stands_for_a_letter_of_a_name() {
    let mut lines = 0;
    accepted_lines(&mut Rng::new(14), LINES / 2, |rng, line, bytes| {
        let letters = letters_of(line, bytes).0;
        if letters.is_empty() {
            return;
        }
        let at = *rng.pick(&letters);
        let mut other = line.to_vec();
        other[at] = if rng.percent(50) {
            *rng.pick(NEXT_TO_LETTERS)
        } else {
            *rng.pick(b"!\"#$%&'()*+,-./0123456789:;<=>?@[\\]^_`{|}~")
        };
        assert!(
            read(&other, &mut [0; 399]).is_err(),
            "{}",
            other.escape_ascii()
        );
        lines += 1;
    });
    assert!(lines > LINES / 5);
}

#[test]
fn names_come_in_each_case_and_mostly_in_lower_case() {
    // Of verbs, options and level's `all`: in lower case, in upper case, in both.
    let mut met = [[0; 3]; 3];
    accepted_lines(&mut Rng::new(15), LINES, |_, line, bytes| {
        for (name, place) in names_of(line, bytes) {
            let has = |is: fn(&u8) -> bool| line[place.clone()].iter().any(is);
            let case = match (has(u8::is_ascii_lowercase), has(u8::is_ascii_uppercase)) {
                (false, false) => continue,
                (true, false) => 0,
                (false, true) => 1,
                (true, true) => 2,
            };
            met[name as usize][case] += 1;
        }
    });
    println!("verbs, options and level's all in lower, upper, mixed case {met:?}");
    for [lower, upper, mixed] in met {
        assert!(lower > upper + mixed && upper > 500 && mixed > 500);
    }
}

#[test]
fn near_misses_of_shouted_names_come_up() {
    let mut rng = Rng::new(16);
    let (mut sessions, mut bytes, mut items, mut topics) = (0, 0, 0, 0);
    for _ in 0..LINES {
        let line = line::line(&mut rng);
        match records_of(&line) {
            Err(refusal) => {
                let Some(refused) = refused_term(&line) else {
                    continue;
                };
                let term = &line[refused.term];
                let is_name = [6, 7, 10].contains(&refusal.number);
                // A GRAVE comes up in other ways too.
                let is_near = |byte: &u8| *byte != b'`' && NEXT_TO_LETTERS.contains(byte);
                bytes += usize::from(is_name && term.iter().any(is_near));
                let is_session = term.eq_ignore_ascii_case(b"SESSION");
                sessions += usize::from(refusal.number == 12 && is_session);
            }
            Ok(of_line) => {
                let has = |record: Record| match record {
                    Record::Option {
                        number: 3 | 9,
                        argument,
                    } => argument.of(&line).windows(3).any(|item| item == b"ALL"),
                    _ => false,
                };
                items += usize::from(records(&of_line).any(has));
                let is_topic = |record: Record| match record {
                    Record::Property { name, .. } => name.of(&line) == b"SHOW",
                    _ => false,
                };
                topics += usize::from(records(&of_line).any(is_topic));
            }
        }
    }
    println!("SESSION in another case {sessions}, bytes next to letters in names {bytes}");
    println!("items with ALL {items}, topics SHOW {topics}");
    assert!(sessions > 500 && bytes > 1000 && items > 200 && topics > 50);
}

#[test]
fn the_options_of_the_generator_are_those_of_table_15() {
    let had = VERBS.map(|verb| options_of(verb).len());
    let not = VERBS.map(|verb| excluded_by(verb).len());
    assert_eq!(had, [6, 6, 7, 8, 5, 6, 8, 7, 7, 10, 7, 7, 6]);
    assert!(had.iter().zip(not).all(|(had, not)| had + not == 12));
    assert_eq!(had.iter().sum::<usize>(), 90);
    for verb in VERBS {
        let term = |name: &str| format!("-{name}").into_bytes();
        for row in options_of(verb) {
            assert!(!is_excluded(verb, &term(row.long)) && !is_excluded(verb, &term(row.short)));
        }
        for row in excluded_by(verb) {
            assert!(is_excluded(verb, &term(row.long)) && is_excluded(verb, &term(row.short)));
            assert!(!is_excluded(verb, row.long.as_bytes()));
        }
    }
}

/// By the generator's own table: an option that the verb can't have, put in among good options, is
/// 20 at its term, and the line without it is good.
#[test]
fn one_excluded_option_makes_a_good_line_20_at_its_term() {
    let mut rng = Rng::new(17);
    let (mut lines, mut passed) = (0, 0);
    let mut pairs = std::collections::BTreeSet::new();
    for _ in 0..LINES / 2 {
        let Excluded {
            line,
            place,
            without,
        } = excluded(&mut rng);
        let shown = line.escape_ascii();
        let term = next_term(&line, place).ok().flatten();
        let verb = verb_of(&without).unwrap();
        // Rarely a limit of length or count is passed, by one of them or by both.
        let Some((part, Ok(_))) = term.zip(Some(records_of(&without))) else {
            passed += 1;
            continue;
        };
        assert_eq!(usize::from(part.position), place, "{shown}");
        assert!(is_excluded(verb, part.of(&line)), "{shown}");
        let expected = Refusal { number: 20, place };
        assert_eq!(records_of(&line), Err(expected), "{shown}");
        assert_eq!(canonical_of(&line), Err(expected), "{shown}");
        assert_eq!(target_part(&line).length, 0, "{shown}");
        pairs.insert((verb, part.of(&line).to_ascii_lowercase()));
        lines += 1;
    }
    println!("lines with one excluded option {lines}, past a limit {passed}");
    assert!(lines > LINES / 100 * 45, "{lines}");
    // Each pair that the table excludes, by its long and its short name.
    let of_verb = |verb| excluded_by(verb).into_iter();
    let names = VERBS.into_iter().flat_map(of_verb);
    let names = names.map(|row| 1 + usize::from(row.short != row.long));
    assert_eq!(pairs.len(), names.sum::<usize>());
}

/// No line that is accepted has an option that its verb can't have, by the generator's own table.
#[test]
fn an_accepted_line_has_options_of_its_verb_alone() {
    let mut options = 0;
    accepted_lines(&mut Rng::new(18), LINES / 2, |_, line, bytes| {
        let Some(verb) = verb_of(line) else {
            return;
        };
        for (name, place) in names_of(line, bytes) {
            if matches!(name, Name::Option) {
                assert!(!is_excluded(verb, &line[place]), "{}", line.escape_ascii());
                options += 1;
            }
        }
    });
    assert!(options > LINES / 5, "{options}");
}

#[test]
fn excluded_options_come_up_in_each_position() {
    let mut rng = Rng::new(19);
    // First, after others, twice, without an argument, with a bad one, after the options, as an
    // argument.
    let mut met = [0; 7];
    for _ in 0..LINES / 4 {
        let line = excluded_line(&mut rng);
        let (Some(verb), Err(refusal)) = (verb_of(&line), records_of(&line)) else {
            continue;
        };
        let place = refusal.place;
        let Ok(Some(part)) = next_term(&line, place) else {
            continue;
        };
        let term = part.of(&line);
        match refusal.number {
            11 => met[5] += usize::from(is_excluded(verb, term)),
            9 => met[6] += usize::from(is_excluded(verb, term)),
            20 => {
                let before = terms_of(&line[..place]).len();
                let after = &line[place + term.len()..];
                let mut later = terms_of(after).into_iter();
                met[0] += usize::from(before == 1);
                met[1] += usize::from(before > 1);
                met[2] += usize::from(later.any(|term| is_excluded(verb, &after[term])));
                // By what the option would be with show, load or dump, which have it.
                let of = |verb: &str| [verb.as_bytes(), b" ", &line[place..]].concat();
                let owner = ["show", "load", "dump"].map(|owner| read(&of(owner), &mut [0; 399]));
                let number =
                    |answer: &Result<_, Refusal>| answer.err().map(|refusal| refusal.number);
                met[3] += usize::from(owner.iter().any(|answer| number(answer) == Some(9)));
                met[4] += usize::from(owner.iter().any(|answer| number(answer) == Some(10)));
            }
            _ => {}
        }
    }
    println!("excluded: first, later, twice, without argument, with a bad one, late, as argument {met:?}");
    assert!(met.iter().all(|&count| count > LINES / 100), "{met:?}");
}

#[test]
fn readings_fit_their_room_exactly_and_name_parts_in_order() {
    let mut rng = Rng::new(3);
    for _ in 0..LINES {
        let line = line::line(&mut rng);
        let mut room = [CANARY; 420];
        let Ok(reading) = read(&line, &mut room) else {
            assert!(room.iter().all(|&byte| byte == CANARY));
            assert_eq!(target_part(&line).length, 0);
            continue;
        };
        assert!(reading.length <= 387);
        assert!(room[reading.length..].iter().all(|&byte| byte == CANARY));
        assert_eq!(target_part(&line), reading.target);
        check_room(&line, &room[..reading.length]);
        check_order(&line, &room[..reading.length]);
    }
}

/// With the room needed all is written; with one byte less nothing is.
fn check_room(line: &[u8], expected: &[u8]) {
    let mut room = [CANARY; 399];
    assert_eq!(read(line, &mut room[..expected.len() - 1]), Err(no_room()));
    assert!(room.iter().all(|&byte| byte == CANARY));
    read(line, &mut room[..expected.len()]).unwrap();
    assert_eq!(&room[..expected.len()], expected);
    let Ok(writing) = canonical_of(line) else {
        return;
    };
    let mut room = vec![CANARY; writing.len()];
    if let Some(short) = writing.len().checked_sub(1) {
        assert_eq!(write_canonical(line, &mut room[..short]), Err(no_room()));
        assert!(room.iter().all(|&byte| byte == CANARY));
    }
    assert_eq!(write_canonical(line, &mut room), Ok(writing.len()));
    assert_eq!(room, writing);
}

fn check_order(line: &[u8], bytes: &[u8]) {
    let mut passed = 0;
    for record in records(bytes) {
        let parts = match record {
            Record::Option { argument, .. } => vec![argument],
            Record::Target { part } => vec![part],
            Record::Property { name, value, .. } => vec![name, value],
            _ => vec![],
        };
        for part in parts {
            assert!(usize::from(part.position) >= passed);
            passed = usize::from(part.position + part.length);
        }
    }
    assert!(passed <= line.len());
}

#[test]
fn the_carried_reader_agrees_with_the_rows_and_with_itself() {
    let mut rng = Rng::new(4);
    for _ in 0..LINES / 4 {
        let line = line::line(&mut rng);
        let mut reader = TermReader::new(&line);
        let mut count = 0;
        loop {
            let place = reader.place();
            let answer = reader.next_term();
            assert_eq!(answer, next_term(&line, place));
            match answer {
                Ok(Some(part)) => {
                    count += 1;
                    assert_eq!(reader.place(), usize::from(part.position + part.length));
                    check_stood_for(part.of(&line));
                }
                ended => {
                    assert_eq!(ended.err(), check_line(&line).err());
                    assert_eq!(reader.place(), place);
                    break;
                }
            }
        }
        assert!(count <= 64);
        let place = rng.below(line.len() + 3);
        assert_eq!(next_term(&line, place).err(), check_line(&line).err());
    }
}

fn check_stood_for(text: &[u8]) {
    let plain: Vec<u8> = stood_for(text).collect();
    let mut room = vec![CANARY; text.len()];
    assert_eq!(write_stood_for(text, &mut room), Ok(plain.len()));
    assert_eq!(room[..plain.len()], plain);
    assert!(room[plain.len()..].iter().all(|&byte| byte == CANARY));
}

/// All answers of a capture cut into the given parts: each line or refusal, and the end's.
#[derive(Debug, PartialEq)]
struct Answers {
    lines: Vec<(Joined, Vec<u8>)>,
    /// How many bytes of the capture were used when each line had ended.
    ends: Vec<usize>,
    end: Ended,
    state: State,
}

fn answers(bytes: &[u8], cuts: &[usize]) -> Answers {
    let mut state = State::default();
    let mut buffer = [CANARY; LINE_ROOM];
    let (mut lines, mut ends) = (Vec::new(), Vec::new());
    let mut passed = 0;
    for &length in cuts {
        let part_end = passed + length;
        loop {
            let before = buffer;
            let step = join(state, &mut buffer, &bytes[passed..part_end]);
            assert!(step.state.is_reachable());
            state = step.state;
            passed += step.used;
            let text = match step.joined {
                Joined::More => usize::from(state.held),
                Joined::Line(length) => length,
                Joined::Refused(_) => LINE_ROOM,
            };
            assert_eq!(buffer[text..], before[text..]);
            if step.joined == Joined::More {
                assert_eq!(passed, part_end);
                break;
            }
            lines.push((step.joined, buffer[..text].to_vec()));
            ends.push(passed);
        }
    }
    assert_eq!(passed, bytes.len());
    let end = end(state).unwrap();
    Answers {
        lines,
        ends,
        end,
        state,
    }
}

#[test]
fn cutting_a_capture_changes_no_line() {
    let mut rng = Rng::new(5);
    for _ in 0..6000 {
        let bytes = capture::capture(&mut rng, 8);
        let cuts = capture::cuts(&mut rng, bytes.len());
        let whole = answers(&bytes, &[bytes.len()]);
        assert_eq!(whole, answers(&bytes, &cuts), "{}", bytes.escape_ascii());
        check_listing(&bytes, &cuts, &whole);
    }
}

/// The listing is the same by parts, and has one answer for each line and a cut.
fn check_listing(bytes: &[u8], cuts: &[usize], whole: &Answers) {
    let mut text = Vec::new();
    let mut lister = Lister::new();
    let mut rest = bytes;
    for &length in cuts {
        let (part, after) = rest.split_at(length);
        lister.list_part(part, &mut text);
        rest = after;
    }
    lister.list_end(&mut text);
    assert_eq!(text, list_capture(bytes));
    let starts = |word: &[u8]| {
        let lines = text.split(|&byte| byte == b'\n');
        lines.filter(|line| line.starts_with(word)).count()
    };
    let answered = starts(b"verb") + starts(b"refusal") + starts(b"blank");
    assert_eq!(answered, whole.lines.len());
    assert_eq!(starts(b"cut"), usize::from(whole.end == Ended::Cut));
}

#[test]
fn trust_begins_again_after_a_shared_tails_first_line_end() {
    let mut rng = Rng::new(6);
    for _ in 0..6000 {
        let tail = capture::shared_tail(&mut rng, 6);
        let one = capture::capture(&mut rng, 3);
        let other = capture::capture(&mut rng, 3);
        let of_one = answers_after(&one, &tail);
        let of_other = answers_after(&other, &tail);
        assert_eq!(of_one, of_other, "{}", tail.escape_ascii());
    }
}

type Trusted = (Vec<(Joined, Vec<u8>)>, Ended);

/// The answers from the line after the tail's first end of line onward.
fn answers_after(before: &[u8], tail: &[u8]) -> Trusted {
    let bytes = [before, tail].concat();
    let whole = answers(&bytes, &[bytes.len()]);
    let trusted_from = before.len() + 2;
    let first = whole.ends.iter().position(|&end| end == trusted_from);
    let first = first.expect("the tail's first end of line ends a line");
    (whole.lines[first + 1..].to_vec(), whole.end)
}

#[test]
fn lines_before_the_first_difference_are_equal() {
    let mut rng = Rng::new(7);
    for _ in 0..6000 {
        let one = capture::capture(&mut rng, 6);
        let mut other = one.clone();
        clp_gen::damage::damage(&mut rng, &mut other);
        let alike = one.iter().zip(&other).take_while(|(a, b)| a == b).count();
        let (of_one, of_other) = (answers(&one, &[one.len()]), answers(&other, &[other.len()]));
        let ended = |all: &Answers| all.ends.iter().filter(|&&end| end <= alike).count();
        assert_eq!(ended(&of_one), ended(&of_other));
        let count = ended(&of_one);
        assert_eq!(of_one.lines[..count], of_other.lines[..count]);
    }
}

#[test]
fn a_full_path_resolves_to_its_node() {
    let mut rng = Rng::new(8);
    let mut resolved = 0;
    for _ in 0..600 {
        let tree = tree::tree(&mut rng);
        let answer = check_tree(&tree.bytes);
        if tree.is_intact && tree.nodes.len() <= 512 {
            assert_eq!(answer, Ok(tree.nodes.len()));
        }
        let Ok(count) = answer else {
            let place = answer.unwrap_err().place;
            // What stands before the first bad record is a good tree.
            assert_eq!(check_tree(&tree.bytes[..place]), Ok(place / 22));
            continue;
        };
        let start = tree::default_target(&mut rng, &tree).min(count as u16);
        for _ in 0..20 {
            let node = rng.below(count + 1);
            resolved += usize::from(check_full_path(&tree.bytes, node, start.into()));
        }
    }
    println!("full paths resolved {resolved}");
    assert!(resolved > 3000);
}

/// Whether the node's full path is a path of at most 16 segments, which then gives the node.
fn check_full_path(tree: &[u8], node: usize, default_target: usize) -> bool {
    let mut room = vec![CANARY; 512 * 22 + 1];
    let length = full_path(tree, node, &mut room).unwrap();
    assert!(room[length..].iter().all(|&byte| byte == CANARY));
    let path = &room[..length];
    let mut short = vec![CANARY; length - 1];
    assert_eq!(full_path(tree, node, &mut short), Err(no_room()));
    assert!(short.iter().all(|&byte| byte == CANARY));
    let mut list = [0xa5a5; 2];
    let resolved = resolve(path, tree, default_target, &mut list);
    let depth = path.iter().filter(|&&byte| byte == b'/').count();
    if depth > 16 {
        assert_eq!(resolved.map_err(|refusal| refusal.number), Err(12));
        return false;
    }
    assert_eq!(resolved, Ok(Resolved::Nodes(1)));
    assert_eq!(list, [node as u16, 0xa5a5]);
    true
}

#[test]
fn resolving_agrees_with_a_plain_walk() {
    let mut rng = Rng::new(9);
    let mut met = [0; 20];
    for _ in 0..40_000 {
        let tree = tree::tree(&mut rng);
        if tree.nodes.len() > 70 && rng.percent(90) {
            continue;
        }
        let default_target = tree::default_target(&mut rng, &tree);
        let text = tree::path(&mut rng, &tree, default_target);
        let mut list = vec![0xa5a5; rng.below(5)];
        let answer = resolve(&text, &tree.bytes, default_target.into(), &mut list);
        let filled = match answer {
            Ok(Resolved::Nodes(count)) => count,
            _ => 0,
        };
        assert!(list[filled..].iter().all(|&place| place == 0xa5a5));
        match answer {
            Ok(_) => met[0] += 1,
            Err(refusal) => met[usize::from(refusal.number)] += 1,
        }
        if let (Ok(Resolved::Nodes(_)), true) = (answer, tree.is_intact) {
            assert_eq!(list[..filled], plain_walk(&tree, default_target, &text));
        }
    }
    println!("answers by number {met:?}");
    assert!([0, 12, 15, 16, 17, 18, 19]
        .iter()
        .all(|&number| met[number] > 50));
}

/// The nodes that a text addresses, walked over the nodes as made.
fn plain_walk(tree: &tree::Tree, default_target: u16, text: &[u8]) -> Vec<u16> {
    let text = String::from_utf8(text.to_vec()).unwrap().replace('\\', "/");
    let mut at = vec![if text.starts_with('/') {
        0
    } else {
        default_target
    }];
    for segment in text.split('/').filter(|segment| !segment.is_empty()) {
        let from = at[0];
        at = match segment {
            "." => vec![from],
            ".." => vec![tree.nodes[usize::from(from) - 1].parent],
            _ => children_called(tree, from, segment),
        };
    }
    at
}

fn children_called(tree: &tree::Tree, parent: u16, segment: &str) -> Vec<u16> {
    let mut children = Vec::new();
    for (node, made) in (1..).zip(&tree.nodes) {
        let tag = String::from_utf8(made.tag.clone()).unwrap();
        let is_called = segment == format!("{tag}{}", made.number) || segment == format!("{tag}*");
        if made.parent == parent && is_called {
            children.push(node);
        }
    }
    children
}

#[test]
fn a_tree_check_agrees_with_a_plain_one() {
    let mut rng = Rng::new(10);
    let mut met = [0; 2];
    for _ in 0..3000 {
        let tree = tree::tree(&mut rng);
        let bad = first_bad_record(&tree.bytes);
        check_finds(bad, &tree.bytes);
        if crowds_of(&tree.bytes).iter().any(|crowd| crowd.len() > 1) {
            met[0] += usize::from(bad.is_none());
            met[1] += usize::from(bad.is_some_and(|index| is_twin(&tree.bytes, index)));
        }
    }
    println!("crowded: good, with a twin {met:?}");
    assert!(met.iter().all(|&count| count > 75), "{met:?}");
}

/// The check refuses the record of this index, or none.
fn check_finds(bad: Option<usize>, bytes: &[u8]) {
    let expected = match bad {
        Some(index) => Err((15, index * 22)),
        None => Ok(bytes.len() / 22),
    };
    let answer = check_tree(bytes);
    let answer = answer.map_err(|refusal| (refusal.number, refusal.place));
    assert_eq!(answer, expected);
}

/// Whether the record of this index is the same as an earlier one.
fn is_twin(bytes: &[u8], index: usize) -> bool {
    let all: Vec<&[u8]> = bytes.chunks(22).collect();
    all[..index].contains(&all[index])
}

/// The tags of records that share parent, number, the tag's length and its two ends.
fn crowds_of(bytes: &[u8]) -> Vec<BTreeSet<&[u8]>> {
    let mut crowds: BTreeMap<[u8; 7], BTreeSet<&[u8]>> = BTreeMap::new();
    for record in bytes.chunks_exact(22) {
        let length = usize::from(record[3]);
        if let Some(tag) = record[4..20].get(..length).filter(|tag| !tag.is_empty()) {
            let shared = [record[1], record[2], record[3], tag[0], tag[length - 1], record[20], record[21]];
            crowds.entry(shared).or_default().insert(tag);
        }
    }
    crowds.into_values().collect()
}

#[test]
fn tags_of_a_crowded_tree_differ_in_few_places() {
    let mut rng = Rng::new(24);
    let (mut early, mut late, mut lengths) = (0, 0, BTreeSet::new());
    for count in (0..200).chain([505, 512, 520]) {
        let made = crowded_tree(&mut rng, count);
        assert!(made.is_intact);
        assert_eq!((made.nodes.len(), &made.bytes), (count, &tree::bytes_of(&made.nodes)));
        let Some(first) = made.nodes.first() else {
            continue;
        };
        let length = first.tag.len();
        let mut places = BTreeSet::new();
        for node in &made.nodes {
            assert_eq!(node.tag.len(), length);
            places.extend((0..length).filter(|&at| node.tag[at] != first.tag[at]));
        }
        let is_early = places.is_subset(&[1, 2, 3].into());
        let is_late = places.is_subset(&[length - 4, length - 3, length - 2].into());
        assert!(is_early || is_late, "{places:?} of {length}");
        // Of so many records nearly all must be compared.
        let crowds = crowds_of(&made.bytes);
        assert!(crowds.len() <= 16 && crowds.iter().map(BTreeSet::len).sum::<usize>() == count);
        lengths.insert(length);
        early += usize::from(!is_late);
        late += usize::from(!is_early);
    }
    assert_eq!(lengths, (8..=16).collect());
    assert!(early > 50 && late > 50, "{early} {late}");
}

#[test]
fn a_crowded_tree_is_good_but_for_the_twin_made_in_it() {
    let mut rng = Rng::new(25);
    let mut met = [0; 6];
    for _ in 0..2000 {
        let count = tree::count(&mut rng);
        let Crowded { tree: made, pair } = crowded(&mut rng, count);
        let twin = pair.filter(|pair| pair.difference.is_none()).map(|pair| pair.later);
        assert_eq!(made.is_intact, twin.is_none());
        let too_many = (made.nodes.len() > 512).then_some(512);
        let bad = twin.into_iter().chain(too_many).min();
        assert_eq!(first_bad_record(&made.bytes), bad);
        check_finds(bad, &made.bytes);
        let Some(pair) = pair else {
            met[0] += 1;
            continue;
        };
        assert_eq!(differences(&made.bytes, &pair), Vec::from_iter(pair.difference));
        let which = DIFFERENCES.iter().position(|&one| pair.difference == Some(one));
        met[which.map_or(1, |which| 2 + which)] += 1;
    }
    println!("crowded: as made, with a twin, by what differs {met:?}");
    assert!(met.iter().all(|&count| count > 80), "{met:?}");
    assert!((800..1200).contains(&met[1]), "{met:?}");
}

/// In what the later record differs from the earlier; tags that differ otherwise stop the test.
fn differences(bytes: &[u8], pair: &Pair) -> Vec<Difference> {
    assert!(pair.earlier < pair.later);
    let record = |index: usize| &bytes[22 * index..][..22];
    let (left, right) = (record(pair.earlier), record(pair.later));
    let tag = |record: &[u8]| record[4..][..usize::from(record[3])].to_vec();
    let (one, other) = (tag(left), tag(right));
    let mut found = Vec::new();
    found.extend((left[1..3] != right[1..3]).then_some(Difference::Parent));
    found.extend((left[20..] != right[20..]).then_some(Difference::Number));
    if one.eq_ignore_ascii_case(&other) {
        let letters = one.iter().zip(&other).filter(|(a, b)| a != b).count();
        assert!(letters <= 1, "{letters} letters");
        found.extend((letters == 1).then_some(Difference::Case));
    } else {
        let (long, short) = if one.len() > other.len() { (one, other) } else { (other, one) };
        let without = |at| [&long[..at], &long[at + 1..]].concat();
        assert!((1..long.len() - 1).any(|at| without(at) == short));
        found.push(Difference::Length);
    }
    found
}

/// The index of the first bad record, every record compared with all earlier ones.
fn first_bad_record(bytes: &[u8]) -> Option<usize> {
    let all: Vec<&[u8]> = bytes.chunks(22).collect();
    (0..all.len()).find(|&index| {
        let record = all[index];
        if record.len() < 22 || record[0] != 16 || index >= 512 {
            return true;
        }
        let parent = usize::from(record[1]) * 256 + usize::from(record[2]);
        let length = usize::from(record[3]);
        let is_tag = |at: usize| match at < length {
            true => record[4 + at].is_ascii_alphabetic(),
            false => record[4 + at] == 0,
        };
        parent > index
            || !(1..=16).contains(&length)
            || !(0..16).all(is_tag)
            || record[20..] == [0, 0]
            || all[..index].contains(&record)
    })
}

#[test]
fn the_same_seed_gives_the_same_inputs() {
    let draw = |seed| {
        let mut rng = Rng::new(seed);
        let tree = tree::tree(&mut rng);
        (
            line::line(&mut rng),
            capture::capture(&mut rng, 5),
            tree.bytes,
        )
    };
    assert_eq!(draw(11), draw(11));
    assert_ne!(draw(11), draw(12));
}

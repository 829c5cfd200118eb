//! Each row of the tables of readings, section by section: of document 01, and of document 02 for
//! requests a to c.

mod common;

use clp_reader::canonical::write_canonical;
use clp_reader::joiner::{end, join, Joined, State};
use clp_reader::reading::{read, target_part};
use clp_reader::refusal::Refusal;
use clp_reader::same::same_command;
use clp_reader::terms::{next_term, stood_for, TermReader};
use clp_reader::tree::{check_tree, full_path, resolve, Resolved};
use clp_reader::Part;
use common::{
    assert_each, assert_refused, assert_same_text, node, numbered_nodes, read_text, repeated, Tap,
};

const NO_ROOM: Refusal = Refusal {
    number: 19,
    place: 0,
};

fn refusal(number: u8, place: usize) -> Refusal {
    Refusal { number, place }
}

fn canonical(line: &str) -> String {
    let mut room = [0xaa; 4096];
    let length = write_canonical(line.as_bytes(), &mut room).unwrap();
    assert!(room[length..].iter().all(|&byte| byte == 0xaa));
    String::from_utf8(room[..length].to_vec()).unwrap()
}

fn same(left: &str, right: &str) -> bool {
    same_command(left.as_bytes(), right.as_bytes())
}

mod joining {
    use super::*;

    #[test]
    fn the_used_count_stops_at_the_cr() {
        let mut tap = Tap::new();
        assert_eq!(tap.call(b"cd\r\n"), (3, Joined::Line(2)));
        assert_eq!(tap.call(b"\n"), (1, Joined::More));
        assert_eq!(tap.call(b"\n"), (1, Joined::Line(0)));
    }

    #[test]
    fn a_cr_that_joins_takes_its_lf_along() {
        let mut tap = Tap::new();
        assert_eq!(tap.lines(b"a`\r\nb\n"), [Some(b"ab".to_vec())]);
        assert_eq!(tap.call(b"a`\r"), (3, Joined::More));
        assert_eq!(tap.call(b"\n"), (1, Joined::More));
        assert_eq!(tap.call(b"\n"), (1, Joined::Line(1)));
    }

    #[test]
    fn bad_state_or_buffer_is_19_on_an_empty_part_too() {
        for length in [0, 1023, 1025] {
            let step = join(State::default(), &mut vec![0; length], b"");
            assert_eq!((step.used, step.joined), (0, Joined::Refused(NO_ROOM)));
        }
        let bad = State {
            held: 1025,
            ..State::default()
        };
        let mut buffer = [0xaa; 1024];
        for part in [&b""[..], b"a\n"] {
            let step = join(bad, &mut buffer, part);
            assert_eq!((step.used, step.joined), (0, Joined::Refused(NO_ROOM)));
            assert_eq!((step.state, buffer), (bad, [0xaa; 1024]));
        }
        assert_eq!(end(bad), Err(NO_ROOM));
    }

    #[test]
    fn states_that_some_capture_leads_to() {
        let state = |held, over, waiting, after_cr| State {
            held,
            over,
            waiting,
            after_cr,
        };
        for held in [0, 1, 1023, 1024] {
            for (waiting, after_cr) in [(false, false), (true, false), (false, true)] {
                assert!(state(held, false, waiting, after_cr).is_reachable());
                assert_eq!(
                    state(held, true, waiting, after_cr).is_reachable(),
                    held == 1024
                );
            }
            assert!(!state(held, false, true, true).is_reachable());
        }
        assert!(!state(1025, false, false, false).is_reachable());
        let mut tap = Tap::new();
        tap.call(b"a`\r");
        assert_eq!(tap.state, state(1, false, false, true));
    }

    #[test]
    fn a_grave_waiting_at_1024_may_still_join() {
        let mut tap = Tap::new();
        let full = vec![b'x'; 1024];
        tap.call(&full);
        tap.call(b"`");
        assert!(!tap.state.over && tap.state.waiting);
        assert_eq!(tap.lines(b"\n\n"), [Some(full.clone())]);
        tap.call(&full);
        assert_eq!(tap.lines(b"`a\n"), [None]);
    }

    #[test]
    fn a_pair_over_the_limit_leaves_its_grave_as_byte_1023() {
        let mut tap = Tap::new();
        tap.call(&[b'x'; 1023]);
        assert_eq!(tap.lines(b"``\n"), [None]);
        assert_eq!((tap.buffer[1022], tap.buffer[1023]), (b'x', b'`'));
    }

    #[test]
    fn pairs_and_joins_are_followed_in_the_part_thrown_away() {
        let mut tap = Tap::new();
        tap.call(&[b'x'; 1025]);
        assert_eq!(tap.lines(b"`\nyy``\ncd\n"), [None, Some(b"cd".to_vec())]);
    }

    #[test]
    fn fresh_after_a_line_but_for_the_cr() {
        let mut tap = Tap::new();
        tap.call(b"cd\r");
        let fresh_after_cr = State {
            after_cr: true,
            ..State::default()
        };
        assert_eq!(tap.state, fresh_after_cr);
        tap.lines(b"cd\n");
        assert_eq!(tap.state, State::default());
    }

    #[test]
    fn a_join_with_nothing_held_leaves_nothing_cut() {
        let mut tap = Tap::new();
        tap.call(b"`\n");
        assert!(!tap.is_cut());
        tap.call(b"`");
        assert!(tap.is_cut());
    }

    #[test]
    fn over_long_text_at_the_end_is_cut_alone() {
        let mut tap = Tap::new();
        assert_eq!(tap.lines(&[b'x'; 3000]), []);
        assert!(tap.is_cut());
    }

    #[test]
    fn the_buffer_past_the_text_is_unchanged_and_its_content_is_not_judged() {
        let mut tap = Tap::new();
        tap.call(b"ab`");
        assert_eq!(tap.buffer[..3], [b'a', b'b', 0xaa]);
        tap.call(b"c\n");
        assert_eq!(tap.buffer[..5], [b'a', b'b', b'`', b'c', 0xaa]);
    }
}

mod terms {
    use super::*;

    fn terms(line: &[u8]) -> Vec<(u16, u16)> {
        let mut reader = TermReader::new(line);
        std::iter::from_fn(|| reader.next_term().unwrap())
            .map(|part| (part.position, part.length))
            .collect()
    }

    #[test]
    fn a_quote_in_the_middle_of_a_term() {
        assert_eq!(terms(b"a\"b c\"d"), [(0, 7)]);
        assert_eq!(terms(b" \"\"  a "), [(1, 2), (5, 1)]);
        assert_eq!(terms(b"a` b c"), [(0, 4), (5, 1)]);
    }

    #[test]
    fn a_grave_before_a_byte_it_cannot_escape() {
        assert!(stood_for(b"`a`.`").eq(*b"`a.`"));
        assert!(stood_for(b"\"`a`.`\"``\"").eq(*b"`a`.\"`"));
        assert!(stood_for(b"a\"b c\"d").eq(*b"ab cd"));
        for byte in 0x20..=0x7e {
            let escapable = b" `\",=-/\\.()*".contains(&byte);
            let plain: Vec<u8> = stood_for(&[b'`', byte]).collect();
            // A quote mark that were not escaped would vanish.
            assert_eq!(plain.len(), if escapable { 1 } else { 2 });
        }
    }

    #[test]
    fn a_lone_last_grave_in_an_open_quote_is_3() {
        assert_same_text(b"set a=\"b`", "refusal 3 8");
        assert_same_text(b"set a=\"b``", "refusal 4 6");
        assert_same_text(b"set `", "refusal 3 4");
        assert_same_text(b"set ``", "refusal 12 4");
    }

    #[test]
    fn row_4_names_the_quote_left_open() {
        assert_same_text(b"set a=\"b\" c=\"d", "refusal 4 12");
        assert_same_text(b"set a=\"b`\"", "refusal 4 6");
    }

    #[test]
    fn quote_marks_are_bare() {
        assert_refused(
            13,
            &[
                ("set a=b\"c\"", 7),
                ("set a=\"b\"c", 9),
                ("set a=\"b\"\"c\"", 9),
            ],
        );
    }

    #[test]
    fn rows_1_to_5_go_in_order() {
        assert_same_text(&repeated("\u{1}", "x", 1024, ""), "refusal 1 1024");
        assert_same_text(b"a\x7f\"`", "refusal 2 1");
        assert_same_text(b"\x1f", "refusal 2 0");
        assert_same_text(&repeated("", "a ", 70, "`"), "refusal 3 140");
        assert_same_text(&repeated("", "a ", 70, "\""), "refusal 4 140");
        assert_same_text(&repeated("", "a ", 70, ""), "refusal 5 128");
    }

    #[test]
    fn a_refused_line_is_refused_from_every_place() {
        for place in [0, 3, 10, 11, usize::MAX] {
            let mut reader = TermReader::at(b"reset \"os1", place);
            assert_eq!(reader.next_term(), Err(refusal(4, 6)));
            assert_eq!(reader.place(), place);
            assert_eq!(next_term(b"reset \"os1", place), Err(refusal(4, 6)));
        }
    }

    #[test]
    fn the_place_after_a_term_is_its_end() {
        let mut reader = TermReader::new(b"  a  b ");
        assert_eq!(
            reader.next_term().unwrap(),
            Some(Part {
                position: 2,
                length: 1
            })
        );
        assert_eq!(reader.place(), 3);
        assert_eq!(
            reader.next_term().unwrap(),
            Some(Part {
                position: 5,
                length: 1
            })
        );
        assert_eq!((reader.next_term(), reader.place()), (Ok(None), 6));
    }

    #[test]
    fn from_another_place_it_scans_as_at_a_lines_start() {
        // From inside the quote, its closing mark opens one that reaches the line's end.
        assert_eq!(
            next_term(b"\"a b\" c", 3),
            Ok(Some(Part {
                position: 3,
                length: 4
            }))
        );
        assert_eq!(
            next_term(b"a``", 2),
            Ok(Some(Part {
                position: 2,
                length: 1
            }))
        );
        assert_eq!(next_term(b"a", 1), Ok(None));
        assert_eq!(next_term(b"a", usize::MAX), Ok(None));
    }
}

mod command {
    use super::*;

    #[test]
    fn session_and_tags_are_compared_byte_for_byte() {
        assert_each(&["show session", "show Session"], "refusal 12 12");
        let mut list = [0; 1];
        let missed = resolve(b"/CPU1", &numbered_nodes(1), 0, &mut list);
        assert_eq!(missed, Err(refusal(18, 1)));
        for text in [&b"session"[..], b"Session", b"sESSION"] {
            assert_eq!(resolve(text, &[], 0, &mut list), Err(refusal(12, 7)));
        }
    }

    #[test]
    fn terms_that_are_no_option() {
        assert_each(
            &["show -", "show --f", "show -\"f\"", "show -level=2"],
            "refusal 7 5",
        );
    }

    #[test]
    fn options_without_a_short_name() {
        assert_each(&["show -s a", "show -S a", "show -de a"], "refusal 7 5");
    }

    #[test]
    fn a_repeated_option_is_8_before_9() {
        assert_same_text(b"show -l 1 -level", "refusal 8 10");
    }

    #[test]
    fn an_argument_with_a_bare_dash_is_9() {
        assert_each(
            &["show -l -l", "show -l -nothing", "show -l -1"],
            "refusal 9 8",
        );
        assert_same_text(b"load -source `-x", "verb 7|option 10 13 3");
    }

    #[test]
    fn nine_with_nothing_after_is_at_the_lines_length() {
        assert_same_text(b"show -l", "refusal 9 7");
        assert_same_text(b"show -l   ", "refusal 9 10");
    }

    #[test]
    fn keep_and_level_are_raw() {
        assert_each(
            &[
                "show -l \"1\"",
                "show -l `1",
                "show -l \"all\"",
                "show -k all",
            ],
            "refusal 10 8",
        );
        assert_same_text(b"show -k 00", "refusal 10 9");
        assert_same_text(b"show -k 0 -l all", "verb 10|option 7 8 1|option 8 13 3");
    }

    #[test]
    fn numbers_up_to_4294967295() {
        assert_same_text(b"show -k 4294967295", "verb 10|option 7 8 10");
        assert_same_text(b"show -l 4294967295", "verb 10|option 8 8 10");
        assert_refused(
            10,
            &[
                ("show -k 4294967296", 17),
                ("show -l 4294967296", 17),
                ("show -k 42949672950", 18),
            ],
        );
    }

    #[test]
    fn locations_take_all_but_an_unescaped_quote() {
        assert_same_text(b"load -source a=,(b", "verb 7|option 10 13 5");
        assert_same_text(b"load -source a`\"b", "verb 7|option 10 13 4");
        assert_same_text(b"load -source \"a\"", "refusal 10 13");
        assert_same_text(b"dump -destination a\"b\"", "refusal 10 19");
    }

    #[test]
    fn display_and_output_items() {
        assert_refused(
            10,
            &[
                ("show -d a==b", 10),
                ("show -o a,,b", 10),
                ("show -d a,", 10),
                ("show -d ,a", 8),
                ("show -d a=", 10),
                ("show -d 1", 8),
            ],
        );
        assert_same_text(
            b"show -d a,b=c,d=(e,\"f,g\"),h=\"i\"",
            "verb 10|option 3 8 23",
        );
        assert_refused(
            10,
            &[
                ("show -d a=(b)c", 13),
                ("show -d a=\"b\"c", 13),
                ("show -d a=b(c)", 11),
            ],
        );
    }

    #[test]
    fn empty_items_are_of_no_form() {
        assert_refused(
            13,
            &[
                ("set a=()", 7),
                ("set a=(b,)", 9),
                ("set a=(,b)", 7),
                ("set a=(b,,c)", 9),
                ("set a=", 6),
                ("set a==", 7),
            ],
        );
        assert_same_text(b"set a=(\"\")", "verb 9|property 4 1 1 6 4");
        assert_same_text(b"set a==\"\"", "verb 9|property 4 1 2 7 2");
    }

    #[test]
    fn a_list_must_end_with_the_value() {
        assert_refused(
            13,
            &[
                ("set a=(b)c", 9),
                ("set a=(b)(c)", 9),
                ("set a=b(c)", 7),
                ("set a=(b", 8),
                ("set a=((b))", 7),
                ("set a=b)", 7),
            ],
        );
        assert_same_text(b"set a=`(b`)", "verb 9|property 4 1 1 6 5");
    }

    #[test]
    fn a_list_has_at_most_16_items() {
        let list = |count: usize| repeated("set a=(b", ",b", count - 1, ")");
        assert_same_text(&list(16), "verb 9|property 4 1 1 6 33");
        assert_same_text(&list(17), "refusal 13 38");
    }

    #[test]
    fn an_items_end_inside_a_list() {
        assert_same_text(b"set a=(\"b\",\"c\")", "verb 9|property 4 1 1 6 9");
        assert_refused(
            13,
            &[
                ("set a=(\"b\"c)", 10),
                ("set a=(b\"c\")", 8),
                ("set a=(b=c)", 8),
            ],
        );
    }

    #[test]
    fn a_bare_equals_in_parentheses_is_bare() {
        assert_same_text(b"set (a=b)", "refusal 13 4");
    }

    #[test]
    fn a_first_term_without_bare_equals_is_the_target() {
        assert_refused(12, &[("set \"a=b\"", 4), ("set a`=b", 5), ("set Name", 8)]);
        assert_same_text(b"show Name", "refusal 12 9");
    }

    #[test]
    fn an_escaped_or_quoted_dash_is_no_option() {
        assert_each(&["show `-f", "show \"-f\""], "refusal 12 5");
        assert_same_text(b"show / `-f", "refusal 13 7");
        assert_same_text(b"show / -f", "refusal 11 7");
    }

    #[test]
    fn parentheses_hold_no_spaces() {
        assert_same_text(b"set a=(b, c)", "refusal 13 9");
        assert_same_text(b"set a=(b,\" \",c)", "verb 9|property 4 1 1 6 9");
    }

    #[test]
    fn topics_of_help() {
        assert_same_text(b"help show", "verb 6|property 5 4 0 9 0");
        assert_each(&["help /", "help \"a\"", "help 1"], "refusal 13 5");
        assert_same_text(b"help a=b", "refusal 13 6");
        assert_same_text(b"help a -f", "refusal 11 7");
        assert_same_text(&repeated("help", " a", 33, ""), "refusal 14 69");
        assert_eq!(
            read_text(&repeated("help", " a", 32, "")).lines().count(),
            33
        );
    }

    #[test]
    fn the_33rd_property() {
        let after_32 = |last| repeated("set /", " a", 32, last);
        assert_same_text(&after_32(" -f"), "refusal 11 70");
        assert_same_text(&after_32(" 9"), "refusal 14 70");
        assert_same_text(&repeated("set / 9", " a", 32, ""), "refusal 13 6");
    }

    #[test]
    fn segments_of_a_path() {
        assert_same_text(&repeated("cd .", "/..", 15, ""), "verb 1|target 3 46");
        assert_same_text(&repeated("cd .", "/..", 16, ""), "refusal 12 49");
        assert_same_text(&repeated("cd ", "\\a1", 16, ""), "verb 1|target 3 48");
        assert_refused(
            12,
            &[
                ("cd *", 3),
                ("cd a*/b1", 5),
                ("cd a*b", 5),
                ("cd ...", 5),
                ("cd //a1", 4),
                ("cd a1//b1", 6),
                ("cd a1/", 6),
                ("cd /*", 4),
            ],
        );
        assert_refused(
            12,
            &[
                ("cd a`1", 4),
                ("cd a1`/b1", 5),
                ("cd \"/\"", 3),
                ("cd a", 4),
                ("cd 1", 3),
                ("cd ./", 5),
            ],
        );
        assert_each(&["cd /", "cd \\", "cd ."], "verb 1|target 3 1");
    }

    #[test]
    fn session_is_the_exact_raw_term() {
        assert_same_text(b"show SESSION", "verb 10|target 5 7");
        assert_same_text(b"show SESSION1", "verb 10|target 5 8");
        assert_same_text(b"show SESSION*", "verb 10|target 5 8");
        assert_refused(
            12,
            &[
                ("show \"SESSION\"", 5),
                ("show /SESSION", 13),
                ("show SESSION/", 12),
            ],
        );
    }

    #[test]
    fn names_of_1_to_64_bytes() {
        let named = |length: usize| repeated("set n", "_", length - 1, "=b");
        assert_same_text(&named(64), "verb 9|property 4 64 1 69 1");
        assert_same_text(&named(65), "refusal 13 68");
        assert_each(&["set _a=b", "set 1a=b", "set =b"], "refusal 13 4");
        assert_same_text(b"set a-b=c", "refusal 13 5");
    }

    #[test]
    fn the_targets_own_part() {
        let part = |position, length| Part { position, length };
        assert_eq!(target_part(b"show /a1 Name"), part(5, 3));
        for line in [
            &b""[..],
            b"show",
            b"show a=b",
            b"help a",
            b"show /a1 9",
            b"show Name",
        ] {
            assert_eq!(target_part(line), Part::default());
        }
        let mut room = [0; 399];
        assert_eq!(read(b"show /a1", &mut room).unwrap().target, part(5, 3));
    }

    #[test]
    fn blank_needs_room_for_its_one_byte() {
        for line in [&b""[..], b"   "] {
            assert_eq!(read(line, &mut []), Err(NO_ROOM));
            assert_eq!(read(line, &mut [0]).map(|reading| reading.length), Ok(1));
        }
    }

    #[test]
    fn room_is_compared_with_the_bytes_needed() {
        let mut room = [0xaa; 20];
        assert_eq!(read(b"show /", &mut room[..6]), Err(NO_ROOM));
        assert_eq!(room, [0xaa; 20]);
        assert_eq!(read(b"show /", &mut room).unwrap().length, 7);
        assert_eq!(room[..8], [1, 10, 3, 0, 5, 0, 1, 0xaa]);
        // A refused line is that refusal, whatever the room.
        assert_eq!(read(b"shows", &mut []), Err(refusal(6, 0)));
    }
}

mod resolving {
    use super::*;

    /// system1 with cpu1, cpu2 and disk1; cpu2 has cpu7.
    fn small_tree() -> Vec<u8> {
        let records = [
            node(0, "system", 1),
            node(1, "cpu", 1),
            node(1, "disk", 1),
            node(1, "cpu", 2),
            node(4, "cpu", 7),
        ];
        records.concat()
    }

    fn nodes(text: &str, default_target: usize) -> Result<Vec<u16>, Refusal> {
        let mut list = [0xaaaa; 6];
        let resolved = resolve(text.as_bytes(), &small_tree(), default_target, &mut list);
        let count = match resolved {
            Ok(Resolved::Nodes(count)) => count,
            _ => 0,
        };
        assert!(list[count..].iter().all(|&place| place == 0xaaaa));
        resolved.map(|_| list[..count].to_vec())
    }

    #[test]
    fn paths_from_the_root_and_from_the_default() {
        assert_eq!(nodes("/", 4), Ok(vec![0]));
        assert_eq!(nodes("", 4), Ok(vec![4]));
        assert_eq!(nodes(".", 4), Ok(vec![4]));
        assert_eq!(nodes("..", 4), Ok(vec![1]));
        assert_eq!(nodes("/system1/cpu2", 3), Ok(vec![4]));
        assert_eq!(nodes("\\system1\\cpu2/cpu7/..", 3), Ok(vec![4]));
        assert_eq!(nodes("../cpu*", 3), Ok(vec![2, 4]));
        assert_eq!(nodes("cpu7", 4), Ok(vec![5]));
    }

    #[test]
    fn places_of_17_and_18() {
        assert_eq!(nodes("/system1/../..", 0), Err(refusal(17, 12)));
        assert_eq!(nodes("..", 0), Err(refusal(17, 0)));
        assert_eq!(nodes("/system1/cpu3", 0), Err(refusal(18, 9)));
        assert_eq!(nodes("/system1/fan*", 0), Err(refusal(18, 9)));
        assert_eq!(nodes("cpu1", 0), Err(refusal(18, 0)));
    }

    #[test]
    fn fifteen_and_sixteen_come_before_session_and_rooted_paths() {
        let bad_tree = &small_tree()[..50];
        assert_eq!(
            resolve(b"SESSION", bad_tree, 0, &mut []),
            Err(refusal(15, 44))
        );
        assert_eq!(
            resolve(b"SESSION", &small_tree(), 6, &mut []),
            Err(refusal(16, 0))
        );
        assert_eq!(nodes("/", 6), Err(refusal(16, 0)));
        assert_eq!(nodes("/", usize::MAX), Err(refusal(16, 0)));
        assert_eq!(resolve(b"", bad_tree, 9, &mut []), Err(refusal(15, 44)));
    }

    #[test]
    fn session_needs_no_room() {
        assert_eq!(
            resolve(b"SESSION", &small_tree(), 5, &mut []),
            Ok(Resolved::Session)
        );
    }

    #[test]
    fn text_of_no_form_is_12_and_comes_first() {
        let bad_tree = &small_tree()[..50];
        let long = vec![b'a'; 70_000];
        for (text, place) in [
            (&long[..], 16),
            (b" /", 0),
            (b"/ ", 1),
            (b"cpu1\x80", 4),
            (b"cpu1 ", 4),
            (b"SESSION/", 7),
            (b"/cpu", 4),
        ] {
            let answer = resolve(text, bad_tree, 9, &mut []);
            assert_eq!(answer, Err(refusal(12, place)));
        }
        assert_eq!(resolve(b"", &[], 0, &mut [7]), Ok(Resolved::Nodes(1)));
    }

    #[test]
    fn a_short_list_is_19_after_17_and_18() {
        assert_eq!(resolve(b"", &[], 0, &mut []), Err(NO_ROOM));
        assert_eq!(resolve(b"..", &[], 0, &mut []), Err(refusal(17, 0)));
        let mut list = [0xaaaa];
        assert_eq!(
            resolve(b"/system1/cpu*", &small_tree(), 0, &mut list),
            Err(NO_ROOM)
        );
        assert_eq!(list, [0xaaaa]);
        assert_eq!(
            resolve(b"/system1/fan*", &small_tree(), 0, &mut []),
            Err(refusal(18, 9))
        );
    }

    #[test]
    fn bad_records() {
        let good = node(0, "cpu", 1);
        let with = |at: usize, byte: u8| {
            let mut record = good.clone();
            record[at] = byte;
            record
        };
        let bad = [
            with(0, 17),
            with(2, 1),
            with(1, 1),
            with(3, 0),
            with(3, 17),
            with(3, 4),
            with(3, 2),
            with(4, b'1'),
            with(19, 1),
            with(21, 0),
            good[..21].to_vec(),
        ];
        assert_eq!(check_tree(&[]), Ok(0));
        assert_eq!(check_tree(&good), Ok(1));
        for record in bad {
            assert_eq!(check_tree(&record), Err(refusal(15, 0)), "{record:?}");
        }
        let twins = [node(0, "a", 1), node(1, "a", 1), node(1, "a", 1)].concat();
        assert_eq!(check_tree(&twins), Err(refusal(15, 44)));
        assert_eq!(check_tree(&twins[..44]), Ok(2));
        let own_parent = [good.clone(), node(2, "a", 1)].concat();
        assert_eq!(check_tree(&own_parent), Err(refusal(15, 22)));
    }

    #[test]
    fn full_paths() {
        let mut room = [0xaa; 30];
        assert_eq!(full_path(&small_tree(), 5, &mut room), Ok(18));
        assert_eq!(&room[..19], b"/system1/cpu2/cpu7\xaa");
        assert_eq!(full_path(&small_tree(), 5, &mut room[..17]), Err(NO_ROOM));
        assert_eq!(full_path(&small_tree(), 0, &mut room), Ok(1));
        assert_eq!(&room[..2], b"/s");
        assert_eq!(full_path(&[], 0, &mut []), Err(NO_ROOM));
        assert_eq!(full_path(&small_tree(), 6, &mut []), Err(refusal(16, 0)));
        assert_eq!(
            full_path(&small_tree()[..23], 6, &mut []),
            Err(refusal(15, 22))
        );
    }

    #[test]
    fn the_longest_full_path() {
        let deep = |index: u16| node(index, "abcdefghijklmnop", 65_535);
        let tree: Vec<u8> = (0..512).flat_map(deep).collect();
        let mut room = vec![0; 512 * 22];
        assert_eq!(full_path(&tree, 512, &mut room), Ok(512 * 22));
        assert!(room
            .chunks(22)
            .all(|segment| segment == b"/abcdefghijklmnop65535"));
    }
}

mod canonical {
    use super::*;

    #[test]
    fn separators_of_a_target_alone_are_changed() {
        assert_eq!(
            canonical("load  -source \\a\\b \\c1\\d1 "),
            "load -source \\a\\b /c1/d1"
        );
        assert_eq!(canonical("cd \\"), "cd /");
        assert_eq!(canonical("set a=\\b"), "set a=\"\\b\"");
    }

    #[test]
    fn long_option_names_in_the_order_given() {
        assert_eq!(canonical("show -w -l all -a"), "show -wait -level all -all");
    }

    #[test]
    fn values_plain_or_quoted() {
        assert_eq!(
            canonical("set a=b c=\"d_1\" e==\"\" f"),
            "set a=b c=d_1 e==\"\" f"
        );
        assert_eq!(canonical("set a=b` c"), "set a=\"b c\"");
        assert_eq!(canonical("set a=`x"), "set a=\"``x\"");
        assert_eq!(canonical("set a=\"`\"`x\""), "set a=\"`\"``x\"");
        assert_eq!(
            canonical("set a=(b,\"c\",`,,\"\")"),
            "set a=(b,c,\",\",\"\")"
        );
    }

    #[test]
    fn values_in_display_and_output_are_written_alike() {
        assert_eq!(
            canonical("show -d a,b=\"c\",d=(`(,\"e,f\")"),
            "show -display a,b=c,d=(\"(\",\"e,f\")"
        );
    }

    #[test]
    fn source_and_destination_are_escaped_anew() {
        assert_eq!(
            canonical("load -source `-`-`.` `\"``"),
            "load -source `--.` `\"``"
        );
        assert_eq!(
            canonical("dump -destination a`-b`xc"),
            "dump -destination a-b``xc"
        );
    }

    #[test]
    fn blank_writes_nothing_and_needs_no_room() {
        assert_eq!(write_canonical(b"", &mut []), Ok(0));
        assert_eq!(write_canonical(b"   ", &mut []), Ok(0));
    }

    #[test]
    fn a_refused_lines_writing_is_that_refusal() {
        assert_eq!(write_canonical(b"shows", &mut []), Err(refusal(6, 0)));
        let mut room = [0xaa; 14];
        assert_eq!(write_canonical(b"show -f a=b", &mut room), Err(NO_ROOM));
        assert_eq!(room, [0xaa; 14]);
        let mut room = [0xaa; 15];
        assert_eq!(write_canonical(b"show -f a=b", &mut room), Ok(15));
        assert_eq!(&room, b"show -force a=b");
    }

    #[test]
    fn a_writing_past_1024_bytes_is_still_written() {
        let property = format!("a=({}.) ", ".,".repeat(15));
        let writing = canonical(&format!("set {}", property.repeat(26)));
        assert!(writing.len() > 1024, "{}", writing.len());
        assert_same_text(writing.as_bytes(), "refusal 1 1024");
    }

    #[test]
    fn when_two_lines_are_the_same_command() {
        assert!(same("", "  "));
        assert!(!same("shows", "shows") && !same("", "shows"));
        assert!(same("show -f \\a1", " show  -force /a1"));
        assert!(same("set a=b` c", "set a=\"b c\""));
        assert!(same("set a=(b,\"c\")", "set a=(\"b\",c)"));
        assert!(!same("set a=b", "set a=(b)") && !same("set a=b", "set a==b"));
        assert!(!same("cd ./a1", "cd a1") && !same("cd /a1", "cd a1"));
        assert!(!same("show -f -w", "show -w -f") && !same("show", "show /"));
        assert!(!same("load -source \\a", "load -source /a"));
        assert!(same("load -source a`.b", "load -source a.b"));
        assert!(same("show -d a=b", "show -display a=\"b\""));
        assert!(!same("show -d a=b", "show -d a") && !same("show -d a,b", "show -d b,a"));
    }
}

/// Document 02, request a. The words of replies, the table's last row, come with request e.
mod shouted {
    use super::*;

    #[test]
    fn mixed_case_letter_by_letter() {
        assert_each(&["show", "SHOW", "Show", "sHoW", "SHOw"], "verb 10");
        assert_each(
            &[
                "show -level 2",
                "SHOW -LEVEL 2",
                "show -LeVeL 2",
                "sHoW -levEL 2",
            ],
            "verb 10|option 8 12 1",
        );
        assert_each(&["cd -k 0", "CD -K 0", "Cd -K 0"], "verb 1|option 7 6 1");
        assert_each(
            &["show -l 0", "SHOW -L 0", "Show -L 0"],
            "verb 10|option 8 8 1",
        );
        assert_each(&["show -D a", "show -d a"], "verb 10|option 3 8 1");
    }

    #[test]
    fn nothing_but_letters_folds() {
        assert_each(
            &[
                "[D", "{d", "C$", "c@", "@d", "sh/w", "3how", "SHOW1", "sho", "SHO", "shows",
                "SHOWS",
            ],
            "refusal 6 0",
        );
        assert_each(
            &[
                "show -[",
                "show -{",
                "show -@",
                "show -L1",
                "show -@LL",
                "show -fo",
                "show -FO",
                "show -L=1",
            ],
            "refusal 7 5",
        );
        assert_each(&["show -l @ll", "show -l @LL"], "refusal 10 8");
        assert_same_text(b"show -l AL", "refusal 10 10");
        // Bytes that differ from a letter in one other bit, or lie beyond ASCII: row 2 comes first.
        assert_same_text(b"C\xe4", "refusal 2 1");
        assert_same_text(b"\x13HOW", "refusal 2 0");
    }

    #[test]
    fn all_is_levels_argument_and_an_options_name() {
        assert_each(
            &["show -l all", "show -l ALL", "show -L aLl", "SHOW -l All"],
            "verb 10|option 8 8 3",
        );
        assert_each(
            &["show -all", "show -ALL", "show -aLL"],
            "verb 10|option 1 9 0",
        );
        assert_each(&["show -a", "show -A"], "verb 10|option 1 7 0");
        assert_each(&["cd -k ALL", "cd -k all", "cd -K aLL"], "refusal 10 6");
        // As an item of display or output, or as a value there, it is a name and exact.
        assert_each(&["show -d ALL", "show -d all"], "verb 10|option 3 8 3");
        for (upper, lower) in [
            ("show -d ALL", "show -d all"),
            ("show -o ALL", "show -o all"),
            ("show -d a,ALL", "show -d a,all"),
            ("show -d a=ALL", "show -d a=all"),
            ("show -o a=(ALL)", "show -o a=(all)"),
        ] {
            assert!(!same(upper, lower) && canonical(upper) != canonical(lower));
        }
        assert!(same("show -l ALL", "show -level all"));
        assert!(same("show -l aLL", "show -L All") && !same("show -l ALL", "show -l 0"));
    }

    #[test]
    fn raw_bytes_are_compared() {
        assert_each(
            &[
                "\"show\"", "\"SHOW\"", "`show", "`SHOW", "S`HOW", "SH\"OW\"",
            ],
            "refusal 6 0",
        );
        assert_each(&["show -\"L\" 1", "show -`L 1"], "refusal 7 5");
        assert_each(&["show -l \"ALL\"", "show -l `ALL"], "refusal 10 8");
        assert_same_text(b"show -l A`LL", "refusal 10 9");
    }

    #[test]
    fn topics_of_help_are_names() {
        assert_each(&["help SHOW", "HELP show"], "verb 6|property 5 4 0 9 0");
        assert!(!same("help SHOW", "help show") && same("HELP SHOW", "help SHOW"));
        assert_eq!(canonical("HELP Show ALL"), "help Show ALL");
        // A verb in any case is help: its topics are no target, and have no value.
        assert_refused(13, &[("HELP a=b", 6), ("Help /", 5)]);
    }

    #[test]
    fn a_name_in_any_case_is_the_same_option() {
        assert_each(
            &[
                "show -F -force",
                "show -f -F",
                "SHOW -F -FORCE",
                "show -f -Force",
            ],
            "refusal 8 8",
        );
        assert_each(&["show -A -all", "show -a -ALL"], "refusal 8 8");
        // Without its argument 8 still comes before 9.
        assert_same_text(b"show -L 1 -LEVEL", "refusal 8 10");
        assert_each(&["show -LEVEL", "SHOW -level"], "refusal 9 11");
        assert_each(&["SHOW -L -ALL", "show -L -NOTHING"], "refusal 9 8");
        assert_same_text(b"SHOW / -F", "refusal 11 7");
    }

    #[test]
    fn canonical_writing_lowers_the_names_alone() {
        assert_eq!(canonical("SET A=B"), "set A=B");
        assert_eq!(canonical("SHOW -F -LEVEL ALL"), "show -force -level all");
        assert_eq!(
            canonical("Show -L 2 \\SYSTEM1 NAME"),
            "show -level 2 /SYSTEM1 NAME"
        );
        assert_eq!(canonical("SHOW SESSION Name==X"), "show SESSION Name==X");
        assert_eq!(
            canonical("LOAD -SOURCE FTP://H/X -O All=(A,\"B c\") A=\"B\""),
            "load -source FTP://H/X -output All=(A,\"B c\") A=B"
        );
        assert_eq!(
            canonical("SHOW -D All=(A,\"B c\") A=\"B\""),
            "show -display All=(A,\"B c\") A=B"
        );
        assert!(same("SHOW -F \\A1", "show -force /A1") && !same("cd /A1", "cd /a1"));
        assert!(!same("set a=B", "set a=b") && !same("set A=b", "set a=b"));
        assert!(!same("load -source A", "load -source a"));
    }
}

/// Document 02, request b.
mod options_of_a_verb {
    use super::*;

    /// Table 15 of DSP0214 with its columns as printed; its notes are the digits.
    #[rustfmt::skip]
    const TABLE_15: &str = "\
| CLP Option  | cd | create | delete | dump | exit | help | load | reset | set | show | start | stop | version |
| all         |    |        |        |      |      |      |      |       |     | X    |       |      |         |
| destination |    |        |        | X    |      |      |      |       |     |      |       |      |         |
| display     |    |        |        |      |      |      |      |       |     | X    |       |      |         |
| examine     | X  | X      | X      | X    | X    | X    | X    | X     | X   | X    | X     | X    | X       |
| force       |    |        | X2     | X1   |      |      | X1   | X2    | X2  | X1   | X2    | X2   |         |
| help        | X  | X      | X      | X    | X    | X    | X    | X     | X   | X    | X     | X    | X       |
| keep        | X  | X      | X      | X    | X    | X    | X    | X     | X   | X    | X     | X    | X       |
| level       |    |        |        |      |      |      |      |       |     | X    |       |      |         |
| output      | X  | X      | X      | X    | X    | X    | X    | X     | X   | X    | X     | X    | X       |
| source      |    |        |        |      |      |      | X    |       |     |      |       |      |         |
| version     | X  | X      | X      | X    | X    | X    | X    | X     | X   | X    | X     | X    | X       |
| wait        | X  | X      | X      | X    |      | X    | X    | X     | X   | X    | X     | X    | X       |
";

    /// An option as Table 14 has it: its long name, its short one if there is one, and an argument
    /// that fits, if it takes one.
    type Row14 = (&'static str, Option<&'static str>, Option<&'static str>);

    const TABLE_14: [Row14; 12] = [
        ("all", Some("a"), None),
        ("destination", None, Some("ftp://h/x")),
        ("display", Some("d"), Some("targets")),
        ("examine", Some("x"), None),
        ("force", Some("f"), None),
        ("help", Some("h"), None),
        ("keep", Some("k"), Some("60")),
        ("level", Some("l"), Some("all")),
        ("output", Some("o"), Some("format=text")),
        ("source", None, Some("/system1")),
        ("version", Some("v"), None),
        ("wait", Some("w"), None),
    ];

    /// A row's cells without the spaces around them.
    fn cells(row: &str) -> Vec<&str> {
        let inside = row.strip_prefix('|').and_then(|row| row.strip_suffix('|'));
        inside.expect(row).split('|').map(str::trim).collect()
    }

    /// Shows each pair of the table: verb with its number, option with its number, and the cell.
    fn each_pair(mut show: impl FnMut((u8, &str), (u8, Row14), &str)) {
        let mut rows = TABLE_15.lines().map(cells);
        let head = rows.next().unwrap();
        for ((number, row), option) in (1..).zip(rows).zip(TABLE_14) {
            assert_eq!((row.len(), row[0]), (head.len(), option.0));
            for ((verb, word), cell) in (1..).zip(&head[1..]).zip(&row[1..]) {
                show((verb, word), (number, option), cell);
            }
        }
    }

    /// What a line of one verb and one option gives by the table.
    fn expected(verb: (u8, &str), option: u8, name: &str, argument: &str, has: bool) -> String {
        let place = verb.1.len() + 1;
        if !has {
            return format!("refusal 20 {place}");
        }
        let after = place + 1 + name.len();
        let position = after + usize::from(!argument.is_empty());
        let (verb, length) = (verb.0, argument.len());
        format!("verb {verb}|option {option} {position} {length}")
    }

    /// The page for users has the same table.
    #[test]
    fn the_table_of_docs_dialect_is_this_one() {
        const DIALECT: &str = include_str!("../../../docs/DIALECT.md");
        let of_page = |row: &str| row.starts_with('|') && cells(row).len() == 14;
        let page: Vec<_> = DIALECT.lines().filter(|row| of_page(row)).map(cells).collect();
        let table: Vec<_> = TABLE_15.lines().map(cells).collect();
        assert_eq!(page.len(), table.len() + 1, "a head, a rule and the rows");
        assert_eq!(page[0][1..], table[0][1..]);
        assert_eq!(page[2..], table[1..]);
    }

    #[test]
    fn all_pairs_by_each_name() {
        let (mut had, mut excluded, mut lines) = (0, 0, 0);
        each_pair(|verb, (number, (long, short, argument)), cell| {
            let has = match cell {
                "X" | "X1" | "X2" => true,
                "" => false,
                _ => panic!("no cell of the table: {cell}"),
            };
            *if has { &mut had } else { &mut excluded } += 1;
            let argument = argument.unwrap_or("");
            for name in [Some(long), short].into_iter().flatten() {
                let line = format!("{} -{name} {argument}", verb.1);
                let line = line.trim_end();
                let text = expected(verb, number, name, argument, has);
                assert_same_text(line.as_bytes(), &text);
                let shouted = format!(
                    "{} -{} {argument}",
                    verb.1.to_uppercase(),
                    name.to_uppercase()
                );
                assert_same_text(shouted.trim_end().as_bytes(), &text);
                lines += 1;
            }
        });
        assert_eq!((had, excluded, lines), (90, 66, 156 + 10 * 13));
    }

    #[test]
    fn x1_and_x2_are_had() {
        each_pair(|(verb, word), (number, (name, ..)), cell| {
            if cell == "X1" || cell == "X2" {
                assert_eq!(name, "force");
                let after = word.len() + 3;
                let text = format!("verb {verb}|option {number} {after} 0");
                assert_same_text(format!("{word} -f").as_bytes(), &text);
            }
        });
        assert_same_text(b"reset -f", "verb 8|option 5 8 0");
        assert_same_text(b"reset -f -force", "refusal 8 9");
    }

    #[test]
    fn twenty_comes_after_7_and_before_8() {
        // An excluded option is refused where it first stands.
        assert_each(&["cd -f -f", "cd -f -force", "cd -F -x"], "refusal 20 3");
        assert_each(&["cd -x -f -f", "cd -x -f -x"], "refusal 20 6");
        assert_same_text(b"cd -x -x -f", "refusal 8 6");
        assert_each(&["cd -zz -f", "cd -ff -f", "cd -"], "refusal 7 3");
        assert_same_text(b"cd -f -zz", "refusal 20 3");
        assert_same_text(b"load -source x -destination y", "refusal 20 15");
        assert_same_text(b"dump -destination y -source x", "refusal 20 20");
    }

    #[test]
    fn twenty_comes_before_9_and_10() {
        assert_each(
            &["set -level", "set -level ", "set -level 02", "set -l -x"],
            "refusal 20 4",
        );
        assert_each(
            &["cd -source \"a\"", "cd -d ,", "cd -display -x", "cd -L 1x"],
            "refusal 20 3",
        );
        // What an option before it lacks or has wrong is told first.
        assert_same_text(b"cd -k 02 -f", "refusal 10 7");
        assert_same_text(b"cd -k -f", "refusal 9 6");
        assert_same_text(b"cd -o a -f", "refusal 20 8");
    }

    #[test]
    fn terms_that_are_not_read_as_options() {
        assert_each(&["cd / -f", "cd . -source x", "cd . -L"], "refusal 11 5");
        assert_same_text(b"help a -f", "refusal 11 7");
        assert_each(
            &[
                "show -level -source x",
                "show -level -all",
                "SHOW -LEVEL -f",
            ],
            "refusal 9 12",
        );
        assert_each(&["cd `-f", "cd \"-f\""], "refusal 12 3");
        assert_same_text(b"cd f", "refusal 12 4");
        assert_each(&["cd -\"f\"", "cd -`f", "cd -f=1", "cd --f"], "refusal 7 3");
        assert_same_text(b"load -source `-level", "verb 7|option 10 13 7");
        assert_same_text(b"cd -o level=-f", "verb 1|option 9 6 8");
    }

    #[test]
    fn the_table_decides_where_prose_says_otherwise() {
        assert_each(
            &["create -source x", "create -source x /a1"],
            "refusal 20 7",
        );
    }

    #[test]
    fn help_is_a_verb_like_any_other() {
        assert_each(&["help -f", "help -f a", "help -level all"], "refusal 20 5");
        assert_same_text(b"help -x a", "verb 6|option 4 7 0|property 8 1 0 9 0");
    }

    #[test]
    fn rows_1_to_6_come_first_and_19_comes_last() {
        assert_same_text(&repeated("cd -f", " ", 1020, ""), "refusal 1 1024");
        assert_same_text(b"cd -f \x7f", "refusal 2 6");
        assert_same_text(b"cd -f `", "refusal 3 6");
        assert_same_text(b"cd -f \"", "refusal 4 6");
        assert_same_text(&repeated("cd -f", " a", 63, ""), "refusal 5 130");
        assert_same_text(b"zap -f", "refusal 6 0");
        let line = b"  cd   -f a=b";
        assert_eq!(read(line, &mut []), Err(refusal(20, 7)));
        assert_eq!(write_canonical(line, &mut []), Err(refusal(20, 7)));
        let mut room = [0xaa; 399];
        assert_eq!(read(line, &mut room), Err(refusal(20, 7)));
        assert_eq!(room, [0xaa; 399]);
        assert_eq!(target_part(b"cd -f /"), Part::default());
        assert!(!same("cd -f", "cd -f") && !same("cd -f", ""));
    }
}

/// Document 02, request c.
mod point_at_the_byte {
    use super::*;
    use clp_reader::beginning::longest_beginning;
    use clp_reader::form::Form;

    #[test]
    fn the_beginning_may_be_the_whole_term() {
        assert_refused(12, &[("cd /a1/", 7), ("show Name", 9), ("cd /a1/ b=c", 7)]);
        assert_refused(10, &[("show -d a,", 10), ("show -l al -x", 10)]);
        assert_refused(13, &[("set a=(b,", 9), ("set / a= b=c", 8)]);
    }

    #[test]
    fn its_end_is_the_first_byte_that_cant_stay() {
        assert_refused(13, &[("set a=b=c", 7), ("set a=b,c=d", 7)]);
        assert_refused(12, &[("cd a1,b1", 5), ("cd /a1:", 6)]);
        assert_refused(10, &[("show -d a;b", 9), ("cd -k 1.5", 7)]);
    }

    #[test]
    fn where_no_byte_fits_it_is_the_terms_start() {
        assert_refused(12, &[("cd \"\"", 3), ("cd   @", 5)]);
        assert_refused(10, &[("show -l x", 8), ("load -source \"\"", 13)]);
        assert_refused(13, &[("set =", 4), ("help  1a", 6)]);
    }

    #[test]
    fn limits_are_part_of_the_form() {
        assert_refused(10, &[("show -l 4294967296", 17), ("cd -k 4294967300", 15)]);
        assert_refused(12, &[("cd a65536", 8), ("cd a65540", 8), ("cd a7000/", 9)]);
        assert_same_text(&repeated("help ", "a", 65, ""), "refusal 13 69");
        assert_same_text(&repeated("cd ", "a", 17, "1"), "refusal 12 19");
        assert_same_text(&repeated("cd ", "a", 16, ""), "refusal 12 19");
        assert_same_text(&repeated("show -o b,", "a", 65, ""), "refusal 10 74");
    }

    #[test]
    fn the_separator_or_comma_after_the_16th_cant_stay() {
        assert_same_text(&repeated("cd ", "/a1", 17, ""), "refusal 12 51");
        assert_same_text(&repeated("cd ", "/a1", 16, "/"), "refusal 12 51");
        assert_same_text(&repeated("set a=(", "x,", 16, ""), "refusal 13 38");
        assert_same_text(&repeated("set a=(", "x,", 15, ""), "refusal 13 37");
        assert_same_text(&repeated("show -d a=(", "x,", 16, "x)"), "refusal 10 42");
        // Items of display and output that stand in no list have no such limit.
        assert_same_text(&repeated("show -d a", ",a", 40, ","), "refusal 10 90");
    }

    #[test]
    fn level_has_two_branches_and_keep_one() {
        assert_refused(10, &[("show -l al", 10), ("show -l allx", 11)]);
        assert_refused(10, &[("show -l AL", 10), ("show -l aLx", 10)]);
        assert_refused(10, &[("show -l 1al", 9), ("show -l a1", 9)]);
        assert_refused(10, &[("cd -k al", 6), ("cd -k all", 6)]);
    }

    #[test]
    fn the_text_need_not_fit_the_line() {
        let line = repeated("set", " ", 1018, "a=(");
        assert_eq!(line.len(), 1024);
        assert_same_text(&line, "refusal 13 1024");
    }

    #[test]
    fn a_property_without_target_is_the_property_alone() {
        assert_refused(
            13,
            &[("set /=", 4), ("set /a1=b", 4), ("set SESSION/=b", 11)],
        );
    }

    #[test]
    fn a_topic_is_a_bare_name() {
        assert_refused(13, &[("help a=b", 6), ("help a ==", 7), ("help a/", 6)]);
    }

    #[test]
    fn quotes_and_graves_count() {
        assert_same_text(b"set a=\"b\"c", "refusal 13 9");
        assert_refused(13, &[("set a=`\"=", 8), ("set a=\"`\"\"b", 10)]);
        assert_refused(10, &[("load -source `\"`a\"\"", 17)]);
        // Whatever follows a GRAVE that may stand, it is not there that the place falls.
        for byte in 0x20..=0x7e {
            for (form, text) in [(Form::Location, "a`"), (Form::Property, "a=b`")] {
                let text = [text.as_bytes(), &[byte, b'"', b'"']].concat();
                assert_eq!(longest_beginning(form, &text), text.len() - 2);
            }
            let text = [b"a=\"`", &[byte][..], b"\"\"\""].concat();
            assert_eq!(longest_beginning(Form::Items, &text), 6);
        }
    }

    #[test]
    fn twelve_from_resolving_moves_too() {
        let mut list = [7];
        let long = [b'x'; 2000];
        for (text, place) in [
            (&b"a1/"[..], 3),
            (b"a 1", 1),
            (b"\xff", 0),
            (b"a*/b1", 2),
            (&long, 16),
        ] {
            // It still comes before 15 and 16.
            let answer = resolve(text, &[0], 9, &mut list);
            assert_eq!(answer, Err(refusal(12, place)));
        }
        assert_eq!(resolve(b"", &[], 0, &mut list), Ok(Resolved::Nodes(1)));
    }

    #[test]
    fn other_numbers_and_orders_stay() {
        assert_refused(9, &[("show -l -02", 8), ("cd -k", 5)]);
        assert_refused(11, &[("set / a -b=c=", 8)]);
        assert_same_text(&repeated("set /", " a", 32, " b=c="), "refusal 14 70");
        assert_same_text(&repeated("set /", " a", 31, " b=c="), "refusal 13 71");
        // The first term that is refused is the one told of.
        assert_refused(10, &[("show -l 02 -zz", 9), ("show -l 02 a1/", 9)]);
        assert_refused(13, &[("set a=b c=d=e f=g=h", 11), ("cd / a=b=c -f", 8)]);
        assert_refused(2, &[("show -l 02\t", 10)]);
        assert_refused(4, &[("show -l 02 \"", 11)]);
    }

    #[test]
    fn a_refused_line_still_changes_nothing() {
        let mut room = [0xaa; 399];
        for line in ["show -l 02", "cd /a1/", "set a=b=c"] {
            let answer = read(line.as_bytes(), &mut room).unwrap_err();
            assert_eq!(read(line.as_bytes(), &mut []), Err(answer));
            assert_eq!(write_canonical(line.as_bytes(), &mut room), Err(answer));
            assert_eq!(target_part(line.as_bytes()), Part::default());
        }
        assert_eq!(room, [0xaa; 399]);
    }
}

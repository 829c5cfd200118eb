//! Where generated lines are refused: the number and the term by document 01's table, and for 10, 12
//! and 13 the place in that term by a search.

mod common;

use clp_gen::almost::{almost, almost_line, late_line};
use clp_gen::form::Form as GeneratedForm;
use clp_gen::{line, Rng};
use clp_reader::form::Form;
use clp_reader::reading::read;
use clp_reader::refusal::Refusal;
use clp_reader::search::Search;
use clp_reader::terms::check_line;
use clp_reader::tree::{resolve, Resolved};
use common::{number_of, refused_term, signs};

const LINES: usize = 100_000;

type Accepts = Box<dyn Fn(&[u8]) -> bool>;

/// A search for each form, and how many places lay at the start of their term, inside and at its
/// end, for 10, 12 and 13 in turn.
struct Places {
    searches: Vec<(Form, Search<Accepts>)>,
    met: [[usize; 3]; 3],
}

impl Places {
    fn new() -> Places {
        let met = [[0; 3]; 3];
        let searches = Vec::new();
        Places { searches, met }
    }

    fn search(&mut self, form: Form) -> &mut Search<Accepts> {
        let known = self.searches.iter().position(|(of, _)| *of == form);
        let at = known.unwrap_or_else(|| {
            let accepts: Accepts = Box::new(move |text| form.accepts(text));
            self.searches.push((form, Search::new(accepts)));
            self.searches.len() - 1
        });
        &mut self.searches[at].1
    }

    /// A place in a term that is not of its form: the bytes up to it can be completed, with one byte
    /// more they can't, and it does not stand between a GRAVE and the byte that it escapes.
    fn check(&mut self, form: Form, term: &[u8], place: usize) {
        let shown = term.escape_ascii();
        assert!(place <= term.len(), "{form:?} {shown} at {place}");
        let is_start = |&(start, _): &(usize, _)| start == place;
        let is_whole = place == term.len();
        assert!(
            is_whole || signs(term).iter().any(is_start),
            "{form:?} {shown} at {place}"
        );
        let search = self.search(form);
        assert!(
            search.can_be_completed(&term[..place]),
            "{form:?} {shown} at {place}"
        );
        let more = &term[..term.len().min(place + 1)];
        assert!(
            is_whole || !search.can_be_completed(more),
            "{form:?} {shown} at {place}"
        );
        let row = match number_of(form) {
            10 => 0,
            12 => 1,
            _ => 2,
        };
        let column = match place {
            0 => 0,
            _ if is_whole => 2,
            _ => 1,
        };
        self.met[row][column] += 1;
    }

    /// One line's answer by number, term and place. True where it is 10, 12 or 13.
    fn check_line(&mut self, line: &[u8]) -> bool {
        let shown = line.escape_ascii();
        let answer = read(line, &mut [0; 399]).map(|_| ());
        if let Err(refusal) = check_line(line) {
            assert_eq!(answer, Err(refusal), "{shown}");
            return false;
        }
        let Some(expected) = refused_term(line) else {
            assert_eq!(answer, Ok(()), "{shown}");
            return false;
        };
        let Refusal { number, place } = answer.expect_err("a refused line");
        assert_eq!(number, expected.number, "{shown}");
        let term = expected.term;
        let Some(form) = expected.form else {
            assert_eq!(place, term.start, "{shown}");
            return false;
        };
        assert!(
            (term.start..=term.end).contains(&place),
            "{shown} at {place}"
        );
        self.check(form, &line[term.clone()], place - term.start);
        true
    }
}

#[test]
fn the_place_is_where_the_term_stops_being_a_beginning() {
    let (mut rng, mut places) = (Rng::new(20), Places::new());
    let mut moved = 0;
    for _ in 0..LINES {
        moved += usize::from(places.check_line(&line::line(&mut rng)));
    }
    println!(
        "10, 12 and 13 at the start, inside and at the end {:?}",
        places.met
    );
    assert!(moved > LINES / 8, "{moved}");
    let counts = places.met.as_flattened();
    assert!(
        counts.iter().all(|&count| count > LINES / 400),
        "{counts:?}"
    );
    assert!(places.met.iter().all(|row| row[1] > LINES / 40));
}

/// Terms that are almost of their form are mostly refused, and mostly inside.
#[test]
fn almost_good_terms_are_refused_inside() {
    let (mut rng, mut places) = (Rng::new(21), Places::new());
    let mut moved = 0;
    for _ in 0..LINES / 5 {
        moved += usize::from(places.check_line(&almost_line(&mut rng)));
    }
    let inside: usize = places.met.iter().map(|row| row[1]).sum();
    println!(
        "almost good: moved {moved}, inside {inside}, {:?}",
        places.met
    );
    assert!(moved > LINES / 5 / 3 && inside > moved / 2);
}

/// The benchmark's lines are long, and most of them are refused in their last quarter.
#[test]
fn late_lines_are_refused_late() {
    let (mut rng, mut places) = (Rng::new(22), Places::new());
    let (mut late, mut long) = (0, 0);
    for _ in 0..LINES / 20 {
        let line = late_line(&mut rng);
        long += usize::from(line.len() > 48);
        if places.check_line(&line) {
            let place = read(&line, &mut [0; 399]).unwrap_err().place;
            late += usize::from(4 * place > 3 * line.len());
        }
    }
    println!("late lines: long {long}, refused late {late}");
    assert!(long > LINES / 20 / 10 * 9 && late > LINES / 20 / 2);
}

/// A text that is resolved: 12 at its place, before 15 and 16; the empty text is never 12.
#[test]
fn a_text_of_no_targets_form_is_12_at_its_place() {
    let (mut rng, mut places) = (Rng::new(23), Places::new());
    let mut refused = 0;
    for count in 0..LINES / 5 {
        let text = match count % 2 {
            0 => line::loose_target(&mut rng),
            _ => almost(&mut rng, GeneratedForm::Target),
        };
        // A tree of one byte and a default that is no node come after.
        let answer = resolve(&text, &[0], 9, &mut []);
        let shown = text.escape_ascii();
        if text.is_empty() || Form::Target.accepts(&text) {
            assert_eq!(
                answer,
                Err(Refusal {
                    number: 15,
                    place: 0
                }),
                "{shown}"
            );
            continue;
        }
        let Refusal { number, place } = answer.expect_err("of no form");
        assert_eq!(number, 12, "{shown}");
        places.check(Form::Target, &text, place);
        refused += 1;
    }
    println!("texts refused as 12: {refused}, {:?}", places.met[1]);
    assert!(refused > LINES / 5 / 3 && places.met[1].iter().all(|&count| count > 200));
    assert_eq!(resolve(b"", &[], 0, &mut [7]), Ok(Resolved::Nodes(1)));
}

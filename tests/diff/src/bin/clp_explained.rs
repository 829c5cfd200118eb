//! Holds a program that explains captures to the independent reader: what it writes for generated captures.
//!
//! clp_explained PROGRAM [CAPTURES] [SEED]: a thousand captures and seed 1 where no numbers are given.

use clp_gen::{almost, capture, Rng};
use clp_reader::explain::explain_capture;
use std::process::{Command, Stdio};

/// Lines of each capture at most.
const MOST_LINES: usize = 60;

fn number(at: usize, otherwise: u64) -> u64 {
    std::env::args().nth(at).map_or(otherwise, |word| word.parse().expect("a number"))
}

/// A generated capture; every third one is of lines with a term that is almost of its form.
fn drawn(rng: &mut Rng, count: u64) -> Vec<u8> {
    if count % 3 > 0 {
        return capture::capture(rng, MOST_LINES);
    }
    let lines = (0..MOST_LINES).map(|_| almost::almost_line(rng));
    lines.flat_map(|line| [&line[..], b"\n"].concat()).collect()
}

/// What the program writes for a capture. It must end well, with nothing on standard error.
fn explained(program: &str, capture: &[u8]) -> Vec<u8> {
    let file = std::env::temp_dir().join(format!("clp_explained_{}", std::process::id()));
    std::fs::write(&file, capture).expect("room for the capture");
    let stdin = std::fs::File::open(&file).expect("the capture");
    let output = Command::new(program).stdin(stdin).stderr(Stdio::piped()).output();
    std::fs::remove_file(&file).expect("the capture is there");
    let output = output.expect("the program runs");
    let said = String::from_utf8_lossy(&output.stderr);
    assert!(output.status.success() && said.is_empty(), "{}: {said}", output.status);
    output.stdout
}

fn main() {
    let program = std::env::args().nth(1).expect("clp_explained PROGRAM [CAPTURES] [SEED]");
    let (captures, mut rng) = (number(2, 1000), Rng::new(number(3, 1)));
    let (mut bytes, mut lines) = (0, 0);
    for count in 0..captures {
        let capture = drawn(&mut rng, count);
        let (ours, theirs) = (explained(&program, &capture), explain_capture(&capture));
        if let Some(at) = first_difference(&ours, &theirs) {
            let line = |text: &[u8]| text.split(|&byte| byte == b'\n').nth(at).map(|line| line.escape_ascii().to_string());
            println!("{}", capture.escape_ascii());
            panic!("line {} of the text: {:?} and not {:?}", at + 1, line(&ours), line(&theirs));
        }
        bytes += capture.len();
        lines += theirs.iter().filter(|&&byte| byte == b'\n').count();
    }
    println!("explained: {captures} captures of {bytes} bytes, {lines} lines of text: no difference");
}

/// The first line in which two texts differ, counted from 0.
fn first_difference(one: &[u8], other: &[u8]) -> Option<usize> {
    let lines = |text: &[u8]| text.split(|&byte| byte == b'\n').map(<[u8]>::to_vec).collect::<Vec<_>>();
    let (one, other) = (lines(one), lines(other));
    (0..one.len().max(other.len())).find(|&at| one.get(at) != other.get(at))
}

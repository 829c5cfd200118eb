//! Writes one long capture of generated lines, ended in each way, joined, too long, damaged, noise, and cut at its end.
//!
//! clp_gen [LINES] [SEED]: a million lines and seed 1 where none are given. So many lines end in it, and the one after them is cut.

use clp_gen::{capture::capture, line::line, Rng};
use std::io::{self, BufWriter, ErrorKind, Write};
use std::process::ExitCode;

/// The long capture is short ones in a row, of at most so many lines, each with so many lines as they are after it.
const MOST_LINES: usize = 40;

const LINE_ENDS: [&str; 3] = ["\n", "\r", "\r\n"];

/// What stands after the last end of line.
const CUT_END: &[u8] = b"show /sys";

/// Finds where lines end, as joining has it: a backtick before an end of line joins, and CR LF is one end.
#[derive(Default)]
struct Ends {
    waiting: bool,
    after_cr: bool,
}

impl Ends {
    /// Whether this byte, the next of the capture, ends a line.
    fn ends(&mut self, byte: u8) -> bool {
        let is_second = byte == b'\n' && self.after_cr;
        let waited = self.waiting;
        self.after_cr = byte == b'\r';
        self.waiting = byte == b'`' && !waited;
        (byte == b'\r' || byte == b'\n') && !is_second && !waited
    }
}

fn number(at: usize, otherwise: u64) -> u64 {
    std::env::args().nth(at).map_or(otherwise, |word| word.parse().expect("a number"))
}

fn some_lines(rng: &mut Rng) -> Vec<u8> {
    let mut bytes = capture(rng, MOST_LINES);
    for _ in 0..MOST_LINES {
        bytes.extend(line(rng));
        bytes.extend_from_slice(rng.pick_text(&LINE_ENDS));
    }
    bytes
}

fn write(lines: u64, rng: &mut Rng, out: &mut impl Write) -> io::Result<()> {
    let (mut ends, mut left) = (Ends::default(), lines);
    while left > 0 {
        let mut bytes = some_lines(rng);
        let past_last = bytes.iter().position(|&byte| {
            left -= u64::from(ends.ends(byte));
            left == 0
        });
        bytes.truncate(past_last.map_or(bytes.len(), |last| last + 1));
        out.write_all(&bytes)?;
    }
    out.write_all(CUT_END)?;
    out.flush()
}

fn main() -> ExitCode {
    let (lines, mut rng) = (number(1, 1_000_000), Rng::new(number(2, 1)));
    match write(lines, &mut rng, &mut BufWriter::new(io::stdout().lock())) {
        Err(error) if error.kind() != ErrorKind::BrokenPipe => {
            eprintln!("clp_gen: {error}");
            ExitCode::FAILURE
        }
        _ => ExitCode::SUCCESS,
    }
}

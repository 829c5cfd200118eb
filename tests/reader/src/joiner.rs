//! "From bytes to lines": console bytes are joined into lines, part by part.

use crate::bytes::{CR, GRAVE, LF};
use crate::refusal::{Refusal, LINE_TOO_LONG, ROOM_TOO_SMALL};

/// The most bytes of a line, and the length that a lent line buffer must have.
pub const LINE_ROOM: usize = 1024;

/// What is carried from call to call; the default is a fresh start.
#[derive(Clone, Copy, Debug, Default, PartialEq, Eq)]
pub struct State {
    /// Bytes of the line so far that stand in the line buffer.
    pub held: u16,
    /// The line has passed 1,024 bytes, and what follows is thrown away.
    pub over: bool,
    /// An unescaped GRAVE was the last byte: the next one decides what it does.
    pub waiting: bool,
    /// A CR was the last byte: an LF now belongs to it.
    pub after_cr: bool,
}

/// What one call on a part gives.
#[derive(Clone, Copy, Debug, PartialEq, Eq)]
pub enum Joined {
    /// The part is used up, and no line has ended in it.
    More,
    /// A line has ended; the buffer's first so many bytes are the line.
    Line(usize),
    /// Refusal 1 where a longer line has ended, or 19 with nothing used.
    Refused(Refusal),
}

/// The answer of one call: the next state, the bytes used, and what they gave.
#[derive(Clone, Copy, Debug, PartialEq, Eq)]
pub struct Step {
    pub state: State,
    pub used: usize,
    pub joined: Joined,
}

/// What the end of the capture gives.
#[derive(Clone, Copy, Debug, PartialEq, Eq)]
pub enum Ended {
    Nothing,
    Cut,
}

/// Joins bytes of `part` onto the line in `buffer`, up to the byte that ends a line.
pub fn join(state: State, buffer: &mut [u8], part: &[u8]) -> Step {
    let line: &mut [u8; LINE_ROOM] = match buffer.try_into() {
        Ok(line) if state.is_reachable() => line,
        _ => {
            return Step {
                state,
                used: 0,
                joined: Joined::Refused(ROOM_TOO_SMALL),
            }
        }
    };
    let mut state = state;
    let mut used = 0;
    loop {
        if !state.waiting {
            let run = ordinary_run(&part[used..]);
            state.hold_run(line, &part[used..used + run]);
            used += run;
        }
        let Some(&byte) = part.get(used) else { break };
        used += 1;
        if let Some(joined) = state.take(line, byte) {
            return Step {
                state,
                used,
                joined,
            };
        }
    }
    Step {
        state,
        used,
        joined: Joined::More,
    }
}

/// At the capture's end: `cut` where text or a waiting GRAVE is left over.
pub fn end(state: State) -> Result<Ended, Refusal> {
    if !state.is_reachable() {
        Err(ROOM_TOO_SMALL)
    } else if state.held > 0 || state.waiting {
        Ok(Ended::Cut)
    } else {
        Ok(Ended::Nothing)
    }
}

/// The lines of a capture that is handed over part by part.
pub(crate) struct Capture {
    state: State,
    line: [u8; LINE_ROOM],
}

impl Default for Capture {
    fn default() -> Capture {
        Capture {
            state: State::default(),
            line: [0; LINE_ROOM],
        }
    }
}

impl Capture {
    /// Shows each line that ends in `part`, or the first 1,024 bytes of a longer one with its refusal.
    pub(crate) fn each_line(
        &mut self,
        part: &[u8],
        mut show: impl FnMut(&[u8], Result<(), Refusal>),
    ) {
        let mut rest = part;
        while !rest.is_empty() {
            let step = join(self.state, &mut self.line, rest);
            self.state = step.state;
            rest = &rest[step.used..];
            match step.joined {
                Joined::More => break,
                Joined::Line(length) => show(&self.line[..length], Ok(())),
                Joined::Refused(refusal) => show(&self.line, Err(refusal)),
            }
        }
    }

    /// Whether the capture, were it to end here, would cut a line.
    pub(crate) fn is_cut(&self) -> bool {
        end(self.state) == Ok(Ended::Cut)
    }
}

impl State {
    /// Whether some capture leads to this state.
    pub fn is_reachable(self) -> bool {
        let held = usize::from(self.held);
        held <= LINE_ROOM && (!self.over || held == LINE_ROOM) && !(self.waiting && self.after_cr)
    }

    /// Takes one byte; gives the line's answer where the byte ends a line.
    fn take(&mut self, line: &mut [u8; LINE_ROOM], byte: u8) -> Option<Joined> {
        let was_waiting = std::mem::take(&mut self.waiting);
        let was_after_cr = std::mem::take(&mut self.after_cr);
        match byte {
            LF if was_after_cr => None,
            CR | LF if was_waiting => {
                self.after_cr = byte == CR;
                None
            }
            CR | LF => Some(self.end_line(byte)),
            GRAVE if !was_waiting => {
                self.waiting = true;
                None
            }
            _ if was_waiting => {
                self.hold(line, &[GRAVE, byte]);
                None
            }
            _ => {
                self.hold(line, &[byte]);
                None
            }
        }
    }

    /// Gives the line held and starts afresh, but for the CR that an LF may follow.
    fn end_line(&mut self, ended_by: u8) -> Joined {
        let ended = std::mem::take(self);
        self.after_cr = ended_by == CR;
        if ended.over {
            Joined::Refused(Refusal::new(LINE_TOO_LONG, LINE_ROOM))
        } else {
            Joined::Line(usize::from(ended.held))
        }
    }

    /// Holds a run of ordinary bytes; an empty run is no byte and changes nothing.
    fn hold_run(&mut self, line: &mut [u8; LINE_ROOM], run: &[u8]) {
        if !run.is_empty() {
            self.after_cr = false;
            self.hold(line, run);
        }
    }

    /// Appends `bytes` as far as the buffer goes; what passes it makes the line too long.
    fn hold(&mut self, line: &mut [u8; LINE_ROOM], bytes: &[u8]) {
        let free = &mut line[usize::from(self.held).min(LINE_ROOM)..];
        let kept = bytes.len().min(free.len());
        free[..kept].copy_from_slice(&bytes[..kept]);
        self.held += kept as u16;
        self.over |= kept < bytes.len();
    }
}

/// How many bytes stand before the first GRAVE, CR or LF; eight bytes are looked at together.
fn ordinary_run(bytes: &[u8]) -> usize {
    let mut run = 0;
    while let Some(eight) = bytes[run..].first_chunk::<8>() {
        let word = u64::from_le_bytes(*eight);
        let marks = marks_of(word, GRAVE) | marks_of(word, CR) | marks_of(word, LF);
        if marks != 0 {
            return run + (marks.trailing_zeros() / 8) as usize;
        }
        run += 8;
    }
    let is_ordinary = |byte: &&u8| !matches!(**byte, GRAVE | CR | LF);
    run + bytes[run..].iter().take_while(is_ordinary).count()
}

/// Sets the high bit of each byte of `word` that equals `byte`; the lowest one set is exact.
fn marks_of(word: u64, byte: u8) -> u64 {
    const ONES: u64 = u64::from_le_bytes([0x01; 8]);
    const HIGHS: u64 = u64::from_le_bytes([0x80; 8]);
    let zero_where_equal = word ^ (ONES * u64::from(byte));
    zero_where_equal.wrapping_sub(ONES) & !zero_where_equal & HIGHS
}

#[cfg(test)]
mod tests {
    use super::*;

    #[test]
    fn ordinary_run_stops_at_the_first_mark_wherever_it_stands() {
        for length in 0..40 {
            for at in 0..=length {
                for mark in [GRAVE, CR, LF] {
                    let mut bytes = vec![mark.wrapping_add(1); length];
                    bytes[at..].fill(mark);
                    assert_eq!(ordinary_run(&bytes), at);
                }
            }
        }
    }

    #[test]
    fn ordinary_run_takes_every_other_byte() {
        let others: Vec<u8> = (0..=255)
            .filter(|byte| ![GRAVE, CR, LF].contains(byte))
            .collect();
        assert_eq!(ordinary_run(&others), 253);
    }
}

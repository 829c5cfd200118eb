//! Lists a console capture from standard input: a line of text for each part of each command, as soon as the command has ended.
//!
//! `cargo run --example list < capture.log`

use smclp::{read, Joiner, READING_BYTES, TEXT_BYTES};
use std::io::{self, ErrorKind, Read, Write};

fn main() -> io::Result<()> {
    let (mut input, mut output) = (io::stdin().lock(), io::stdout().lock());
    let mut bytes = [0; 65536];
    let mut joiner = Joiner::new();
    let (mut room, mut text) = ([0; READING_BYTES], [0; TEXT_BYTES]);
    loop {
        let mut part = match input.read(&mut bytes) {
            Ok(0) => break,
            Ok(count) => &bytes[..count],
            Err(why) if why.kind() == ErrorKind::Interrupted => continue,
            Err(why) => return Err(why),
        };
        while let Some(line) = joiner.join(&mut part) {
            let listed = line.and_then(|line| read(line, &mut room)?.text(&mut text));
            match listed {
                Ok(listed) => output.write_all(listed)?,
                Err(refusal) => writeln!(output, "refusal {} {}", refusal.number, refusal.place)?,
            }
        }
        output.flush()?;
    }
    if joiner.end().is_some() {
        writeln!(output, "cut")?;
    }
    output.flush()
}

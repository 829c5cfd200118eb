//! What the programs share: standard input, part by part, and the text that is told of it.

use std::io::{self, ErrorKind, Read, Write};
use std::process::ExitCode;

/// Bytes asked of standard input at once, and text gathered before it is written.
const BUFFER_BYTES: usize = 256 * 1024;

/// Runs the program of this name: `part` tells of each part as it is read, `end` of the input's end.
pub fn run<T>(
    name: &str,
    mut teller: T,
    part: fn(&mut T, &[u8], &mut Vec<u8>),
    end: fn(&T, &mut Vec<u8>),
) -> ExitCode {
    let (input, output) = (&mut io::stdin().lock(), &mut io::stdout().lock());
    match tell(input, output, &mut teller, part, end) {
        Ok(()) => ExitCode::SUCCESS,
        Err(error) => {
            eprintln!("{name}: {error}");
            ExitCode::FAILURE
        }
    }
}

fn tell<T>(
    input: &mut impl Read,
    output: &mut impl Write,
    teller: &mut T,
    part: fn(&mut T, &[u8], &mut Vec<u8>),
    end: fn(&T, &mut Vec<u8>),
) -> io::Result<()> {
    let mut bytes = vec![0; BUFFER_BYTES];
    let mut text = Vec::with_capacity(2 * BUFFER_BYTES);
    loop {
        let length = match input.read(&mut bytes) {
            Ok(0) => break,
            Ok(length) => length,
            Err(error) if error.kind() == ErrorKind::Interrupted => continue,
            Err(error) => return Err(error),
        };
        part(teller, &bytes[..length], &mut text);
        if text.len() >= BUFFER_BYTES {
            output.write_all(&text)?;
            text.clear();
        }
    }
    end(teller, &mut text);
    output.write_all(&text)?;
    output.flush()
}

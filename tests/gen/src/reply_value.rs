//! Values of replies: plain bytes, and these as a reply may have them, quoted or not; raw texts that
//! only begin like a quoted value.

use crate::damage::damage;
use crate::rng::Rng;

/// The bytes that a value is looked at for, and a few that mean nothing there.
const LOADED_BYTES: &[u8] = b"\"\"``\r\n\n=# ax\0\xff";

/// Values that look like something else, or that stand at an edge of the rules.
const VALUES: [&str; 22] = [
    "",
    "0",
    "COMMAND COMPLETED",
    "/system1/cpu3",
    " b ",
    "b=c",
    "#x",
    "`",
    "``",
    "`\"",
    "\"",
    "\"\"",
    "\"b\"",
    "b\"c",
    "\"b`",
    "\n",
    "\r",
    "\r\n",
    "a\nb",
    "\nendoutput\n",
    "\n#\n\nendgroup\r\n",
    "`\n`",
];

/// A raw value; what it stands for where it was made to stand for something.
#[derive(Clone, Debug)]
pub struct RawValue {
    pub raw: Vec<u8>,
    pub meant: Option<Vec<u8>>,
}

/// Plain bytes of a value: words, looks of other things, loaded bytes, any bytes.
pub fn value(rng: &mut Rng) -> Vec<u8> {
    match rng.below(10) {
        0..=3 => rng.pick_text(&VALUES).to_vec(),
        4..=6 => words(rng),
        7 | 8 => (0..rng.mostly_small(12))
            .map(|_| *rng.pick(LOADED_BYTES))
            .collect(),
        _ => (0..rng.mostly_small(300)).map(|_| rng.byte()).collect(),
    }
}

/// Words, now and then over several lines.
fn words(rng: &mut Rng) -> Vec<u8> {
    const WORDS: [&str; 7] = ["status", "Low", "NIC {1}", "23", "mac", "\"os1\"", "`x"];
    const BETWEEN: [&str; 6] = [" ", " ", " ", "=", "\n", "\r\n"];
    let mut text = rng.pick_text(&WORDS).to_vec();
    for _ in 0..rng.below(5) {
        text.extend_from_slice(rng.pick_text(&BETWEEN));
        text.extend_from_slice(rng.pick_text(&WORDS));
    }
    text
}

/// The value as a reply may have it: quoted where it has to be, and now and then where not.
pub fn raw_of(rng: &mut Rng, value: &[u8]) -> Vec<u8> {
    let is_quoted = value.first() == Some(&b'"') || value.iter().any(|byte| b"\r\n".contains(byte));
    if !is_quoted && rng.percent(85) {
        return value.to_vec();
    }
    quoted(rng, value)
}

/// The value in quotes. A GRAVE before another byte may stay alone; before `"`, before another
/// GRAVE and as the last byte it may not.
fn quoted(rng: &mut Rng, value: &[u8]) -> Vec<u8> {
    let leaves_graves = rng.percent(30);
    let mut raw = vec![b'"'];
    for (at, &byte) in value.iter().enumerate() {
        let may_stay = matches!(value.get(at + 1), Some(next) if !b"\"`".contains(next));
        if byte == b'"' || (byte == b'`' && !(leaves_graves && may_stay)) {
            raw.push(b'`');
        }
        raw.push(byte);
    }
    raw.push(b'"');
    raw
}

/// One raw value: good ones, quoted ones with a byte too many or too few, noise; some are long.
pub fn raw_value(rng: &mut Rng) -> RawValue {
    let mut meant = value(rng);
    if rng.percent(1) {
        let times = rng.between(100, 9000);
        meant = meant.repeat(times);
    }
    let mut raw = match rng.percent(60) {
        true => raw_of(rng, &meant),
        false => quoted(rng, &meant),
    };
    if rng.percent(60) {
        let meant = Some(meant);
        return RawValue { raw, meant };
    }
    match rng.below(6) {
        0 => raw.push(*rng.pick(LOADED_BYTES)),
        1 => {
            raw.pop();
        }
        2 => raw.insert(0, b'"'),
        3 => {
            let at = rng.below(raw.len() + 1);
            raw.insert(at, *rng.pick(LOADED_BYTES));
        }
        4 => damage(rng, &mut raw),
        _ => {
            raw = (0..rng.below(12))
                .map(|_| *rng.pick(LOADED_BYTES))
                .collect()
        }
    }
    RawValue { raw, meant: None }
}

//! Replies as a board gives them: the benchmark's.

use crate::reply::group_line;
use crate::rng::Rng;

const TYPES: [&str; 4] = ["instance", "property", "message", "association"];

/// A reply as a board gives it, of about so many bytes: items of 10 to 40 bytes, groups of a few
/// items, a quoted value now and then.
pub fn board_reply(rng: &mut Rng, size: usize) -> Vec<u8> {
    const NAMES: [&str; 8] = [
        "ufip",
        "status_tag",
        "property_name",
        "property_val",
        "message",
        "job_id",
        "verb",
        "units",
    ];
    const VALUES: [&str; 8] = [
        "/system1/cpu3",
        "COMMAND COMPLETED",
        "OperationalStatus",
        "1200000",
        "Megahertz",
        "20050130145904.000000-300",
        "a longer text, 24 bytes.",
        "enabled",
    ];
    const QUOTED: [&str; 3] = [
        "\"two\r\nlines of it\"",
        "\"`\"os1`\" is down\"",
        "\"one\ntwo ``x`` three\"",
    ];
    const LAST: &str = "endgroup\nendgroup\nendgroup\nendoutput\n";
    let mut text = b"commandline=show -d all -o format=keyword /system1\nstatus=0\n".to_vec();
    let mut depth = 0;
    while text.len() + 60 + LAST.len() < size {
        match rng.below(20) {
            0 | 1 if depth < 3 => {
                text.extend(group_line(rng.pick_text(&TYPES)));
                depth += 1;
            }
            2 | 3 if depth > 0 => {
                text.extend_from_slice(b"endgroup");
                depth -= 1;
            }
            4 => text.extend([rng.pick_text(&NAMES), b"=", rng.pick_text(&QUOTED)].concat()),
            _ => text.extend([rng.pick_text(&NAMES), b"=", rng.pick_text(&VALUES)].concat()),
        }
        text.push(b'\n');
    }
    text.extend_from_slice(&LAST.as_bytes()[9 * (3 - depth)..]);
    text
}

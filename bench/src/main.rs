//! The proved library beside the independent reader: the same work on the same input in one run, as a table with ratios.
//!
//! clp_bench CLPLIST CLPLIST_RS: the two listers' programs, which are timed end to end.
//! clp_bench trees: what the check of a tree reads as it compares records, and its times, alone.
//! clp_bench replies: reading and writing of replies, alone.

mod counted;
mod input;
mod plain;
mod shapes;
mod timing;
mod touched;
mod work;

use clp_gen::Rng;
use std::process::{Command, Stdio};
use timing::{seconds_of_both, Row};

const MEGA: usize = 1 << 20;

fn main() {
    let words: Vec<String> = std::env::args().skip(1).collect();
    if words == ["trees"] {
        return touched::show();
    }
    let (mut rng, mut loud, mut barred, mut near) = (Rng::new(1), Rng::new(2), Rng::new(3), Rng::new(4));
    println!("best of several runs, proved and Rust in turns; the buffers are warm and not cleared between runs");
    Row::heading();
    if words == ["replies"] {
        return replies();
    }
    for size in [1 << 10, 1 << 16, MEGA, 16 * MEGA, 100 * MEGA] {
        let capture = input::console(&mut rng, size);
        Row::new("join", size, "B", work::joins(&capture)).show();
    }
    for size in [1 << 10, 1 << 16, MEGA, 16 * MEGA] {
        let lines = input::commands(&mut rng, size);
        Row::new("read commands", size, "B", work::reads(&lines)).show();
        Row::new("read shouted", size, "B", work::reads(&input::shouted(&mut loud, size))).show();
        Row::new("read excluded", size, "B", work::reads(&input::excluded(&mut barred, size))).show();
        Row::new("read near misses", size, "B", work::reads(&input::near_misses(&mut near, size))).show();
        let noise = input::noise(&mut rng, size);
        Row::new("read console text", size, "B", work::reads(&noise)).show();
        Row::new("canonical", size, "B", work::writes(&lines)).show();
    }
    for nodes in [8, 64, 512] {
        let tree = clp_gen::tree::intact_tree(&mut rng, nodes).bytes;
        Row::new("check tree", nodes, "nodes", work::checks(&tree)).show();
    }
    let (tree, path) = input::deep_tree();
    Row::new("resolve 16 segments", tree.len() / 22, "nodes", work::resolves(&tree, &path)).show();
    replies();
    if let [ours, theirs] = &words[..] {
        for size in [1 << 16, MEGA, 16 * MEGA, 100 * MEGA] {
            let capture = input::mixed(&mut rng, size);
            let file = std::env::temp_dir().join("clp_bench_capture");
            std::fs::write(&file, &capture).expect("room for the capture");
            let run = |program: &str| {
                let stdin = std::fs::File::open(&file).expect("the capture");
                let status = Command::new(program).stdin(stdin).stdout(Stdio::null()).status();
                assert!(status.expect("the program runs").success());
            };
            Row::new("clplist", size, "B", seconds_of_both(|| run(ours), || run(theirs))).show();
            std::fs::remove_file(&file).expect("the capture is there");
        }
    }
    touched::show();
}

/// Replies, by their size in bytes.
fn replies() {
    let mut rng = Rng::new(7);
    for size in [1 << 10, 1 << 12, 1 << 14, 1 << 16] {
        let reply = input::reply(&mut rng, size);
        Row::new("read reply", reply.len(), "B", work::reads_reply(&reply)).show();
        let (records, text) = input::to_write(&reply);
        Row::new("write reply", reply.len(), "B", work::writes_reply(&records, &text)).show();
    }
}

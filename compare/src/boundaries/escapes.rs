//! Escapes put in and removed.

use super::{all, list};
use crate::expected;

type Call = fn(&[u8], &[u8]) -> Result<(Vec<u8>, usize), u32>;
const ESCAPE: (&str, Call) = ("escape", expected::rbsp_to_ebsp);
const UNESCAPE: (&str, Call) = ("unescape", expected::ebsp_to_rbsp);

/// Both ways, into an output with room: what is written and nothing of the rest.
fn both(src: &[u8]) {
    for (name, call) in [ESCAPE, UNESCAPE] {
        match call(src, &[0xFF; 16]) {
            Ok((after, n)) => println!("{name}{} -> {n}:{}", list(src), all(&after[..n])),
            Err(e) => println!("{name}{} -> refused {e}", list(src)),
        }
    }
}

fn into((name, call): (&str, Call), src: &[u8], room: usize) {
    let out = vec![0xFF; room];
    let (answer, after) = match call(src, &out) {
        Ok((after, n)) => (n.to_string(), after),
        Err(e) => (format!("refused {e}"), out.clone()),
    };
    println!("{name}{} into{} -> {answer}:{}", list(src), list(&out), list(&after));
}

pub fn lines() {
    for i in 0..125 {
        both(&[i / 25, i / 5 % 5, i % 5]);
    }
    for ending in [
        &[][..],
        &[0],
        &[0, 0],
        &[5, 0, 0],
        &[0, 0, 0, 0],
        &[0, 0, 0, 0, 0, 0],
        &[5, 0, 0, 3],
        &[0, 0, 3, 3],
        &[0, 0, 3, 4],
        &[0, 0, 3, 0, 0, 3],
        &[0, 0, 0, 3],
        &[0, 0, 3, 0, 3],
        &[0, 0, 4, 0, 0, 0xFF],
    ] {
        both(ending);
    }
    for (src, rooms) in [
        (&[0, 0, 1][..], &[4, 3, 8][..]),
        (&[5, 0, 0], &[4, 3]),
        (&[0, 0, 0, 0, 0], &[7, 6]),
        (&[], &[0]),
        (&[7], &[0]),
    ] {
        rooms.iter().for_each(|&room| into(ESCAPE, src, room));
    }
    for (src, rooms) in [
        (&[0, 0, 3, 1][..], &[3, 2, 8][..]),
        (&[0, 0, 3], &[2, 1]),
        (&[0, 0, 4], &[3, 2]),
        (&[], &[0]),
        (&[7], &[0]),
    ] {
        rooms.iter().for_each(|&room| into(UNESCAPE, src, room));
    }
    longest_lines();
}

fn longest_lines() {
    into(ESCAPE, &[0; 65_536], 98_304);
    into(ESCAPE, &[0; 65_536], 98_303);
    into(UNESCAPE, &[0; 65_536], 65_536);
    into(UNESCAPE, &[0; 65_536], 65_535);
    for room in [98_306, 0] {
        into(ESCAPE, &[0; 65_537], room);
        into(UNESCAPE, &[0; 65_537], room);
    }
}

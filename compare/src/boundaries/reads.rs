//! Reads of fields, and of what was written.

use super::list;
use crate::expected;
use crate::library::Field;

fn field(call: &str, bytes: &[u8], at: usize, answer: Field) {
    let answer = match answer {
        Ok((v, q, 0)) => format!("{v}, bit {q}"),
        Ok((v, q, _)) => format!("{v}, bit {q}, lacking"),
        Err(e) => format!("refused {e}"),
    };
    println!("{call} at {at} of{} -> {answer}", list(bytes));
}

fn u(bytes: &[u8], at: usize, n: u32) {
    field(&format!("u {n}"), bytes, at, expected::u(bytes, at, n));
}

pub fn ue(bytes: &[u8], at: usize) {
    field("ue", bytes, at, expected::ue(bytes, at));
}

pub fn se(bytes: &[u8], at: usize) {
    field("se", bytes, at, expected::se(bytes, at));
}

fn trailing(bytes: &[u8], at: usize) {
    let answer = match expected::trailing(bytes, at) {
        Ok(q) => format!("bit {q}"),
        Err(e) => format!("refused {e}"),
    };
    println!("read_rbsp_trailing_bits at {at} of{} -> {answer}", list(bytes));
}

fn widths(bytes: &[u8], at: usize) {
    for n in [0, 1, 31, 32, 33] {
        u(bytes, at, n);
    }
}

fn each_kind(bytes: &[u8], at: usize) {
    u(bytes, at, 8);
    ue(bytes, at);
    se(bytes, at);
    trailing(bytes, at);
}

pub fn lines() {
    let mixed = [0xA5, 0x0F, 0x3C, 0x96, 0xE1];
    widths(&[0xFF; 5], 0);
    widths(&[0xFF; 5], 1);
    widths(&mixed, 0);
    widths(&mixed, 7);
    widths(&[0xFF], 1_048_576);
    widths(&[0xFF], 1_048_577);
    each_kind(&[0xFF], 1_048_576);
    each_kind(&[0xFF], 1_048_577);
    each_kind(&[], 0);
    each_kind(&[], 1);
    for at in [0, 524_280, 524_287, 524_288] {
        each_kind(&[0xFF; 65_536], at);
    }
    each_kind(&[0xFF; 65_537], 0);
    each_kind(&[0xFF; 65_537], 1_048_577);
    widths(&[0xFF; 65_537], 1_048_577);
    for (at, n) in [(4, 16), (8, 32), (15, 2), (16, 8), (40, 32)] {
        u(&[0xAB, 0xCD], at, n);
    }
    code_lines();
    for at in 0..8 {
        trailing(&[!(0x7F >> at)], at);
    }
    trailing(&[0x7F, 0xFF], 0);
    for at in [0, 6, 7, 15, 16] {
        trailing(&[0x81, 0xFF], at);
    }
    trailing(&[0x80, 0xFF], 0);
}

fn code_lines() {
    for zeros in [
        [0, 0, 0, 1, 0xFF, 0xFF, 0xFF, 0xFF],
        [0, 0, 0, 0, 0xFF, 0xFF, 0xFF, 0xFF],
    ] {
        ue(&zeros, 0);
        ue(&zeros, 1);
        se(&zeros, 0);
    }
    ue(&[0x80, 0, 0, 0, 0, 0xFF], 0);
    ue(&[0x80, 0, 0, 0, 0, 0xFF], 1);
    for at in 0..34 {
        ue(&[0; 4], at);
        se(&[0; 4], at);
    }
    for len in [1, 2, 3, 5] {
        ue(&vec![0; len], 0);
    }
    for bytes in [&[1][..], &[5], &[0, 0, 0, 1]] {
        ue(bytes, 0);
        se(bytes, 0);
    }
    se(&[0, 0, 0, 1, 0xFF, 0xFF, 0xFF, 0xFC], 0);
    se(&[0, 0, 0, 1, 0xFF, 0xFF, 0xFF, 0xFE], 0);
}

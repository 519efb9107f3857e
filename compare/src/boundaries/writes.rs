//! Writes of fields into outputs that hold ones.

use super::list;
use super::reads::{se, ue};
use crate::expected;

/// The line of one write, and the output after it.
fn write(call: &str, out: &[u8], at: usize, answer: Result<(Vec<u8>, usize), u32>) -> Vec<u8> {
    let (answer, after) = match answer {
        Ok((after, q)) => (format!("bit {q}"), after),
        Err(e) => (format!("refused {e}"), out.to_vec()),
    };
    println!("{call} at {at} into{} -> {answer}:{}", list(out), list(&after));
    after
}

fn write_bits(room: usize, at: usize, value: u32, n: u32) {
    let out = vec![0xFF; room];
    write(
        &format!("write_bits {value} width {n}"),
        &out,
        at,
        expected::write_bits(&out, at, value, n),
    );
}

fn write_ue(room: usize, at: usize, value: u32) -> Vec<u8> {
    let out = vec![0xFF; room];
    write(
        &format!("write_ue {value}"),
        &out,
        at,
        expected::write_ue(&out, at, value),
    )
}

fn write_se(room: usize, at: usize, value: i32) -> Vec<u8> {
    let out = vec![0xFF; room];
    write(
        &format!("write_se {value}"),
        &out,
        at,
        expected::write_se(&out, at, value),
    )
}

fn write_trailing(out: &[u8], at: usize) {
    write("write_rbsp_trailing_bits", out, at, expected::write_trailing(out, at));
}

pub fn lines() {
    for at in [0, 3, 7, 8] {
        for (value, n) in [
            (0x5A5A_5A5A, 0),
            (0, 1),
            (0x5A5A_5A5A, 31),
            (0x5A5A_5A5A, 32),
            (0x5A5A_5A5A, 33),
        ] {
            write_bits(6, at, value, n);
        }
    }
    write_bits(2, 0, 0xFFFF_FFF0, 4);
    write_bits(2, 2, 0xFFFF_FFF8, 4);
    write_bits(2, 6, 2, 1);
    write_bits(3, 7, 0x1234, 8);
    start_lines();
    room_lines();
    for at in [0, 5] {
        for value in [0, 1, 2, 2_147_483_646, 2_147_483_647, 4_294_967_294] {
            ue(&write_ue(9, at, value), at);
        }
    }
    for at in [0, 5] {
        for value in [0, 1, -1, 2, -2, i32::MAX, -i32::MAX] {
            se(&write_se(9, at, value), at);
        }
    }
    write_ue(9, 0, u32::MAX);
    write_se(9, 0, i32::MIN);
    for at in 0..8 {
        write_trailing(&[0xFF; 2], at);
    }
}

fn start_lines() {
    for (at, n) in [
        (1_048_576, 0),
        (1_048_576, 1),
        (1_048_577, 0),
        (1_048_577, 1),
        (1_048_577, 33),
    ] {
        write_bits(1, at, 1, n);
    }
    for at in [1_048_576, 1_048_577] {
        write_ue(1, at, 0);
    }
    for at in [1_048_576, 1_048_577] {
        write_se(1, at, 0);
    }
    for at in [1_048_576, 1_048_577] {
        write_trailing(&[0xFF], at);
    }
    let far = vec![0; 131_076];
    for (value, n) in [(u32::MAX, 32), (1, 33)] {
        let answer = expected::write_bits(&far, 1_048_576, value, n);
        write(&format!("write_bits {value} width {n}"), &far, 1_048_576, answer);
    }
    write_trailing(&far[..131_073], 1_048_576);
}

fn room_lines() {
    write_bits(2, 4, 0xABC, 12);
    write_bits(1, 4, 0xABC, 12);
    write_bits(0, 0, 0, 1);
    write_bits(0, 0, 0, 0);
    for room in [8, 7] {
        write_ue(room, 1, 4_294_967_294);
    }
    for room in [8, 7] {
        write_se(room, 1, -i32::MAX);
    }
    write_trailing(&[0xFF; 2], 8);
    write_trailing(&[0xFF], 8);
    write_trailing(&[], 0);
    write_bits(0, 0, 0, 33);
    write_ue(0, 0, u32::MAX);
    write_se(0, 0, i32::MIN);
    write_trailing(&[], 1_048_577);
}

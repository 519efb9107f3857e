//! Escapes of 65,536 bytes removed and put in.

use std::hint::black_box;
use std::time::Instant;

use super::Row;
use crate::expected;
use crate::nal;
use crate::random::Random;
use crate::tally::Tally;
use kendwyra::{escapes, Refusal, LONGEST_INPUT};

const CASES: usize = 2_000;

type Ours = fn(&[u8], &mut [u8]) -> Result<usize, Refusal>;
type Rust = fn(&[u8]) -> Vec<u8>;

pub fn rows() -> Vec<Row> {
    vec![
        row("unescape of 65,536 bytes", escapes::ebsp_to_rbsp, nal::ebsp_to_rbsp),
        row("escape of 65,536 bytes", escapes::rbsp_to_ebsp, nal::rbsp_to_ebsp),
    ]
}

/// Every tenth goes into one byte less than it takes; measured is one of any bytes.
fn row(name: &str, ours: Ours, rust: Rust) -> Row {
    let mut t = Tally::new(name);
    let mut random = Random::new(60);
    let filler = random.bytes(98_400);
    for case in 0..CASES {
        let src = match case % 3 {
            0 => random.bytes(LONGEST_INPUT),
            1 => random.sparse(LONGEST_INPUT),
            _ => random.escapable(LONGEST_INPUT),
        };
        let made = rust(&src);
        let room = if case % 10 == 9 {
            made.len() - 1
        } else {
            made.len() + random.below(3)
        };
        same(&mut t, ours, &src, made, &filler[..room]);
    }
    let src = random.bytes(LONGEST_INPUT);
    let mut out = filler;
    Row::new(
        t,
        &mut || {
            let began = Instant::now();
            let made = rust(black_box(&src));
            (1, began.elapsed(), made.len() as u64)
        },
        &mut || {
            let began = Instant::now();
            let len = ours(black_box(&src), &mut out);
            (1, began.elapsed(), len.map_or(0, |n| n as u64))
        },
    )
}

/// The answer, and every byte of the output after it.
fn same(t: &mut Tally, ours: Ours, src: &[u8], made: Vec<u8>, out: &[u8]) {
    let mut after = out.to_vec();
    let answer = ours(src, &mut after).map_err(Refusal::number);
    let expected = match expected::put(made, out) {
        Ok((after, len)) => (Ok(len), after),
        Err(e) => (Err(e), out.to_vec()),
    };
    let asked = || format!("{} bytes {src:02X?} into {} bytes", src.len(), out.len());
    t.same(asked, (answer, after), expected);
}

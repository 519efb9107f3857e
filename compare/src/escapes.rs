//! Escapes put in and removed, compared at scale.

use crate::random::Random;
use crate::tally::Tally;
use crate::{expected, library};

pub fn compare() -> Vec<Tally> {
    vec![every_short_list(), random_lists(), longest_lists()]
}

type Library = fn(&[u8], &mut [u8]) -> Result<usize, u32>;
type Expected = fn(&[u8], &[u8]) -> Result<(Vec<u8>, usize), u32>;

const CALLS: [(&str, Library, Expected); 2] = [
    ("ebsp_to_rbsp", library::ebsp_to_rbsp, expected::ebsp_to_rbsp),
    ("rbsp_to_ebsp", library::rbsp_to_ebsp, expected::rbsp_to_ebsp),
];

/// Both calls, each into just enough room, one byte less, more, and none.
fn both(t: &mut Tally, src: &[u8], filler: &[u8]) {
    for (name, library, expected) in CALLS {
        let due = expected(src, filler).map_or(0, |(_, n)| n);
        let mut rooms = vec![due, due + 3, 0];
        if due > 0 {
            rooms.push(due - 1);
        }
        for room in rooms {
            let out = &filler[..room];
            let mut after = out.to_vec();
            let answer = library(src, &mut after);
            let expected = match expected(src, out) {
                Ok((bytes, n)) => (Ok(n), bytes),
                Err(e) => (Err(e), out.to_vec()),
            };
            t.same(
                || format!("{name} of {src:02X?} into {room} bytes"),
                (answer, after),
                expected,
            );
        }
    }
}

fn every_short_list() -> Tally {
    let mut t = Tally::new("escapes of every list to 8 of the bytes 00 to 04");
    let filler = Random::new(6).bytes(20);
    for len in 0..=8u32 {
        for k in 0..5u32.pow(len) {
            let list: Vec<u8> = (0..len).map(|i| (k / 5u32.pow(i) % 5) as u8).collect();
            both(&mut t, &list, &filler);
        }
    }
    t
}

fn random_lists() -> Tally {
    let mut t = Tally::new("escapes of random lists to 600 bytes");
    let mut random = Random::new(7);
    let filler = random.bytes(1000);
    for _ in 0..60_000 {
        let len = random.below(600);
        both(&mut t, &random.escapable(len), &filler);
        both(&mut t, &random.sparse(len), &filler);
        both(&mut t, &random.bytes(len), &filler);
    }
    t
}

fn longest_lists() -> Tally {
    let mut t = Tally::new("escapes of the longest lists");
    let mut random = Random::new(8);
    let filler = random.bytes(98_400);
    for len in 65_530..=65_540 {
        both(&mut t, &vec![0; len], &filler);
        both(&mut t, &vec![3; len], &filler);
        both(&mut t, &random.escapable(len), &filler);
        both(&mut t, &random.bytes(len), &filler);
    }
    t
}

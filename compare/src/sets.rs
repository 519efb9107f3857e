//! Sets read from RBSPs and from units, compared at scale.

pub mod long;
pub mod make;
mod units;

use crate::expected;
use crate::expected::document::LONGEST_RBSP;
use crate::h266::aps;
use crate::library::sets::{kind_of, Answer, Lent};
use crate::random::Random;
use crate::tally::Tally;
use make::{Maker, STYLES};

pub fn compare() -> Vec<Tally> {
    let mut rows = vec![
        every_short_rbsp(),
        random_rbsps(),
        written_rbsps(),
        cut_rbsps(),
        flipped_rbsps(),
        long::long_rbsps(),
    ];
    rows.extend(units::compare());
    rows
}

/// What the call of another kind answers: the same refusal, and 2 for a set.
fn of_another_kind(expected: &Answer) -> Answer {
    Err(expected.as_ref().err().copied().unwrap_or(2))
}

/// A set's head and the bit where reading it ended.
fn head(expected: &Answer) -> Answer {
    expected.as_ref().map(|(set, end)| (set.head(), *end)).map_err(|&e| e)
}

/// An answer that must be this one, and is no case of its own.
fn beside(t: &mut Tally, asked: impl FnOnce() -> String, library: Answer, expected: Answer) {
    if library != expected {
        t.same(asked, library, expected);
    }
}

/// Every number of the set and the bit where reading ended, or the refusal's number, by the call of its kind; beside that by the calls of the
/// other kinds, of the head, and of each kind's end.
fn rbsp(t: &mut Tally, lent: &mut Lent, bytes: &[u8]) {
    let asked = || format!("RBSP {bytes:02X?}");
    let expected = expected::sets::parse_rbsp(bytes);
    let own = kind_of(bytes.first());
    beside(
        t,
        || format!("head, {}", asked()),
        lent.head_of_rbsp(bytes),
        head(&expected),
    );
    let end = expected.as_ref().map(|(_, end)| *end).map_err(|&e| e);
    for kind in 0..3 {
        let ended = lent.kind_end(kind, bytes);
        if ended != end {
            t.same(|| format!("end by kind {kind}, {}", asked()), ended, end);
        }
        if kind != own {
            let asked = || format!("by kind {kind}, {}", asked());
            beside(t, asked, lent.parse_rbsp(kind, bytes), of_another_kind(&expected));
        }
    }
    t.same(asked, lent.parse_rbsp(own, bytes), expected);
}

fn every_short_rbsp() -> Tally {
    let mut t = Tally::new("sets from every RBSP of 0 to 3 bytes");
    let mut lent = Lent::new();
    for len in 0..=3 {
        for x in 0..1u32 << (8 * len) {
            rbsp(&mut t, &mut lent, &x.to_be_bytes()[4 - len..]);
        }
    }
    t
}

/// A first byte of one of the three kinds; one id in eight is too large.
fn plausible(random: &mut Random) -> u8 {
    let ids = if random.below(8) == 0 { 32 } else { 4 };
    let id = random.below(ids);
    (random.below(3) << 5 | id) as u8
}

fn random_rbsps() -> Tally {
    let mut t = Tally::new("sets from random RBSPs to 200 bytes");
    let mut random = Random::new(10);
    let mut lent = Lent::new();
    for _ in 0..200_000 {
        let len = random.below(200);
        let ones = random.bytes(len).iter().map(|b| b | 0x88).collect();
        for mut bytes in [random.bytes(len), random.sparse(len), ones] {
            if let Some(first) = bytes.first_mut() {
                *first = plausible(&mut random);
            }
            rbsp(&mut t, &mut lent, &bytes);
        }
    }
    t
}

/// The set with extension flag 1: the bit before the stop bit.
pub fn extended(bytes: &[u8]) -> Vec<u8> {
    let mut out = bytes.to_vec();
    let stop = out.len() * 8 - 1 - out.last().map_or(0, |b| b.trailing_zeros() as usize);
    flip(&mut out, stop - 1);
    out
}

pub fn flip(bytes: &mut [u8], bit: usize) {
    bytes[bit / 8] ^= 0x80 >> (bit % 8);
}

/// A set that the Rust wrote: as it is, with extension flag 1, with bits flipped, cut, and with bytes after it.
fn written_and_damaged(random: &mut Random, good: Vec<u8>) -> Vec<Vec<u8>> {
    let bits = good.len() * 8;
    let mut out = vec![extended(&good)];
    for flips in 1..=3 {
        let mut damaged = good.clone();
        (0..flips).for_each(|_| flip(&mut damaged, random.below(bits)));
        out.push(damaged);
    }
    let mut early = good.clone();
    flip(&mut early, random.below(bits.min(40)));
    let mut late = good.clone();
    flip(&mut late, bits - 1 - random.below(bits.min(16)));
    let cut = good[..random.below(good.len())].to_vec();
    let longer = [&good[..], &random.bytes(3)].concat();
    let longer_extended = [&extended(&good)[..], &random.bytes(3)].concat();
    out.extend([early, late, cut, longer, longer_extended, good]);
    out
}

fn written(random: &mut Random, kind: u8, round: usize) -> Vec<u8> {
    let style = STYLES[round % STYLES.len()];
    let set = Maker { random, style }.set(kind);
    aps::write_aps(&set).expect("a set in range is written")
}

fn written_rbsps() -> Tally {
    let mut t = Tally::new("sets that the Rust wrote, whole and damaged");
    let mut random = Random::new(11);
    let mut lent = Lent::new();
    for round in 0..60_000 {
        for kind in 0..3 {
            let good = written(&mut random, kind, round);
            for bytes in written_and_damaged(&mut random, good) {
                rbsp(&mut t, &mut lent, &bytes);
            }
        }
    }
    t
}

/// A set that is cut gets 1, whatever is missing, or 4 if it is still too long. With extension flag 1 it may be whole without its last byte.
fn cut_rbsps() -> Tally {
    let mut t = Tally::new("sets cut after every byte");
    let mut random = Random::new(18);
    let mut lent = Lent::new();
    for round in 0..400 {
        for kind in 0..3 {
            let good = written(&mut random, kind, round);
            for len in 0..good.len() {
                let cut = &good[..len];
                let asked = || format!("cut RBSP {cut:02X?}");
                let refusal = if len > LONGEST_RBSP { 4 } else { 1 };
                t.same(asked, lent.parse_rbsp(kind.into(), cut), Err(refusal));
                rbsp(&mut t, &mut lent, &extended(&good)[..len]);
            }
        }
    }
    t
}

/// Also of a set of the longest RBSP.
fn flipped_rbsps() -> Tally {
    let mut t = Tally::new("sets: each bit flipped");
    let mut random = Random::new(12);
    let mut lent = Lent::new();
    let mut sets = vec![aps::write_aps(&long::scaling(&mut random, LONGEST_RBSP)).expect("a set in range is written")];
    for round in 0..24 {
        sets.extend([0, 1, 2].map(|kind| written(&mut random, kind, round)));
    }
    for good in sets {
        for bytes in [extended(&good), good] {
            for bit in 0..bytes.len() * 8 {
                let mut damaged = bytes.clone();
                flip(&mut damaged, bit);
                rbsp(&mut t, &mut lent, &damaged);
            }
        }
    }
    t
}

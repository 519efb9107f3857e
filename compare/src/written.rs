//! Sets written as RBSPs and as units, compared at scale: records in range, with numbers off, at the limits of their types, and too long.

mod long;
mod units;

use crate::expected;
use crate::h266::aps::{write_aps, VvcAps};
use crate::headers::Header;
use crate::library::sets::{kind_rewrite, rewrite, write, write_nal, HEAD};
use crate::library::structs::{flags, types};
use crate::random::Random;
use crate::sets::make::{Maker, STYLES};
use crate::tally::Tally;
use units::{good_header, unit};

pub fn compare() -> Vec<Tally> {
    vec![
        sets_in_range(),
        one_number_off(),
        some_numbers_off(),
        limits(),
        units::any_units(),
        units::header_limits(),
        long::around_the_longest(),
        long::too_long(),
        no_flags(),
        every_id(),
        rewritten(),
    ]
}

const FILLER: u8 = 0xA5;

/// A set's numbers written into an output of `room` bytes: the answer, and every byte of the output.
fn rbsp(t: &mut Tally, set: &[i64], room: usize) {
    let before = vec![FILLER; room];
    let mut after = before.clone();
    let answer = write(set, &mut after);
    t.same(
        || format!("{} bytes for {:?}", room, shown(set)),
        (answer, after),
        expected::written::write(set, &before),
    );
}

fn shown(set: &[i64]) -> Vec<(usize, i64)> {
    set.iter().copied().enumerate().filter(|&(_, n)| n != 0).collect()
}

/// An output just long enough, one byte less, longer, empty, and long enough for every set.
fn rbsp_into_each_room(t: &mut Tally, set: &[i64]) {
    let due = expected::written::write(set, &[FILLER; 5_000]).0.unwrap_or(3);
    for room in [due, due - 1, due + 7, 0, 5_000] {
        rbsp(t, set, room);
    }
}

/// A set of a style and a kind, which change in turn.
fn record(random: &mut Random, round: usize) -> VvcAps {
    let style = STYLES[round % STYLES.len()];
    let kind = (round / STYLES.len() % 3) as u8;
    Maker { random, style }.set(kind)
}

fn in_range(random: &mut Random, round: usize) -> Vec<i64> {
    expected::sets::numbers(&record(random, round)).0
}

fn sets_in_range() -> Tally {
    let mut t = Tally::new("sets in range written");
    let mut random = Random::new(20);
    for round in 0..60_000 {
        rbsp_into_each_room(&mut t, &in_range(&mut random, round));
    }
    t
}

/// The least and the largest number of a place after the kind.
fn range(set: &[i64], i: usize) -> (i64, i64) {
    types(set[0] as usize)[i - 1].range()
}

/// Any number that the place can hold, near the limits of fields and types most often.
fn other(random: &mut Random, set: &[i64], i: usize) -> i64 {
    let (low, high) = range(set, i);
    let old = set[i];
    let near = [
        0, 1, 2, 3, 4, 7, 8, 14, 15, 16, 24, 25, 127, 128, 129, 255, 256, -1, -128, -129,
    ];
    let n = match random.below(8) {
        0 => low,
        1 => high,
        2 => old - 1,
        3 | 4 => old + 1,
        5 => random.number().into(),
        _ => near[random.below(near.len())],
    };
    n.clamp(low, high)
}

/// A place of the kind's own fields, or the id or a flag before them; a struct holds no kind.
fn place(random: &mut Random, set: &[i64]) -> usize {
    if random.below(12) == 0 {
        return 1 + random.below(HEAD - 1);
    }
    let own = set.len() - HEAD;
    match random.below(3) {
        0 => HEAD + random.below(own.min(60)),
        _ => HEAD + random.below(own),
    }
}

fn one_number_off() -> Tally {
    let mut t = Tally::new("sets with one number changed");
    let mut random = Random::new(21);
    for round in 0..40_000 {
        let good = in_range(&mut random, round);
        for _ in 0..16 {
            let mut set = good.clone();
            let i = place(&mut random, &set);
            set[i] = other(&mut random, &set, i);
            let room = [3_000, 3_000, 20, 0][random.below(4)];
            rbsp(&mut t, &set, room);
        }
    }
    t
}

fn some_numbers_off() -> Tally {
    let mut t = Tally::new("sets with some numbers changed");
    let mut random = Random::new(22);
    for round in 0..120_000 {
        let mut set = in_range(&mut random, round);
        for _ in 0..=random.below(4) {
            let i = match random.below(4) {
                0 => 1 + random.below(set.len() - 1),
                _ => place(&mut random, &set),
            };
            set[i] = other(&mut random, &set, i);
        }
        rbsp(&mut t, &set, 3_000);
        unit(&mut t, &set, good_header(&mut random), 5_000);
    }
    t
}

/// Every number at a limit of its type, or 0, or of a small range.
fn limits() -> Tally {
    let mut t = Tally::new("structs at the limits of their types");
    let mut random = Random::new(23);
    for round in 0..60_000 {
        let all = random.below(4);
        let kind = round % 3;
        let mut set = vec![kind as i64];
        set.extend(types(kind).into_iter().map(|of| {
            let (low, high) = of.range();
            match all {
                0 => [low, high][random.below(2)],
                1 => [0, 0, 0, 0, 0, 0, low, high][random.below(8)],
                2 => (random.below(3) as i64 - 1).clamp(low, high),
                _ => (random.next() as i64).clamp(low, high),
            }
        }));
        if random.below(4) > 0 {
            set[1] = random.below(4) as i64;
            set[3] = 0;
        }
        rbsp(&mut t, &set, [3_000, 0][random.below(2)]);
    }
    t
}

/// Each flag of each kind with bytes that are neither 0 nor 1: 2, or 3 where the extension flag is 1; a unit's header comes first.
fn no_flags() -> Tally {
    let mut t = Tally::new("flags that are neither 0 nor 1");
    let mut random = Random::new(25);
    let mut refused = |set: &[i64], name: &str, header: Option<Header>, room: usize, code: u32| {
        let before = vec![FILLER; room];
        let mut after = before.clone();
        let answer = match header {
            None => write(set, &mut after),
            Some(header) => write_nal(set, header, &mut after),
        };
        let asked = || format!("{name}, unit of header {header:?}, {room} bytes for {:?}", shown(set));
        t.same(asked, (answer, &after), (Err(code), &before));
    };
    for round in 0..30 {
        let good = in_range(&mut random, round);
        for (i, name) in flags(good[0] as usize) {
            for byte in [2, 255, 3 + random.below(252) as i64] {
                for extension in [0, 1] {
                    let mut set = good.clone();
                    set[3] = extension;
                    set[i] = byte;
                    let code = if set[3] == 1 { 3 } else { 2 };
                    let room = [3_000, 0][random.below(2)];
                    refused(&set, name, None, room, code);
                    let [unit_type, layer, temporal_id_plus1] = good_header(&mut random);
                    let other = 19 + random.below(237) as u8;
                    refused(&set, name, Some([unit_type, layer, temporal_id_plus1]), room, code);
                    refused(&set, name, Some([other, layer, temporal_id_plus1]), room, 2);
                    refused(&set, name, Some([unit_type, layer + 56, temporal_id_plus1]), room, 2);
                    refused(&set, name, Some([unit_type, layer, temporal_id_plus1 + 7]), room, 2);
                }
            }
        }
    }
    t
}

/// Every id of each kind, with extension flag 0 and 1.
fn every_id() -> Tally {
    let mut t = Tally::new("sets with every id");
    let mut random = Random::new(27);
    for round in 0..15 {
        let good = in_range(&mut random, round);
        for id in 0..=255 {
            for extension in [0, 1] {
                let mut set = good.clone();
                (set[1], set[3]) = (id, extension);
                rbsp(&mut t, &set, 3_000);
                unit(&mut t, &set, good_header(&mut random), 5_000);
            }
        }
    }
    t
}

/// Sets read and written again: the bytes that were read, unless they are refused as too long or damaged.
fn rewritten() -> Tally {
    let mut t = Tally::new("sets read and written again");
    let mut random = Random::new(26);
    for round in 0..120_000 {
        let bytes = write_aps(&record(&mut random, round)).expect("a set in range is written");
        let mut damaged = bytes.clone();
        crate::sets::flip(&mut damaged, random.below(bytes.len() * 8));
        for read in [bytes, damaged] {
            let mut after = vec![FILLER; 3_000];
            let answer = rewrite(&read, &mut after);
            let wanted = match expected::sets::parse_rbsp(&read) {
                Ok((numbers, _)) => expected::written::write(&numbers.0, &[FILLER; 3_000]),
                Err(e) => (Err(e), vec![FILLER; 3_000]),
            };
            for kind in 0..3 {
                let mut after = vec![FILLER; 3_000];
                let answer = kind_rewrite(kind, &read, &mut after);
                let own = match expected::sets::parse_rbsp(&read) {
                    Ok((numbers, _)) if numbers.0[0] != kind as i64 => (Err(2), vec![FILLER; 3_000]),
                    _ => wanted.clone(),
                };
                t.same(|| format!("kind {kind}, RBSP {read:02X?}"), (answer, after), own);
            }
            t.same(|| format!("RBSP {read:02X?}"), (answer, after), wanted);
        }
    }
    t
}

//! A full table before units with too long an RBSP and too long units, and streams of which the longest unit is not read.

use super::make::Bytes;
use super::marks::Marks;
use super::{Both, Named};
use crate::expected::document::{LONGEST, LONGEST_RBSP};
use crate::expected::sets::is_aps;
use crate::expected::table::{names, split, work_due};
use crate::headers;
use crate::library::sets::Lent;
use crate::nal;
use crate::random::Random;
use crate::sets::long::{followed, lengths, LARGEST};
use crate::tally::Tally;
use kendwyra::TABLE_BYTES;

pub fn units_and_streams(named: &mut Named) -> [Tally; 3] {
    let mut random = Random::new(34);
    [
        every_first_byte(named, &mut random),
        longest_not_read(named, &mut random),
        nothing_read(&mut random),
    ]
}

/// A table of which all places are filled.
fn full(t: &mut Tally) -> Both {
    let mut both = Both::new(&[0; TABLE_BYTES], Marks::clear());
    let stream = Bytes::new().filling_stream();
    both.stream(t, 0, &stream, &vec![0; stream.len()]);
    assert!(names().iter().all(|&(kind, id)| both.expected.held(kind, id).is_ok()));
    both
}

fn aps_unit(random: &mut Random, rbsp: &[u8]) -> Vec<u8> {
    let unit_type = headers::aps_type(random);
    let header = headers::bytes(headers::good(random, unit_type));
    [&header[..], &nal::rbsp_to_ebsp(rbsp)].concat()
}

/// A unit of just so many bytes; its escapes are left as they come.
fn unit_of(random: &mut Random, first: u8, len: usize) -> Vec<u8> {
    let mut unit = aps_unit(random, &[first]);
    unit.resize(len, 0xFF);
    unit
}

/// RBSPs that begin with each byte, after each the lookup of every place: with 2,049 bytes and more the place that the byte names is emptied,
/// with more than 65,536 in the unit none. Alone and in a stream, into work buffers that are long enough for each, and into none.
fn every_first_byte(named: &mut Named, random: &mut Random) -> Tally {
    let mut t = Tally::new("long RBSPs and units, every first byte");
    let mut lent = Lent::new();
    let before = full(&mut t);
    let filler = random.bytes(66_000);
    for first in 0..=255 {
        let mut units = Vec::new();
        for len in [LONGEST_RBSP - 1, LONGEST_RBSP, LONGEST_RBSP + 1, LARGEST] {
            for _ in 0..3 {
                let rbsp = followed(random, &[first], len);
                units.push(aps_unit(random, &rbsp));
            }
        }
        for len in [65_500, LONGEST, LONGEST + 1, 65_540] {
            units.push(unit_of(random, first, len));
        }
        for unit in units {
            for room in [0, LONGEST_RBSP - 1, LONGEST_RBSP, unit.len()] {
                let mut both = before.clone();
                both.unit(&mut t, 0, &unit, &filler[..room]);
                both.named(named, &mut lent, 0);
                both.places(&mut t, &mut lent, 0);
                let mut both = before.clone();
                both.stream(&mut t, 0, &[&[0, 0, 1][..], &unit].concat(), &filler[..room]);
                both.named(named, &mut lent, 0);
                both.places(&mut t, &mut lent, 0);
            }
        }
    }
    t
}

/// A unit of some bytes that no RBSP is read from: refused for its header, passed over, or with too long an RBSP.
fn not_read(random: &mut Random) -> Vec<u8> {
    let rbsp = match random.below(3) {
        0 => LONGEST_RBSP + 1 + random.below(100),
        1 => random.below(LONGEST_RBSP + 1),
        _ => 1 + random.below(60),
    };
    let rbsp = followed(random, &[], rbsp);
    let mut unit = aps_unit(random, &[&rbsp[..], &[0x80]].concat());
    match random.below(5) {
        0 => unit[0] |= [0x80, 0x40, 0x38][random.below(3)],
        1 => unit[1] &= 0xF8,
        2 | 3 => {
            let unit_type = random.below(30) as u8;
            unit[1] = (unit_type + if unit_type < 17 { 0 } else { 2 }) << 3 | 1;
        }
        _ => {
            let long = followed(random, &rbsp, rbsp.len() + LONGEST_RBSP);
            unit = aps_unit(random, &[&long[..], &[0x80]].concat());
        }
    }
    unit
}

fn joined(units: &[Vec<u8>]) -> Vec<u8> {
    units.iter().flat_map(|unit| [&[0, 0, 1][..], unit].concat()).collect()
}

/// Among such units some that are read: work buffers as long as the longest RBSP of those, one byte less, longer, empty, and as long as the
/// stream.
fn longest_not_read(named: &mut Named, random: &mut Random) -> Tally {
    let mut t = Tally::new("streams: the longest unit is not read");
    let mut lent = Lent::new();
    let mut both = full(&mut t);
    let mut bytes = Bytes::new();
    let filler = random.bytes(66_000);
    for _ in 0..4_000 {
        let mut units = Vec::new();
        for _ in 0..1 + random.below(4) {
            units.push(not_read(random));
        }
        for _ in 0..1 + random.below(3) {
            let rbsp = match random.below(4) {
                0 => {
                    let lengths = lengths(random);
                    let len = lengths[random.below(lengths.len())];
                    followed(random, &[0x00, 0x10], len)
                }
                _ => bytes.rbsp(),
            };
            let at = random.below(units.len() + 1);
            units.insert(at, aps_unit(random, &rbsp));
        }
        let stream = joined(&units);
        let due = split(&stream).map_or(0, |units| work_due(&units));
        for room in [due.saturating_sub(1), due, due + 5, 0, stream.len()] {
            both.stream(&mut t, 0, &stream, &filler[..room]);
            both.named(named, &mut lent, 0);
        }
        both.places(&mut t, &mut lent, 0);
    }
    t
}

/// Streams of such units alone are taken with no work buffer, and leave one as it was.
fn nothing_read(random: &mut Random) -> Tally {
    let mut t = Tally::new("streams with no unit that is read, no work buffer");
    let mut both = full(&mut t);
    let filler = random.bytes(4_000);
    for _ in 0..8_000 {
        let units: Vec<Vec<u8>> = (0..random.below(6)).map(|_| not_read(random)).collect();
        let passed = units.iter().filter(|unit| !is_aps(unit[1] >> 3)).count() as u64;
        let counts = [0, units.len() as u64 - passed, passed];
        let stream = joined(&units);
        for room in [0, 4_000] {
            let mut after = filler[..room].to_vec();
            let answer = both.library.take_stream(&stream, &mut after);
            let asked = || format!("stream {stream:02X?} with {room} bytes of work");
            t.same(asked, (answer, &after[..]), (Ok(counts), &filler[..room]));
        }
    }
    t
}

//! Sets read from units, and headers, compared at scale.

use super::{beside, flip, head, long, of_another_kind, written};
use crate::expected;
use crate::headers;
use crate::library::sets::{kind_of, nal_header, Lent};
use crate::nal;
use crate::random::Random;
use crate::tally::Tally;

pub fn compare() -> [Tally; 5] {
    [
        any_units(),
        unit_boundaries(),
        long_rbsps(),
        headers_judged(),
        headers_read(),
    ]
}

/// One unit with a work buffer, by the calls that an RBSP goes through but the last: the answer, and every byte of the buffer after it.
fn unit(t: &mut Tally, lent: &mut Lent, unit: &[u8], work: &[u8]) {
    let asked = || format!("unit {unit:02X?} with {} bytes of work", work.len());
    let (expected, after) = expected::sets::parse(unit, work);
    let own = kind_of(unit.get(2));
    let mut read = work.to_vec();
    beside(
        t,
        || format!("head, {}", asked()),
        lent.head_of_unit(unit, &mut read),
        head(&expected),
    );
    same_work(t, asked, &read, &after);
    for kind in (0..3).filter(|&kind| kind != own) {
        read.copy_from_slice(work);
        let answer = lent.parse(kind, unit, &mut read);
        beside(
            t,
            || format!("by kind {kind}, {}", asked()),
            answer,
            of_another_kind(&expected),
        );
        same_work(t, asked, &read, &after);
    }
    read.copy_from_slice(work);
    t.same(asked, (lent.parse(own, unit, &mut read), read), (expected, after));
}

fn same_work(t: &mut Tally, asked: impl FnOnce() -> String, library: &[u8], expected: &[u8]) {
    if library != expected {
        t.same(|| format!("work after {}", asked()), library, expected);
    }
}

/// Work buffers just long enough for the RBSP, one byte less, longer, empty, and as long as the unit less 2.
fn unit_into_each_room(t: &mut Tally, lent: &mut Lent, bytes: &[u8], filler: &[u8]) {
    let body = bytes.get(2..).unwrap_or_default();
    let due = nal::ebsp_to_rbsp(body).len();
    let mut rooms = vec![due, due.saturating_sub(1), due + 5, 0, body.len()];
    rooms.sort();
    rooms.dedup();
    for room in rooms {
        unit(t, lent, bytes, &filler[..room]);
    }
}

/// One in eight is of any type.
fn header(random: &mut Random) -> [u8; 2] {
    let unit_type = match random.below(8) {
        0 => random.below(32) as u8,
        _ => headers::aps_type(random),
    };
    headers::any(random, unit_type)
}

fn any_units() -> Tally {
    let mut t = Tally::new("units: headers, escapes and work buffers");
    let mut random = Random::new(13);
    let mut lent = Lent::new();
    let filler = random.bytes(8_000);
    for round in 0..8_000 {
        for kind in 0..3 {
            let good = written(&mut random, kind, round);
            let body = match random.below(4) {
                0 => good,
                1 => [&good[..1], &random.escapable(12)].concat(),
                _ => nal::rbsp_to_ebsp(&good),
            };
            let bytes = [&header(&mut random)[..], &body].concat();
            unit_into_each_room(&mut t, &mut lent, &bytes, &filler);
            let mut damaged = bytes.clone();
            flip(&mut damaged, random.below(bytes.len() * 8));
            unit_into_each_room(&mut t, &mut lent, &damaged, &filler);
        }
    }
    t
}

fn unit_boundaries() -> Tally {
    let mut t = Tally::new("units: every header, short and the longest units");
    let mut random = Random::new(14);
    let mut lent = Lent::new();
    let filler = random.bytes(65_560);
    for first in 0..=255 {
        for second in 0..=255 {
            unit_into_each_room(&mut t, &mut lent, &[first, second, 0, 0x10], &filler);
            unit_into_each_room(&mut t, &mut lent, &[first, second], &filler);
        }
        unit_into_each_room(&mut t, &mut lent, &[first], &filler);
    }
    unit_into_each_room(&mut t, &mut lent, &[], &filler);
    for body in [
        &[0x20, 0x42, 0x12, 0, 0, 3][..],
        &[0, 0, 3, 0x10],
        &[0, 0, 3],
        &[0, 0x10, 0, 0, 3, 1],
    ] {
        for len in body.len()..body.len() + 3 {
            let bytes = [&[0, 0x89][..], body, &[0, 0, 3][..len - body.len()]].concat();
            unit_into_each_room(&mut t, &mut lent, &bytes, &filler);
        }
    }
    for len in 65_530..=65_540 {
        for rest in [random.bytes(len - 4), random.escapable(len - 4), vec![0; len - 4]] {
            for header in [[0, 0x91], [0x40, 0x91]] {
                let bytes = [&header[..], &[0, 0x10], &rest].concat();
                unit_into_each_room(&mut t, &mut lent, &bytes, &filler);
            }
        }
    }
    t
}

/// Each RBSP with its escapes, so that the unit is as long as it and its header or has up to half as much again, and as it is, where what
/// looks like an escape is one.
fn long_rbsps() -> Tally {
    let mut t = Tally::new("units: RBSPs of 2,040 to 2,056 bytes, and to 2,930");
    let mut random = Random::new(29);
    let mut lent = Lent::new();
    let filler = random.bytes(8_000);
    for round in 0..10 {
        for len in long::lengths(&mut random) {
            for rbsp in long::rbsps(&mut random, round, len) {
                for body in [nal::rbsp_to_ebsp(&rbsp), rbsp] {
                    let bytes = [&header(&mut random)[..], &body].concat();
                    unit_into_each_room(&mut t, &mut lent, &bytes, &filler);
                }
            }
        }
    }
    t
}

/// A unit is taken with both zero bits 0 and a layer to 55, which is a first byte to 55, type 17 or 18 and a temporal id plus one that is
/// not 0; else it gets 2, whatever its RBSP and the work buffer. An RBSP of 2,049 bytes gets 4, whatever the work buffer.
fn headers_judged() -> Tally {
    let mut t = Tally::new("units with every header, taken or refused with 2");
    let mut lent = Lent::new();
    for first in 0..=255 {
        for second in 0..=255 {
            let good = first <= 55 && matches!(second, 0x89..=0x8F | 0x91..=0x97);
            for (rbsp, room, with_good) in [
                (&[0x00, 0x10][..], 2, Ok(())),
                (&[0x00, 0x10], 1, Err(5)),
                (&[0x60, 0x20], 2, Err(3)),
                (&[], 0, Err(1)),
                (&[0xFF; 2_049], 2_049, Err(4)),
                (&[0xFF; 2_049], 0, Err(4)),
                (&[0xFF; 2_048], 2_047, Err(5)),
            ] {
                let unit = [&[first, second][..], rbsp].concat();
                let answer = lent.parse(0, &unit, &mut vec![0; room]).map(drop);
                let expected = if good { with_good } else { Err(2) };
                t.same(
                    || format!("unit {unit:02X?} with {room} bytes of work"),
                    answer,
                    expected,
                );
            }
        }
    }
    t
}

fn headers_read() -> Tally {
    let mut t = Tally::new("headers: every two bytes, and every length");
    for first in 0..=255 {
        for second in 0..=255 {
            let unit = [first, second, 0x12];
            for len in 0..=3 {
                let unit = &unit[..len];
                let asked = || format!("header of {unit:02X?}");
                t.same(asked, nal_header(unit), expected::sets::nal_header(unit));
            }
        }
    }
    for len in 65_530..=65_540 {
        let unit = vec![0x91; len];
        let asked = || format!("header of {len} bytes");
        t.same(asked, nal_header(&unit), expected::sets::nal_header(&unit));
    }
    t
}

//! Sets written as units with a header.

use super::{in_range, shown, FILLER};
use crate::expected;
use crate::headers::{self, Header};
use crate::library::sets::write_nal;
use crate::random::Random;
use crate::tally::Tally;

/// A set's numbers written as a unit into an output of `room` bytes: the answer, and every byte of the output.
pub fn unit(t: &mut Tally, set: &[i64], header: Header, room: usize) {
    let before = vec![FILLER; room];
    let mut after = before.clone();
    let answer = write_nal(set, header, &mut after);
    t.same(
        || format!("unit of header {header:?}, {room} bytes for {:?}", shown(set)),
        (answer, after),
        expected::written::write_nal(set, header, &before),
    );
}

pub fn good_header(random: &mut Random) -> Header {
    let unit_type = headers::aps_type(random);
    headers::good(random, unit_type)
}

/// An output just long enough, one byte less, longer, of a header's length, shorter, empty, and long enough for every set.
pub fn unit_into_each_room(t: &mut Tally, set: &[i64], header: Header) {
    let due = expected::written::write_nal(set, header, &[FILLER; 5_000])
        .0
        .unwrap_or(3);
    for room in [due, due - 1, due + 7, 2, 1, 0, 5_000] {
        unit(t, set, header, room);
    }
}

/// Every type, layer and temporal id plus one that a byte can hold, each beside good ones; then any good ones.
pub fn any_units() -> Tally {
    let mut t = Tally::new("units written: headers, escapes and outputs");
    let mut random = Random::new(24);
    for byte in 0..=255 {
        for field in 0..3 {
            let set = in_range(&mut random, usize::from(byte));
            let mut header = good_header(&mut random);
            header[field] = byte;
            unit_into_each_room(&mut t, &set, header);
        }
    }
    for round in 0..30_000 {
        let set = in_range(&mut random, round);
        unit_into_each_room(&mut t, &set, good_header(&mut random));
    }
    t
}

/// All limits of a header's fields with each other, for sets of each kind that are written, and that get 3 or 2.
pub fn header_limits() -> Tally {
    let mut t = Tally::new("units written: limits of a header together");
    let mut random = Random::new(28);
    for round in 0..30 {
        let good = in_range(&mut random, round);
        for (id, extension) in [(good[1], 0), (good[1], 1), (8, 0)] {
            let mut set = good.clone();
            (set[1], set[3]) = (id, extension);
            for unit_type in [0, 16, 17, 18, 19, 49, 255] {
                for layer in [0, 1, 54, 55, 56, 63, 64, 255] {
                    for temporal_id_plus1 in [0, 1, 2, 6, 7, 8, 9, 255] {
                        let header = [unit_type, layer, temporal_id_plus1];
                        unit(&mut t, &set, header, [5_000, 0][random.below(2)]);
                    }
                }
            }
        }
    }
    t
}

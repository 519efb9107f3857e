//! Every short stream.

use super::marks::Marks;
use super::{Both, Named};
use crate::expected::table::{split, work_due};
use crate::library::sets::Lent;
use crate::tally::Tally;
use kendwyra::TABLE_BYTES;

/// What stands in a work buffer before a call.
const FILLER: [u8; 8] = [0xA5, 0x5A, 0xC3, 0x3C, 0xE1, 0x1E, 0x87, 0x78];

/// The bytes of a small set's unit, an escape and start codes. In this order the unit 89 89 00 03, refused for its header, comes when the place
/// that its RBSP names is filled, before one with a header that is taken empties it.
const LETTERS: [u8; 5] = [0x89, 0x10, 0x03, 0x01, 0x00];

/// One table takes them all. Work buffers just long enough, one byte less, and as long as the stream.
pub fn every_short_stream(named: &mut Named) -> Tally {
    let mut t = Tally::new("streams: every one of up to 8 of five bytes");
    let mut lent = Lent::new();
    let mut both = Both::new(&[0; TABLE_BYTES], Marks::clear());
    for len in 0..=8 {
        for n in 0..LETTERS.len().pow(len) {
            let digits = (0..len).map(|place| n / LETTERS.len().pow(place) % LETTERS.len());
            let stream: Vec<u8> = digits.map(|digit| LETTERS[digit]).collect();
            let due = split(&stream).map_or(0, |units| work_due(&units));
            for room in [due, due.saturating_sub(1), stream.len()] {
                both.stream(&mut t, 0, &stream, &FILLER[..room]);
                both.named(named, &mut lent, 0);
            }
        }
    }
    t
}

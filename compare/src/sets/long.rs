//! RBSPs of about 2,048 bytes and more: whole sets of scaling lists, and sets with bytes after them.

use super::make::{diagonal_scan, Maker, Style};
use super::{extended, rbsp, written, written_and_damaged};
use crate::expected::document::LONGEST_RBSP;
use crate::expected::sets::end;
use crate::h266::aps::{write_aps, VvcAps, VvcApsPayload};
use crate::library::sets::Lent;
use crate::random::Random;
use crate::tally::Tally;

/// No set takes more bytes.
pub const LARGEST: usize = 2_930;

/// Around the longest RBSP that is read, and up to the largest set.
pub fn lengths(random: &mut Random) -> Vec<usize> {
    let between = [0; 4].map(|_| LONGEST_RBSP + random.below(LARGEST - LONGEST_RBSP));
    (2_040..=2_056).chain(between).chain([LARGEST]).collect()
}

/// A set of scaling lists of just so many bytes, from 300 on; all is sent.
pub fn scaling(random: &mut Random, len: usize) -> VvcAps {
    let style = if len > 2_900 { Style::Largest } else { Style::Full };
    let mut set = Maker { random, style }.set(2);
    let steps = with_steps(&mut set, |_| 0);
    set.aps_extension_flag = true;
    // A step of 0 has one bit, one of -128 has 17, and the other lengths are odd too; then come the stop bit and zeros.
    let mut pairs = ((len * 8 - 1 - end(&set)) / 2).min(8 * steps);
    set.aps_extension_flag = false;
    with_steps(&mut set, |left| {
        let about = (pairs / left + random.below(5)).saturating_sub(2);
        let taken = about.clamp(pairs.saturating_sub(8 * (left - 1)), pairs.min(8));
        pairs -= taken;
        step(random, taken)
    });
    let bytes = write_aps(&set).expect("a set in range is written").len();
    assert!(bytes == len, "{bytes} bytes where {len} are asked for");
    set
}

/// A set of a style, but with no more bytes than are read.
pub fn taken(random: &mut Random, style: Style, (kind, id): (u8, u8)) -> VvcAps {
    let mut set = match (kind, style) {
        (2, Style::Long | Style::Largest) => scaling(random, LONGEST_RBSP),
        _ => Maker { random, style }.set(kind),
    };
    set.aps_adaptation_parameter_set_id = id;
    set
}

/// A step whose code has so many pairs of bits, and one bit more.
fn step(random: &mut Random, pairs: usize) -> i32 {
    if pairs == 8 {
        return -128;
    }
    let code = (1 << pairs) - 1 + random.below(1 << pairs) as i32;
    if code % 2 == 1 {
        (code + 1) / 2
    } else {
        -code / 2
    }
}

/// Fills in each step and DC of a set of which all is sent, from how many are left with it; the answer is how many there are.
fn with_steps(set: &mut VvcAps, mut step: impl FnMut(usize) -> i32) -> usize {
    let VvcApsPayload::ScalingList(d) = &mut set.payload else {
        panic!("scaling lists")
    };
    let size = |id: usize| [2, 4, 8][usize::from(id > 1) + usize::from(id > 7)];
    let read = |id: usize, (x, y): (usize, usize)| id < 26 || x < 4 || y < 4;
    let scan = diagonal_scan();
    let of_list = |id: usize| {
        scan.iter()
            .take(size(id) * size(id))
            .filter(|&&at| read(id, at))
            .count()
    };
    let steps = 14 + (0..28).map(of_list).sum::<usize>();
    let mut left = steps;
    let mut next = || {
        left -= 1;
        step(left + 1)
    };
    for id in 0..28 {
        let mut sum = 0;
        if id > 13 {
            sum = next();
            d.dc_coef[id - 14] = sum;
        }
        for (i, &at) in scan.iter().take(size(id) * size(id)).enumerate() {
            sum += if read(id, at) { next() } else { 0 };
            d.scaling_list[id][i] = sum;
        }
    }
    steps
}

/// A shorter set and bytes after it: any, zeros, or such as take many escapes.
pub fn followed(random: &mut Random, set: &[u8], len: usize) -> Vec<u8> {
    let more = len - set.len();
    let rest = match random.below(3) {
        0 => random.bytes(more),
        1 => vec![0; more],
        _ => random.escapable(more),
    };
    [set, &rest].concat()
}

/// RBSPs of a length: a whole set, that damaged, and shorter sets with bytes after them, of every kind, whole and with extension flag 1.
pub fn rbsps(random: &mut Random, round: usize, len: usize) -> Vec<Vec<u8>> {
    let set = write_aps(&scaling(random, len)).expect("a set in range is written");
    let mut out = written_and_damaged(random, set);
    for kind in 0..3 {
        let set = written(random, kind, round);
        for set in [extended(&set), set] {
            if set.len() <= len {
                out.extend([(); 2].map(|()| followed(random, &set, len)));
            }
        }
    }
    out
}

pub fn long_rbsps() -> Tally {
    let mut t = Tally::new("sets: RBSPs of 2,040 to 2,056 bytes, and to 2,930");
    let mut random = Random::new(19);
    let mut lent = Lent::new();
    for round in 0..40 {
        for len in lengths(&mut random) {
            for bytes in rbsps(&mut random, round, len) {
                rbsp(&mut t, &mut lent, &bytes);
            }
        }
    }
    for len in 65_530..=65_540 {
        rbsp(&mut t, &mut lent, &followed(&mut random, &[0x00, 0x10], len));
    }
    t
}

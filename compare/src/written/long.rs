//! Sets of scaling lists of about 2,048 bytes and more, written as RBSPs and as units.

use super::units::{good_header, unit_into_each_room};
use super::{other, place, rbsp_into_each_room, FILLER, HEAD};
use crate::expected;
use crate::expected::document::LONGEST_RBSP;
use crate::library::sets::{write, write_nal};
use crate::random::Random;
use crate::sets::long::{lengths, scaling, LARGEST};
use crate::tally::Tally;

fn numbers(random: &mut Random, len: usize) -> Vec<i64> {
    expected::sets::numbers(&scaling(random, len)).0
}

/// Whole, with extension flag 1, with an id that is too large, and with a number changed, each also as a unit.
pub fn around_the_longest() -> Tally {
    let mut t = Tally::new("sets written of 2,040 to 2,056 bytes, and to 2,930");
    let mut random = Random::new(43);
    for _ in 0..40 {
        for len in lengths(&mut random) {
            let good = numbers(&mut random, len);
            let mut sets = vec![good.clone(); 6];
            sets[1][3] = 1;
            sets[2][1] = 8 + random.below(248) as i64;
            (sets[3][1], sets[3][3]) = (sets[2][1], 1);
            for set in &mut sets[4..] {
                let i = place(&mut random, set);
                set[i] = other(&mut random, set, i);
            }
            for set in sets {
                rbsp_into_each_room(&mut t, &set);
                unit_into_each_room(&mut t, &set, good_header(&mut random));
            }
        }
    }
    t
}

/// 4 with room for the set, with one byte less and with none; before it 2 for a type, for another field of the header, for the set, and 3.
pub fn too_long() -> Tally {
    let mut t = Tally::new("sets over 2,048 bytes refused: 3, 2, then 4");
    let mut random = Random::new(44);
    for round in 0..400 {
        let len = match round % 4 {
            0 => LONGEST_RBSP + 1,
            1 => LARGEST,
            _ => LONGEST_RBSP + 1 + random.below(LARGEST - LONGEST_RBSP),
        };
        let good = numbers(&mut random, len);
        let changed = |changes: &[(usize, i64)]| {
            let mut set = good.clone();
            changes.iter().for_each(|&(i, n)| set[i] = n);
            set
        };
        let copy_flag = HEAD + random.below(28);
        let corner = HEAD + 98 + 64 * 27 + 63;
        let [unit_type, layer, temporal_id_plus1] = good_header(&mut random);
        for (set, refusal) in [
            (good.clone(), 4),
            (changed(&[(1, 8)]), 2),
            (changed(&[(copy_flag, 2)]), 2),
            (changed(&[(corner, good[corner] + 1)]), 2),
            (changed(&[(3, 1)]), 3),
            (changed(&[(3, 1), (1, 8)]), 3),
            (changed(&[(3, 1), (copy_flag, 2)]), 3),
        ] {
            for room in [5_000, len, len - 1, 0] {
                let before = vec![FILLER; room];
                let mut after = before.clone();
                let answer = write(&set, &mut after);
                t.same(
                    || format!("{len} bytes into {room}"),
                    (answer, &after),
                    (Err(refusal), &before),
                );
                for (header, refusal) in [
                    ([unit_type, layer, temporal_id_plus1], refusal),
                    ([19 + random.below(237) as u8, layer, temporal_id_plus1], 2),
                    ([unit_type, layer + 56, temporal_id_plus1], 2),
                    ([unit_type, layer, 0], 2),
                ] {
                    let answer = write_nal(&set, header, &mut after);
                    let asked = || format!("unit of header {header:?} of {len} bytes into {room}");
                    t.same(asked, (answer, &after), (Err(refusal), &before));
                }
            }
        }
    }
    t
}

//! The scaling factors of sets: each id's matrix by row and column and each DC, against a plain model from H.266 7.4.3.20 over the Rust's records.

use crate::expected::meanings::{changed, record_of, Sets};
use crate::h266::aps::{VvcApsPayload, VvcScalingListData};
use crate::library::meanings::bytes;
use crate::library::sets::HEAD;
use crate::random::Random;
use crate::sets::make::{diagonal_scan, Style};
use crate::tally::Tally;
use kendwyra::raw;

const SETS: usize = 100_000;

type Bytes = Result<Vec<u8>, u32>;

pub fn compare() -> Vec<Tally> {
    let mut rows = [
        "factors: matrices 8x8",
        "factors: matrices 4x4",
        "factors: matrices 2x2",
        "factors: DCs",
        "factors: refused with 2 for the set",
        "factors: refused with 2 for the id",
        "factors: refused with 9",
    ]
    .map(Tally::new);
    let mut sets = Sets::new(41, 2);
    for round in 0..SETS {
        let set = hostile(&mut sets, round);
        let model = Model::of(&set);
        for id in 0..28 {
            one(&mut rows, &set, &model, size(id), id);
        }
        for id in 14..28 {
            one(&mut rows, &set, &model, 0, id);
        }
        let odd = [28, 29, 100, u32::MAX][round % 4];
        for of in [0, 2, 4, 8] {
            let other = sets.random.below(28) as u32;
            one(&mut rows, &set, &model, of, other);
            one(&mut rows, &set, &model, of, odd);
        }
    }
    rows.into()
}

/// Of each round's set most are such that no factor is 0. What is not sent holds numbers: uncoded ids, lists and DCs of copies, and entries
/// past a matrix.
fn hostile(sets: &mut Sets, round: usize) -> Vec<i64> {
    let mut set = match round % 5 {
        0 => sets.next(round / 5),
        1 => sets.good(Style::Sparse),
        _ => chains(&mut sets.random),
    };
    if round % 3 > 0 && set[2] < 2 {
        let coded = |set: &[i64], id: usize| set[2] == 1 || id % 3 == 2 || id == 27;
        for id in 0..28 {
            let copied = !coded(&set, id) || set[HEAD + id] == 1;
            let sent = if copied {
                0
            } else {
                (size(id as u32) * size(id as u32)) as usize
            };
            for i in sent..64 {
                set[LISTS + 64 * id + i] = any(&mut sets.random);
            }
            if copied && id > 13 {
                set[DCS + id - 14] = any(&mut sets.random);
            }
            if !coded(&set, id) {
                set[HEAD + id] = sets.random.below(2) as i64;
                set[HEAD + 28 + id] = sets.random.below(2) as i64;
                set[DELTAS + id] = any(&mut sets.random).abs();
            }
        }
    }
    set
}

const DELTAS: usize = HEAD + 56;
const DCS: usize = DELTAS + 28;
const LISTS: usize = DCS + 14;

fn any(random: &mut Random) -> i64 {
    (random.number() as i32 >> random.below(31)).into()
}

/// Long chains of copies and predictions, over the border of sizes that have no DC, with entries by which few factors become 0.
fn chains(random: &mut Random) -> Vec<i64> {
    let mut set = vec![0; LISTS + 28 * 64];
    (set[0], set[1], set[2]) = (2, random.below(8) as i64, (random.below(4) > 0) as i64);
    for id in 0..28usize {
        let copy = random.below(3) > 0;
        set[HEAD + id] = copy as i64;
        set[HEAD + 28 + id] = (!copy && random.below(3) > 0) as i64;
        let most = id - [0, 2, 8][usize::from(id > 1) + usize::from(id > 7)];
        if copy || set[HEAD + 28 + id] == 1 {
            set[DELTAS + id] = [0, 1, most, random.below(most + 1)][random.below(4)].min(most) as i64;
        }
        if !copy {
            list(random, &mut set, id);
        }
    }
    set
}

/// Entries from a walk that seldom leaves 0 to 60.
fn list(random: &mut Random, set: &mut [i64], id: usize) {
    let mut sum = random.below(40) as i64;
    if id > 13 {
        set[DCS + id - 14] = sum;
    }
    let n = (size(id as u32) * size(id as u32)) as usize;
    for (i, (x, y)) in diagonal_scan().into_iter().take(n).enumerate() {
        if id < 26 || x < 4 || y < 4 {
            let step = random.below(9) as i64 - 4;
            sum = (sum + step).clamp(0, 60);
        }
        set[LISTS + 64 * id + i] = sum;
    }
}

fn size(id: u32) -> u32 {
    match id {
        0 | 1 => 2,
        2..=7 => 4,
        _ => 8,
    }
}

/// What 7.4.3.20 makes of a set; or why there is nothing.
struct Model {
    refused: Option<u32>,
    matrices: Vec<[[u8; 8]; 8]>,
    dcs: Vec<u8>,
}

impl Model {
    fn of(set: &[i64]) -> Model {
        let Some(record) = record_of(set) else {
            return Model {
                refused: Some(2),
                matrices: Vec::new(),
                dcs: Vec::new(),
            };
        };
        let VvcApsPayload::ScalingList(d) = &record.payload else {
            unreachable!("a set of scaling lists")
        };
        let mut model = Model {
            refused: None,
            matrices: Vec::new(),
            dcs: Vec::new(),
        };
        (0..28).for_each(|id| model.add(d, record.aps_chroma_present_flag, id));
        let zero = (0..28).any(|id| {
            let n = size(id as u32) as usize;
            model.matrices[id][..n].iter().any(|row| row[..n].contains(&0))
        });
        if zero || model.dcs.contains(&0) {
            model.refused = Some(9);
        }
        model
    }

    fn add(&mut self, d: &VvcScalingListData, chroma: bool, id: usize) {
        let coded = chroma || id % 3 == 2 || id == 27;
        let copy = !coded || d.copy_mode_flag[id];
        let pred = coded && d.pred_mode_flag[id];
        let first = [0, 2, 8].contains(&id);
        let delta = if coded && (copy || pred) && !first {
            d.pred_id_delta[id] as usize
        } else {
            0
        };
        let (earlier, earlier_dc) = match (copy || pred, delta) {
            (false, _) => ([[8; 8]; 8], 8),
            (true, 0) => ([[16; 8]; 8], 16),
            (true, _) if id - delta > 13 => (self.matrices[id - delta], self.dcs[id - delta - 14]),
            (true, _) => (self.matrices[id - delta], self.matrices[id - delta][0][0]),
        };
        let mut matrix = earlier;
        let n = size(id as u32) as usize;
        let scan = diagonal(n);
        if !copy {
            for (k, &(x, y)) in scan.iter().enumerate() {
                matrix[y][x] = ((i64::from(earlier[y][x]) + i64::from(d.scaling_list[id][k])) & 255) as u8;
            }
        }
        self.matrices.push(matrix);
        if id > 13 {
            let dc = if copy { 0 } else { i64::from(d.dc_coef[id - 14]) };
            self.dcs.push(((i64::from(earlier_dc) + dc) & 255) as u8);
        }
    }
}

/// 6.5.2's loop: x and y along the diagonals of a block, each from the bottom left up.
fn diagonal(n: usize) -> Vec<(usize, usize)> {
    let mut out = Vec::new();
    for d in 0..2 * n - 1 {
        for x in 0..=d {
            if x < n && d - x < n {
                out.push((x, d - x));
            }
        }
    }
    out
}

/// A matrix of a size, or a DC where that is 0.
fn one(rows: &mut [Tally; 7], set: &[i64], model: &Model, of: u32, id: u32) {
    let library = match of {
        8 => bytes(set, 64, |set, out| unsafe {
            raw::aps_scaling_matrix8(set.cast(), id, &mut *out.cast())
        }),
        4 => bytes(set, 16, |set, out| unsafe {
            raw::aps_scaling_matrix4(set.cast(), id, &mut *out.cast())
        }),
        2 => bytes(set, 4, |set, out| unsafe {
            raw::aps_scaling_matrix2(set.cast(), id, &mut *out.cast())
        }),
        _ => bytes(set, 1, |set, out| unsafe {
            raw::aps_scaling_dc(set.cast(), id, &mut *out)
        }),
    };
    let named = if of == 0 {
        (14..28).contains(&id)
    } else {
        id < 28 && size(id) == of
    };
    let expected: Bytes = match model.refused {
        Some(2) => Err(2),
        _ if !named => Err(2),
        Some(refused) => Err(refused),
        None if of == 0 => Ok(vec![model.dcs[id as usize - 14]]),
        None => {
            let n = of as usize;
            Ok(model.matrices[id as usize][..n]
                .iter()
                .flat_map(|row| row[..n].to_vec())
                .collect())
        }
    };
    let row = match (&expected, of) {
        (Ok(_), 8) => 0,
        (Ok(_), 4) => 1,
        (Ok(_), 2) => 2,
        (Ok(_), _) => 3,
        (Err(2), _) if model.refused == Some(2) => 4,
        (Err(2), _) => 5,
        _ => 6,
    };
    rows[row].same(|| format!("id {id} as {of} of {:?}", changed(set)), library, expected);
}

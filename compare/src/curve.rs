//! The luma curves of LMCS sets: every table at every depth, and where samples and ranges land, against plain models in wide integers.

use crate::expected::meanings::{changed, record_of, Sets};
use crate::h266::aps::{VvcApsPayload, VvcLmcsData};
use crate::library::meanings::words;
use crate::library::sets::HEAD;
use crate::random::Random;
use crate::tally::Tally;
use kendwyra::raw;

const SETS: usize = 1_000_000;
const MAPPED: usize = 10_000;
const RANGES: usize = 20;

type Words = Result<Vec<u32>, u32>;

pub fn compare() -> Vec<Tally> {
    let mut rows = tables();
    rows.extend(samples());
    rows
}

fn tables() -> Vec<Tally> {
    let mut rows = [
        "curve: tables",
        "curve: refused with 2",
        "curve: refused with 7",
        "curve: refused with 10",
        "curve: refused with 11",
    ]
    .map(Tally::new);
    let mut sets = Sets::new(42, 1);
    for round in 0..SETS {
        let set = match round % 4 {
            0 => sets.next(round / 4),
            _ => near(&mut sets.random),
        };
        let odd = [7, 13, 0, u32::MAX][round % 4];
        for depth in (8..=12).chain([odd]) {
            let library = words(&set, 113, |set, out| unsafe {
                raw::aps_lmcs_curve(set.cast(), depth, out.cast())
            });
            let expected = model(&set, depth).map(|curve| curve.words());
            let row = row_of(&expected);
            rows[row].same(
                || format!("curve at depth {depth} of {:?}", changed(&set)),
                library,
                expected,
            );
        }
    }
    rows.into()
}

fn row_of(expected: &Words) -> usize {
    match expected {
        Ok(_) => 0,
        Err(2) => 1,
        Err(7) => 2,
        Err(10) => 3,
        Err(_) => 4,
    }
}

const CODEWORDS: usize = HEAD + 3;
const SIGNS: usize = CODEWORDS + 16;
const CHROMA: usize = SIGNS + 16;

/// A set whose codewords at some depth are around O, O / 8 and 8 * O - 1, and whose sum is now and then just below, at or above 2 to the power
/// of the depth; with a chroma delta around those limits too.
fn near(random: &mut Random) -> Vec<i64> {
    let mut set = vec![0; CHROMA + 2];
    let depth = 8 + random.below(5);
    let o = 1i64 << (depth - 4);
    (set[0], set[1], set[2]) = (1, random.below(4) as i64, random.below(2) as i64);
    let min = random.below(8);
    let max = random.below(8);
    (set[HEAD], set[HEAD + 1], set[HEAD + 2]) = (min as i64, max as i64, 14);
    let wild = random.below(3);
    let mut sum = 0;
    for i in min..=15 - max {
        let limit = [o / 8 - 1, o / 8, o / 8 + 1, 8 * o - 2, 8 * o - 1, 8 * o][random.below(6)];
        let codeword = match (wild, random.below(8)) {
            (0, 0) => limit,
            (1, _) => o / 8 + random.below(o as usize) as i64,
            _ => o - 2 + random.below(5) as i64,
        };
        let last = i == 15 - max && random.below(2) == 0;
        let codeword = if last {
            (16 * o - sum - 1 + random.below(3) as i64).clamp(0, 20_000)
        } else {
            codeword
        };
        sum += codeword;
        let delta = codeword - o;
        (set[CODEWORDS + i], set[SIGNS + i]) = (delta.abs(), (delta < 0) as i64);
    }
    if set[2] == 1 {
        set[CHROMA] = random.below(8) as i64;
        set[CHROMA + 1] = (set[CHROMA] > 0 && random.below(2) == 0) as i64;
    }
    set
}

struct Curve {
    o: i128,
    codewords: Vec<i128>,
    pivots: Vec<i128>,
    forward: Vec<i128>,
    /// Quotient and remainder.
    inverse: Vec<(i128, i128)>,
    chroma: Vec<(i128, i128)>,
}

impl Curve {
    fn words(&self) -> Vec<u32> {
        let quotients = |scales: &[(i128, i128)]| scales.iter().map(|s| s.0).collect::<Vec<_>>();
        let rests = |scales: &[(i128, i128)]| scales.iter().map(|s| s.1).collect::<Vec<_>>();
        [
            self.codewords.clone(),
            self.pivots.clone(),
            self.forward.clone(),
            quotients(&self.inverse),
            rests(&self.inverse),
            quotients(&self.chroma),
            rests(&self.chroma),
        ]
        .concat()
        .into_iter()
        .map(|x| u32::try_from(x).expect("a number of the curve"))
        .collect()
    }

    fn map(&self, s: i128) -> i128 {
        let b = (s / self.o) as usize;
        self.pivots[b] + (self.forward[b] * (s - b as i128 * self.o) + 1024) / 2048
    }
}

/// 2; 7; 10; 11; or the curve.
fn model(set: &[i64], depth: u32) -> Result<Curve, u32> {
    let record = record_of(set).ok_or(2u32)?;
    let VvcApsPayload::Lmcs(d) = &record.payload else {
        return Err(2);
    };
    if !(8..=12).contains(&depth) {
        return Err(7);
    }
    let o = 1i128 << (depth - 4);
    let coded = |i: usize| (d.lmcs_min_bin_idx as usize..=15 - d.lmcs_delta_max_bin_idx as usize).contains(&i);
    let luma: Vec<i128> = (0..16).map(|i| if coded(i) { o + delta(d, i) } else { 0 }).collect();
    let crs = signed(d.lmcs_delta_abs_crs.into(), d.lmcs_delta_sign_crs_flag);
    let fair = |c: i128| o / 8 <= c && c < 8 * o;
    if (0..16).any(|i| coded(i) && !(fair(luma[i]) && fair(luma[i] + crs))) {
        return Err(10);
    }
    if luma.iter().sum::<i128>() >= 1 << depth {
        return Err(11);
    }
    let scale = |c: i128, none: i128| {
        if c == 0 {
            (none, 0)
        } else {
            (o * 2048 / c, o * 2048 % c)
        }
    };
    Ok(Curve {
        o,
        pivots: (0..=16).map(|i| luma[..i].iter().sum()).collect(),
        forward: luma.iter().map(|c| (c * 2048 + o / 2) / o).collect(),
        inverse: luma.iter().map(|&c| scale(c, 0)).collect(),
        chroma: (0..16)
            .map(|i| {
                if coded(i) {
                    scale(luma[i] + crs, 2048)
                } else {
                    (2048, 0)
                }
            })
            .collect(),
        codewords: luma,
    })
}

fn signed(abs: i128, sign: bool) -> i128 {
    if sign {
        -abs
    } else {
        abs
    }
}

fn delta(d: &VvcLmcsData, i: usize) -> i128 {
    signed(d.lmcs_delta_abs_cw[i].into(), d.lmcs_delta_sign_cw_flag[i])
}

fn samples() -> Vec<Tally> {
    let mut rows = [
        "curve: samples",
        "curve: ranges, by each sample in them",
        "curve: samples and ranges refused with 12",
        "curve: samples and ranges refused before 12",
    ]
    .map(Tally::new);
    let mut random = Random::new(43);
    let mut curves = 0;
    while curves < MAPPED {
        let set = near(&mut random);
        let depth = 8 + random.below(5) as u32;
        match model(&set, depth) {
            Ok(curve) => {
                curves += 1;
                whole(&mut rows, &mut random, &set, depth, &curve);
            }
            Err(refused) => {
                let s = random.below(1 << 13) as u32;
                rows[3].same(
                    || format!("sample {s} of {:?}", changed(&set)),
                    sample(&set, depth, s),
                    Err(refused),
                );
                rows[3].same(
                    || format!("range {s} of {:?}", changed(&set)),
                    range(&set, depth, s, 0),
                    Err(refused),
                );
            }
        }
    }
    rows.into()
}

fn sample(set: &[i64], depth: u32, s: u32) -> Words {
    words(set, 1, |set, out| unsafe {
        raw::aps_lmcs_map_sample(set.cast(), depth, s, &mut *out)
    })
}

fn range(set: &[i64], depth: u32, lower: u32, upper: u32) -> Words {
    words(set, 2, |set, out| unsafe {
        raw::aps_lmcs_map_range(set.cast(), depth, lower, upper, out.cast())
    })
}

/// Every sample of a curve, and ranges of them.
fn whole(rows: &mut [Tally; 4], random: &mut Random, set: &[i64], depth: u32, curve: &Curve) {
    let end = 1u32 << depth;
    let mapped: Vec<u32> = (0..end).map(|s| curve.map(s.into()) as u32).collect();
    for (s, &due) in (0..).zip(&mapped) {
        rows[0].same(
            || format!("sample {s} at depth {depth} of {:?}", changed(set)),
            sample(set, depth, s),
            Ok(vec![due]),
        );
    }
    for _ in 0..RANGES {
        let (a, b) = (random.below(end as usize) as u32, random.below(end as usize) as u32);
        let (lower, upper) = (a.min(b), a.max(b));
        let inside = &mapped[lower as usize..=upper as usize];
        let due = vec![
            *inside.iter().min().expect("a sample"),
            *inside.iter().max().expect("a sample"),
        ];
        let asked = || format!("range {lower} to {upper} at depth {depth} of {:?}", changed(set));
        rows[1].same(asked, range(set, depth, lower, upper), Ok(due));
        if lower < upper {
            rows[2].same(
                || format!("range {upper} to {lower}"),
                range(set, depth, upper, lower),
                Err(12),
            );
        }
    }
    for s in [end, end + 1, u32::MAX] {
        rows[2].same(|| format!("sample {s}"), sample(set, depth, s), Err(12));
        rows[2].same(|| format!("range 0 to {s}"), range(set, depth, 0, s), Err(12));
    }
}

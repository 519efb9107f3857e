//! The filters of ALF sets: coefficients and clips of each component at each bit depth, and the weights of each luma filter bit for bit,
//! against a plain model from H.266 7.4.3.18 over the Rust's records.

use crate::expected::meanings::{changed, record_of, Sets};
use crate::h266::aps::{VvcAlfCcFilters, VvcAlfChroma, VvcAlfData, VvcAlfLuma, VvcApsPayload};
use crate::library::meanings::words;
use crate::tally::Tally;
use kendwyra::raw;

const SETS: usize = 100_000;

type Words = Result<Vec<u32>, u32>;

pub fn compare() -> Vec<Tally> {
    let mut rows = [
        "filters: luma",
        "filters: chroma",
        "filters: Cb",
        "filters: Cr",
        "filters: weights",
        "filters: refused with 2",
        "filters: refused with 7",
        "filters: refused with 8",
    ]
    .map(Tally::new);
    let mut sets = Sets::new(40, 0);
    for round in 0..SETS {
        let set = sets.next(round);
        // One depth outside the range beside those in it, and now and then any.
        let odd = [7, 13, 0, u32::MAX][round % 4];
        for depth in (8..=12).chain([odd]) {
            component(&mut rows, 0, &set, depth);
            component(&mut rows, 1, &set, depth);
            component(&mut rows, 2, &set, depth);
            component(&mut rows, 3, &set, depth);
        }
        for filter in (0..25).chain([25, odd]) {
            let (library, expected) = (
                weights(&set, filter),
                expected(&set, filter <= 24, 2, |alf| model_weights(alf, filter)),
            );
            same(
                &mut rows,
                4,
                || format!("weights of filter {filter} of {:?}", changed(&set)),
                library,
                expected,
            );
        }
    }
    rows.into()
}

/// Into the row of what was asked, or of why it was refused.
fn same(rows: &mut [Tally; 8], row: usize, asked: impl FnOnce() -> String, library: Words, expected: Words) {
    let row = match expected {
        Ok(_) => row,
        Err(2) => 5,
        Err(7) => 6,
        Err(_) => 7,
    };
    rows[row].same(asked, library, expected);
}

fn component(rows: &mut [Tally; 8], which: usize, set: &[i64], depth: u32) {
    let library = match which {
        0 => words(set, 600, |set, out| unsafe {
            raw::aps_alf_luma_filters(set.cast(), depth, out.cast())
        }),
        1 => words(set, 97, |set, out| unsafe {
            raw::aps_alf_chroma_filters(set.cast(), depth, out.cast())
        }),
        2 => words(set, 29, |set, out| unsafe {
            raw::aps_alf_cb_filters(set.cast(), depth, out.cast())
        }),
        _ => words(set, 29, |set, out| unsafe {
            raw::aps_alf_cr_filters(set.cast(), depth, out.cast())
        }),
    };
    let expected = expected(set, (8..=12).contains(&depth), 7, |alf| match which {
        0 => alf.luma.as_ref().map(|luma| model_luma(luma, depth)),
        1 => alf.chroma.as_ref().map(|chroma| model_chroma(chroma, depth)),
        2 => alf.cc_cb.as_ref().map(model_cross),
        _ => alf.cc_cr.as_ref().map(model_cross),
    });
    same(
        rows,
        which,
        || format!("component {which} at depth {depth} of {:?}", changed(set)),
        library,
        expected,
    );
}

fn weights(set: &[i64], filter: u32) -> Words {
    words(set, 13, |set, out| unsafe {
        raw::aps_alf_luma_weights(set.cast(), filter, out.cast())
    })
}

/// 2 for a set that the Rust does not write with extension flag 0; then the argument's refusal; then 8 for what was not sent.
fn expected(set: &[i64], allowed: bool, otherwise: u32, model: impl FnOnce(&VvcAlfData) -> Option<Vec<u32>>) -> Words {
    let record = record_of(set).ok_or(2u32)?;
    let VvcApsPayload::Alf(alf) = &record.payload else {
        return Err(2);
    };
    if !allowed {
        return Err(otherwise);
    }
    model(alf).ok_or(8)
}

fn signed(abs: u32, sign: bool) -> i32 {
    if sign {
        -(abs as i32)
    } else {
        abs as i32
    }
}

/// 7.4.3.18: 2 to the power of the bit depth less 0, 3, 5 or 7.
fn clip(depth: u32, index: u8) -> u32 {
    1 << (depth - [0, 3, 5, 7][usize::from(index)])
}

fn model_luma(luma: &VvcAlfLuma, depth: u32) -> Vec<u32> {
    let rows = luma.alf_luma_coeff_delta_idx.map(usize::from);
    let coefficients = rows
        .iter()
        .flat_map(|&r| (0..12).map(move |j| luma_coefficient(luma, r, j) as u32));
    let clips = rows
        .iter()
        .flat_map(|&r| (0..12).map(move |j| clip(depth, luma.clip_idx.get(r).map_or(0, |row| row[j]))));
    coefficients.chain(clips).collect()
}

fn luma_coefficient(luma: &VvcAlfLuma, row: usize, j: usize) -> i32 {
    signed(luma.coeff_abs[row][j], luma.coeff_sign[row][j])
}

fn model_chroma(chroma: &VvcAlfChroma, depth: u32) -> Vec<u32> {
    let count = chroma.alf_chroma_num_alt_filters_minus1 as usize + 1;
    let mut out = vec![0; 1 + 48 + 48];
    out[0] = count as u32;
    for (r, j) in (0..count).flat_map(|r| (0..6).map(move |j| (r, j))) {
        out[1 + 6 * r + j] = signed(chroma.coeff_abs[r][j], chroma.coeff_sign[r][j]) as u32;
        out[49 + 6 * r + j] = clip(depth, chroma.clip_idx.get(r).map_or(0, |row| row[j]));
    }
    out
}

fn model_cross(filters: &VvcAlfCcFilters) -> Vec<u32> {
    let count = filters.filters_signalled_minus1 as usize + 1;
    let mut out = vec![0; 1 + 28];
    out[0] = count as u32;
    for (r, j) in (0..count).flat_map(|r| (0..7).map(move |j| (r, j))) {
        let mapped = filters.mapped_coeff_abs[r][j];
        let power = if mapped == 0 { 0 } else { 1 << (mapped - 1) };
        out[1 + 7 * r + j] = signed(power, filters.coeff_sign[r][j]) as u32;
    }
    out
}

/// Sums in f64, which holds them exactly; each weight is then an f32 exactly, and 0 is +0.
fn model_weights(alf: &VvcAlfData, filter: u32) -> Option<Vec<u32>> {
    let luma = alf.luma.as_ref()?;
    let row = usize::from(luma.alf_luma_coeff_delta_idx[filter as usize]);
    let taps: Vec<f64> = (0..12)
        .map(|j| f64::from(luma_coefficient(luma, row, j)) / 128.0)
        .collect();
    let centre = 1.0 - 2.0 * taps.iter().sum::<f64>();
    let weight = |x: f64| {
        let y = if x == 0.0 { 0.0 } else { x as f32 };
        assert!(f64::from(y) == x, "a multiple of 1/128 is an f32");
        y.to_bits()
    };
    Some(taps.into_iter().chain([centre]).map(weight).collect())
}

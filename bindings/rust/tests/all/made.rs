//! Full sets of each kind, with values that tell the places apart, sets and RBSPs of some 2,048 bytes, and headers of units.

use kendwyra::escapes::rbsp_to_ebsp;
use kendwyra::{Alf, Aps, Held, Kind, Lmcs, Scaling, UnitHeader, LONGEST_RBSP};

/// No unit of a set is longer: after each two bytes of its RBSP there may be an escape.
pub const LONGEST_UNIT: usize = 2 + LONGEST_RBSP * 3 / 2;

/// A row of magnitudes up to `most`, and signs for those that are not 0.
fn row<const W: usize>(at: usize, most: usize) -> ([u32; W], [bool; W]) {
    let abs: [u32; W] = std::array::from_fn(|j| ((at * W + j) % (most + 1)) as u32);
    (abs, abs.map(|x| x % 3 == 1))
}

/// Cross-component filters up to a count, the first at row `at` of the values.
fn cross(count: usize, at: usize) -> ([[u8; 7]; 4], [[bool; 7]; 4]) {
    let row = |i: usize| {
        if i < count {
            row(at + i, 7)
        } else {
            ([0; 7], [false; 7])
        }
    };
    (
        std::array::from_fn(|i| row(i).0.map(|x| x as u8)),
        std::array::from_fn(|i| row(i).1),
    )
}

pub fn alf(id: u8) -> Alf {
    let (cb, cr) = (cross(4, 0), cross(2, 5));
    Alf {
        aps_adaptation_parameter_set_id: id,
        aps_chroma_present_flag: true,
        aps_extension_flag: false,
        alf_luma_filter_signal_flag: true,
        alf_chroma_filter_signal_flag: true,
        alf_cc_cb_filter_signal_flag: true,
        alf_cc_cr_filter_signal_flag: true,
        alf_luma_clip_flag: true,
        alf_luma_num_filters_signalled_minus1: 24,
        alf_luma_coeff_delta_idx: std::array::from_fn(|i| 24 - i as u8),
        alf_luma_coeff_abs: std::array::from_fn(|i| row(i, 128).0),
        alf_luma_coeff_sign: std::array::from_fn(|i| row::<12>(i, 128).1),
        alf_luma_clip_idx: std::array::from_fn(|i| std::array::from_fn(|j| ((i + j) % 4) as u8)),
        alf_chroma_clip_flag: true,
        alf_chroma_num_alt_filters_minus1: 7,
        alf_chroma_coeff_abs: std::array::from_fn(|i| row(i, 128).0),
        alf_chroma_coeff_sign: std::array::from_fn(|i| row::<6>(i, 128).1),
        alf_chroma_clip_idx: std::array::from_fn(|i| std::array::from_fn(|j| ((i * j) % 4) as u8)),
        alf_cc_cb_filters_signalled_minus1: 3,
        alf_cc_cb_mapped_coeff_abs: cb.0,
        alf_cc_cb_coeff_sign: cb.1,
        alf_cc_cr_filters_signalled_minus1: 1,
        alf_cc_cr_mapped_coeff_abs: cr.0,
        alf_cc_cr_coeff_sign: cr.1,
    }
}

pub fn lmcs(id: u8) -> Lmcs {
    let bin = |i: usize| (2..=12).contains(&i);
    Lmcs {
        aps_adaptation_parameter_set_id: id,
        aps_chroma_present_flag: true,
        aps_extension_flag: false,
        lmcs_min_bin_idx: 2,
        lmcs_delta_max_bin_idx: 3,
        lmcs_delta_cw_prec_minus1: 14,
        lmcs_delta_abs_cw: std::array::from_fn(|i| if bin(i) { 2000 * i as u32 } else { 0 }),
        lmcs_delta_sign_cw_flag: std::array::from_fn(|i| bin(i) && i % 3 == 1),
        lmcs_delta_abs_crs: 5,
        lmcs_delta_sign_crs_flag: true,
    }
}

/// Whether entry i of the diagonal scan is at column and row 4 or more.
fn in_corner(i: usize) -> bool {
    let diagonals = (0..15).flat_map(|d| (0..8).filter(move |x| *x <= d && d - x < 8).map(move |x| (x, d - x)));
    let (x, y): (usize, usize) = diagonals.into_iter().nth(i).unwrap();
    x >= 4 && y >= 4
}

/// Every third list copied, every third predicted.
pub fn scaling(id: u8) -> Scaling {
    let mut d = Scaling {
        aps_adaptation_parameter_set_id: id,
        aps_chroma_present_flag: true,
        ..Scaling::default()
    };
    for list in 0..28 {
        d.scaling_list_copy_mode_flag[list] = list % 3 == 0;
        d.scaling_list_pred_mode_flag[list] = list % 3 == 1;
        if list % 3 != 2 && list != 0 {
            d.scaling_list_pred_id_delta[list] = (list % 2) as u32;
        }
        if list % 3 == 0 {
            continue;
        }
        let mut sum = 0;
        if list > 13 {
            d.scaling_list_dc_coef[list - 14] = 100 - list as i32 * 8;
            sum = d.scaling_list_dc_coef[list - 14];
        }
        let entries = [4, 16, 64][usize::from(list > 1) + usize::from(list > 7)];
        for i in 0..entries {
            if list < 26 || !in_corner(i) {
                sum += i as i32 - list as i32;
            }
            d.scaling_list[list][i] = sum;
        }
    }
    d
}

/// The 28 lists coded, by a DC and steps.
pub fn stepped(id: u8, dc: i32, mut steps: impl Iterator<Item = i32>) -> Scaling {
    let mut d = Scaling {
        aps_adaptation_parameter_set_id: id,
        aps_chroma_present_flag: true,
        scaling_list_dc_coef: [dc; 14],
        ..Scaling::default()
    };
    for list in 0..28 {
        let mut sum = if list > 13 { dc } else { 0 };
        for i in 0..[4, 16, 64][usize::from(list > 1) + usize::from(list > 7)] {
            if list < 26 || !in_corner(i) {
                sum += steps.next().unwrap();
            }
            d.scaling_list[list][i] = sum;
        }
    }
    d
}

/// With so many longer steps `long_lists` has just 2,048 bytes, and 2,049 with one more.
pub const LONGER_STEPS: usize = 715;

/// The 28 lists coded by steps up and down, so many of 13 bits and then of 11.
pub fn long_lists(id: u8, longer: usize) -> Scaling {
    let sizes = std::iter::repeat_n(40, longer).chain(std::iter::repeat(20));
    stepped(
        id,
        0,
        sizes.zip([1, -1].into_iter().cycle()).map(|(size, sign)| size * sign),
    )
}

/// The RBSP of a small set of a kind and an id, followed by one byte again and again, and by 80: in a stream no unit ends in a zero.
pub fn followed(kind: Kind, id: u8, byte: u8, len: usize) -> Vec<u8> {
    let small: &[u8] = match kind {
        Kind::Alf => &[0x00, 0x10],
        Kind::Lmcs => &[0x20, 0x42, 0x12],
        Kind::Scaling => &[0x40, 0x7F, 0xFF, 0xE8],
    };
    let mut rbsp = vec![byte; len];
    rbsp[..small.len()].copy_from_slice(small);
    rbsp[0] += id;
    if small.len() < len {
        rbsp[len - 1] = 0x80;
    }
    rbsp
}

/// An RBSP as a unit.
pub fn unit(header: UnitHeader, rbsp: &[u8]) -> Vec<u8> {
    let mut unit = vec![0; 2 + rbsp.len() * 3 / 2];
    let len = rbsp_to_ebsp(rbsp, &mut unit[2..]).unwrap();
    unit[0] = header.nuh_layer_id;
    unit[1] = header.nal_unit_type * 8 + header.nuh_temporal_id_plus1;
    unit.truncate(2 + len);
    unit
}

/// Units in the byte stream form.
pub fn stream(units: &[Vec<u8>]) -> Vec<u8> {
    units.iter().flat_map(|unit| [&[0, 0, 1], &unit[..]].concat()).collect()
}

/// A set for each of the 20 places.
pub fn all() -> Vec<Aps> {
    let ids = |kind: Kind| 0..=kind.max_id();
    let luma_filters = ids(Kind::Alf).map(|id| Aps::Alf(alf(id)));
    let luma_mapping = ids(Kind::Lmcs).map(|id| Aps::Lmcs(lmcs(id)));
    let lists = ids(Kind::Scaling).map(|id| Aps::Scaling(scaling(id)));
    luma_filters.chain(luma_mapping).chain(lists).collect()
}

pub fn header(nal_unit_type: u8, nuh_layer_id: u8, nuh_temporal_id_plus1: u8) -> UnitHeader {
    UnitHeader {
        nal_unit_type,
        nuh_layer_id,
        nuh_temporal_id_plus1,
    }
}

/// The same sets, each with a header of its own.
pub fn held() -> Vec<Held<Aps>> {
    let headers = (0..20).map(|i| header(17 + i % 2, 55 - i, 1 + i % 7));
    let held = |(header, set)| Held { header, set };
    headers.zip(all()).map(held).collect()
}

/// Whether a unit of a header is read and written.
pub fn is_taken(header: UnitHeader) -> bool {
    matches!(header.nal_unit_type, 17 | 18)
        && header.nuh_layer_id < 56
        && (1..8).contains(&header.nuh_temporal_id_plus1)
}

//! The Rust's record as the crate's: field by field, with no numbers in between.

use crate::h266::aps::{VvcAlfData, VvcAps, VvcApsPayload, VvcLmcsData, VvcScalingListData};
use crate::tally::Tally;
use kendwyra::{Alf, Aps, Lmcs, Refusal, Scaling};

/// A set's fields, or the refusal's number.
pub fn same(t: &mut Tally, asked: impl Fn() -> String, ours: Result<Aps, Refusal>, rust: Result<&VvcAps, u32>) {
    t.same(asked, ours.map_err(Refusal::number), rust.map(set));
}

/// The Rust's rows, and zeros after them.
fn rows<T: Copy + Default, const W: usize, const N: usize>(rows: &[[T; W]]) -> [[T; W]; N] {
    let mut out = [[T::default(); W]; N];
    out[..rows.len()].copy_from_slice(rows);
    out
}

fn alf(d: &VvcAlfData) -> Alf {
    let luma = d.luma.clone().unwrap_or_default();
    let chroma = d.chroma.clone().unwrap_or_default();
    let cb = d.cc_cb.clone().unwrap_or_default();
    let cr = d.cc_cr.clone().unwrap_or_default();
    Alf {
        alf_luma_filter_signal_flag: d.alf_luma_filter_signal_flag,
        alf_chroma_filter_signal_flag: d.alf_chroma_filter_signal_flag,
        alf_cc_cb_filter_signal_flag: d.alf_cc_cb_filter_signal_flag,
        alf_cc_cr_filter_signal_flag: d.alf_cc_cr_filter_signal_flag,
        alf_luma_clip_flag: luma.alf_luma_clip_flag,
        alf_luma_num_filters_signalled_minus1: luma.alf_luma_num_filters_signalled_minus1,
        alf_luma_coeff_delta_idx: luma.alf_luma_coeff_delta_idx,
        alf_luma_coeff_abs: rows(&luma.coeff_abs),
        alf_luma_coeff_sign: rows(&luma.coeff_sign),
        alf_luma_clip_idx: rows(&luma.clip_idx),
        alf_chroma_clip_flag: chroma.alf_chroma_clip_flag,
        alf_chroma_num_alt_filters_minus1: chroma.alf_chroma_num_alt_filters_minus1,
        alf_chroma_coeff_abs: rows(&chroma.coeff_abs),
        alf_chroma_coeff_sign: rows(&chroma.coeff_sign),
        alf_chroma_clip_idx: rows(&chroma.clip_idx),
        alf_cc_cb_filters_signalled_minus1: cb.filters_signalled_minus1,
        alf_cc_cb_mapped_coeff_abs: rows(&cb.mapped_coeff_abs),
        alf_cc_cb_coeff_sign: rows(&cb.coeff_sign),
        alf_cc_cr_filters_signalled_minus1: cr.filters_signalled_minus1,
        alf_cc_cr_mapped_coeff_abs: rows(&cr.mapped_coeff_abs),
        alf_cc_cr_coeff_sign: rows(&cr.coeff_sign),
        ..Alf::default()
    }
}

fn lmcs(d: &VvcLmcsData) -> Lmcs {
    Lmcs {
        lmcs_min_bin_idx: d.lmcs_min_bin_idx,
        lmcs_delta_max_bin_idx: d.lmcs_delta_max_bin_idx,
        lmcs_delta_cw_prec_minus1: d.lmcs_delta_cw_prec_minus1,
        lmcs_delta_abs_cw: d.lmcs_delta_abs_cw,
        lmcs_delta_sign_cw_flag: d.lmcs_delta_sign_cw_flag,
        lmcs_delta_abs_crs: d.lmcs_delta_abs_crs,
        lmcs_delta_sign_crs_flag: d.lmcs_delta_sign_crs_flag,
        ..Lmcs::default()
    }
}

fn scaling(d: &VvcScalingListData) -> Scaling {
    Scaling {
        scaling_list_copy_mode_flag: d.copy_mode_flag,
        scaling_list_pred_mode_flag: d.pred_mode_flag,
        scaling_list_pred_id_delta: d.pred_id_delta,
        scaling_list_dc_coef: d.dc_coef,
        scaling_list: d.scaling_list,
        ..Scaling::default()
    }
}

pub fn set(record: &VvcAps) -> Aps {
    macro_rules! with_head {
        ($kind:ident, $fields:expr) => {
            Aps::$kind($kind {
                aps_adaptation_parameter_set_id: record.aps_adaptation_parameter_set_id,
                aps_chroma_present_flag: record.aps_chroma_present_flag,
                aps_extension_flag: record.aps_extension_flag,
                ..$fields
            })
        };
    }
    match &record.payload {
        VvcApsPayload::Alf(d) => with_head!(Alf, alf(d)),
        VvcApsPayload::Lmcs(d) => with_head!(Lmcs, lmcs(d)),
        VvcApsPayload::ScalingList(d) => with_head!(Scaling, scaling(d)),
    }
}

//! The structs' sizes and the places of their fields, as a C compiler has them from include/kendwyra.h.

use kendwyra::{
    Alf, CcFilters, ChromaFilters, Ends, Head, Lmcs, LumaCurve, LumaFilters, LumaWeights, Scaling, UnitHeader,
};
use kendwyra::hevc::Lists;
use std::mem::{align_of, offset_of, size_of, size_of_val};

/// Checks a struct's size and alignment, and the offset and the size of each field; the fields are all that it has.
macro_rules! layout {
    ($set:ident: $size:literal, $align:literal; $($field:ident: $offset:literal, $bytes:literal;)*) => {
        assert_eq!(size_of::<$set>(), $size);
        assert_eq!(align_of::<$set>(), $align);
        let $set { $($field),* } = $set::default();
        $(
            assert_eq!(offset_of!($set, $field), $offset, stringify!($field));
            assert_eq!(size_of_val(&$field), $bytes, stringify!($field));
        )*
    };
}

#[test]
fn head() {
    layout! {
        Head: 4, 1;
        kind: 0, 1;
        aps_adaptation_parameter_set_id: 1, 1;
        aps_chroma_present_flag: 2, 1;
        aps_extension_flag: 3, 1;
    }
}

#[test]
fn unit_header() {
    layout! {
        UnitHeader: 3, 1;
        nal_unit_type: 0, 1;
        nuh_layer_id: 1, 1;
        nuh_temporal_id_plus1: 2, 1;
    }
}

#[test]
fn alf() {
    layout! {
        Alf: 2256, 4;
        aps_adaptation_parameter_set_id: 0, 1;
        aps_chroma_present_flag: 1, 1;
        aps_extension_flag: 2, 1;
        alf_luma_filter_signal_flag: 3, 1;
        alf_chroma_filter_signal_flag: 4, 1;
        alf_cc_cb_filter_signal_flag: 5, 1;
        alf_cc_cr_filter_signal_flag: 6, 1;
        alf_luma_clip_flag: 7, 1;
        alf_luma_num_filters_signalled_minus1: 8, 4;
        alf_luma_coeff_delta_idx: 12, 25;
        alf_luma_coeff_abs: 40, 1200;
        alf_luma_coeff_sign: 1240, 300;
        alf_luma_clip_idx: 1540, 300;
        alf_chroma_clip_flag: 1840, 1;
        alf_chroma_num_alt_filters_minus1: 1844, 4;
        alf_chroma_coeff_abs: 1848, 192;
        alf_chroma_coeff_sign: 2040, 48;
        alf_chroma_clip_idx: 2088, 48;
        alf_cc_cb_filters_signalled_minus1: 2136, 4;
        alf_cc_cb_mapped_coeff_abs: 2140, 28;
        alf_cc_cb_coeff_sign: 2168, 28;
        alf_cc_cr_filters_signalled_minus1: 2196, 4;
        alf_cc_cr_mapped_coeff_abs: 2200, 28;
        alf_cc_cr_coeff_sign: 2228, 28;
    }
}

#[test]
fn lmcs() {
    layout! {
        Lmcs: 100, 4;
        aps_adaptation_parameter_set_id: 0, 1;
        aps_chroma_present_flag: 1, 1;
        aps_extension_flag: 2, 1;
        lmcs_min_bin_idx: 4, 4;
        lmcs_delta_max_bin_idx: 8, 4;
        lmcs_delta_cw_prec_minus1: 12, 4;
        lmcs_delta_abs_cw: 16, 64;
        lmcs_delta_sign_cw_flag: 80, 16;
        lmcs_delta_abs_crs: 96, 1;
        lmcs_delta_sign_crs_flag: 97, 1;
    }
}

#[test]
fn scaling() {
    layout! {
        Scaling: 7396, 4;
        aps_adaptation_parameter_set_id: 0, 1;
        aps_chroma_present_flag: 1, 1;
        aps_extension_flag: 2, 1;
        scaling_list_copy_mode_flag: 3, 28;
        scaling_list_pred_mode_flag: 31, 28;
        scaling_list_pred_id_delta: 60, 112;
        scaling_list_dc_coef: 172, 56;
        scaling_list: 228, 7168;
    }
}

#[test]
fn filters() {
    layout! {
        LumaFilters: 2400, 4;
        coefficients: 0, 1200;
        clips: 1200, 1200;
    }
    layout! {
        ChromaFilters: 388, 4;
        count: 0, 4;
        coefficients: 4, 192;
        clips: 196, 192;
    }
    layout! {
        CcFilters: 116, 4;
        count: 0, 4;
        coefficients: 4, 112;
    }
    layout! {
        LumaWeights: 52, 4;
        taps: 0, 48;
        centre: 48, 4;
    }
}

#[test]
fn curve() {
    layout! {
        LumaCurve: 452, 4;
        codewords: 0, 64;
        pivots: 64, 68;
        forward: 132, 64;
        inverse: 196, 64;
        inverse_rest: 260, 64;
        chroma: 324, 64;
        chroma_rest: 388, 64;
    }
    layout! {
        Ends: 8, 4;
        least: 0, 4;
        greatest: 4, 4;
    }
}

#[test]
fn hevc() {
    layout! {
        Lists: 1416, 4;
        pred_mode_flag: 0, 24;
        pred_matrix_id_delta: 24, 96;
        dc_coef_minus8: 120, 48;
        list_4x4: 168, 96;
        list_8x8: 264, 384;
        list_16x16: 648, 384;
        list_32x32: 1032, 384;
    }
}

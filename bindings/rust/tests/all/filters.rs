//! The filters of ALF sets as they act.

use kendwyra::{Alf, Refusal};

/// Two luma filters, of which filter 3 alone is the second; an alternative; Cb and Cr.
fn all_components() -> Alf {
    let mut alf = Alf {
        aps_chroma_present_flag: true,
        alf_luma_filter_signal_flag: true,
        alf_chroma_filter_signal_flag: true,
        alf_cc_cb_filter_signal_flag: true,
        alf_cc_cr_filter_signal_flag: true,
        alf_luma_clip_flag: true,
        alf_luma_num_filters_signalled_minus1: 1,
        alf_cc_cr_filters_signalled_minus1: 3,
        ..Alf::default()
    };
    alf.alf_luma_coeff_delta_idx[3] = 1;
    alf.alf_luma_coeff_abs[1][..2].copy_from_slice(&[128, 1]);
    alf.alf_luma_coeff_sign[1][0] = true;
    alf.alf_luma_clip_idx[1][..4].copy_from_slice(&[0, 1, 2, 3]);
    alf.alf_chroma_coeff_abs[0][5] = 7;
    alf.alf_cc_cb_mapped_coeff_abs[0] = [0, 1, 2, 3, 4, 5, 7];
    alf.alf_cc_cb_coeff_sign[0][6] = true;
    alf
}

#[test]
fn luma() {
    let filters = all_components().luma_filters(10).unwrap();
    assert_eq!(filters.coefficients[3], [-128, 1, 0, 0, 0, 0, 0, 0, 0, 0, 0, 0]);
    assert_eq!(filters.clips[3][..5], [1024, 128, 32, 8, 1024]);
    for i in (0..25).filter(|&i| i != 3) {
        assert_eq!((filters.coefficients[i], filters.clips[i]), ([0; 12], [1024; 12]));
    }
}

#[test]
fn chroma() {
    let filters = all_components().chroma_filters(8).unwrap();
    assert_eq!(filters.count, 1);
    assert_eq!(filters.coefficients[0], [0, 0, 0, 0, 0, 7]);
    assert_eq!(filters.clips[0], [256; 6]);
    assert_eq!((filters.coefficients[1], filters.clips[1]), ([0; 6], [0; 6]));
}

#[test]
fn cross_component() {
    let alf = all_components();
    let cb = alf.cb_filters(12).unwrap();
    assert_eq!((cb.count, cb.coefficients[0]), (1, [0, 1, 2, 4, 8, 16, -64]));
    assert_eq!(alf.cr_filters(12).unwrap().count, 4);
}

#[test]
fn weights() {
    let weights = all_components().luma_weights(3).unwrap();
    assert_eq!(weights.taps[..3], [-1.0, 1.0 / 128.0, 0.0]);
    assert_eq!(weights.centre, 1.0 + 254.0 / 128.0);
    assert!(weights.taps[2].is_sign_positive());
}

#[test]
fn refusals() {
    let depth = Refusal::DepthOutOfRange;
    let alf = all_components();
    for wrong in [0, 7, 13, u32::MAX] {
        assert_eq!(alf.luma_filters(wrong), Err(depth));
        assert_eq!(alf.chroma_filters(wrong), Err(depth));
        assert_eq!(alf.cb_filters(wrong), Err(depth));
        assert_eq!(alf.cr_filters(wrong), Err(depth));
    }
    assert_eq!(alf.luma_weights(25), Err(Refusal::InvalidData));
    let none = Alf::default();
    assert_eq!(none.luma_filters(7), Err(depth));
    assert_eq!(none.luma_filters(8), Err(Refusal::NotSent));
    assert_eq!(none.chroma_filters(8), Err(Refusal::NotSent));
    assert_eq!(none.cb_filters(8), Err(Refusal::NotSent));
    assert_eq!(none.cr_filters(8), Err(Refusal::NotSent));
    assert_eq!(none.luma_weights(25), Err(Refusal::InvalidData));
    assert_eq!(none.luma_weights(24), Err(Refusal::NotSent));
    let extended = Alf {
        aps_extension_flag: true,
        ..all_components()
    };
    assert_eq!(extended.luma_filters(10), alf.luma_filters(10));
    let mut wrong = all_components();
    wrong.alf_luma_coeff_abs[0][0] = 129;
    assert_eq!(wrong.luma_filters(7), Err(Refusal::InvalidData));
    assert_eq!(wrong.luma_weights(3), Err(Refusal::InvalidData));
}

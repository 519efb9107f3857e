//! Luma curves, divided exactly, and where samples land.

use kendwyra::{Ends, Lmcs, Refusal};

/// Bins 1 to 14 with delta 0 but for bin 1, which has 4 more.
fn bins() -> Lmcs {
    let mut set = Lmcs {
        lmcs_min_bin_idx: 1,
        lmcs_delta_max_bin_idx: 1,
        lmcs_delta_cw_prec_minus1: 5,
        ..Lmcs::default()
    };
    set.lmcs_delta_abs_cw[1] = 4;
    set
}

#[test]
fn tables() {
    let curve = bins().luma_curve(10).unwrap();
    assert_eq!(curve.codewords[..3], [0, 68, 64]);
    assert_eq!(curve.pivots[..4], [0, 0, 68, 132]);
    assert_eq!(curve.pivots[16], 68 + 13 * 64);
    assert_eq!(curve.forward[..3], [0, 68 * 32, 2048]);
    assert_eq!((curve.inverse[1], curve.inverse_rest[1]), (131_072 / 68, 131_072 % 68));
    assert_eq!((curve.inverse[0], curve.inverse_rest[0]), (0, 0));
    assert_eq!((curve.chroma[0], curve.chroma_rest[0]), (2048, 0));
    assert_eq!((curve.chroma[1], curve.chroma_rest[1]), (131_072 / 68, 131_072 % 68));
}

#[test]
fn samples() {
    let set = bins();
    assert_eq!(set.map_sample(10, 0), Ok(0));
    assert_eq!(set.map_sample(10, 63), Ok(0));
    assert_eq!(set.map_sample(10, 127), Ok(67));
    assert_eq!(set.map_sample(10, 128), Ok(68));
    assert_eq!(set.map_sample(10, 1023), Ok(900));
    let ends = Ends { least: 67, greatest: 68 };
    assert_eq!(set.map_range(10, 127, 128), Ok(ends));
}

#[test]
fn refusals() {
    let set = bins();
    assert_eq!(set.luma_curve(7), Err(Refusal::DepthOutOfRange));
    assert_eq!(set.luma_curve(13), Err(Refusal::DepthOutOfRange));
    assert_eq!(set.map_sample(13, 1 << 13), Err(Refusal::DepthOutOfRange));
    assert_eq!(set.map_sample(10, 1024), Err(Refusal::SampleOutOfRange));
    assert_eq!(set.map_range(10, 5, 4), Err(Refusal::SampleOutOfRange));
    assert_eq!(set.map_range(10, 4, 1024), Err(Refusal::SampleOutOfRange));
    let all = Lmcs::default();
    assert_eq!(all.luma_curve(8), Err(Refusal::CodewordsTooLarge));
    assert_eq!(all.map_sample(8, 256), Err(Refusal::CodewordsTooLarge));
    let mut low = bins();
    (low.lmcs_delta_abs_cw[1], low.lmcs_delta_sign_cw_flag[1]) = (57, true);
    assert_eq!(low.luma_curve(10), Err(Refusal::CodewordOutOfRange));
    let mut none = bins();
    none.lmcs_min_bin_idx = 16;
    assert_eq!(none.luma_curve(7), Err(Refusal::InvalidData));
}

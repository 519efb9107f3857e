//! Scaling factors by row and column.

use kendwyra::{Refusal, Scaling};

/// Every list coded: id 8 alone is sent, with steps of 1, the others are copies of 16, but for 14, which is a copy of 8.
fn lists() -> Scaling {
    let mut set = Scaling {
        aps_chroma_present_flag: true,
        scaling_list_copy_mode_flag: [true; 28],
        ..Scaling::default()
    };
    set.scaling_list_copy_mode_flag[8] = false;
    set.scaling_list[8] = std::array::from_fn(|i| i as i32 + 1);
    set.scaling_list_pred_id_delta[14] = 6;
    set.scaling_list_pred_id_delta[20] = 6;
    set
}

#[test]
fn matrices() {
    let set = lists();
    assert_eq!(set.matrix2(0), Ok([[16; 2]; 2]));
    assert_eq!(set.matrix4(7), Ok([[16; 4]; 4]));
    let matrix = set.matrix8(8).unwrap();
    // Position 1 of the scan is row 1, column 0, and position 2 is row 0, column 1.
    assert_eq!((matrix[0][0], matrix[1][0], matrix[0][1], matrix[7][7]), (9, 10, 11, 72));
    assert_eq!(set.matrix8(14), Ok(matrix));
    assert_eq!(set.matrix8(20), Ok(matrix));
    assert_eq!((set.dc(14), set.dc(20), set.dc(15)), (Ok(9), Ok(9), Ok(16)));
}

#[test]
fn refusals() {
    let set = lists();
    for id in [0, 1, 8, 27, 28, u32::MAX] {
        assert_eq!(set.matrix4(id), Err(Refusal::InvalidData));
    }
    assert_eq!(set.matrix8(7), Err(Refusal::InvalidData));
    assert_eq!(set.matrix8(28), Err(Refusal::InvalidData));
    assert_eq!(set.matrix2(2), Err(Refusal::InvalidData));
    assert_eq!(set.dc(13), Err(Refusal::InvalidData));
    let mut zero = lists();
    zero.scaling_list[8][5] = -8;
    assert_eq!(zero.matrix2(0), Err(Refusal::ZeroFactor));
    assert_eq!(zero.dc(27), Err(Refusal::ZeroFactor));
    assert_eq!(zero.matrix2(2), Err(Refusal::InvalidData));
    let mut far = lists();
    far.scaling_list_pred_id_delta[14] = 7;
    assert_eq!(far.matrix2(0), Err(Refusal::InvalidData));
}

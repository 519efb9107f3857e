//! H.265 scaling lists, and the sets made of them.

use kendwyra::hevc::{scaling_set, Lists};
use kendwyra::{Refusal, LONGEST_INPUT, LONGEST_RBSP};

/// 20 lists, each predicted with a delta of 0.
const DEFAULTS: [u8; 5] = [0x55; 5];

#[test]
fn defaults() {
    let (lists, end) = Lists::read(&DEFAULTS).unwrap();
    assert_eq!((lists, end), (Lists::default(), 40));
    let set = scaling_set(&DEFAULTS).unwrap();
    assert_eq!(set.matrix4(7), Ok([[16; 4]; 4]));
    let (intra, inter) = (set.matrix8(8).unwrap(), set.matrix8(11).unwrap());
    assert_eq!((intra[7][7], inter[7][7], intra[0][4]), (115, 91, 17));
    assert_eq!(set.matrix8(20), Ok(intra));
    assert_eq!(set.matrix8(23), Ok(inter));
    assert_eq!((set.matrix8(21), set.dc(14), set.dc(27)), (Ok([[16; 8]; 8]), Ok(16), Ok(16)));
}

#[test]
fn sent() {
    let mut lists = Lists::default();
    lists.pred_mode_flag[3][0] = true;
    lists.dc_coef_minus8[1][0] = -7;
    lists.list_32x32[0] = std::array::from_fn(|i| 255 - i as u8);
    lists.pred_matrix_id_delta[3][3] = 1;
    let mut out = [0; LONGEST_RBSP];
    let len = lists.write(&mut out).unwrap();
    let (read, end) = Lists::read(&out[..len]).unwrap();
    assert_eq!((&read, end.div_ceil(8)), (&lists, len));
    let set = scaling_set(&out[..len]).unwrap();
    let matrix = set.matrix8(20).unwrap();
    assert_eq!((matrix[0][0], matrix[1][0], matrix[7][7]), (255, 254, 192));
    assert_eq!((set.matrix8(23), set.dc(20), set.dc(23)), (Ok(matrix), Ok(1), Ok(1)));
}

#[test]
fn refusals() {
    assert_eq!(Lists::read(&[]), Err(Refusal::UnexpectedEnd));
    assert_eq!(scaling_set(&DEFAULTS[..4]), Err(Refusal::UnexpectedEnd));
    // The first list has no matrix before it.
    assert_eq!(scaling_set(&[0x25]), Err(Refusal::InvalidData));
    assert_eq!(Lists::read(&vec![0x55; LONGEST_INPUT + 1]), Err(Refusal::InputTooLong));
    let mut lists = Lists::default();
    lists.pred_mode_flag[0][0] = true;
    lists.list_4x4[0] = [1; 16];
    lists.list_4x4[0][9] = 0;
    let mut out = [0; LONGEST_RBSP];
    let len = lists.write(&mut out).unwrap();
    assert_eq!(scaling_set(&out[..len]), Err(Refusal::ZeroElement));
    assert_eq!(lists.write(&mut out[..len - 1]), Err(Refusal::OutputTooShort));
    lists.pred_matrix_id_delta[3][3] = 2;
    assert_eq!(lists.write(&mut []), Err(Refusal::InvalidData));
}

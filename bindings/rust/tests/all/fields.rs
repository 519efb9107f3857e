//! Sets from bits that are written out, field by field.

use crate::bytes::bits;
use kendwyra::sets::{nal_header, read, read_unit, NalHeader};
use kendwyra::{Alf, Aps, Head, Kind, Lmcs, Refusal, Scaling};

#[test]
fn alf() {
    let chroma = "1 010  010 1 1 1 1 1 1  01 10 11 00 00 00  1 1 1 1 1 011 0  00 00 00 00 00 11";
    let cb = "1  111 1 000 000 000 000 000 000";
    let cr = "010  000 000 000 000 000 000 001 0  010 1 000 000 000 000 000 000";
    let (set, _) = read(&bits(&format!("000 00101 1  0 1 1 1  {chroma} {cb} {cr}  0 1"))).unwrap();

    let mut due = Alf {
        aps_adaptation_parameter_set_id: 5,
        aps_chroma_present_flag: true,
        ..Alf::default()
    };
    due.alf_chroma_filter_signal_flag = true;
    due.alf_cc_cb_filter_signal_flag = true;
    due.alf_cc_cr_filter_signal_flag = true;
    due.alf_chroma_clip_flag = true;
    due.alf_chroma_num_alt_filters_minus1 = 1;
    due.alf_chroma_coeff_abs[0][0] = 1;
    due.alf_chroma_coeff_sign[0][0] = true;
    due.alf_chroma_coeff_abs[1][5] = 2;
    due.alf_chroma_clip_idx[0] = [1, 2, 3, 0, 0, 0];
    due.alf_chroma_clip_idx[1][5] = 3;
    due.alf_cc_cb_mapped_coeff_abs[0][0] = 7;
    due.alf_cc_cb_coeff_sign[0][0] = true;
    due.alf_cc_cr_filters_signalled_minus1 = 1;
    due.alf_cc_cr_mapped_coeff_abs[0][6] = 1;
    due.alf_cc_cr_mapped_coeff_abs[1][0] = 2;
    due.alf_cc_cr_coeff_sign[1][0] = true;
    assert_eq!(set, Aps::Alf(due));
}

#[test]
fn luma() {
    let indexes = "1".repeat(2) + &"0".repeat(23);
    let first = "000000010000001 1".to_string() + &"1".repeat(11);
    let second = "1".repeat(11) + "010 0";
    let clips = "01".to_string() + &"00".repeat(22) + "10";
    let (set, _) = read(&bits(&format!(
        "000 00000 0  1  1 010 {indexes} {first} {second} {clips}  0 1"
    )))
    .unwrap();

    let mut due = Alf {
        alf_luma_filter_signal_flag: true,
        alf_luma_clip_flag: true,
        alf_luma_num_filters_signalled_minus1: 1,
        ..Alf::default()
    };
    due.alf_luma_coeff_delta_idx[..2].fill(1);
    due.alf_luma_coeff_abs[0][0] = 128;
    due.alf_luma_coeff_sign[0][0] = true;
    due.alf_luma_coeff_abs[1][11] = 1;
    due.alf_luma_clip_idx[0][0] = 1;
    due.alf_luma_clip_idx[1][11] = 2;
    assert_eq!(set, Aps::Alf(due));
}

#[test]
fn lmcs() {
    let rbsp = bits("001 00011 1  010 0001110 011  101 1 000  110 0  0 1");
    let mut due = Lmcs {
        aps_adaptation_parameter_set_id: 3,
        aps_chroma_present_flag: true,
        ..Lmcs::default()
    };
    due.lmcs_min_bin_idx = 1;
    due.lmcs_delta_max_bin_idx = 13;
    due.lmcs_delta_cw_prec_minus1 = 2;
    due.lmcs_delta_abs_cw[1] = 5;
    due.lmcs_delta_sign_cw_flag[1] = true;
    due.lmcs_delta_abs_crs = 6;
    assert_eq!(due.lmcs_max_bin_idx(), 2);
    assert_eq!(read(&rbsp), Ok((Aps::Lmcs(due), 40)));
}

#[test]
fn scaling() {
    let list_2 = "0 0 010".to_string() + &"1".repeat(15);
    let list_11 = "0 1 1".to_string() + &"1".repeat(64);
    let list_14 = "0 0 00000000100000001 000000011111110".to_string() + &"1".repeat(63);
    let copied = "1 1 ".repeat(4);
    let lists = format!("{list_2} 1 00100 1 {list_11} {list_14} {copied} 1 000010100");
    let (set, _) = read(&bits(&format!("010 00111 0  {lists}  0 1"))).unwrap();

    let mut due = Scaling {
        aps_adaptation_parameter_set_id: 7,
        ..Scaling::default()
    };
    due.scaling_list_copy_mode_flag = std::array::from_fn(|id| ![2, 11, 14].contains(&id));
    due.scaling_list_pred_mode_flag[11] = true;
    due.scaling_list_pred_id_delta[5] = 3;
    due.scaling_list_pred_id_delta[27] = 19;
    due.scaling_list_dc_coef[0] = -128;
    due.scaling_list[2][..16].fill(1);
    due.scaling_list[14].fill(-1);
    assert_eq!(set, Aps::Scaling(due));
}

#[test]
fn unit() {
    let unit = bits("0 0 000011 10010 101  001 00000  0 1 000010000 1 0 0 10");
    let header = NalHeader {
        forbidden_zero_bit: 0,
        nuh_reserved_zero_bit: 0,
        nuh_layer_id: 3,
        nal_unit_type: 18,
        nuh_temporal_id_plus1: 5,
    };
    let due = Head {
        kind: Kind::Lmcs,
        ..Head::default()
    };
    let mut work = [9; 4];
    assert_eq!(nal_header(&unit), Ok(header));
    assert_eq!(Head::read_unit(&unit, &mut work), Ok((due, 24)));
    assert_eq!(read_unit(&unit, &mut work), read(&[0x20, 0x42, 0x12]));
    assert_eq!(work, [0x20, 0x42, 0x12, 9]);
}

/// What `nal_header` gives without a judgement.
#[test]
fn units_whose_headers_are_refused() {
    let rows = [
        ("1 0 000011 10010 101", [1, 0, 3, 18, 5]),
        ("0 1 000011 10010 101", [0, 1, 3, 18, 5]),
        ("0 0 111000 10001 101", [0, 0, 56, 17, 5]),
        ("0 0 111111 10001 001", [0, 0, 63, 17, 1]),
        ("0 0 110111 10001 000", [0, 0, 55, 17, 0]),
        ("1 1 111111 11111 000", [1, 1, 63, 31, 0]),
    ];
    for (header, fields) in rows {
        let unit = bits(&format!("{header}  001 00000  0 1 000010000 1 0 0 10"));
        let [forbidden_zero_bit, nuh_reserved_zero_bit, nuh_layer_id, nal_unit_type, nuh_temporal_id_plus1] = fields;
        let due = NalHeader {
            forbidden_zero_bit,
            nuh_reserved_zero_bit,
            nuh_layer_id,
            nal_unit_type,
            nuh_temporal_id_plus1,
        };
        assert_eq!(nal_header(&unit), Ok(due));
        let mut work = [9; 4];
        let refused = Refusal::InvalidData;
        assert_eq!(Head::read_unit(&unit, &mut work), Err(refused), "{header}");
        assert_eq!(Alf::read_unit(&unit, &mut work), Err(refused), "{header}");
        assert_eq!(Lmcs::read_unit(&unit, &mut work), Err(refused), "{header}");
        assert_eq!(Scaling::read_unit(&unit, &mut work), Err(refused), "{header}");
        assert_eq!(read_unit(&unit, &mut []), Err(refused), "{header}");
        assert_eq!(work, [9; 4]);
    }
}

//! Sets written and read back.

use crate::made::{self, header, LONGEST_UNIT};
use kendwyra::sets::{read, read_unit, rewrite, write, write_unit, NAL_TYPE_PREFIX_APS, NAL_TYPE_SUFFIX_APS};
use kendwyra::{Alf, Aps, Held, Lmcs, Refusal, Scaling, UnitHeader, LONGEST_RBSP};

#[test]
fn read_back() {
    for set in made::all() {
        let mut rbsp = [0; LONGEST_RBSP];
        let len = write(&set, &mut rbsp).unwrap();
        assert_eq!(read(&rbsp[..len]), Ok((set, len * 8)));
        let mut again = [0; LONGEST_RBSP];
        assert_eq!(rewrite(&rbsp[..len], &mut again), Ok(len));
        assert_eq!(again, rbsp);
    }
}

#[test]
fn read_back_as_a_unit() {
    for Held { header, set } in made::held() {
        for nal_unit_type in [NAL_TYPE_PREFIX_APS, NAL_TYPE_SUFFIX_APS] {
            let header = UnitHeader {
                nal_unit_type,
                ..header
            };
            let (mut unit, mut work) = ([0; LONGEST_UNIT], [0; LONGEST_RBSP]);
            let len = write_unit(&set, header, &mut unit).unwrap();
            let second = nal_unit_type * 8 + header.nuh_temporal_id_plus1;
            assert_eq!(unit[..2], [header.nuh_layer_id, second]);
            let (again, end) = read_unit(&unit[..len], &mut work).unwrap();
            assert_eq!(again, set);
            assert_eq!(write(&set, &mut work), Ok(end / 8));
        }
    }
}

#[test]
fn headers() {
    let mut unit = [0; 8];
    let small = Aps::Alf(Alf::default());
    assert_eq!(write_unit(&small, UnitHeader::default(), &mut unit), Ok(4));
    assert_eq!(unit, [0x00, 0x89, 0x00, 0x10, 0, 0, 0, 0]);
    for set in [
        small,
        Aps::Lmcs(made::lmcs(1)),
        Aps::Scaling(made::scaling(1)),
        Aps::Alf(made::alf(1)),
    ] {
        for nal_unit_type in [0, 16, 17, 18, 19, 31, 49, 255] {
            for nuh_layer_id in [0, 1, 54, 55, 56, 63, 64, 128, 255] {
                for nuh_temporal_id_plus1 in [0, 1, 2, 7, 8, 255] {
                    let header = header(nal_unit_type, nuh_layer_id, nuh_temporal_id_plus1);
                    let mut unit = [0xAA; LONGEST_UNIT];
                    let written = write_unit(&set, header, &mut unit);
                    if !made::is_taken(header) {
                        assert_eq!(written, Err(Refusal::InvalidData), "{header:?}");
                        assert_eq!(unit, [0xAA; LONGEST_UNIT]);
                        continue;
                    }
                    let unit = &unit[..written.unwrap()];
                    assert_eq!(unit[..2], [nuh_layer_id, nal_unit_type * 8 + nuh_temporal_id_plus1]);
                    assert_eq!(
                        read_unit(unit, &mut [0; LONGEST_RBSP]).map(|(set, _)| set).as_ref(),
                        Ok(&set)
                    );
                }
            }
        }
    }
}

#[test]
fn values_that_are_not_written() {
    let alf = |change: fn(&mut Alf)| {
        let mut set = made::alf(0);
        change(&mut set);
        assert_eq!(set.write(&mut [0; LONGEST_RBSP]), Err(Refusal::InvalidData));
        assert_eq!(write(&Aps::Alf(set), &mut [0; LONGEST_RBSP]), Err(Refusal::InvalidData));
    };
    alf(|set| set.aps_adaptation_parameter_set_id = 8);
    alf(|set| set.alf_luma_num_filters_signalled_minus1 = 25);
    alf(|set| set.alf_luma_coeff_abs[24][11] = 129);
    alf(|set| set.alf_cc_cr_mapped_coeff_abs[2][0] = 1);
    alf(|set| set.aps_chroma_present_flag = false);
    let lmcs = |change: fn(&mut Lmcs)| {
        let mut set = made::lmcs(0);
        change(&mut set);
        assert_eq!(set.write(&mut [0; LONGEST_RBSP]), Err(Refusal::InvalidData));
        assert_eq!(
            write(&Aps::Lmcs(set), &mut [0; LONGEST_RBSP]),
            Err(Refusal::InvalidData)
        );
    };
    lmcs(|set| set.aps_adaptation_parameter_set_id = 4);
    lmcs(|set| set.lmcs_min_bin_idx = u32::MAX);
    lmcs(|set| set.lmcs_delta_abs_crs = 8);
    let scaling = |change: fn(&mut Scaling)| {
        let mut set = made::scaling(0);
        change(&mut set);
        assert_eq!(set.write(&mut [0; LONGEST_RBSP]), Err(Refusal::InvalidData));
        assert_eq!(
            write(&Aps::Scaling(set), &mut [0; LONGEST_RBSP]),
            Err(Refusal::InvalidData)
        );
    };
    scaling(|set| set.scaling_list[2][1] = i32::MIN);
    scaling(|set| set.scaling_list_dc_coef[12] = 128);
    let set = Aps::Lmcs(made::lmcs(0));
    assert_eq!(
        write_unit(&set, header(16, 0, 1), &mut [0; 64]),
        Err(Refusal::InvalidData)
    );
}

#[test]
fn a_copied_list_is_not_looked_at() {
    let changed = |change: fn(&mut Scaling)| {
        let (mut set, mut out) = (made::scaling(0), [0; LONGEST_RBSP]);
        change(&mut set);
        set.write(&mut out).map(|len| out[..len].to_vec())
    };
    let plain = changed(|_| ());
    assert!(plain.is_ok());
    assert_eq!(changed(|set| set.scaling_list_dc_coef[13] = i32::MAX), plain);
    assert_eq!(changed(|set| set.scaling_list[27].fill(i32::MIN)), plain);
}

#[test]
fn an_extension_is_not_written() {
    let (mut alf, mut lmcs, mut scaling) = (Alf::default(), Lmcs::default(), Scaling::default());
    alf.aps_extension_flag = true;
    lmcs.aps_extension_flag = true;
    scaling.aps_extension_flag = true;
    for set in [Aps::Alf(alf), Aps::Lmcs(lmcs), Aps::Scaling(scaling)] {
        assert_eq!(write(&set, &mut [0; 64]), Err(Refusal::Unsupported));
        assert_eq!(
            write_unit(&set, UnitHeader::default(), &mut [0; 64]),
            Err(Refusal::Unsupported)
        );
        for wrong in [header(255, 0, 1), header(17, 56, 1), header(18, 0, 8)] {
            assert_eq!(write_unit(&set, wrong, &mut [0; 64]), Err(Refusal::InvalidData));
        }
    }
}

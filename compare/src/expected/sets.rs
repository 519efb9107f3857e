//! Sets: what the Rust reads, as numbers in the order of library/structs.rs.

use super::{document, is_short, number, short};
use crate::h266::aps::{self, VvcAlfCcFilters, VvcAlfData, VvcAps, VvcApsPayload, VvcLmcsData, VvcScalingListData};
use crate::h266::{self, NAL_TYPE_PREFIX_APS, NAL_TYPE_SUFFIX_APS};
use crate::headers::Header;
use crate::library::sets::{Answer, Numbers};
use crate::nal;

/// Rows one after another, filled up with zeros to `len` numbers.
fn rows<const W: usize, T: Copy>(rows: &[[T; W]], len: usize, number: impl Fn(T) -> i64) -> Vec<i64> {
    let mut out: Vec<i64> = rows.iter().flatten().map(|&x| number(x)).collect();
    out.resize(len, 0);
    out
}

fn filters(d: &Option<VvcAlfCcFilters>) -> Vec<i64> {
    let d = d.clone().unwrap_or_default();
    let mut out = vec![d.filters_signalled_minus1.into()];
    out.extend(rows(&d.mapped_coeff_abs, 28, i64::from));
    out.extend(rows(&d.coeff_sign, 28, i64::from));
    out
}

fn alf(d: &VvcAlfData) -> Vec<i64> {
    let mut out = vec![
        d.alf_luma_filter_signal_flag.into(),
        d.alf_chroma_filter_signal_flag.into(),
        d.alf_cc_cb_filter_signal_flag.into(),
        d.alf_cc_cr_filter_signal_flag.into(),
    ];
    let luma = d.luma.clone().unwrap_or_default();
    out.push(luma.alf_luma_clip_flag.into());
    out.push(luma.alf_luma_num_filters_signalled_minus1.into());
    out.extend(luma.alf_luma_coeff_delta_idx.map(i64::from));
    out.extend(rows(&luma.coeff_abs, 300, i64::from));
    out.extend(rows(&luma.coeff_sign, 300, i64::from));
    out.extend(rows(&luma.clip_idx, 300, i64::from));
    let chroma = d.chroma.clone().unwrap_or_default();
    out.push(chroma.alf_chroma_clip_flag.into());
    out.push(chroma.alf_chroma_num_alt_filters_minus1.into());
    out.extend(rows(&chroma.coeff_abs, 48, i64::from));
    out.extend(rows(&chroma.coeff_sign, 48, i64::from));
    out.extend(rows(&chroma.clip_idx, 48, i64::from));
    out.extend(filters(&d.cc_cb));
    out.extend(filters(&d.cc_cr));
    out
}

fn lmcs(d: &VvcLmcsData) -> Vec<i64> {
    let mut out = vec![
        d.lmcs_min_bin_idx.into(),
        d.lmcs_delta_max_bin_idx.into(),
        d.lmcs_delta_cw_prec_minus1.into(),
    ];
    out.extend(d.lmcs_delta_abs_cw.map(i64::from));
    out.extend(d.lmcs_delta_sign_cw_flag.map(i64::from));
    out.push(d.lmcs_delta_abs_crs.into());
    out.push(d.lmcs_delta_sign_crs_flag.into());
    out
}

fn scaling(d: &VvcScalingListData) -> Vec<i64> {
    let mut out = Vec::new();
    out.extend(d.copy_mode_flag.map(i64::from));
    out.extend(d.pred_mode_flag.map(i64::from));
    out.extend(d.pred_id_delta.map(i64::from));
    out.extend(d.dc_coef.map(i64::from));
    out.extend(d.scaling_list.as_flattened().iter().map(|&x| i64::from(x)));
    out
}

/// Kind, id, the two flags, then the fields of the set's kind.
pub fn numbers(set: &VvcAps) -> Numbers {
    let mut out = vec![
        set.aps_params_type.into(),
        set.aps_adaptation_parameter_set_id.into(),
        set.aps_chroma_present_flag.into(),
        set.aps_extension_flag.into(),
    ];
    out.extend(match &set.payload {
        VvcApsPayload::Alf(d) => alf(d),
        VvcApsPayload::Lmcs(d) => lmcs(d),
        VvcApsPayload::ScalingList(d) => scaling(d),
    });
    Numbers(out)
}

/// The bit where reading ended, which the Rust keeps to itself. Each field has one code, so the set written again takes the bits that were
/// read: with extension flag 0 whole bytes, and with flag 1 all before the stop bit, the last 1 of the set written with the flag cleared.
pub fn end(set: &VvcAps) -> usize {
    let mut plain = set.clone();
    plain.aps_extension_flag = false;
    let bytes = aps::write_aps(&plain).expect("a set that was read is written");
    let bits = bytes.len() * 8;
    if set.aps_extension_flag {
        bits - 1 - bytes.last().map_or(0, |b| b.trailing_zeros() as usize)
    } else {
        bits
    }
}

fn answer(read: Result<VvcAps, u32>) -> Answer {
    let set = read?;
    Ok((numbers(&set), end(&set)))
}

/// 1 where a bit is missing, else what the Rust read.
fn whole(rbsp: &[u8], rust: Result<VvcAps, u32>) -> Result<VvcAps, u32> {
    let ended = rust.as_ref().map(end).map_err(|&e| e);
    if is_short(short::rbsp(rbsp), ended, rbsp) {
        return Err(1);
    }
    rust
}

pub fn read_rbsp(bytes: &[u8]) -> Result<VvcAps, u32> {
    document::rbsp(bytes.len())?;
    whole(bytes, aps::parse_aps_rbsp(bytes).map_err(number))
}

pub fn parse_rbsp(bytes: &[u8]) -> Answer {
    answer(read_rbsp(bytes))
}

pub fn is_aps(unit_type: u8) -> bool {
    unit_type == NAL_TYPE_PREFIX_APS || unit_type == NAL_TYPE_SUFFIX_APS
}

/// The header of an APS unit. 4; 1; 2 for another type, then for what the Rust does not judge.
pub fn unit_header(unit: &[u8]) -> Result<Header, u32> {
    document::escape(unit.len())?;
    let h = h266::parse_nal_header(unit).map_err(number)?;
    if !is_aps(h.nal_unit_type) {
        return Err(aps::parse_aps(unit).map_err(number).expect_err("no APS unit"));
    }
    let zero_bits = [h.forbidden_zero_bit, h.nuh_reserved_zero_bit];
    document::header(zero_bits, h.nuh_layer_id, h.nuh_temporal_id_plus1)?;
    Ok([h.nal_unit_type, h.nuh_layer_id, h.nuh_temporal_id_plus1])
}

/// A unit's header, and the RBSP that is read. 4; 1; 2; then 4 for a long RBSP.
pub fn unit_rbsp(unit: &[u8]) -> Result<(Header, Vec<u8>), u32> {
    let header = unit_header(unit)?;
    let rbsp = nal::ebsp_to_rbsp(&unit[2..]);
    document::rbsp(rbsp.len())?;
    Ok((header, rbsp))
}

/// How long a work buffer must be for a unit: none is needed where no RBSP is read.
pub fn work_due(unit: &[u8]) -> usize {
    unit_rbsp(unit).map_or(0, |(_, rbsp)| rbsp.len())
}

/// The header and the set of a unit. The refusals 4 and 5, that of a header by its other fields than the type, and the work buffer are not
/// the Rust's, which makes its own buffer. Without `looking` missing bits are not looked for: the Rust alone.
pub fn read_unit(unit: &[u8], work: &mut [u8], looking: bool) -> Result<(Header, VvcAps), u32> {
    let (header, rbsp) = unit_rbsp(unit)?;
    document::room(rbsp.len(), work.len())?;
    work[..rbsp.len()].copy_from_slice(&rbsp);
    let rust = aps::parse_aps(unit).map_err(number);
    let set = if looking { whole(&rbsp, rust) } else { rust };
    set.map(|set| (header, set))
}

/// The answer, and the work buffer after it.
pub fn parse(unit: &[u8], work: &[u8]) -> (Answer, Vec<u8>) {
    let mut after = work.to_vec();
    let read = read_unit(unit, &mut after, true);
    (answer(read.map(|(_, set)| set)), after)
}

pub fn nal_header(unit: &[u8]) -> Result<[u8; 5], u32> {
    document::escape(unit.len())?;
    let h = h266::parse_nal_header(unit).map_err(number)?;
    Ok([
        h.forbidden_zero_bit,
        h.nuh_reserved_zero_bit,
        h.nuh_layer_id,
        h.nal_unit_type,
        h.nuh_temporal_id_plus1,
    ])
}

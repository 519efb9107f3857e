//! Sets that are handed over as numbers: what the Rust writes for the same record.

use super::sets::is_aps;
use super::{document, number};
use crate::h266::aps::{self, VvcAlfCcFilters, VvcAlfChroma, VvcAlfData, VvcAlfLuma, VvcAps, VvcApsPayload};
use crate::h266::aps::{VvcLmcsData, VvcScalingListData};
use crate::headers::{self, Header};
use crate::sets::make::diagonal_scan;

/// A place in the numbers, from which the fields are taken in their order.
struct Fields<'a>(&'a [i64]);

impl Fields<'_> {
    fn some(&mut self, n: usize) -> &[i64] {
        let (taken, left) = self.0.split_at(n);
        self.0 = left;
        taken
    }

    fn word(&mut self) -> u32 {
        self.some(1)[0] as u32
    }

    fn flag(&mut self) -> bool {
        self.some(1)[0] != 0
    }

    fn array<const N: usize, T: Copy + Default>(&mut self, of: impl Fn(i64) -> T) -> [T; N] {
        let mut out = [T::default(); N];
        for (to, &from) in out.iter_mut().zip(self.some(N)) {
            *to = of(from);
        }
        out
    }

    /// Rows of W out of `len` numbers: at least `least`, and as many as it takes to hold every number that is not 0.
    fn rows<const W: usize, T: Copy + Default>(
        &mut self,
        len: usize,
        least: usize,
        of: impl Fn(i64) -> T,
    ) -> Vec<[T; W]> {
        let numbers = self.some(len);
        let used = numbers.iter().rposition(|&n| n != 0).map_or(0, |i| i / W + 1);
        numbers
            .chunks(W)
            .take(least.max(used))
            .map(|row| {
                let mut out = [T::default(); W];
                (0..W).for_each(|j| out[j] = of(row[j]));
                out
            })
            .collect()
    }

    fn luma(&mut self, signal: bool) -> Option<VvcAlfLuma> {
        let mut f = Fields(self.some(927));
        let present = signal || f.0.iter().any(|&n| n != 0);
        let clip = f.flag();
        let count = f.word();
        let rows = if signal { count.min(24) as usize + 1 } else { 0 };
        let luma = VvcAlfLuma {
            alf_luma_clip_flag: clip,
            alf_luma_num_filters_signalled_minus1: count,
            alf_luma_coeff_delta_idx: f.array(|n| n as u8),
            coeff_abs: f.rows(300, rows, |n| n as u32),
            coeff_sign: f.rows(300, rows, |n| n != 0),
            clip_idx: f.rows(300, if clip { rows } else { 0 }, |n| n as u8),
        };
        present.then_some(luma)
    }

    fn chroma(&mut self, signal: bool) -> Option<VvcAlfChroma> {
        let mut f = Fields(self.some(146));
        let present = signal || f.0.iter().any(|&n| n != 0);
        let clip = f.flag();
        let count = f.word();
        let rows = if signal { count.min(7) as usize + 1 } else { 0 };
        let chroma = VvcAlfChroma {
            alf_chroma_clip_flag: clip,
            alf_chroma_num_alt_filters_minus1: count,
            coeff_abs: f.rows(48, rows, |n| n as u32),
            coeff_sign: f.rows(48, rows, |n| n != 0),
            clip_idx: f.rows(48, if clip { rows } else { 0 }, |n| n as u8),
        };
        present.then_some(chroma)
    }

    fn cross(&mut self, signal: bool) -> Option<VvcAlfCcFilters> {
        let mut f = Fields(self.some(57));
        let present = signal || f.0.iter().any(|&n| n != 0);
        let count = f.word();
        let rows = if signal { count.min(3) as usize + 1 } else { 0 };
        let filters = VvcAlfCcFilters {
            filters_signalled_minus1: count,
            mapped_coeff_abs: f.rows(28, rows, |n| n as u8),
            coeff_sign: f.rows(28, rows, |n| n != 0),
        };
        present.then_some(filters)
    }

    fn alf(&mut self) -> VvcAlfData {
        let [luma, chroma, cb, cr] = self.array(|n| n != 0);
        VvcAlfData {
            alf_luma_filter_signal_flag: luma,
            alf_chroma_filter_signal_flag: chroma,
            alf_cc_cb_filter_signal_flag: cb,
            alf_cc_cr_filter_signal_flag: cr,
            luma: self.luma(luma),
            chroma: self.chroma(chroma),
            cc_cb: self.cross(cb),
            cc_cr: self.cross(cr),
        }
    }

    fn lmcs(&mut self) -> VvcLmcsData {
        VvcLmcsData {
            lmcs_min_bin_idx: self.word(),
            lmcs_delta_max_bin_idx: self.word(),
            lmcs_delta_cw_prec_minus1: self.word(),
            lmcs_delta_abs_cw: self.array(|n| n as u32),
            lmcs_delta_sign_cw_flag: self.array(|n| n != 0),
            lmcs_delta_abs_crs: self.word() as u8,
            lmcs_delta_sign_crs_flag: self.flag(),
        }
    }

    fn scaling(&mut self) -> VvcScalingListData {
        VvcScalingListData {
            copy_mode_flag: self.array(|n| n != 0),
            pred_mode_flag: self.array(|n| n != 0),
            pred_id_delta: self.array(|n| n as u32),
            dc_coef: self.array(|n| n as i32),
            scaling_list: [(); 28].map(|()| self.array(|n| n as i32)),
        }
    }
}

/// The Rust's record of the numbers.
pub fn record(numbers: &[i64]) -> VvcAps {
    let mut f = Fields(numbers);
    let [kind, id, chroma, extension] = f.array(|n| n as u8);
    VvcAps {
        aps_params_type: kind,
        aps_adaptation_parameter_set_id: id,
        aps_chroma_present_flag: chroma != 0,
        payload: match kind {
            0 => VvcApsPayload::Alf(Box::new(f.alf())),
            1 => VvcApsPayload::Lmcs(f.lmcs()),
            _ => VvcApsPayload::ScalingList(Box::new(f.scaling())),
        },
        aps_extension_flag: extension != 0,
    }
}

/// A step that does not fit an i32: the Rust's subtraction overflows there, and the answer must be 2.
fn overflows(set: &VvcAps) -> bool {
    let VvcApsPayload::ScalingList(d) = &set.payload else {
        return false;
    };
    let coded = |id: usize| set.aps_chroma_present_flag || id % 3 == 2 || id == 27;
    (0..28).filter(|&id| coded(id) && !d.copy_mode_flag[id]).any(|id| {
        let mut prev = if id > 13 { d.dc_coef[id - 14] } else { 0 };
        let size = [2, 4, 8][usize::from(id > 1) + usize::from(id > 7)];
        diagonal_scan()
            .into_iter()
            .take(size * size)
            .enumerate()
            .any(|(i, (x, y))| {
                let skipped = id > 25 && x >= 4 && y >= 4;
                let value = d.scaling_list[id][i];
                let wraps = !skipped && value.checked_sub(prev).is_none();
                if !skipped {
                    prev = value;
                }
                wraps
            })
    })
}

type Answer = (Result<usize, u32>, Vec<u8>);

fn put(out: &[u8], write: impl Fn(&VvcAps) -> Result<Vec<u8>, u32>, set: &VvcAps) -> Answer {
    let written = if overflows(set) && !set.aps_extension_flag {
        Err(2)
    } else {
        write(set)
    };
    let fits = written.and_then(|bytes| document::room(bytes.len(), out.len()).map(|()| bytes));
    match fits {
        Ok(bytes) => (Ok(bytes.len()), [&bytes, &out[bytes.len()..]].concat()),
        Err(e) => (Err(e), out.to_vec()),
    }
}

/// The answer, and the output after it.
pub fn write(numbers: &[i64], out: &[u8]) -> Answer {
    put(out, rbsp, &record(numbers))
}

pub fn write_nal(numbers: &[i64], header: Header, out: &[u8]) -> Answer {
    put(out, |set| unit(set, header), &record(numbers))
}

/// The RBSP that the Rust writes, unless it is too long: 4 comes after the Rust's refusals.
pub fn rbsp(set: &VvcAps) -> Result<Vec<u8>, u32> {
    let bytes = aps::write_aps(set).map_err(number)?;
    document::rbsp(bytes.len())?;
    Ok(bytes)
}

/// The Rust's unit with this header in place of its own, which has layer 0 and temporal id 0. 2 for another type than 17 and 18, then for a
/// layer or a temporal id that H.266 has not, before the Rust's refusals of the set, and 4 for its RBSP.
pub fn unit(set: &VvcAps, header: Header) -> Result<Vec<u8>, u32> {
    let [unit_type, layer, temporal_id_plus1] = header;
    if is_aps(unit_type) {
        document::header([0, 0], layer, temporal_id_plus1)?;
    }
    let mut unit = aps::write_aps_nal(set, unit_type).map_err(number)?;
    rbsp(set)?;
    unit[..2].copy_from_slice(&headers::bytes(header));
    Ok(unit)
}

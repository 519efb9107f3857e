//! Sets that the Rust can write: of every kind, small, full and between, with typical and extreme values.

use crate::h266::aps::{VvcAlfCcFilters, VvcAlfChroma, VvcAlfData, VvcAlfLuma, VvcAps, VvcApsPayload};
use crate::h266::aps::{VvcLmcsData, VvcScalingListData};
use crate::random::Random;

/// How much a set holds, and which values.
#[derive(Clone, Copy)]
pub enum Style {
    Sparse,
    Typical,
    Extreme,
    /// All is sent; steps of scaling lists from -64 to 63, so that they take some 1,900 bytes.
    Full,
    /// All is sent; scaling lists take some 2,400 bytes and are refused.
    Long,
    /// No set of its kind takes more bytes; scaling lists 2,930.
    Largest,
}

pub const STYLES: [Style; 5] = [Style::Sparse, Style::Typical, Style::Extreme, Style::Full, Style::Long];

pub struct Maker<'a> {
    pub random: &'a mut Random,
    pub style: Style,
}

impl Maker<'_> {
    /// 0 to `most`, as the style has it.
    fn upto(&mut self, most: u32) -> u32 {
        let any = self.random.below(most as usize + 1) as u32;
        match self.style {
            Style::Sparse if self.random.below(8) > 0 => 0,
            Style::Typical => any.min(self.random.below(6) as u32),
            Style::Extreme => [0, 1.min(most), most.saturating_sub(1), most][self.random.below(4)],
            Style::Largest => most,
            _ => any,
        }
    }

    /// How many rows less one.
    fn count(&mut self, most: u32) -> u32 {
        match self.style {
            Style::Full | Style::Long => most,
            _ => self.upto(most),
        }
    }

    fn flag(&mut self) -> bool {
        match self.style {
            Style::Sparse => self.random.below(4) == 0,
            _ if self.is_full() => true,
            _ => self.random.below(2) == 0,
        }
    }

    fn is_full(&self) -> bool {
        matches!(self.style, Style::Full | Style::Long | Style::Largest)
    }

    fn signed(&mut self, most: u32) -> (u32, bool) {
        let abs = match self.style {
            Style::Full | Style::Long => self.random.below(most as usize) as u32 + 1,
            _ => self.upto(most),
        };
        (abs, abs != 0 && self.random.below(2) == 0)
    }

    /// -128 to 127.
    fn step(&mut self) -> i32 {
        match self.style {
            Style::Sparse if self.random.below(8) > 0 => 0,
            Style::Typical => self.random.below(9) as i32 - 4,
            Style::Extreme => [-128, -127, -1, 0, 1, 126, 127][self.random.below(7)],
            Style::Full => self.random.below(128) as i32 - 64,
            Style::Largest => -128,
            _ => self.random.below(256) as i32 - 128,
        }
    }

    fn row<const W: usize>(&mut self, most: u32) -> ([u32; W], [bool; W]) {
        let mut row = ([0; W], [false; W]);
        for j in 0..W {
            (row.0[j], row.1[j]) = self.signed(most);
        }
        row
    }

    fn clips<const W: usize>(&mut self) -> [u8; W] {
        [0; W].map(|_: u8| self.upto(3) as u8)
    }

    fn luma(&mut self) -> VvcAlfLuma {
        let count = self.count(24);
        let clip = self.flag();
        let mut luma = VvcAlfLuma {
            alf_luma_clip_flag: clip,
            alf_luma_num_filters_signalled_minus1: count,
            ..VvcAlfLuma::default()
        };
        luma.alf_luma_coeff_delta_idx = luma.alf_luma_coeff_delta_idx.map(|_| self.upto(count) as u8);
        for _ in 0..=count {
            let (abs, sign) = self.row(128);
            luma.coeff_abs.push(abs);
            luma.coeff_sign.push(sign);
            if clip {
                luma.clip_idx.push(self.clips());
            }
        }
        luma
    }

    fn chroma(&mut self) -> VvcAlfChroma {
        let count = self.count(7);
        let clip = self.flag();
        let mut chroma = VvcAlfChroma {
            alf_chroma_clip_flag: clip,
            alf_chroma_num_alt_filters_minus1: count,
            ..VvcAlfChroma::default()
        };
        for _ in 0..=count {
            let (abs, sign) = self.row(128);
            chroma.coeff_abs.push(abs);
            chroma.coeff_sign.push(sign);
            if clip {
                chroma.clip_idx.push(self.clips());
            }
        }
        chroma
    }

    fn cross(&mut self) -> VvcAlfCcFilters {
        let count = self.count(3);
        let mut filters = VvcAlfCcFilters {
            filters_signalled_minus1: count,
            ..VvcAlfCcFilters::default()
        };
        for _ in 0..=count {
            let (abs, sign) = self.row(7);
            filters.mapped_coeff_abs.push(abs.map(|x| x as u8));
            filters.coeff_sign.push(sign);
        }
        filters
    }

    fn alf(&mut self, chroma: bool) -> VvcAlfData {
        let luma = self.flag().then(|| self.luma());
        let alternatives = (chroma && self.flag()).then(|| self.chroma());
        let cb = (chroma && self.flag()).then(|| self.cross());
        let cr = (chroma && self.flag()).then(|| self.cross());
        VvcAlfData {
            alf_luma_filter_signal_flag: luma.is_some(),
            alf_chroma_filter_signal_flag: alternatives.is_some(),
            alf_cc_cb_filter_signal_flag: cb.is_some(),
            alf_cc_cr_filter_signal_flag: cr.is_some(),
            luma,
            chroma: alternatives,
            cc_cb: cb,
            cc_cr: cr,
        }
    }

    fn lmcs(&mut self, chroma: bool) -> VvcLmcsData {
        let full = self.is_full();
        let min = if full { 0 } else { self.upto(15) };
        let max = if full { 0 } else { self.upto(15 - min) };
        let prec = self.count(14);
        let mut d = VvcLmcsData {
            lmcs_min_bin_idx: min,
            lmcs_delta_max_bin_idx: max,
            lmcs_delta_cw_prec_minus1: prec,
            ..VvcLmcsData::default()
        };
        for i in min as usize..=15 - max as usize {
            (d.lmcs_delta_abs_cw[i], d.lmcs_delta_sign_cw_flag[i]) = self.signed((2 << prec) - 1);
        }
        if chroma {
            let (abs, sign) = self.signed(7);
            (d.lmcs_delta_abs_crs, d.lmcs_delta_sign_crs_flag) = (abs as u8, sign);
        }
        d
    }

    fn list(&mut self, d: &mut VvcScalingListData, id: usize) {
        let mut sum = 0;
        if id > 13 {
            d.dc_coef[id - 14] = self.step();
            sum = d.dc_coef[id - 14];
        }
        let size = [2, 4, 8][usize::from(id > 1) + usize::from(id > 7)];
        for (i, (x, y)) in diagonal_scan().into_iter().take(size * size).enumerate() {
            if id < 26 || x < 4 || y < 4 {
                sum += self.step();
            }
            d.scaling_list[id][i] = sum;
        }
    }

    fn scaling(&mut self, chroma: bool) -> VvcScalingListData {
        let mut d = VvcScalingListData::default();
        for id in 0..28 {
            let coded = chroma || id % 3 == 2 || id == 27;
            let copy = !self.is_full() && self.random.below(3) > 0;
            d.copy_mode_flag[id] = !coded || copy;
            if !coded {
                continue;
            }
            d.pred_mode_flag[id] = !copy && self.flag();
            let predicted = (copy || d.pred_mode_flag[id]) && ![0, 2, 8].contains(&id);
            if predicted {
                let most = id - [0, 2, 8][usize::from(id > 1) + usize::from(id > 7)];
                d.pred_id_delta[id] = self.upto(most as u32);
            }
            if !copy {
                self.list(&mut d, id);
            }
        }
        d
    }

    /// A set of kind 0, 1 or 2, with extension flag 0.
    pub fn set(&mut self, kind: u8) -> VvcAps {
        let chroma = self.flag();
        let id = self.random.below(if kind == 1 { 4 } else { 8 }) as u8;
        let payload = match kind {
            0 => VvcApsPayload::Alf(Box::new(self.alf(chroma))),
            1 => VvcApsPayload::Lmcs(self.lmcs(chroma)),
            _ => VvcApsPayload::ScalingList(Box::new(self.scaling(chroma))),
        };
        VvcAps {
            aps_params_type: kind,
            aps_adaptation_parameter_set_id: id,
            aps_chroma_present_flag: chroma,
            payload,
            aps_extension_flag: false,
        }
    }
}

/// x and y along the diagonals of 8x8, each from the bottom left up (H.266 6.5.2).
pub fn diagonal_scan() -> Vec<(usize, usize)> {
    let diagonal = |d: usize| (0..8).filter(move |&x| x <= d && d - x < 8).map(move |x| (x, d - x));
    (0..15).flat_map(diagonal).collect()
}

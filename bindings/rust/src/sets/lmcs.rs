//! `lmcs_data()`, H.266 7.3.2.19.

/// An LMCS set: luma mapping with chroma scaling. Bins outside min to max are read as 0.
#[derive(Debug, Clone, Default, PartialEq, Eq)]
#[repr(C)]
pub struct Lmcs {
    /// 0 to 3.
    pub aps_adaptation_parameter_set_id: u8,
    /// Whether chroma fields are sent.
    pub aps_chroma_present_flag: bool,
    /// Whether extension data follows, which is not kept; a set with it is not written.
    pub aps_extension_flag: bool,
    /// 0 to 15.
    pub lmcs_min_bin_idx: u32,
    /// 0 to 15, and 15 less this is at least the min bin.
    pub lmcs_delta_max_bin_idx: u32,
    /// 0 to 14: a codeword's bits, less 1.
    pub lmcs_delta_cw_prec_minus1: u32,
    /// A magnitude for each bin.
    pub lmcs_delta_abs_cw: [u32; 16],
    /// Signs, sent where the magnitude is not 0.
    pub lmcs_delta_sign_cw_flag: [bool; 16],
    /// 0 to 7; only with the chroma flag.
    pub lmcs_delta_abs_crs: u8,
    /// Sent where `lmcs_delta_abs_crs` is not 0.
    pub lmcs_delta_sign_crs_flag: bool,
}

impl Lmcs {
    /// `LmcsMaxBinIdx`, 15 less the delta.
    pub fn lmcs_max_bin_idx(&self) -> u32 {
        15 - self.lmcs_delta_max_bin_idx.min(15)
    }
}

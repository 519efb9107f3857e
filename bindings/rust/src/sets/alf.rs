//! `alf_data()`, H.266 7.3.2.18.

/// An ALF set: adaptive loop filters. Rows past a count, and fields under a flag 0, are read as 0.
#[derive(Debug, Clone, Default, PartialEq, Eq)]
#[repr(C)]
pub struct Alf {
    /// 0 to 7.
    pub aps_adaptation_parameter_set_id: u8,
    /// Whether chroma fields are sent.
    pub aps_chroma_present_flag: bool,
    /// Whether extension data follows, which is not kept; a set with it is not written.
    pub aps_extension_flag: bool,
    /// Whether luma filters are sent.
    pub alf_luma_filter_signal_flag: bool,
    /// Whether chroma filters are sent; only with the chroma flag.
    pub alf_chroma_filter_signal_flag: bool,
    /// Whether cross-component filters of Cb are sent; only with the chroma flag.
    pub alf_cc_cb_filter_signal_flag: bool,
    /// Whether cross-component filters of Cr are sent; only with the chroma flag.
    pub alf_cc_cr_filter_signal_flag: bool,
    /// Whether `alf_luma_clip_idx` is sent.
    pub alf_luma_clip_flag: bool,
    /// 0 to 24.
    pub alf_luma_num_filters_signalled_minus1: u32,
    /// The filter of each class, at most the count less 1.
    pub alf_luma_coeff_delta_idx: [u8; 25],
    /// Magnitudes, 0 to 128, a row for each filter.
    pub alf_luma_coeff_abs: [[u32; 12]; 25],
    /// Signs, sent where the magnitude is not 0.
    pub alf_luma_coeff_sign: [[bool; 12]; 25],
    /// Clips, 0 to 3.
    pub alf_luma_clip_idx: [[u8; 12]; 25],
    /// Whether `alf_chroma_clip_idx` is sent.
    pub alf_chroma_clip_flag: bool,
    /// 0 to 7.
    pub alf_chroma_num_alt_filters_minus1: u32,
    /// Magnitudes, 0 to 128, a row for each alternative.
    pub alf_chroma_coeff_abs: [[u32; 6]; 8],
    /// Signs, sent where the magnitude is not 0.
    pub alf_chroma_coeff_sign: [[bool; 6]; 8],
    /// Clips, 0 to 3.
    pub alf_chroma_clip_idx: [[u8; 6]; 8],
    /// 0 to 3.
    pub alf_cc_cb_filters_signalled_minus1: u32,
    /// Mapped magnitudes of Cb, 0 to 7, a row for each filter.
    pub alf_cc_cb_mapped_coeff_abs: [[u8; 7]; 4],
    /// Signs, sent where the magnitude is not 0.
    pub alf_cc_cb_coeff_sign: [[bool; 7]; 4],
    /// 0 to 3.
    pub alf_cc_cr_filters_signalled_minus1: u32,
    /// Mapped magnitudes of Cr, 0 to 7, a row for each filter.
    pub alf_cc_cr_mapped_coeff_abs: [[u8; 7]; 4],
    /// Signs, sent where the magnitude is not 0.
    pub alf_cc_cr_coeff_sign: [[bool; 7]; 4],
}

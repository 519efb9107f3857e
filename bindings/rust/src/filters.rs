//! The filters of an ALF set as they act, H.266 7.4.3.18. The structs have C's layout.

use crate::error::{answer, Refusal};
use crate::raw;
use crate::sets::Alf;

/// The 25 luma filters, each the row that its index names.
#[derive(Debug, Clone, Copy, Default, PartialEq, Eq)]
#[repr(C)]
pub struct LumaFilters {
    /// `AlfCoeffL`, -128 to 128.
    pub coefficients: [[i32; 12]; 25],
    /// `AlfClipL`: 2 to the power of the bit depth, or of that less 3, 5 or 7.
    pub clips: [[u32; 12]; 25],
}

/// The chroma alternatives that were sent; rows past them are 0.
#[derive(Debug, Clone, Copy, Default, PartialEq, Eq)]
#[repr(C)]
pub struct ChromaFilters {
    /// How many were sent, 1 to 8.
    pub count: u32,
    /// `AlfCoeffC`.
    pub coefficients: [[i32; 6]; 8],
    /// `AlfClipC`.
    pub clips: [[u32; 6]; 8],
}

/// The cross-component filters that were sent; rows past them are 0.
#[derive(Debug, Clone, Copy, Default, PartialEq, Eq)]
#[repr(C)]
pub struct CcFilters {
    /// How many were sent, 1 to 4.
    pub count: u32,
    /// `CcAlfApsCoeffCb` or `CcAlfApsCoeffCr`: 0, or a power of 2 with its sign.
    pub coefficients: [[i32; 7]; 4],
}

/// A luma filter for a shader; every weight is exactly a multiple of 1/128.
#[derive(Debug, Clone, Copy, Default, PartialEq)]
#[repr(C)]
pub struct LumaWeights {
    /// The coefficients over 128.
    pub taps: [f32; 12],
    /// 1 minus twice their sum.
    pub centre: f32,
}

/// Each call refuses a set that could not be written were its extension flag 0 with `InvalidData` first.
impl Alf {
    /// The luma filters at a bit depth. `DepthOutOfRange`; `NotSent`.
    pub fn luma_filters(&self, depth: u32) -> Result<LumaFilters, Refusal> {
        let mut filters = LumaFilters::default();
        // SAFETY: both structs have C's layout and don't overlap.
        answer(unsafe { raw::aps_alf_luma_filters(self, depth, &mut filters) }).map(|()| filters)
    }

    /// The chroma filters at a bit depth. `DepthOutOfRange`; `NotSent`.
    pub fn chroma_filters(&self, depth: u32) -> Result<ChromaFilters, Refusal> {
        let mut filters = ChromaFilters::default();
        // SAFETY: as for luma.
        answer(unsafe { raw::aps_alf_chroma_filters(self, depth, &mut filters) }).map(|()| filters)
    }

    /// The filters of Cb. `DepthOutOfRange`; `NotSent`.
    pub fn cb_filters(&self, depth: u32) -> Result<CcFilters, Refusal> {
        let mut filters = CcFilters::default();
        // SAFETY: as for luma.
        answer(unsafe { raw::aps_alf_cb_filters(self, depth, &mut filters) }).map(|()| filters)
    }

    /// The filters of Cr. `DepthOutOfRange`; `NotSent`.
    pub fn cr_filters(&self, depth: u32) -> Result<CcFilters, Refusal> {
        let mut filters = CcFilters::default();
        // SAFETY: as for luma.
        answer(unsafe { raw::aps_alf_cr_filters(self, depth, &mut filters) }).map(|()| filters)
    }

    /// The weights of a luma filter, 0 to 24. `InvalidData` for a number above; `NotSent`.
    pub fn luma_weights(&self, filter: u32) -> Result<LumaWeights, Refusal> {
        let mut weights = LumaWeights::default();
        // SAFETY: as for luma.
        answer(unsafe { raw::aps_alf_luma_weights(self, filter, &mut weights) }).map(|()| weights)
    }
}

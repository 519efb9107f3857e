//! The luma curve of an LMCS set, H.266 7.4.3.19. The structs have C's layout. O is 2 to the power of the bit depth less 4.

use crate::error::{answer, Refusal};
use crate::raw;
use crate::sets::Lmcs;

/// The tables of a curve, a bin each.
#[derive(Debug, Clone, Copy, Default, PartialEq, Eq)]
#[repr(C)]
pub struct LumaCurve {
    /// O plus the signed delta in coded bins, 0 elsewhere.
    pub codewords: [u32; 16],
    /// Their running sums.
    pub pivots: [u32; 17],
    /// The codeword times 2048 over O, which leaves no remainder.
    pub forward: [u32; 16],
    /// O times 2048 over the codeword; 0 in an empty bin.
    pub inverse: [u32; 16],
    /// Its exact remainder.
    pub inverse_rest: [u32; 16],
    /// O times 2048 over the codeword with the chroma delta; 2048 in an empty bin.
    pub chroma: [u32; 16],
    /// Its exact remainder.
    pub chroma_rest: [u32; 16],
}

/// What the samples of a range are mapped to; both values are reached.
#[derive(Debug, Clone, Copy, Default, PartialEq, Eq)]
#[repr(C)]
pub struct Ends {
    /// None is mapped to less.
    pub least: u32,
    /// None is mapped to more.
    pub greatest: u32,
}

/// Each call refuses a set that could not be written were its extension flag 0 with `InvalidData` first; then `DepthOutOfRange`,
/// `CodewordOutOfRange`, `CodewordsTooLarge`.
impl Lmcs {
    /// The curve at a bit depth.
    pub fn luma_curve(&self, depth: u32) -> Result<LumaCurve, Refusal> {
        let mut curve = LumaCurve::default();
        // SAFETY: both structs have C's layout and don't overlap.
        answer(unsafe { raw::aps_lmcs_curve(self, depth, &mut curve) }).map(|()| curve)
    }

    /// What the curve maps a sample to; last, `SampleOutOfRange`.
    pub fn map_sample(&self, depth: u32, sample: u32) -> Result<u32, Refusal> {
        let mut mapped = 0;
        // SAFETY: the set has C's layout and doesn't overlap the number.
        answer(unsafe { raw::aps_lmcs_map_sample(self, depth, sample, &mut mapped) }).map(|()| mapped)
    }

    /// The ends of what the samples from `lower` to `upper` are mapped to; last, `SampleOutOfRange`.
    pub fn map_range(&self, depth: u32, lower: u32, upper: u32) -> Result<Ends, Refusal> {
        let mut ends = Ends::default();
        // SAFETY: both structs have C's layout and don't overlap.
        answer(unsafe { raw::aps_lmcs_map_range(self, depth, lower, upper, &mut ends) }).map(|()| ends)
    }
}

//! Emulation prevention: the 03 bytes between a unit's bytes and its RBSP.

use crate::error::{sized, Refusal};
use crate::raw;

/// Writes `src` without its escapes at the start of `out` and gives the length.
pub fn ebsp_to_rbsp(src: &[u8], out: &mut [u8]) -> Result<usize, Refusal> {
    let mut len = 0;
    // SAFETY: both pointers are those of slices, with their own lengths, and the slices don't overlap.
    let code = unsafe { raw::aps_ebsp_to_rbsp(src.as_ptr(), src.len(), out.as_mut_ptr(), out.len(), &mut len) };
    sized(code, len)
}

/// Writes `src` with escapes at the start of `out` and gives the length.
pub fn rbsp_to_ebsp(src: &[u8], out: &mut [u8]) -> Result<usize, Refusal> {
    let mut len = 0;
    // SAFETY: both pointers are those of slices, with their own lengths, and the slices don't overlap.
    let code = unsafe { raw::aps_rbsp_to_ebsp(src.as_ptr(), src.len(), out.as_mut_ptr(), out.len(), &mut len) };
    sized(code, len)
}

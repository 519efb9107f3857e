//! Sets, and the calls that read and write them. The structs have the layout and the field names of C's.

mod alf;
mod aps;
mod calls;
mod head;
mod kind;
mod lmcs;
mod scaling;
mod unit_header;

pub use alf::Alf;
pub use aps::Aps;
pub use head::Head;
pub use kind::Kind;
pub use lmcs::Lmcs;
pub use scaling::Scaling;
pub use unit_header::UnitHeader;

use crate::error::{answer, sized, Refusal};
use crate::raw;

/// `nal_unit_type` of a set that comes before its pictures.
pub const NAL_TYPE_PREFIX_APS: u8 = 17;

/// `nal_unit_type` of a set that comes after its pictures.
pub const NAL_TYPE_SUFFIX_APS: u8 = 18;

/// A unit's header (H.266 7.3.1.2), all of it and of any unit.
#[derive(Debug, Clone, Copy, PartialEq, Eq)]
pub struct NalHeader {
    /// 1 bit, not judged.
    pub forbidden_zero_bit: u8,
    /// 1 bit, not judged.
    pub nuh_reserved_zero_bit: u8,
    /// 6 bits, not judged.
    pub nuh_layer_id: u8,
    /// 5 bits; 17 and 18 are sets.
    pub nal_unit_type: u8,
    /// 3 bits, not judged.
    pub nuh_temporal_id_plus1: u8,
}

/// Reads a unit's header.
pub fn nal_header(unit: &[u8]) -> Result<NalHeader, Refusal> {
    let mut header = [0; 5];
    // SAFETY: the pointer is a slice's, with its own length.
    answer(unsafe { raw::aps_parse_nal_header(unit.as_ptr(), unit.len(), &mut header) })?;
    let [forbidden_zero_bit, nuh_reserved_zero_bit, nuh_layer_id, nal_unit_type, nuh_temporal_id_plus1] = header;
    Ok(NalHeader {
        forbidden_zero_bit,
        nuh_reserved_zero_bit,
        nuh_layer_id,
        nal_unit_type,
        nuh_temporal_id_plus1,
    })
}

/// The set of an RBSP, and the bit where reading ended; `InputTooLong` for over `LONGEST_RBSP` bytes, those after the set counted.
pub fn read(rbsp: &[u8]) -> Result<(Aps, usize), Refusal> {
    Aps::read(rbsp)
}

/// The set of a unit, and the bit of its RBSP where reading ended; `work` has at least the RBSP's length, for which `LONGEST_RBSP` bytes are
/// always enough, and then starts with it. Judged are the header, then the RBSP's length (`InputTooLong`) and that of `work` (`OutputTooShort`).
pub fn read_unit(unit: &[u8], work: &mut [u8]) -> Result<(Aps, usize), Refusal> {
    Aps::read_unit(unit, work)
}

/// Writes a set as an RBSP at the start of `out` and gives the length; `InputTooLong`, before `OutputTooShort`, for over `LONGEST_RBSP` bytes.
pub fn write(set: &Aps, out: &mut [u8]) -> Result<usize, Refusal> {
    set.write(out)
}

/// Writes a set as a unit of a header at the start of `out` and gives the length; `InputTooLong` as for an RBSP.
pub fn write_unit(set: &Aps, header: UnitHeader, out: &mut [u8]) -> Result<usize, Refusal> {
    set.write_unit(header, out)
}

/// Reads the set of an RBSP, writes it again at the start of `out` and gives the length.
pub fn rewrite(rbsp: &[u8], out: &mut [u8]) -> Result<usize, Refusal> {
    let mut len = 0;
    let (to, room) = (out.as_mut_ptr(), out.len());
    // SAFETY: both pointers are those of slices, with their own lengths, and the slices don't overlap.
    let code = unsafe { raw::aps_rewrite(rbsp.as_ptr(), rbsp.len(), to, room, &mut len) };
    sized(code, len)
}

//! What every set has.

use super::Kind;
use crate::error::{sized, Refusal};
use crate::raw;

/// The kind, the id and the flags of a set.
#[derive(Debug, Clone, Copy, Default, PartialEq, Eq)]
#[repr(C)]
pub struct Head {
    /// Which of the three records the set has.
    pub kind: Kind,
    /// 0 to the kind's largest id.
    pub aps_adaptation_parameter_set_id: u8,
    /// Whether chroma fields are sent.
    pub aps_chroma_present_flag: bool,
    /// Whether extension data follows.
    pub aps_extension_flag: bool,
}

impl Head {
    /// That of an RBSP's set, which is read whole, and the bit where reading ended.
    pub fn read(rbsp: &[u8]) -> Result<(Head, usize), Refusal> {
        let (mut head, mut end) = (Head::default(), 0);
        // SAFETY: the pointer is a slice's, with its own length; of a head the library is proved to write a kind 0 to 2 and flags 0 or 1.
        let code = unsafe { raw::aps_head_parse_rbsp(rbsp.as_ptr(), rbsp.len(), &mut head, &mut end) };
        Ok((head, sized(code, end)?))
    }

    /// That of a unit's set, and the bit of its RBSP where reading ended; `work` as for `sets::read_unit`.
    pub fn read_unit(unit: &[u8], work: &mut [u8]) -> Result<(Head, usize), Refusal> {
        let (mut head, mut end) = (Head::default(), 0);
        let (to, room) = (work.as_mut_ptr(), work.len());
        // SAFETY: both pointers are those of slices that don't overlap; the head is written as for an RBSP.
        let code = unsafe { raw::aps_head_parse(unit.as_ptr(), unit.len(), to, room, &mut head, &mut end) };
        Ok((head, sized(code, end)?))
    }
}

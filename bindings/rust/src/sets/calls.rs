//! The calls of the three kinds, each by its kind's exports.

use super::{Alf, Head, Kind, Lmcs, Scaling, UnitHeader};
use crate::error::{sized, Refusal};
use crate::raw;

/// The calls of a kind. Its struct has the layout of C's and is lent as it is.
macro_rules! calls {
    ($set:ident, $parse_rbsp:ident, $parse:ident, $write:ident, $write_nal:ident) => {
        impl $set {
            /// The set of an RBSP, and the bit where reading ended; `InvalidData` also for a set of another kind.
            pub fn read(rbsp: &[u8]) -> Result<($set, usize), Refusal> {
                let (mut set, mut end) = ($set::default(), 0);
                // SAFETY: the pointer is a slice's, with its own length; the library is proved to write only 0 or 1 into flags, which are bools.
                let code = unsafe { raw::$parse_rbsp(rbsp.as_ptr(), rbsp.len(), &mut set, &mut end) };
                sized(code, end).map(|end| (set, end))
            }

            /// The set of a unit, and the bit of its RBSP where reading ended; `work` as for `sets::read_unit`.
            pub fn read_unit(unit: &[u8], work: &mut [u8]) -> Result<($set, usize), Refusal> {
                let (mut set, mut end) = ($set::default(), 0);
                let (to, room) = (work.as_mut_ptr(), work.len());
                // SAFETY: both pointers are those of slices that don't overlap; flags are written as 0 or 1, as for an RBSP.
                let code = unsafe { raw::$parse(unit.as_ptr(), unit.len(), to, room, &mut set, &mut end) };
                sized(code, end).map(|end| (set, end))
            }

            /// Writes the set as an RBSP at the start of `out` and gives the length; `InputTooLong` as for `sets::write`.
            pub fn write(&self, out: &mut [u8]) -> Result<usize, Refusal> {
                let mut len = 0;
                // SAFETY: the set has C's layout, and the pointer is a slice's, with its own length, which doesn't overlap it.
                let code = unsafe { raw::$write(self, out.as_mut_ptr(), out.len(), &mut len) };
                sized(code, len)
            }

            /// Writes the set as a unit of a header at the start of `out` and gives the length.
            pub fn write_unit(&self, header: UnitHeader, out: &mut [u8]) -> Result<usize, Refusal> {
                let mut len = 0;
                // SAFETY: as for an RBSP; the header has C's layout and crosses by value.
                let code = unsafe { raw::$write_nal(self, header, out.as_mut_ptr(), out.len(), &mut len) };
                sized(code, len)
            }

            /// Its kind, its id and its flags.
            pub fn head(&self) -> Head {
                Head {
                    kind: Kind::$set,
                    aps_adaptation_parameter_set_id: self.aps_adaptation_parameter_set_id,
                    aps_chroma_present_flag: self.aps_chroma_present_flag,
                    aps_extension_flag: self.aps_extension_flag,
                }
            }
        }
    };
}

calls!(Alf, aps_alf_parse_rbsp, aps_alf_parse, aps_alf_write, aps_alf_write_nal);
calls!(
    Lmcs,
    aps_lmcs_parse_rbsp,
    aps_lmcs_parse,
    aps_lmcs_write,
    aps_lmcs_write_nal
);
calls!(
    Scaling,
    aps_scaling_parse_rbsp,
    aps_scaling_parse,
    aps_scaling_write,
    aps_scaling_write_nal
);

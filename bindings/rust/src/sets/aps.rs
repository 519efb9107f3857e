//! A set of any kind.

use super::{Alf, Head, Kind, Lmcs, Scaling, UnitHeader};
use crate::Refusal;

/// A set (H.266 7.3.2.6), by its kind; some 7 KB, which come by value and not from the heap.
#[allow(clippy::large_enum_variant)]
#[derive(Debug, Clone, PartialEq, Eq)]
pub enum Aps {
    /// Adaptive loop filters.
    Alf(Alf),
    /// Luma mapping with chroma scaling.
    Lmcs(Lmcs),
    /// Scaling lists.
    Scaling(Scaling),
}

/// The kind by whose call an RBSP is read, told by the first byte. Where that names none, any call refuses as is due.
fn kind_to_read(first: Option<&u8>) -> Kind {
    first.and_then(|byte| Kind::from_number(byte >> 5)).unwrap_or_default()
}

impl Aps {
    /// The set of an RBSP, and the bit where reading ended; `InputTooLong` as for `sets::read`.
    pub fn read(rbsp: &[u8]) -> Result<(Aps, usize), Refusal> {
        match kind_to_read(rbsp.first()) {
            Kind::Alf => Alf::read(rbsp).map(|(set, end)| (Aps::Alf(set), end)),
            Kind::Lmcs => Lmcs::read(rbsp).map(|(set, end)| (Aps::Lmcs(set), end)),
            Kind::Scaling => Scaling::read(rbsp).map(|(set, end)| (Aps::Scaling(set), end)),
        }
    }

    /// The set of a unit, and the bit of its RBSP where reading ended; `work` as for `sets::read_unit`.
    pub fn read_unit(unit: &[u8], work: &mut [u8]) -> Result<(Aps, usize), Refusal> {
        match kind_to_read(unit.get(2)) {
            Kind::Alf => Alf::read_unit(unit, work).map(|(set, end)| (Aps::Alf(set), end)),
            Kind::Lmcs => Lmcs::read_unit(unit, work).map(|(set, end)| (Aps::Lmcs(set), end)),
            Kind::Scaling => Scaling::read_unit(unit, work).map(|(set, end)| (Aps::Scaling(set), end)),
        }
    }

    /// Writes the set as an RBSP at the start of `out` and gives the length; `InputTooLong` as for `sets::write`.
    pub fn write(&self, out: &mut [u8]) -> Result<usize, Refusal> {
        match self {
            Aps::Alf(set) => set.write(out),
            Aps::Lmcs(set) => set.write(out),
            Aps::Scaling(set) => set.write(out),
        }
    }

    /// Writes the set as a unit of a header at the start of `out` and gives the length.
    pub fn write_unit(&self, header: UnitHeader, out: &mut [u8]) -> Result<usize, Refusal> {
        match self {
            Aps::Alf(set) => set.write_unit(header, out),
            Aps::Lmcs(set) => set.write_unit(header, out),
            Aps::Scaling(set) => set.write_unit(header, out),
        }
    }

    /// Its kind, its id and its flags.
    pub fn head(&self) -> Head {
        match self {
            Aps::Alf(set) => set.head(),
            Aps::Lmcs(set) => set.head(),
            Aps::Scaling(set) => set.head(),
        }
    }

    /// Its kind.
    pub fn kind(&self) -> Kind {
        self.head().kind
    }

    /// 0 to the kind's largest id.
    pub fn aps_adaptation_parameter_set_id(&self) -> u8 {
        self.head().aps_adaptation_parameter_set_id
    }

    /// Whether chroma fields are sent.
    pub fn aps_chroma_present_flag(&self) -> bool {
        self.head().aps_chroma_present_flag
    }

    /// Whether extension data follows, which is not kept; a set with it is not written.
    pub fn aps_extension_flag(&self) -> bool {
        self.head().aps_extension_flag
    }
}

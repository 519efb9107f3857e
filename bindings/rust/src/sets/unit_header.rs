//! What a set that is held keeps of its unit's header.

use super::NAL_TYPE_PREFIX_APS;

/// The type, the layer and the temporal id plus one of a set's unit (H.266 7.3.1.2). A unit that is read or written is refused with
/// `InvalidData` for a number outside these, and one that is read also for a forbidden or reserved bit of 1.
#[derive(Debug, Clone, Copy, PartialEq, Eq, Hash)]
#[repr(C)]
pub struct UnitHeader {
    /// 17 or 18.
    pub nal_unit_type: u8,
    /// 0 to 55.
    pub nuh_layer_id: u8,
    /// 1 to 7.
    pub nuh_temporal_id_plus1: u8,
}

/// Type 17, layer 0 and temporal id 0.
impl Default for UnitHeader {
    fn default() -> UnitHeader {
        UnitHeader {
            nal_unit_type: NAL_TYPE_PREFIX_APS,
            nuh_layer_id: 0,
            nuh_temporal_id_plus1: 1,
        }
    }
}

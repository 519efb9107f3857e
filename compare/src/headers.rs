//! Headers of units: of those of sets the ones that are taken, and the ones that get 2.

use crate::random::Random;

/// nal_unit_type, nuh_layer_id and nuh_temporal_id_plus1.
pub type Header = [u8; 3];

/// A header's two bytes, with both zero bits 0.
pub fn bytes([unit_type, layer, temporal_id_plus1]: Header) -> [u8; 2] {
    [layer, unit_type << 3 | temporal_id_plus1]
}

/// The type of a set's unit.
pub fn aps_type(random: &mut Random) -> u8 {
    17 + random.below(2) as u8
}

/// Any layer and temporal id that H.266 has; layer 0 and its neighbour, and the last one, more often.
pub fn good(random: &mut Random, unit_type: u8) -> Header {
    let any = random.below(56) as u8;
    let layer = [0, 1, 55, any][random.below(4)];
    [unit_type, layer, 1 + random.below(7) as u8]
}

/// The two bytes of any header with this type. About one in eight has a zero bit that is 1, a layer above 55, a temporal id plus one of 0, or
/// more than one of these.
pub fn any(random: &mut Random, unit_type: u8) -> [u8; 2] {
    let [first, second] = bytes(good(random, unit_type));
    match random.below(40) {
        0 => [first | 0x80, second],
        1 => [first | 0x40, second],
        2 => [56 + random.below(8) as u8, second],
        3 => [first, second & 0xF8],
        4 => [random.next() as u8, unit_type << 3 | random.below(8) as u8],
        _ => [first, second],
    }
}

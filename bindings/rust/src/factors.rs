//! The scaling factors of a set of scaling lists, H.266 7.4.3.20.

use crate::error::{answer, Refusal};
use crate::raw;
use crate::sets::Scaling;

/// Each call refuses a set that could not be written were its extension flag 0, and another id, with `InvalidData` first, and then with
/// `ZeroFactor` a set of which any factor or DC is 0. Matrices are by row, then column.
impl Scaling {
    /// The matrix of id 8 to 27.
    pub fn matrix8(&self, id: u32) -> Result<[[u8; 8]; 8], Refusal> {
        let mut matrix = [[0; 8]; 8];
        // SAFETY: the set has C's layout and doesn't overlap the matrix.
        answer(unsafe { raw::aps_scaling_matrix8(self, id, &mut matrix) }).map(|()| matrix)
    }

    /// The matrix of id 2 to 7.
    pub fn matrix4(&self, id: u32) -> Result<[[u8; 4]; 4], Refusal> {
        let mut matrix = [[0; 4]; 4];
        // SAFETY: as above.
        answer(unsafe { raw::aps_scaling_matrix4(self, id, &mut matrix) }).map(|()| matrix)
    }

    /// The matrix of id 0 or 1.
    pub fn matrix2(&self, id: u32) -> Result<[[u8; 2]; 2], Refusal> {
        let mut matrix = [[0; 2]; 2];
        // SAFETY: as above.
        answer(unsafe { raw::aps_scaling_matrix2(self, id, &mut matrix) }).map(|()| matrix)
    }

    /// The DC of id 14 to 27.
    pub fn dc(&self, id: u32) -> Result<u8, Refusal> {
        let mut dc = 0;
        // SAFETY: as above.
        answer(unsafe { raw::aps_scaling_dc(self, id, &mut dc) }).map(|()| dc)
    }
}

//! Scaling lists of H.265 masters (H.265 7.3.4), and the H.266 set that stands for them. Bytes are bare list bytes: what follows the lists is not
//! read, and the last byte written ends in zeros.

use crate::error::{answer, sized, Refusal};
use crate::raw;
use crate::sets::Scaling;

/// `scaling_list_data()`: by sizeId, then matrixId; at sizeId 3 only matrixId 0 and 3 are coded. It has C's layout.
#[derive(Debug, Clone, PartialEq, Eq)]
#[repr(C)]
pub struct Lists {
    /// Whether the list is sent; else it is predicted.
    pub pred_mode_flag: [[bool; 6]; 4],
    /// 0 for the default list; else how many matrices before the list is that it repeats, at sizeId 3 in steps of 3.
    pub pred_matrix_id_delta: [[u32; 6]; 4],
    /// Of sizeId 2 and 3, -7 to 247.
    pub dc_coef_minus8: [[i32; 6]; 2],
    /// Coefficients of 4x4.
    pub list_4x4: [[u8; 16]; 6],
    /// Of 8x8, in the order of the diagonal scan.
    pub list_8x8: [[u8; 64]; 6],
    /// Of 16x16.
    pub list_16x16: [[u8; 64]; 6],
    /// Of 32x32, matrixId 0 and 3.
    pub list_32x32: [[u8; 64]; 6],
}

impl Default for Lists {
    /// Every list the default one.
    fn default() -> Lists {
        Lists {
            pred_mode_flag: [[false; 6]; 4],
            pred_matrix_id_delta: [[0; 6]; 4],
            dc_coef_minus8: [[0; 6]; 2],
            list_4x4: [[0; 16]; 6],
            list_8x8: [[0; 64]; 6],
            list_16x16: [[0; 64]; 6],
            list_32x32: [[0; 64]; 6],
        }
    }
}

impl Lists {
    /// The lists at the start of the bytes, and the bit where reading ended. `InputTooLong`; `UnexpectedEnd` and `InvalidData` in reading order.
    pub fn read(bytes: &[u8]) -> Result<(Lists, usize), Refusal> {
        let (mut lists, mut end) = (Lists::default(), 0);
        // SAFETY: the pointer is a slice's, with its own length; the library is proved to write only 0 or 1 into flags, which are bools.
        let code = unsafe { raw::aps_hevc_parse(bytes.as_ptr(), bytes.len(), &mut lists, &mut end) };
        sized(code, end).map(|end| (lists, end))
    }

    /// Writes the lists at the start of `out` and gives the length. `InvalidData`; `OutputTooShort`.
    pub fn write(&self, out: &mut [u8]) -> Result<usize, Refusal> {
        let mut len = 0;
        // SAFETY: the lists have C's layout, and the pointer is a slice's, with its own length, which doesn't overlap them.
        let code = unsafe { raw::aps_hevc_write(self, out.as_mut_ptr(), out.len(), &mut len) };
        sized(code, len)
    }
}

/// The H.266 set with the factors and DCs of the lists in some bytes, id 0: `Lists::read`'s refusals, then `ZeroElement`.
pub fn scaling_set(bytes: &[u8]) -> Result<Scaling, Refusal> {
    let mut set = Scaling::default();
    // SAFETY: as for `Lists::read`.
    answer(unsafe { raw::aps_hevc_scaling_set(bytes.as_ptr(), bytes.len(), &mut set) }).map(|()| set)
}

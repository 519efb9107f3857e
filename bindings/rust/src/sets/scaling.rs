//! `scaling_list_data()`, H.266 7.3.2.20.

/// A scaling set: the 28 scaling lists.
#[derive(Debug, Clone, PartialEq, Eq)]
#[repr(C)]
pub struct Scaling {
    /// 0 to 7.
    pub aps_adaptation_parameter_set_id: u8,
    /// Whether lists of chroma are sent.
    pub aps_chroma_present_flag: bool,
    /// Whether extension data follows, which is not kept; a set with it is not written.
    pub aps_extension_flag: bool,
    /// Whether a list is copied; true for an id that is not coded.
    pub scaling_list_copy_mode_flag: [bool; 28],
    /// Whether a list that is not copied is predicted.
    pub scaling_list_pred_mode_flag: [bool; 28],
    /// How far back the list copied or predicted from stands.
    pub scaling_list_pred_id_delta: [u32; 28],
    /// The DC of ids 14 to 27, -128 to 127.
    pub scaling_list_dc_coef: [i32; 14],
    /// The running sums of each list along the diagonal scan: 4 for ids 0 and 1, 16 for ids 2 to 7, then 64.
    pub scaling_list: [[i32; 64]; 28],
}

impl Default for Scaling {
    fn default() -> Scaling {
        Scaling {
            aps_adaptation_parameter_set_id: 0,
            aps_chroma_present_flag: false,
            aps_extension_flag: false,
            scaling_list_copy_mode_flag: [false; 28],
            scaling_list_pred_mode_flag: [false; 28],
            scaling_list_pred_id_delta: [0; 28],
            scaling_list_dc_coef: [0; 14],
            scaling_list: [[0; 64]; 28],
        }
    }
}

//! Flags that are neither 0 nor 1, which only `raw` takes.

use crate::made::{self, header, LONGEST_UNIT};
use kendwyra::{raw, Alf, Lmcs, Scaling, UnitHeader};
use std::mem::{offset_of, MaybeUninit};
use std::ops::Range;

/// A set with some of its bytes changed.
pub fn with_bytes<S: Clone>(set: &S, changes: &[(usize, u8)]) -> MaybeUninit<S> {
    let mut bytes = MaybeUninit::new(set.clone());
    for &(at, byte) in changes {
        assert!(at < size_of::<S>());
        // SAFETY: the byte is one of the set's, and nothing takes them for a set again.
        unsafe { bytes.as_mut_ptr().cast::<u8>().add(at).write(byte) };
    }
    bytes
}

/// Where the flags of fields stand, each a byte.
macro_rules! flags {
    ($set:ident: $($field:ident)*) => {
        [$({
            let start = offset_of!($set, $field);
            start..start + size_of_val(&$set::default().$field)
        }),*]
    };
}

pub fn alf_flags() -> Vec<Range<usize>> {
    flags!(Alf:
        aps_chroma_present_flag
        aps_extension_flag
        alf_luma_filter_signal_flag
        alf_chroma_filter_signal_flag
        alf_cc_cb_filter_signal_flag
        alf_cc_cr_filter_signal_flag
        alf_luma_clip_flag
        alf_luma_coeff_sign
        alf_chroma_clip_flag
        alf_chroma_coeff_sign
        alf_cc_cb_coeff_sign
        alf_cc_cr_coeff_sign
    )
    .to_vec()
}

pub fn lmcs_flags() -> Vec<Range<usize>> {
    flags!(Lmcs:
        aps_chroma_present_flag
        aps_extension_flag
        lmcs_delta_sign_cw_flag
        lmcs_delta_sign_crs_flag
    )
    .to_vec()
}

pub fn scaling_flags() -> Vec<Range<usize>> {
    flags!(Scaling:
        aps_chroma_present_flag
        aps_extension_flag
        scaling_list_copy_mode_flag
        scaling_list_pred_mode_flag
    )
    .to_vec()
}

type Write<S> = unsafe extern "C" fn(*const S, *mut u8, usize, &mut u64) -> u32;
type WriteNal<S> = unsafe extern "C" fn(*const S, UnitHeader, *mut u8, usize, &mut u64) -> u32;

/// Each flag of each set is 2 and 255: 2, and 3 where the extension flag is 1; nothing is written.
fn each_flag<S: Clone>(sets: [S; 2], flags: Vec<Range<usize>>, write: Write<S>, write_nal: WriteNal<S>) {
    let extension = offset_of!(Alf, aps_extension_flag);
    assert!(flags.contains(&(extension..extension + 1)));
    for set in sets {
        let check = |changes: &[(usize, u8)], due: u32| {
            let bytes = with_bytes(&set, changes);
            let (mut out, mut len) = ([0xAA; LONGEST_UNIT], 9);
            let (to, room) = (out.as_mut_ptr(), out.len());
            // SAFETY: any bytes are lent as a set, and the array with its length.
            let code = unsafe { write(bytes.as_ptr(), to, room, &mut len) };
            assert_eq!((code, len), (due, 9), "{changes:?}");
            for (header, due) in [
                (header(17, 0, 1), due),
                (header(18, 55, 7), due),
                (header(16, 0, 1), 2),
                (header(17, 56, 1), 2),
                (header(18, 0, 0), 2),
            ] {
                // SAFETY: as above.
                let code = unsafe { write_nal(bytes.as_ptr(), header, to, room, &mut len) };
                assert_eq!((code, len), (due, 9), "{changes:?} {header:?}");
            }
            assert_eq!(out, [0xAA; LONGEST_UNIT]);
        };
        for at in flags.iter().cloned().flatten() {
            for byte in [2, 255] {
                check(&[(at, byte)], 2);
                if at != extension {
                    check(&[(at, byte), (extension, 1)], 3);
                    check(&[(at, byte), (extension, 2)], 2);
                }
            }
        }
    }
}

#[test]
fn alf() {
    let sets = [Alf::default(), made::alf(7)];
    assert_eq!(alf_flags().into_iter().flatten().count(), 412);
    each_flag(sets, alf_flags(), raw::aps_alf_write, raw::aps_alf_write_nal);
}

#[test]
fn lmcs() {
    let sets = [Lmcs::default(), made::lmcs(3)];
    assert_eq!(lmcs_flags().into_iter().flatten().count(), 19);
    each_flag(sets, lmcs_flags(), raw::aps_lmcs_write, raw::aps_lmcs_write_nal);
}

#[test]
fn scaling() {
    let sets = [Scaling::default(), made::scaling(7)];
    assert_eq!(scaling_flags().into_iter().flatten().count(), 58);
    each_flag(
        sets,
        scaling_flags(),
        raw::aps_scaling_write,
        raw::aps_scaling_write_nal,
    );
}

//! C's structs of sets, in memory that can hold any bytes, and the one order of a set's fields: its kind, its id, the chroma flag and the
//! extension flag, then those of its kind as in kendwyra.h, rows one after another. A set as numbers is in this order.

use super::MARK;

/// A field's type in C; a flag is a byte that must be 0 or 1.
#[derive(Clone, Copy, PartialEq)]
pub enum Type {
    Flag,
    Byte,
    Word,
    Signed,
}

use Type::{Byte, Flag, Signed, Word};

impl Type {
    fn size(self) -> usize {
        match self {
            Flag | Byte => 1,
            Word | Signed => 4,
        }
    }

    /// The least and the largest number that a field may hold.
    pub fn range(self) -> (i64, i64) {
        match self {
            Flag => (0, 1),
            Byte => (0, u8::MAX.into()),
            Word => (0, u32::MAX.into()),
            Signed => (i32::MIN.into(), i32::MAX.into()),
        }
    }
}

/// A name, and of which type how many numbers there are.
type Field = (&'static str, Type, usize);

const ID: Field = ("aps_adaptation_parameter_set_id", Byte, 1);
const CHROMA: Field = ("aps_chroma_present_flag", Flag, 1);
const EXTENSION: Field = ("aps_extension_flag", Flag, 1);

const ALF: &[Field] = &[
    ID,
    CHROMA,
    EXTENSION,
    ("alf_luma_filter_signal_flag", Flag, 1),
    ("alf_chroma_filter_signal_flag", Flag, 1),
    ("alf_cc_cb_filter_signal_flag", Flag, 1),
    ("alf_cc_cr_filter_signal_flag", Flag, 1),
    ("alf_luma_clip_flag", Flag, 1),
    ("alf_luma_num_filters_signalled_minus1", Word, 1),
    ("alf_luma_coeff_delta_idx", Byte, 25),
    ("alf_luma_coeff_abs", Word, 25 * 12),
    ("alf_luma_coeff_sign", Flag, 25 * 12),
    ("alf_luma_clip_idx", Byte, 25 * 12),
    ("alf_chroma_clip_flag", Flag, 1),
    ("alf_chroma_num_alt_filters_minus1", Word, 1),
    ("alf_chroma_coeff_abs", Word, 8 * 6),
    ("alf_chroma_coeff_sign", Flag, 8 * 6),
    ("alf_chroma_clip_idx", Byte, 8 * 6),
    ("alf_cc_cb_filters_signalled_minus1", Word, 1),
    ("alf_cc_cb_mapped_coeff_abs", Byte, 4 * 7),
    ("alf_cc_cb_coeff_sign", Flag, 4 * 7),
    ("alf_cc_cr_filters_signalled_minus1", Word, 1),
    ("alf_cc_cr_mapped_coeff_abs", Byte, 4 * 7),
    ("alf_cc_cr_coeff_sign", Flag, 4 * 7),
];

const LMCS: &[Field] = &[
    ID,
    CHROMA,
    EXTENSION,
    ("lmcs_min_bin_idx", Word, 1),
    ("lmcs_delta_max_bin_idx", Word, 1),
    ("lmcs_delta_cw_prec_minus1", Word, 1),
    ("lmcs_delta_abs_cw", Word, 16),
    ("lmcs_delta_sign_cw_flag", Flag, 16),
    ("lmcs_delta_abs_crs", Byte, 1),
    ("lmcs_delta_sign_crs_flag", Flag, 1),
];

const SCALING: &[Field] = &[
    ID,
    CHROMA,
    EXTENSION,
    ("scaling_list_copy_mode_flag", Flag, 28),
    ("scaling_list_pred_mode_flag", Flag, 28),
    ("scaling_list_pred_id_delta", Word, 28),
    ("scaling_list_dc_coef", Signed, 14),
    ("scaling_list", Signed, 28 * 64),
];

/// The fields of a kind's struct. The kind itself is the number before them.
const FIELDS: [&[Field]; 3] = [ALF, LMCS, SCALING];

/// The name and the type of each number after the kind.
fn named(kind: usize) -> impl Iterator<Item = (&'static str, Type)> {
    let each = |&(name, of, count): &Field| std::iter::repeat_n((name, of), count);
    FIELDS[kind].iter().flat_map(each)
}

/// The types of all numbers of a set but the kind.
pub fn types(kind: usize) -> Vec<Type> {
    named(kind).map(|(_, of)| of).collect()
}

/// The numbers that are flags.
pub fn flags(kind: usize) -> Vec<(usize, &'static str)> {
    let flags = (1..).zip(named(kind)).filter(|&(_, (_, of))| of == Flag);
    flags.map(|(i, (name, _))| (i, name)).collect()
}

const AFTER: usize = 2;
const MARKED: u32 = MARK as u32;

/// A struct of a kind, and after it some memory that no call may change.
#[derive(Clone, PartialEq)]
pub struct Struct {
    kind: usize,
    words: Vec<u32>,
}

impl Struct {
    /// One whose every byte is a mark.
    pub fn marked(kind: usize) -> Self {
        let end = places(kind).last().map_or(0, |(_, end)| end);
        Struct {
            kind,
            words: vec![MARKED; end.div_ceil(4) + AFTER],
        }
    }

    /// In bytes, without those after it.
    pub fn size(&self) -> usize {
        (self.words.len() - AFTER) * 4
    }

    /// Numbers of a set, each of which its field can hold. What lies between fields stays a mark.
    pub fn of(numbers: &[i64]) -> Self {
        let mut out = Struct::marked(numbers[0] as usize);
        let mut left = &numbers[1..];
        let mut bytes: Vec<u8> = out.words.iter().flat_map(|word| word.to_le_bytes()).collect();
        for ((from, end), &(_, of, count)) in places(out.kind).zip(FIELDS[out.kind]) {
            let (field, after) = left.split_at(count);
            left = after;
            for (to, number) in bytes[from..end].chunks_exact_mut(of.size()).zip(field) {
                to.copy_from_slice(&number.to_le_bytes()[..of.size()]);
            }
        }
        assert!(left.is_empty(), "a number for each field");
        for (word, bytes) in out.words.iter_mut().zip(bytes.as_chunks().0) {
            *word = u32::from_le_bytes(*bytes);
        }
        out
    }

    pub fn pointer<T>(&mut self) -> *mut T {
        std::hint::black_box(self.words.as_mut_ptr()).cast()
    }

    pub fn is_marked(&self) -> bool {
        self.words.iter().all(|&word| word == MARKED)
    }

    /// The set's numbers; none where what lies after the struct has changed.
    pub fn numbers(&self) -> Option<Vec<i64>> {
        let after = self.words.len() - AFTER;
        let kept = self.words[after..] == [MARKED; AFTER];
        kept.then(|| self.fields())
    }

    fn fields(&self) -> Vec<i64> {
        let bytes: Vec<u8> = self.words.iter().flat_map(|word| word.to_le_bytes()).collect();
        let mut out = vec![self.kind as i64];
        for ((from, end), &(_, of, _)) in places(self.kind).zip(FIELDS[self.kind]) {
            let field = &bytes[from..end];
            let words = field.as_chunks().0.iter().map(|word| u32::from_le_bytes(*word));
            match of {
                Flag | Byte => out.extend(field.iter().map(|&byte| i64::from(byte))),
                Word => out.extend(words.map(i64::from)),
                Signed => out.extend(words.map(|word| i64::from(word as i32))),
            }
        }
        out
    }
}

/// Where each field of a kind's struct starts and ends, in bytes: C's rule, with as many bytes between as alignment takes.
fn places(kind: usize) -> impl Iterator<Item = (usize, usize)> {
    FIELDS[kind].iter().scan(0usize, |at, &(_, of, count)| {
        let from = at.next_multiple_of(of.size());
        *at = from + count * of.size();
        Some((from, *at))
    })
}

//! The exports of libkendwyra.a themselves, for callers that keep their own arrays: a slice crosses as pointer and length, an array by
//! reference, a set by pointer, and the answer is 0 or a refusal's number.
//!
//! # Safety
//!
//! For each call: a pointer and its length are those of memory that is readable, or writable where something is written, and that overlaps
//! nothing else that is lent. A pointer to a set is that of memory as large and as aligned as the set, readable or writable too; a set that is
//! written out may be any bytes, flags other than 0 and 1 with them. Any bytes are some table, and any are some marks.

use crate::curve::{Ends, LumaCurve};
use crate::filters::{CcFilters, ChromaFilters, LumaFilters, LumaWeights};
use crate::hevc::Lists;
use crate::sets::{Alf, Head, Lmcs, Scaling, UnitHeader};
use crate::{MARKS_BYTES, TABLE_BYTES};

/// The code of a unit alone that is neither taken nor refused.
pub const PASSED_OVER: u32 = 256;

extern "C" {
    /// A unit's header as its five fields.
    pub fn aps_parse_nal_header(unit: *const u8, len: usize, header: &mut [u8; 5]) -> u32;

    /// Of the set of an RBSP the kind, the id and the flags, and the bit where reading ended.
    pub fn aps_head_parse_rbsp(bytes: *const u8, len: usize, head: *mut Head, end: &mut u64) -> u32;

    /// The same of the set of a unit.
    pub fn aps_head_parse(
        unit: *const u8,
        len: usize,
        work: *mut u8,
        room: usize,
        head: *mut Head,
        end: &mut u64,
    ) -> u32;

    /// The ALF set of an RBSP, and the bit where reading ended.
    pub fn aps_alf_parse_rbsp(bytes: *const u8, len: usize, set: *mut Alf, end: &mut u64) -> u32;

    /// The ALF set of a unit, and the bit of its RBSP where reading ended.
    pub fn aps_alf_parse(unit: *const u8, len: usize, work: *mut u8, room: usize, set: *mut Alf, end: &mut u64) -> u32;

    /// An ALF set as an RBSP.
    pub fn aps_alf_write(set: *const Alf, out: *mut u8, room: usize, len: &mut u64) -> u32;

    /// An ALF set as a unit of a header.
    pub fn aps_alf_write_nal(set: *const Alf, header: UnitHeader, out: *mut u8, room: usize, len: &mut u64) -> u32;

    /// The LMCS set of an RBSP, and the bit where reading ended.
    pub fn aps_lmcs_parse_rbsp(bytes: *const u8, len: usize, set: *mut Lmcs, end: &mut u64) -> u32;

    /// The LMCS set of a unit, and the bit of its RBSP where reading ended.
    pub fn aps_lmcs_parse(
        unit: *const u8,
        len: usize,
        work: *mut u8,
        room: usize,
        set: *mut Lmcs,
        end: &mut u64,
    ) -> u32;

    /// An LMCS set as an RBSP.
    pub fn aps_lmcs_write(set: *const Lmcs, out: *mut u8, room: usize, len: &mut u64) -> u32;

    /// An LMCS set as a unit of a header.
    pub fn aps_lmcs_write_nal(set: *const Lmcs, header: UnitHeader, out: *mut u8, room: usize, len: &mut u64) -> u32;

    /// The scaling set of an RBSP, and the bit where reading ended.
    pub fn aps_scaling_parse_rbsp(bytes: *const u8, len: usize, set: *mut Scaling, end: &mut u64) -> u32;

    /// The scaling set of a unit, and the bit of its RBSP where reading ended.
    pub fn aps_scaling_parse(
        unit: *const u8,
        len: usize,
        work: *mut u8,
        room: usize,
        set: *mut Scaling,
        end: &mut u64,
    ) -> u32;

    /// A scaling set as an RBSP.
    pub fn aps_scaling_write(set: *const Scaling, out: *mut u8, room: usize, len: &mut u64) -> u32;

    /// A scaling set as a unit of a header.
    pub fn aps_scaling_write_nal(
        set: *const Scaling,
        header: UnitHeader,
        out: *mut u8,
        room: usize,
        len: &mut u64,
    ) -> u32;

    /// The set of an RBSP written again.
    pub fn aps_rewrite(bytes: *const u8, len: usize, out: *mut u8, room: usize, written: &mut u64) -> u32;

    /// The bit where reading the set of an RBSP ended, by the record of an ALF set.
    pub fn aps_alf_end(bytes: *const u8, len: usize, end: &mut u64) -> u32;

    /// The same by that of an LMCS set.
    pub fn aps_lmcs_end(bytes: *const u8, len: usize, end: &mut u64) -> u32;

    /// The same by that of a scaling set.
    pub fn aps_scaling_end(bytes: *const u8, len: usize, end: &mut u64) -> u32;

    /// The ALF set of an RBSP written again.
    pub fn aps_alf_rewrite(bytes: *const u8, len: usize, out: *mut u8, room: usize, written: &mut u64) -> u32;

    /// The LMCS set of an RBSP written again.
    pub fn aps_lmcs_rewrite(bytes: *const u8, len: usize, out: *mut u8, room: usize, written: &mut u64) -> u32;

    /// The scaling set of an RBSP written again.
    pub fn aps_scaling_rewrite(bytes: *const u8, len: usize, out: *mut u8, room: usize, written: &mut u64) -> u32;

    /// The luma filters of an ALF set at a bit depth.
    pub fn aps_alf_luma_filters(set: *const Alf, depth: u32, filters: *mut LumaFilters) -> u32;

    /// Its chroma filters.
    pub fn aps_alf_chroma_filters(set: *const Alf, depth: u32, filters: *mut ChromaFilters) -> u32;

    /// Its filters of Cb.
    pub fn aps_alf_cb_filters(set: *const Alf, depth: u32, filters: *mut CcFilters) -> u32;

    /// Its filters of Cr.
    pub fn aps_alf_cr_filters(set: *const Alf, depth: u32, filters: *mut CcFilters) -> u32;

    /// One luma filter of it as weights.
    pub fn aps_alf_luma_weights(set: *const Alf, filter: u32, weights: *mut LumaWeights) -> u32;

    /// A matrix of 8x8 of a scaling set, by row and column.
    pub fn aps_scaling_matrix8(set: *const Scaling, id: u32, matrix: &mut [[u8; 8]; 8]) -> u32;

    /// One of 4x4.
    pub fn aps_scaling_matrix4(set: *const Scaling, id: u32, matrix: &mut [[u8; 4]; 4]) -> u32;

    /// One of 2x2.
    pub fn aps_scaling_matrix2(set: *const Scaling, id: u32, matrix: &mut [[u8; 2]; 2]) -> u32;

    /// A DC.
    pub fn aps_scaling_dc(set: *const Scaling, id: u32, dc: &mut u8) -> u32;

    /// The luma curve of an LMCS set at a bit depth.
    pub fn aps_lmcs_curve(set: *const Lmcs, depth: u32, curve: *mut LumaCurve) -> u32;

    /// What it maps a sample to.
    pub fn aps_lmcs_map_sample(set: *const Lmcs, depth: u32, sample: u32, mapped: &mut u32) -> u32;

    /// The least and the greatest that it maps the samples of a range to.
    pub fn aps_lmcs_map_range(set: *const Lmcs, depth: u32, lower: u32, upper: u32, ends: *mut Ends) -> u32;

    /// The H.265 lists of bare bytes, and the bit where reading ended.
    pub fn aps_hevc_parse(bytes: *const u8, len: usize, lists: *mut Lists, end: &mut u64) -> u32;

    /// H.265 lists as bare bytes.
    pub fn aps_hevc_write(lists: *const Lists, out: *mut u8, room: usize, len: &mut u64) -> u32;

    /// The H.266 set of the H.265 lists of bare bytes.
    pub fn aps_hevc_scaling_set(bytes: *const u8, len: usize, set: *mut Scaling) -> u32;

    /// Escapes removed.
    pub fn aps_ebsp_to_rbsp(src: *const u8, len: usize, out: *mut u8, room: usize, written: &mut u64) -> u32;

    /// Escapes put in.
    pub fn aps_rbsp_to_ebsp(src: *const u8, len: usize, out: *mut u8, room: usize, written: &mut u64) -> u32;

    /// Every place empty.
    pub fn aps_table_new(table: &mut [u8; TABLE_BYTES]);

    /// A unit alone into the table.
    pub fn aps_take_unit(table: &mut [u8; TABLE_BYTES], unit: *const u8, len: usize, work: *mut u8, room: usize)
        -> u32;

    /// A stream into the table: units accepted, refused and passed over.
    pub fn aps_take_stream(
        table: &mut [u8; TABLE_BYTES],
        bytes: *const u8,
        len: usize,
        work: *mut u8,
        room: usize,
        counts: &mut [u64; 3],
    ) -> u32;

    /// Of the set held for a kind and an id the kind, the id and the flags, and its unit's header.
    pub fn aps_head_lookup(
        table: &[u8; TABLE_BYTES],
        kind: u8,
        id: u8,
        head: *mut Head,
        header: *mut UnitHeader,
    ) -> u32;

    /// The ALF set held for an id, and its unit's header.
    pub fn aps_alf_lookup(table: &[u8; TABLE_BYTES], id: u8, set: *mut Alf, header: *mut UnitHeader) -> u32;

    /// The LMCS set held for an id, and its unit's header.
    pub fn aps_lmcs_lookup(table: &[u8; TABLE_BYTES], id: u8, set: *mut Lmcs, header: *mut UnitHeader) -> u32;

    /// The scaling set held for an id, and its unit's header.
    pub fn aps_scaling_lookup(table: &[u8; TABLE_BYTES], id: u8, set: *mut Scaling, header: *mut UnitHeader) -> u32;

    /// The list at a cut.
    pub fn aps_write_list(table: &[u8; TABLE_BYTES], out: *mut u8, room: usize, len: &mut u64) -> u32;

    /// No mark is set.
    pub fn aps_marks_new(marks: &mut [u8; MARKS_BYTES]);

    /// All places of the table kept in a mark.
    pub fn aps_set_mark(table: &[u8; TABLE_BYTES], marks: &mut [u8; MARKS_BYTES], mark: u8) -> u32;

    /// All places of the table as they were when the mark was last set.
    pub fn aps_go_back(table: &mut [u8; TABLE_BYTES], marks: &[u8; MARKS_BYTES], mark: u8) -> u32;
}

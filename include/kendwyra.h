/* H.266 adaptation parameter sets: sets read and written, the table of those in force, its marks, and the list at a cut;
 * what a set means; and scaling lists of H.265.
 *
 * Every call answers 0 or a refusal's number. A refusal changes nothing but what is said beside it; after 0, bytes of
 * an output past those written stay as they were. No bytes, numbers or lengths make a call reach past what it is given.
 * A pointer that comes with a length may be null where the length is 0. Arguments must not overlap.
 * Link with libkendwyra.a, which `tools/archives` makes in target/staticlib beside kendwyra.pc. */
#ifndef KENDWYRA_H
#define KENDWYRA_H

#include <stddef.h>
#include <stdint.h>

#ifdef __cplusplus
extern "C" {
#endif

/* Refusals. */
enum {
    APS_UNEXPECTED_END = 1,   /* a unit under 2 bytes; an RBSP that ends before its set does: cut off */
    APS_INVALID_DATA = 2,     /* a wrong header, kind, id, flag, range, stop bit, padding or stream split; no place or mark */
    APS_UNSUPPORTED = 3,      /* a kind 3 to 7; extension flag 1 to write */
    APS_INPUT_TOO_LONG = 4,   /* an input over 65,536 bytes; a set's RBSP over 2,048, read or written */
    APS_OUTPUT_TOO_SHORT = 5, /* a work buffer or an output that is too short */
    APS_EMPTY_PLACE = 6,      /* the lookup of an empty place */
    APS_DEPTH_OUT_OF_RANGE = 7,     /* a bit depth outside 8 to 12 */
    APS_NOT_SENT = 8,               /* a component that was not sent */
    APS_ZERO_FACTOR = 9,            /* scaling lists with a factor or a DC of 0 */
    APS_CODEWORD_OUT_OF_RANGE = 10, /* a codeword of a luma curve that is too small or too large */
    APS_CODEWORDS_TOO_LARGE = 11,   /* codewords whose sum reaches 2 to the power of the depth */
    APS_SAMPLE_OUT_OF_RANGE = 12,   /* a sample of 2 to the power of the depth or more; a lower end above the upper */
    APS_ZERO_ELEMENT = 13,          /* H.265 lists with an element of 0 */
    APS_MARK_NOT_SET = 14           /* going back to a mark that was never set */
};

/* What aps_take_unit answers for a unit of another type than 17 or 18. */
enum { APS_PASSED_OVER = 256 };

/* Kinds, and their largest ids: 7, 3 and 7. */
enum { APS_ALF = 0, APS_LMCS = 1, APS_SCALING = 2 };

enum {
    APS_TABLE_BYTES = 23228,   /* a table, which the caller keeps */
    APS_MARKS = 8,             /* marks, 0 to 7 */
    APS_MARKS_BYTES = 185832,  /* the marks, which the caller keeps beside the table */
    APS_LIST_BYTES = 34900,    /* no list is longer */
    APS_LONGEST_INPUT = 65536, /* the longest stream or unit, and the longest input of the escapes' calls */
    APS_LONGEST_RBSP = 2048    /* the longest RBSP of a set; a work buffer of so many bytes always suffices */
};

/* Sets: a struct for each kind, the fields by H.266's names. A flag is 0 or 1; what is not sent is 0 or inferred. */

/* What every set has. */
typedef struct aps_head {
    uint8_t kind;
    uint8_t aps_adaptation_parameter_set_id;
    uint8_t aps_chroma_present_flag;
    uint8_t aps_extension_flag;
} aps_head;

typedef struct aps_alf {
    uint8_t aps_adaptation_parameter_set_id;
    uint8_t aps_chroma_present_flag;
    uint8_t aps_extension_flag;
    uint8_t alf_luma_filter_signal_flag;
    uint8_t alf_chroma_filter_signal_flag;
    uint8_t alf_cc_cb_filter_signal_flag;
    uint8_t alf_cc_cr_filter_signal_flag;
    uint8_t alf_luma_clip_flag;
    uint32_t alf_luma_num_filters_signalled_minus1;
    uint8_t alf_luma_coeff_delta_idx[25];
    uint32_t alf_luma_coeff_abs[25][12];
    uint8_t alf_luma_coeff_sign[25][12];
    uint8_t alf_luma_clip_idx[25][12];
    uint8_t alf_chroma_clip_flag;
    uint32_t alf_chroma_num_alt_filters_minus1;
    uint32_t alf_chroma_coeff_abs[8][6];
    uint8_t alf_chroma_coeff_sign[8][6];
    uint8_t alf_chroma_clip_idx[8][6];
    uint32_t alf_cc_cb_filters_signalled_minus1;
    uint8_t alf_cc_cb_mapped_coeff_abs[4][7];
    uint8_t alf_cc_cb_coeff_sign[4][7];
    uint32_t alf_cc_cr_filters_signalled_minus1;
    uint8_t alf_cc_cr_mapped_coeff_abs[4][7];
    uint8_t alf_cc_cr_coeff_sign[4][7];
} aps_alf;

typedef struct aps_lmcs {
    uint8_t aps_adaptation_parameter_set_id;
    uint8_t aps_chroma_present_flag;
    uint8_t aps_extension_flag;
    uint32_t lmcs_min_bin_idx;
    uint32_t lmcs_delta_max_bin_idx;
    uint32_t lmcs_delta_cw_prec_minus1;
    uint32_t lmcs_delta_abs_cw[16];
    uint8_t lmcs_delta_sign_cw_flag[16];
    uint8_t lmcs_delta_abs_crs;
    uint8_t lmcs_delta_sign_crs_flag;
} aps_lmcs;

typedef struct aps_scaling {
    uint8_t aps_adaptation_parameter_set_id;
    uint8_t aps_chroma_present_flag;
    uint8_t aps_extension_flag;
    uint8_t scaling_list_copy_mode_flag[28];
    uint8_t scaling_list_pred_mode_flag[28];
    uint32_t scaling_list_pred_id_delta[28];
    int32_t scaling_list_dc_coef[14]; /* of ids 14 to 27 */
    int32_t scaling_list[28][64];     /* in the order of the diagonal scan */
} aps_scaling;

/* What a set that is held keeps of its unit's header: type 17 or 18, layer 0 to 55 and temporal id plus one 1 to 7. A unit
 * that is read or written is refused with 2 for another, and one that is read also for a forbidden or reserved bit of 1. */
typedef struct aps_unit_header {
    uint8_t nal_unit_type;
    uint8_t nuh_layer_id;
    uint8_t nuh_temporal_id_plus1;
} aps_unit_header;

/* ---- the table */

/* Every place of the table empty, whatever its bytes were. */
void aps_table_new(uint8_t table[APS_TABLE_BYTES]);

/* A stream in the byte stream form: how many units were accepted, refused and passed over. 4; 2; 5: the work buffer is
 * shorter than the longest RBSP that is read, of the APS units whose header is accepted and whose RBSP is not too long; a
 * stream without one needs none. The work buffer starts with the RBSP of the last APS unit that was read; a refused stream
 * leaves it and the table as they were. Units that are refused are counted; one whose RBSP is damaged or too long empties a
 * place, as below. */
uint32_t aps_take_stream(uint8_t table[APS_TABLE_BYTES], const uint8_t *bytes, size_t len, uint8_t *work, size_t room,
                         uint64_t counts[3]);

/* A unit alone, without a start code: 0, APS_PASSED_OVER or a refusal. 4; 1 and 2 of the header; 4: the RBSP is over 2,048
 * bytes; 5: the work buffer is shorter than the RBSP; then the RBSP. A unit whose RBSP is refused with 1, 2 or 4 empties the
 * place that the RBSP's first byte names (kind * 32 + id): what it should have replaced is out of date. A unit over 65,536
 * bytes, a refused header, 3 and 5 empty none. Unless its RBSP is read, the work buffer stays as it was. */
uint32_t aps_take_unit(uint8_t table[APS_TABLE_BYTES], const uint8_t *unit, size_t len, uint8_t *work, size_t room);

/* Of the set held for a kind and an id the kind, the id and the flags, and its unit's header. 2: they name no place; 6: the
 * place is empty. */
uint32_t aps_head_lookup(const uint8_t table[APS_TABLE_BYTES], uint8_t kind, uint8_t id, aps_head *head,
                         aps_unit_header *header);

/* The set of a kind that is held for an id, and its unit's header. 2; 6. */
uint32_t aps_alf_lookup(const uint8_t table[APS_TABLE_BYTES], uint8_t id, aps_alf *set, aps_unit_header *header);
uint32_t aps_lmcs_lookup(const uint8_t table[APS_TABLE_BYTES], uint8_t id, aps_lmcs *set, aps_unit_header *header);
uint32_t aps_scaling_lookup(const uint8_t table[APS_TABLE_BYTES], uint8_t id, aps_scaling *set,
                            aps_unit_header *header);

/* The list at a cut, and its length: every set held, as a unit of its own header after 00 00 00 01, kind rising, then id.
 * 3; 5. */
uint32_t aps_write_list(const uint8_t table[APS_TABLE_BYTES], uint8_t *out, size_t room, uint64_t len[1]);

/* No mark is set, whatever the bytes were. */
void aps_marks_new(uint8_t marks[APS_MARKS_BYTES]);

/* All places of the table, with their headers, kept in a mark instead of what it kept before. 2: there is no such mark. */
uint32_t aps_set_mark(const uint8_t table[APS_TABLE_BYTES], uint8_t marks[APS_MARKS_BYTES], uint8_t mark);

/* All places of the table as they were when the mark was last set; the marks stay. 2; 14: it was never set. */
uint32_t aps_go_back(uint8_t table[APS_TABLE_BYTES], const uint8_t marks[APS_MARKS_BYTES], uint8_t mark);

/* ---- one set */

/* Of a set out of its RBSP the kind, the id and the flags, and the bit where reading ended: the whole set is read. An RBSP's
 * first three bits are its kind. 4 first: it is over 2,048 bytes, those after the set counted. */
uint32_t aps_head_parse_rbsp(const uint8_t *bytes, size_t len, aps_head *head, uint64_t end[1]);

/* The same out of a unit; its RBSP goes to the start of the work buffer. 4, 1 and 2 of the header, then 4 and 5, as
 * for a unit alone. */
uint32_t aps_head_parse(const uint8_t *unit, size_t len, uint8_t *work, size_t room, aps_head *head, uint64_t end[1]);

/* A set of a kind out of its RBSP, and the bit where reading ended. 2 also for a set of another kind. */
uint32_t aps_alf_parse_rbsp(const uint8_t *bytes, size_t len, aps_alf *set, uint64_t end[1]);
uint32_t aps_lmcs_parse_rbsp(const uint8_t *bytes, size_t len, aps_lmcs *set, uint64_t end[1]);
uint32_t aps_scaling_parse_rbsp(const uint8_t *bytes, size_t len, aps_scaling *set, uint64_t end[1]);

/* The same out of a unit. */
uint32_t aps_alf_parse(const uint8_t *unit, size_t len, uint8_t *work, size_t room, aps_alf *set, uint64_t end[1]);
uint32_t aps_lmcs_parse(const uint8_t *unit, size_t len, uint8_t *work, size_t room, aps_lmcs *set, uint64_t end[1]);
uint32_t aps_scaling_parse(const uint8_t *unit, size_t len, uint8_t *work, size_t room, aps_scaling *set,
                           uint64_t end[1]);

/* A set as an RBSP, and its length. 3: extension flag 1; 2 also for a flag that is neither 0 nor 1; 4: it is over 2,048
 * bytes; 5. */
uint32_t aps_alf_write(const aps_alf *set, uint8_t *out, size_t room, uint64_t len[1]);
uint32_t aps_lmcs_write(const aps_lmcs *set, uint8_t *out, size_t room, uint64_t len[1]);
uint32_t aps_scaling_write(const aps_scaling *set, uint8_t *out, size_t room, uint64_t len[1]);

/* A set as a unit of a header, and its length. 2 first for the header; then as an RBSP. */
uint32_t aps_alf_write_nal(const aps_alf *set, aps_unit_header header, uint8_t *out, size_t room, uint64_t len[1]);
uint32_t aps_lmcs_write_nal(const aps_lmcs *set, aps_unit_header header, uint8_t *out, size_t room, uint64_t len[1]);
uint32_t aps_scaling_write_nal(const aps_scaling *set, aps_unit_header header, uint8_t *out, size_t room,
                               uint64_t len[1]);

/* The header of a unit: forbidden bit, reserved bit, layer, type, temporal id plus one. None of them is judged. */
uint32_t aps_parse_nal_header(const uint8_t *unit, size_t len, uint8_t header[5]);

/* A set read from an RBSP and written again, and its length. */
uint32_t aps_rewrite(const uint8_t *bytes, size_t len, uint8_t *out, size_t room, uint64_t written[1]);

/* ---- a set by its own kind, without the arrays of the other two */

/* The bit where reading a set ended, through the record of that kind; a set of another kind is read too. */
uint32_t aps_alf_end(const uint8_t *bytes, size_t len, uint64_t end[1]);
uint32_t aps_lmcs_end(const uint8_t *bytes, size_t len, uint64_t end[1]);
uint32_t aps_scaling_end(const uint8_t *bytes, size_t len, uint64_t end[1]);

/* As aps_rewrite. 2 also for a set of another kind. */
uint32_t aps_alf_rewrite(const uint8_t *bytes, size_t len, uint8_t *out, size_t room, uint64_t written[1]);
uint32_t aps_lmcs_rewrite(const uint8_t *bytes, size_t len, uint8_t *out, size_t room, uint64_t written[1]);
uint32_t aps_scaling_rewrite(const uint8_t *bytes, size_t len, uint8_t *out, size_t room, uint64_t written[1]);

/* ---- what a set means. Every call refuses with 2 first a set that could not be written were its extension flag 0, and a
 * flag that is neither 0 nor 1; a set with extension flag 1 is served. Then its own refusals, in the order that is said. */

/* The filters of an ALF set as they act (H.266 7.4.3.18). Rows past count are 0. */
typedef struct aps_luma_filters {
    int32_t coefficients[25][12]; /* AlfCoeffL: of each filter, the row that its index names */
    uint32_t clips[25][12];       /* AlfClipL */
} aps_luma_filters;

typedef struct aps_chroma_filters {
    uint32_t count; /* alternatives that were sent */
    int32_t coefficients[8][6];
    uint32_t clips[8][6];
} aps_chroma_filters;

typedef struct aps_cc_filters {
    uint32_t count; /* filters that were sent */
    int32_t coefficients[4][7];
} aps_cc_filters;

/* One luma filter for a shader: its coefficients over 128, and 1 minus twice their sum; every one is exact. */
typedef struct aps_luma_weights {
    float taps[12];
    float centre;
} aps_luma_weights;

/* A component of an ALF set at a bit depth. 7: a depth outside 8 to 12; 8: the component was not sent. */
uint32_t aps_alf_luma_filters(const aps_alf *set, uint32_t depth, aps_luma_filters *filters);
uint32_t aps_alf_chroma_filters(const aps_alf *set, uint32_t depth, aps_chroma_filters *filters);
uint32_t aps_alf_cb_filters(const aps_alf *set, uint32_t depth, aps_cc_filters *filters);
uint32_t aps_alf_cr_filters(const aps_alf *set, uint32_t depth, aps_cc_filters *filters);

/* The weights of a luma filter. 2: a number above 24; 8. */
uint32_t aps_alf_luma_weights(const aps_alf *set, uint32_t filter, aps_luma_weights *weights);

/* The scaling factors of a set of scaling lists (H.266 7.4.3.20), by row and column, of id 8 to 27, 2 to 7, and 0 or 1; and
 * the DC of id 14 to 27. 2: another id; 9: a factor or a DC of the set is 0, whichever id is asked for. */
uint32_t aps_scaling_matrix8(const aps_scaling *set, uint32_t id, uint8_t matrix[8][8]);
uint32_t aps_scaling_matrix4(const aps_scaling *set, uint32_t id, uint8_t matrix[4][4]);
uint32_t aps_scaling_matrix2(const aps_scaling *set, uint32_t id, uint8_t matrix[2][2]);
uint32_t aps_scaling_dc(const aps_scaling *set, uint32_t id, uint8_t dc[1]);

/* The luma curve of an LMCS set (H.266 7.4.3.19), with O for 2 to the power depth - 4. A scale is O * 2048 divided by the
 * codeword, for chroma with the chroma delta added, and rest the exact remainder; an empty bin has the codeword 0 and the
 * scales 0 and 2048. */
typedef struct aps_luma_curve {
    uint32_t codewords[16];
    uint32_t pivots[17];
    uint32_t forward[16];
    uint32_t inverse[16];
    uint32_t inverse_rest[16];
    uint32_t chroma[16];
    uint32_t chroma_rest[16];
} aps_luma_curve;

/* Of a range of samples the least and the greatest value that one is mapped to; both are reached. */
typedef struct aps_ends {
    uint32_t least;
    uint32_t greatest;
} aps_ends;

/* 7: a depth outside 8 to 12; 10: a coded codeword, or one with the chroma delta, below O / 8 or above 8 * O - 1; 11: the
 * codewords' sum reaches 2 to the power depth. */
uint32_t aps_lmcs_curve(const aps_lmcs *set, uint32_t depth, aps_luma_curve *curve);

/* What the curve maps a sample to, and the ends of a range, both its ends in it. 7; 10; 11; 12: a sample of 2 to the power
 * depth or more, or a lower end above the upper. */
uint32_t aps_lmcs_map_sample(const aps_lmcs *set, uint32_t depth, uint32_t sample, uint32_t mapped[1]);
uint32_t aps_lmcs_map_range(const aps_lmcs *set, uint32_t depth, uint32_t lower, uint32_t upper, aps_ends *ends);

/* ---- scaling lists of H.265 masters (H.265 7.3.4), as bare bytes: what follows the lists is not read, and the last byte
 * written ends in zeros */

/* By sizeId, then matrixId; at sizeId 3 only matrixId 0 and 3 are coded. What is not sent is 0. */
typedef struct aps_hevc_lists {
    uint8_t pred_mode_flag[4][6];
    uint32_t pred_matrix_id_delta[4][6];
    int32_t dc_coef_minus8[2][6]; /* of sizeId 2 and 3 */
    uint8_t list_4x4[6][16];
    uint8_t list_8x8[6][64]; /* in the order of the diagonal scan, as those below */
    uint8_t list_16x16[6][64];
    uint8_t list_32x32[6][64];
} aps_hevc_lists;

/* The lists, and the bit where reading ended. 4: over 65,536 bytes; 1 for a missing bit and 2 in reading order. */
uint32_t aps_hevc_parse(const uint8_t *bytes, size_t len, aps_hevc_lists *lists, uint64_t end[1]);

/* The lists written, and their length. 2; 5. */
uint32_t aps_hevc_write(const aps_hevc_lists *lists, uint8_t *out, size_t room, uint64_t len[1]);

/* The H.266 set of id 0 with the factors and DCs that the lists stand for (H.265 7.4.5): 4x4 in ids 2 to 7, 8x8 in 8 to 13,
 * 16x16 in 14 to 19, the two of 32x32 in 20 and 23, 16 in all others. Those of reading; 13: an element is 0. */
uint32_t aps_hevc_scaling_set(const uint8_t *bytes, size_t len, aps_scaling *set);

/* ---- escapes */

/* Escapes removed (00 00 03 becomes 00 00), and the length. */
uint32_t aps_ebsp_to_rbsp(const uint8_t *src, size_t len, uint8_t *out, size_t room, uint64_t written[1]);

/* Escapes put in, and the length: at most 3/2 of the input's. */
uint32_t aps_rbsp_to_ebsp(const uint8_t *src, size_t len, uint8_t *out, size_t room, uint64_t written[1]);

#ifdef __cplusplus
}
#endif

#endif

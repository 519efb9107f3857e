/* Every call of kendwyra.h with arguments of every sort: null with length 0, lengths one short, inputs that are too
 * long, flags that are neither 0 nor 1, headers of any bytes, and random bytes, the same in each run. Answers are checked
 * where they are known, and that a refusal changes nothing. Each buffer is as long as the call is told, so that a tool for
 * memory errors sees each byte touched outside it. */
#include "kendwyra.h"

#include <stdio.h>
#include <stdlib.h>
#include <string.h>

/* RBSP and ROOM: no RBSP and no unit that is made here is longer, but for those over 65,536 bytes. */
enum { UNTOUCHED = 0xAA, RBSP = APS_LONGEST_RBSP + 64, ROOM = 2 + RBSP + RBSP / 2 };

static long failures;

static void check(const char *what, long long got, long long wanted)
{
    if (got != wanted) {
        if (failures < 20) {
            printf("%s: %lld, not %lld\n", what, got, wanted);
        }
        failures++;
    }
}

/* ---- buffers */

/* A buffer of just so many bytes, all 0xAA; null for none. */
static uint8_t *lend(size_t len)
{
    uint8_t *bytes = len ? malloc(len) : NULL;

    if (len && !bytes) {
        puts("no memory");
        exit(2);
    }
    if (len) {
        memset(bytes, UNTOUCHED, len);
    }
    return bytes;
}

static uint8_t *lend_copy(const uint8_t *from, size_t len)
{
    uint8_t *bytes = lend(len);

    if (len) {
        memcpy(bytes, from, len);
    }
    return bytes;
}

/* Whether all bytes from a place on are as they were lent. */
static int untouched(const void *lent, size_t from, size_t len)
{
    const uint8_t *bytes = lent;

    for (size_t i = from; i < len; i++) {
        if (bytes[i] != UNTOUCHED) {
            return 0;
        }
    }
    return 1;
}

static int same(const uint8_t *a, const uint8_t *b, size_t len)
{
    return len == 0 || memcmp(a, b, len) == 0;
}

/* ---- headers */

/* Those of the full sets' units. */
static const aps_unit_header headers[3] = {{17, 0, 1}, {18, 55, 7}, {17, 3, 2}};

static int is_aps(uint8_t type)
{
    return type == 17 || type == 18;
}

/* Whether a unit is read and written with it. */
static int is_taken(aps_unit_header header)
{
    return is_aps(header.nal_unit_type) && header.nuh_layer_id <= 55 && header.nuh_temporal_id_plus1 >= 1 &&
           header.nuh_temporal_id_plus1 <= 7;
}

/* That of a unit; where its forbidden or reserved bit is 1, the layer is 64 or more. */
static aps_unit_header header_of(const uint8_t *unit)
{
    return (aps_unit_header){unit[1] / 8, unit[0], unit[1] % 8};
}

static int same_header(aps_unit_header a, aps_unit_header b)
{
    return a.nal_unit_type == b.nal_unit_type && a.nuh_layer_id == b.nuh_layer_id &&
           a.nuh_temporal_id_plus1 == b.nuh_temporal_id_plus1;
}

/* ---- the calls of each kind under one type */

typedef struct range {
    size_t at, len;
} range;

#define FLAGS(set, field) {offsetof(set, field), sizeof(((set *)0)->field)}

static const range alf_flags[] = {
    FLAGS(aps_alf, aps_chroma_present_flag),
    FLAGS(aps_alf, aps_extension_flag),
    FLAGS(aps_alf, alf_luma_filter_signal_flag),
    FLAGS(aps_alf, alf_chroma_filter_signal_flag),
    FLAGS(aps_alf, alf_cc_cb_filter_signal_flag),
    FLAGS(aps_alf, alf_cc_cr_filter_signal_flag),
    FLAGS(aps_alf, alf_luma_clip_flag),
    FLAGS(aps_alf, alf_luma_coeff_sign),
    FLAGS(aps_alf, alf_chroma_clip_flag),
    FLAGS(aps_alf, alf_chroma_coeff_sign),
    FLAGS(aps_alf, alf_cc_cb_coeff_sign),
    FLAGS(aps_alf, alf_cc_cr_coeff_sign),
    {0, 0},
};

static const range lmcs_flags[] = {
    FLAGS(aps_lmcs, aps_chroma_present_flag),
    FLAGS(aps_lmcs, aps_extension_flag),
    FLAGS(aps_lmcs, lmcs_delta_sign_cw_flag),
    FLAGS(aps_lmcs, lmcs_delta_sign_crs_flag),
    {0, 0},
};

static const range scaling_flags[] = {
    FLAGS(aps_scaling, aps_chroma_present_flag),
    FLAGS(aps_scaling, aps_extension_flag),
    FLAGS(aps_scaling, scaling_list_copy_mode_flag),
    FLAGS(aps_scaling, scaling_list_pred_mode_flag),
    {0, 0},
};

typedef struct calls {
    uint8_t kind, most_id;
    size_t size, extension;
    const range *flags;
    uint32_t (*parse_rbsp)(const uint8_t *bytes, size_t len, void *set, uint64_t end[1]);
    uint32_t (*parse)(const uint8_t *unit, size_t len, uint8_t *work, size_t room, void *set, uint64_t end[1]);
    uint32_t (*lookup)(const uint8_t table[APS_TABLE_BYTES], uint8_t id, void *set, aps_unit_header *header);
    uint32_t (*write)(const void *set, uint8_t *out, size_t room, uint64_t len[1]);
    uint32_t (*write_nal)(const void *set, aps_unit_header header, uint8_t *out, size_t room, uint64_t len[1]);
    uint32_t (*end)(const uint8_t *bytes, size_t len, uint64_t end[1]);
    uint32_t (*rewrite)(const uint8_t *bytes, size_t len, uint8_t *out, size_t room, uint64_t written[1]);
} calls;

#define CALLS(name)                                                                                                       \
    static uint32_t name##_parse_rbsp(const uint8_t *bytes, size_t len, void *set, uint64_t end[1])                       \
    {                                                                                                                     \
        return aps_##name##_parse_rbsp(bytes, len, set, end);                                                             \
    }                                                                                                                     \
    static uint32_t name##_parse(const uint8_t *unit, size_t len, uint8_t *work, size_t room, void *set, uint64_t end[1]) \
    {                                                                                                                     \
        return aps_##name##_parse(unit, len, work, room, set, end);                                                       \
    }                                                                                                                     \
    static uint32_t name##_lookup(const uint8_t table[APS_TABLE_BYTES], uint8_t id, void *set,                            \
                                  aps_unit_header *header)                                                                \
    {                                                                                                                     \
        return aps_##name##_lookup(table, id, set, header);                                                               \
    }                                                                                                                     \
    static uint32_t name##_write(const void *set, uint8_t *out, size_t room, uint64_t len[1])                             \
    {                                                                                                                     \
        return aps_##name##_write(set, out, room, len);                                                                   \
    }                                                                                                                     \
    static uint32_t name##_write_nal(const void *set, aps_unit_header header, uint8_t *out, size_t room,                  \
                                     uint64_t len[1])                                                                     \
    {                                                                                                                     \
        return aps_##name##_write_nal(set, header, out, room, len);                                                       \
    }

CALLS(alf)
CALLS(lmcs)
CALLS(scaling)

#define KIND(name, number, most_id)                                                                                  \
    {number, most_id, sizeof(aps_##name), offsetof(aps_##name, aps_extension_flag), name##_flags, name##_parse_rbsp, \
     name##_parse, name##_lookup, name##_write, name##_write_nal, aps_##name##_end, aps_##name##_rewrite}

static const calls kinds[3] = {
    KIND(alf, APS_ALF, 7),
    KIND(lmcs, APS_LMCS, 3),
    KIND(scaling, APS_SCALING, 7),
};

/* Whether each flag of a set is 0 or 1. */
static int are_flags(const calls *k, const uint8_t *set)
{
    for (const range *r = k->flags; r->len; r++) {
        for (size_t i = 0; i < r->len; i++) {
            if (set[r->at + i] > 1) {
                return 0;
            }
        }
    }
    return 1;
}

/* ---- a full set of each kind, and its bytes */

static aps_alf alf;
static aps_lmcs lmcs;
static aps_scaling scaling, longest;
static const void *const full[3] = {&alf, &lmcs, &scaling};

/* How many steps of `longest` take 13 bits: it has just 2,048 bytes, and 2,049 with one more. */
enum { LONGER_STEPS = 1244 };

static uint8_t rbsps[6][RBSP], units[3][ROOM];
static size_t rbsp_len[6], unit_len[3];

/* Lists of steps up and down, so many of 13 bits and then of 11; the last two lists are copied. */
static void fill_steps(aps_scaling *set, int longer)
{
    set->aps_chroma_present_flag = 1;
    set->scaling_list_copy_mode_flag[26] = 1;
    set->scaling_list_copy_mode_flag[27] = 1;
    for (int list = 0; list < 26; list++) {
        int entries = list < 2 ? 4 : list < 8 ? 16 : 64, sum = 0;

        for (int i = 0; i < entries; i++) {
            int step = longer-- > 0 ? 40 : 20;

            sum += i % 2 ? -step : step;
            set->scaling_list[list][i] = sum;
        }
    }
}

static void fill_sets(void)
{
    alf.aps_adaptation_parameter_set_id = 5;
    alf.aps_chroma_present_flag = 1;
    alf.alf_luma_filter_signal_flag = 1;
    alf.alf_chroma_filter_signal_flag = 1;
    alf.alf_cc_cb_filter_signal_flag = 1;
    alf.alf_cc_cr_filter_signal_flag = 1;
    alf.alf_luma_clip_flag = 1;
    alf.alf_luma_num_filters_signalled_minus1 = 24;
    for (int i = 0; i < 25; i++) {
        alf.alf_luma_coeff_delta_idx[i] = (uint8_t)(24 - i);
        for (int j = 0; j < 12; j++) {
            alf.alf_luma_coeff_abs[i][j] = (uint32_t)(i * 12 + j) % 129;
            alf.alf_luma_coeff_sign[i][j] = alf.alf_luma_coeff_abs[i][j] % 3 == 1;
            alf.alf_luma_clip_idx[i][j] = (uint8_t)((i + j) % 4);
        }
    }
    alf.alf_chroma_clip_flag = 1;
    alf.alf_chroma_num_alt_filters_minus1 = 7;
    for (int i = 0; i < 8; i++) {
        for (int j = 0; j < 6; j++) {
            alf.alf_chroma_coeff_abs[i][j] = (uint32_t)(i * 6 + j) % 129;
            alf.alf_chroma_coeff_sign[i][j] = alf.alf_chroma_coeff_abs[i][j] % 3 == 1;
            alf.alf_chroma_clip_idx[i][j] = (uint8_t)(i * j % 4);
        }
    }
    alf.alf_cc_cb_filters_signalled_minus1 = 3;
    alf.alf_cc_cr_filters_signalled_minus1 = 1;
    for (int i = 0; i < 4; i++) {
        for (int j = 0; j < 7; j++) {
            alf.alf_cc_cb_mapped_coeff_abs[i][j] = (uint8_t)((i * 7 + j) % 8);
            alf.alf_cc_cb_coeff_sign[i][j] = alf.alf_cc_cb_mapped_coeff_abs[i][j] % 3 == 1;
            alf.alf_cc_cr_mapped_coeff_abs[i][j] = i < 2 ? (uint8_t)((i * 7 + j + 3) % 8) : 0;
            alf.alf_cc_cr_coeff_sign[i][j] = alf.alf_cc_cr_mapped_coeff_abs[i][j] % 3 == 1;
        }
    }

    lmcs.aps_adaptation_parameter_set_id = 3;
    lmcs.aps_chroma_present_flag = 1;
    lmcs.lmcs_min_bin_idx = 2;
    lmcs.lmcs_delta_max_bin_idx = 3;
    lmcs.lmcs_delta_cw_prec_minus1 = 14;
    for (int i = 2; i <= 12; i++) {
        lmcs.lmcs_delta_abs_cw[i] = 2000 * (uint32_t)i;
        lmcs.lmcs_delta_sign_cw_flag[i] = i % 3 == 1;
    }
    lmcs.lmcs_delta_abs_crs = 5;
    lmcs.lmcs_delta_sign_crs_flag = 1;

    scaling.aps_adaptation_parameter_set_id = 7;
    scaling.aps_chroma_present_flag = 1;
    for (int list = 0; list < 28; list++) {
        int entries = list < 2 ? 4 : list < 8 ? 16 : 64, sum = list;

        scaling.scaling_list_copy_mode_flag[list] = list % 3 == 0 || list > 25;
        if (scaling.scaling_list_copy_mode_flag[list]) {
            continue;
        }
        scaling.scaling_list_pred_mode_flag[list] = list % 3 == 1;
        if (list > 13) {
            scaling.scaling_list_dc_coef[list - 14] = 100 - list * 8;
            sum = 100 - list * 8;
        }
        for (int i = 0; i < entries; i++) {
            sum += i - list;
            scaling.scaling_list[list][i] = sum;
        }
    }
    fill_steps(&longest, LONGER_STEPS);
}

static void write_sets(void)
{
    static const uint8_t small[3][4] = {{0x00, 0x10}, {0x20, 0x42, 0x12}, {0x40, 0x7F, 0xFF, 0xE8}};

    for (int i = 0; i < 3; i++) {
        uint64_t len[1];

        check("a full set", kinds[i].write(full[i], rbsps[i], RBSP, len), 0);
        rbsp_len[i] = len[0];
        check("its unit", kinds[i].write_nal(full[i], headers[i], units[i], ROOM, len), 0);
        unit_len[i] = len[0];
        rbsp_len[3 + i] = (size_t)i + 2;
        memcpy(rbsps[3 + i], small[i], rbsp_len[3 + i]);
    }
}

/* ---- each call as it is lent its buffers */

/* A writing call's answer: nothing is written for a refusal, and no byte past the length. */
static void written(const char *what, uint32_t code, uint32_t due, const uint8_t *out, size_t room, uint64_t len)
{
    check(what, code, due);
    if (code) {
        check("no length", (long long)len, 77);
        check("no output", untouched(out, 0, room), 1);
    } else {
        check("a length in the room", len <= room, 1);
        check("the rest", untouched(out, len, room), 1);
    }
}

/* Of a set read, what the caller looks at further. */
typedef struct reading {
    uint32_t code;
    aps_head head;
    uint64_t end;
} reading;

/* The set of a kind. The head's reading tells what is due: it, 2 for a set of another kind, or the same refusal. */
static void one_kind(const calls *k, const reading *r, uint32_t code, const uint8_t *set, uint64_t end)
{
    uint32_t due = r->code ? r->code : r->head.kind == k->kind ? 0 : APS_INVALID_DATA;

    check("a kind's code", code, due);
    if (code) {
        check("no set", untouched(set, 0, k->size), 1);
        check("no end", (long long)end, 77);
    } else {
        check("flags", are_flags(k, set), 1);
        check("id", set[0], r->head.aps_adaptation_parameter_set_id);
        check("chroma", set[1], r->head.aps_chroma_present_flag);
        check("extension", set[k->extension], r->head.aps_extension_flag);
        check("end", (long long)end, (long long)r->end);
    }
}

static void one_head(const reading *r)
{
    if (r->code) {
        check("no head", untouched(&r->head, 0, sizeof r->head), 1);
        check("no end", (long long)r->end, 77);
    } else {
        check("a kind", r->head.kind <= APS_SCALING, 1);
        check("an id", r->head.aps_adaptation_parameter_set_id <= kinds[r->head.kind].most_id, 1);
        check("two flags", r->head.aps_chroma_present_flag <= 1 && r->head.aps_extension_flag <= 1, 1);
    }
}

/* An RBSP through every call that reads one. */
static reading read_rbsp(const uint8_t *from, size_t len)
{
    uint8_t *bytes = lend_copy(from, len), *out = lend(len);
    reading r = {0, {UNTOUCHED, UNTOUCHED, UNTOUCHED, UNTOUCHED}, 77};
    uint64_t end[1] = {77};
    uint32_t due;

    r.code = aps_head_parse_rbsp(bytes, len, &r.head, end);
    r.end = end[0];
    check("too long or not", r.code == APS_INPUT_TOO_LONG, len > APS_LONGEST_RBSP);
    one_head(&r);
    due = r.code ? r.code : r.head.aps_extension_flag ? APS_UNSUPPORTED : 0;
    for (int i = 0; i < 3; i++) {
        const calls *k = &kinds[i];
        uint8_t *set = lend(k->size);
        uint64_t written_len[1] = {77};
        uint32_t code;

        end[0] = 77;
        code = k->parse_rbsp(bytes, len, set, end);
        one_kind(k, &r, code, set, end[0]);
        if (code == 0) {
            size_t room = (size_t)(r.end / 8);

            code = k->write(set, out, len, written_len);
            written("written again", code, due, out, len, written_len[0]);
            if (due == 0) {
                check("all its bytes", (long long)written_len[0], (long long)room);
                check("its bytes", same(out, bytes, room), 1);
                memset(out, UNTOUCHED, len);
                written_len[0] = 77;
                code = k->write(set, out, room - 1, written_len);
                written("one short", code, APS_OUTPUT_TOO_SHORT, out, len, written_len[0]);
            }
        }
        free(set);

        end[0] = 77;
        check("a kind's end", k->end(bytes, len, end), r.code);
        check("the bit", (long long)end[0], (long long)r.end);
        written_len[0] = 77;
        code = k->rewrite(bytes, len, out, len, written_len);
        written("a kind's rewrite", code, r.code == 0 && r.head.kind != k->kind ? (uint32_t)APS_INVALID_DATA : due, out, len,
                written_len[0]);
        if (len) {
            memset(out, UNTOUCHED, len);
        }
        written_len[0] = 77;
        code = aps_rewrite(bytes, len, out, len, written_len);
        written("rewrite", code, due, out, len, written_len[0]);
        if (code == 0) {
            check("the same", same(out, bytes, written_len[0]), 1);
            memset(out, UNTOUCHED, len);
        }
    }
    check("an input that stays", same(bytes, from, len), 1);
    free(bytes);
    free(out);
    return r;
}

/* Whether a place holds no set. */
static int is_empty(const uint8_t *table, uint8_t kind, uint8_t id)
{
    aps_head head;
    aps_unit_header header;

    return aps_head_lookup(table, kind, id, &head, &header) == APS_EMPTY_PLACE;
}

/* Whether an RBSP's first byte names a place. */
static int names_place(uint8_t first)
{
    return first / 32 <= APS_SCALING && first % 32 <= kinds[first / 32].most_id;
}

/* Whether an RBSP that is refused so empties the place that it names. */
static int empties(uint32_t code)
{
    return code == APS_UNEXPECTED_END || code == APS_INVALID_DATA || code == APS_INPUT_TOO_LONG;
}

/* A unit through every call that reads one: without a work buffer, and with one as long as its RBSP or a byte shorter. */
static reading read_unit(const uint8_t *from, size_t len, uint8_t *table)
{
    uint8_t *unit = lend_copy(from, len), *rbsp = lend(len), header[5] = {9, 9, 9, 9, 9};
    uint64_t rbsp_bytes[1] = {0};
    reading r = {0, {0, 0, 0, 0}, 0};
    uint32_t code;
    int passed = len >= 2 && !is_aps(from[1] / 8), accepted = len >= 2 && is_taken(header_of(from)), too_long;

    code = aps_parse_nal_header(unit, len, header);
    check("header", code, len < 2 ? APS_UNEXPECTED_END : 0);
    if (code) {
        check("no field", header[0] == 9 && header[1] == 9 && header[2] == 9 && header[3] == 9 && header[4] == 9, 1);
    } else {
        check("two bits", header[0] * 2 + header[1], from[0] / 64);
        check("layer", header[2], from[0] % 64);
        check("type", header[3], from[1] / 8);
        check("temporal id plus one", header[4], from[1] % 8);
        check("its RBSP", aps_ebsp_to_rbsp(unit + 2, len - 2, rbsp, len - 2, rbsp_bytes), 0);
    }
    too_long = rbsp_bytes[0] > APS_LONGEST_RBSP;
    for (int lent = 0; lent < 3; lent++) {
        size_t most = (size_t)rbsp_bytes[0], room = lent == 2 ? most : lent == 1 && most ? most - 1 : 0;
        int is_read = accepted && !too_long && room == most;
        uint8_t *first = lend(room), *work, *before;
        uint64_t end[1] = {77};

        r.head = (aps_head){UNTOUCHED, UNTOUCHED, UNTOUCHED, UNTOUCHED};
        r.code = aps_head_parse(unit, len, first, room, &r.head, end);
        r.end = end[0];
        one_head(&r);
        if (len < 2) {
            check("no unit", r.code, APS_UNEXPECTED_END);
        } else if (!accepted) {
            check("another header", r.code, APS_INVALID_DATA);
        } else if (too_long) {
            check("too long an RBSP", r.code, APS_INPUT_TOO_LONG);
        } else if (!is_read) {
            check("a short work buffer", r.code, APS_OUTPUT_TOO_SHORT);
        } else {
            check("neither", r.code != APS_INPUT_TOO_LONG && r.code != APS_OUTPUT_TOO_SHORT, 1);
        }
        check("work", is_read ? same(first, rbsp, room) : untouched(first, 0, room), 1);
        for (int i = 0; i < 3; i++) {
            const calls *k = &kinds[i];
            uint8_t *set = lend(k->size);

            work = lend(room);
            end[0] = 77;
            code = k->parse(unit, len, work, room, set, end);
            one_kind(k, &r, code, set, end[0]);
            check("the same work", same(work, first, room), 1);
            free(set);
            free(work);
        }
        work = lend(room);
        before = lend_copy(table, APS_TABLE_BYTES);
        code = aps_take_unit(table, unit, len, work, room);
        check("taken", code, passed ? (uint32_t)APS_PASSED_OVER : r.code);
        check("the work of it", same(work, first, room), 1);
        if (code == 0) {
            aps_head held;
            aps_unit_header kept;

            check("held", aps_head_lookup(table, r.head.kind, r.head.aps_adaptation_parameter_set_id, &held, &kept), 0);
            check("the same head", memcmp(&held, &r.head, sizeof held), 0);
            check("its header", same_header(kept, header_of(from)), 1);
        } else if (accepted && len > 2 && empties(code) && names_place(from[2])) {
            check("an empty place", is_empty(table, from[2] / 32, from[2] % 32), 1);
        } else {
            check("a table that stays", same(table, before, APS_TABLE_BYTES), 1);
        }
        free(before);
        free(work);
        free(first);
    }
    free(unit);
    free(rbsp);
    return r;
}

/* Every lookup in a table. */
static void look_up_all(const uint8_t *table)
{
    for (int id = 0; id < 256; id = id == 9 ? 255 : id + 1) {
        for (int kind = 0; kind < 5; kind++) {
            aps_head head = {UNTOUCHED, UNTOUCHED, UNTOUCHED, UNTOUCHED};
            aps_unit_header header = {UNTOUCHED, UNTOUCHED, UNTOUCHED}, again = header;
            uint32_t code = aps_head_lookup(table, (uint8_t)kind, (uint8_t)id, &head, &header);
            uint8_t *set;

            if (kind > 2 || id > kinds[kind].most_id) {
                check("no place", code, APS_INVALID_DATA);
            } else {
                check("a place", code == 0 || code == APS_EMPTY_PLACE, 1);
            }
            check("no head", code == 0 || untouched(&head, 0, sizeof head), 1);
            check("a header or none", code == 0 ? is_taken(header) : untouched(&header, 0, sizeof header), 1);
            if (kind > 2) {
                continue;
            }
            set = lend(kinds[kind].size);
            check("the same answer", kinds[kind].lookup(table, (uint8_t)id, set, &again), code);
            check("the same header", same_header(again, header), 1);
            if (code) {
                check("no set", untouched(set, 0, kinds[kind].size), 1);
            } else {
                check("the kind looked up", head.kind, kind);
                check("the id looked up", head.aps_adaptation_parameter_set_id, id);
                check("the set's id", set[0], id);
                check("its flags", are_flags(&kinds[kind], set), 1);
            }
            free(set);
        }
    }
}

/* The list of a table into room of its length, and one byte less. */
static uint8_t *write_list(const uint8_t *table, size_t *list_len)
{
    uint8_t *out = lend(APS_LIST_BYTES), *list;
    uint64_t len[1] = {77};
    uint32_t code = aps_write_list(table, out, APS_LIST_BYTES, len);

    check("a list", code == 0 || code == APS_UNSUPPORTED, 1);
    written("a list's bytes", code, code, out, APS_LIST_BYTES, len[0]);
    *list_len = code ? 0 : (size_t)len[0];
    list = lend(*list_len);
    if (*list_len) {
        check("a list again", aps_write_list(table, list, *list_len, len), 0);
        check("its length", (long long)len[0], (long long)*list_len);
        check("its bytes", same(list, out, *list_len), 1);
        memset(out, UNTOUCHED, APS_LIST_BYTES);
        len[0] = 77;
        code = aps_write_list(table, out, *list_len - 1, len);
        written("a list one short", code, APS_OUTPUT_TOO_SHORT, out, APS_LIST_BYTES, len[0]);
    }
    free(out);
    return list;
}

/* ---- null with length 0 */

static void nothing(void)
{
    uint8_t *table = lend(APS_TABLE_BYTES), header[5] = {9, 9, 9, 9, 9};
    uint64_t counts[3] = {9, 9, 9}, len[1] = {77};
    aps_head head = {UNTOUCHED, UNTOUCHED, UNTOUCHED, UNTOUCHED};

    aps_table_new(table);
    look_up_all(table);
    check("no stream", aps_take_stream(table, NULL, 0, NULL, 0, counts), 0);
    check("no counts", counts[0] == 0 && counts[1] == 0 && counts[2] == 0, 1);
    check("no unit", aps_take_unit(table, NULL, 0, NULL, 0), APS_UNEXPECTED_END);
    check("a header alone", aps_take_unit(table, (const uint8_t[]){0, 0x89}, 2, NULL, 0), APS_UNEXPECTED_END);
    check("one of a layer 56", aps_take_unit(table, (const uint8_t[]){56, 0x89}, 2, NULL, 0), APS_INVALID_DATA);
    check("another type", aps_take_unit(table, (const uint8_t[]){0, 9}, 2, NULL, 0), APS_PASSED_OVER);
    check("no work buffer", aps_take_unit(table, units[0], unit_len[0], NULL, 0), APS_OUTPUT_TOO_SHORT);
    check("an empty list", aps_write_list(table, NULL, 0, len), 0);
    check("of no bytes", (long long)len[0], 0);
    check("no header", aps_parse_nal_header(NULL, 0, header), APS_UNEXPECTED_END);
    check("header kept", header[0] == 9 && header[4] == 9, 1);
    len[0] = 77;
    check("no RBSP", aps_head_parse_rbsp(NULL, 0, &head, len), APS_UNEXPECTED_END);
    check("no unit's head", aps_head_parse(NULL, 0, NULL, 0, &head, len), APS_UNEXPECTED_END);
    check("head kept", untouched(&head, 0, sizeof head), 1);
    check("no rewrite", aps_rewrite(NULL, 0, NULL, 0, len), APS_UNEXPECTED_END);
    for (int i = 0; i < 3; i++) {
        const calls *k = &kinds[i];
        uint8_t *set = lend(k->size);

        check("no RBSP of a kind", k->parse_rbsp(NULL, 0, set, len), APS_UNEXPECTED_END);
        check("no unit of a kind", k->parse(NULL, 0, NULL, 0, set, len), APS_UNEXPECTED_END);
        check("no work for a kind", k->parse(units[i], unit_len[i], NULL, 0, set, len), APS_OUTPUT_TOO_SHORT);
        check("no end", k->end(NULL, 0, len), APS_UNEXPECTED_END);
        check("no rewrite of a kind", k->rewrite(NULL, 0, NULL, 0, len), APS_UNEXPECTED_END);
        check("no room for it", k->rewrite(rbsps[i], rbsp_len[i], NULL, 0, len), APS_OUTPUT_TOO_SHORT);
        check("no room to rewrite", aps_rewrite(rbsps[i], rbsp_len[i], NULL, 0, len), APS_OUTPUT_TOO_SHORT);
        check("no room to write", k->write(full[i], NULL, 0, len), APS_OUTPUT_TOO_SHORT);
        check("no room for a unit", k->write_nal(full[i], headers[i], NULL, 0, len), APS_OUTPUT_TOO_SHORT);
        check("no unit of zeros", k->write_nal(full[i], (aps_unit_header){0, 0, 0}, NULL, 0, len), APS_INVALID_DATA);
        check("set kept", untouched(set, 0, k->size), 1);
        free(set);
    }
    check("length kept", (long long)len[0], 77);
    check("nothing unescaped", aps_ebsp_to_rbsp(NULL, 0, NULL, 0, len), 0);
    check("no byte of it", (long long)len[0], 0);
    len[0] = 77;
    check("nothing escaped", aps_rbsp_to_ebsp(NULL, 0, NULL, 0, len), 0);
    check("no byte of that", (long long)len[0], 0);
    free(table);
}

/* ---- lengths one short and one too long */

static void one_short(void)
{
    for (int i = 0; i < 3; i++) {
        const calls *k = &kinds[i];
        uint8_t *table = lend(APS_TABLE_BYTES), *out = lend(unit_len[i] - 1), *stream = lend(unit_len[i] + 3);
        uint64_t len[1] = {77}, counts[3] = {9, 9, 9};
        uint8_t *list;
        uint32_t code = k->write_nal(full[i], headers[i], out, unit_len[i] - 1, len);
        size_t list_len, escaped = unit_len[i] - 2;

        written("a unit one short", code, APS_OUTPUT_TOO_SHORT, out, unit_len[i] - 1, len[0]);
        code = aps_rbsp_to_ebsp(rbsps[i], rbsp_len[i], out, escaped - 1, len);
        written("escapes one short", code, APS_OUTPUT_TOO_SHORT, out, unit_len[i] - 1, len[0]);
        code = aps_ebsp_to_rbsp(units[i] + 2, escaped, out, rbsp_len[i] - 1, len);
        written("no escapes, one short", code, APS_OUTPUT_TOO_SHORT, out, unit_len[i] - 1, len[0]);
        free(out);

        aps_table_new(table);
        memcpy(stream, (const uint8_t[]){0, 0, 1}, 3);
        memcpy(stream + 3, units[i], unit_len[i]);
        out = lend(rbsp_len[i]);
        code = aps_take_stream(table, stream, unit_len[i] + 3, out, rbsp_len[i] - 1, counts);
        check("a stream's work buffer", code, APS_OUTPUT_TOO_SHORT);
        check("counts kept", counts[0] == 9 && counts[1] == 9 && counts[2] == 9, 1);
        check("work kept", untouched(out, 0, rbsp_len[i]), 1);
        code = aps_take_stream(table, stream, unit_len[i] + 2, out, rbsp_len[i], counts);
        check("a stream cut off", code, 0);
        check("its unit refused", counts[0] == 0 && counts[1] == 1 && counts[2] == 0, 1);
        free(write_list(table, &list_len));
        check("no set of it", (long long)list_len, 0);
        check("a whole stream", aps_take_stream(table, stream, unit_len[i] + 3, out, rbsp_len[i], counts), 0);
        check("its unit taken", counts[0] == 1 && counts[1] == 0 && counts[2] == 0, 1);
        check("its RBSP", same(out, rbsps[i], rbsp_len[i]), 1);
        list = write_list(table, &list_len);
        check("a list of one", (long long)list_len, (long long)unit_len[i] + 4);
        check("the unit itself", list_len > 4 && same(list + 4, units[i], unit_len[i]), 1);
        free(list);
        look_up_all(table);

        for (size_t bytes = 0; bytes < 3; bytes++) {
            check("hardly a unit", read_unit(units[i], bytes, table).code, APS_UNEXPECTED_END);
        }
        check("cut off", read_rbsp(rbsps[i], rbsp_len[i] - 1).code, APS_UNEXPECTED_END);
        check("whole", read_rbsp(rbsps[i], rbsp_len[i]).code, 0);
        check("a unit cut off", read_unit(units[i], unit_len[i] - 1, table).code, APS_UNEXPECTED_END);
        check("a whole unit", read_unit(units[i], unit_len[i], table).code, 0);
        free(out);
        free(stream);
        free(table);
    }
}

static void too_long(void)
{
    enum { LONG = APS_LONGEST_INPUT + 1 };
    uint8_t *table = lend(APS_TABLE_BYTES), *bytes = lend(LONG), *out = lend(2 * LONG), header[5];
    uint64_t counts[3], len[1] = {77};
    aps_head head;

    aps_table_new(table);
    memset(bytes, 0, LONG);
    for (int first = 0; first < 256; first += 32) {
        bytes[0] = bytes[2] = (uint8_t)first;
        bytes[1] = 0x89;
        check("long stream", aps_take_stream(table, bytes, LONG, out, 2 * LONG, counts), APS_INPUT_TOO_LONG);
        check("long unit", aps_take_unit(table, bytes, LONG, out, 2 * LONG), APS_INPUT_TOO_LONG);
        check("long header", aps_parse_nal_header(bytes, LONG, header), APS_INPUT_TOO_LONG);
        check("long head", aps_head_parse_rbsp(bytes, LONG, &head, len), APS_INPUT_TOO_LONG);
        check("long unit's head", aps_head_parse(bytes, LONG, out, 2 * LONG, &head, len), APS_INPUT_TOO_LONG);
        check("long rewrite", aps_rewrite(bytes, LONG, out, 2 * LONG, len), APS_INPUT_TOO_LONG);
        check("long escapes", aps_rbsp_to_ebsp(bytes, LONG, out, 2 * LONG, len), APS_INPUT_TOO_LONG);
        check("long without escapes", aps_ebsp_to_rbsp(bytes, LONG, out, 2 * LONG, len), APS_INPUT_TOO_LONG);
        for (int i = 0; i < 3; i++) {
            const calls *k = &kinds[i];
            uint8_t *set = lend(k->size);

            check("long RBSP", k->parse_rbsp(bytes, LONG, set, len), APS_INPUT_TOO_LONG);
            check("long unit of a kind", k->parse(bytes, LONG, out, 2 * LONG, set, len), APS_INPUT_TOO_LONG);
            check("long end", k->end(bytes, LONG, len), APS_INPUT_TOO_LONG);
            check("long rewrite of a kind", k->rewrite(bytes, LONG, out, 2 * LONG, len), APS_INPUT_TOO_LONG);
            free(set);
        }
        check("nothing of it", untouched(out, 0, 2 * LONG) && len[0] == 77, 1);
    }
    memset(bytes, 0, LONG);
    check("as long as is taken", aps_take_stream(table, bytes, APS_LONGEST_INPUT, NULL, 0, counts), 0);
    bytes[1] = 0x89;
    check("its RBSP", aps_take_unit(table, bytes, APS_LONGEST_INPUT, NULL, 0), APS_INPUT_TOO_LONG);
    check("escaped", aps_rbsp_to_ebsp(bytes, APS_LONGEST_INPUT, out, 2 * LONG, len), 0);
    check("unescaped", aps_ebsp_to_rbsp(bytes, APS_LONGEST_INPUT, out, 2 * LONG, len), 0);
    free(table);
    free(bytes);
    free(out);
}

/* ---- RBSPs of 2,048 bytes and of one more, and the work buffers of streams */

/* A small set of a kind and an id, followed by one byte again and again, and by 80: in a stream no unit ends in a zero. */
static void fill_rbsp(uint8_t *rbsp, size_t len, int kind, int id, uint8_t byte)
{
    memset(rbsp, byte, len);
    memcpy(rbsp, rbsps[3 + kind], rbsp_len[3 + kind]);
    rbsp[0] = (uint8_t)(kind * 32 + id);
    rbsp[len - 1] = 0x80;
}

/* An RBSP as a unit of a header, and its length. */
static size_t fill_unit(uint8_t unit[ROOM], const uint8_t *rbsp, size_t len, aps_unit_header header)
{
    uint64_t escaped[1] = {0};

    unit[0] = header.nuh_layer_id;
    unit[1] = (uint8_t)(header.nal_unit_type * 8 + header.nuh_temporal_id_plus1);
    check("escapes", aps_rbsp_to_ebsp(rbsp, len, unit + 2, ROOM - 2, escaped), 0);
    return 2 + (size_t)escaped[0];
}

/* A start code and a unit put into a stream; where they end. */
static size_t add_unit(uint8_t *stream, size_t at, const uint8_t *unit, size_t len)
{
    memcpy(stream + at, (const uint8_t[]){0, 0, 1}, 3);
    memcpy(stream + at + 3, unit, len);
    return at + 3 + len;
}

/* A table with a small set in each place. */
static uint8_t *full_table(void)
{
    uint8_t *table = lend(APS_TABLE_BYTES), unit[6] = {0, 0x89}, work[4];

    aps_table_new(table);
    for (int i = 0; i < 3; i++) {
        memcpy(unit + 2, rbsps[3 + i], rbsp_len[3 + i]);
        for (int id = 0; id <= kinds[i].most_id; id++) {
            unit[2] = (uint8_t)(i * 32 + id);
            check("a small set taken", aps_take_unit(table, unit, 2 + rbsp_len[3 + i], work, rbsp_len[3 + i]), 0);
        }
    }
    return table;
}

/* How many places hold a set. */
static int sets_in(const uint8_t *table)
{
    int held = 0;

    for (uint8_t kind = 0; kind < 3; kind++) {
        for (uint8_t id = 0; id <= kinds[kind].most_id; id++) {
            held += !is_empty(table, kind, id);
        }
    }
    return held;
}

static void longest_rbsps(void)
{
    enum { LEN = APS_LONGEST_RBSP };
    static const uint8_t after[] = {0x00, 0x01, 0x03, 0xFF};
    static uint8_t rbsp[LEN + 1], unit[ROOM], stream[ROOM + 3];
    uint64_t counts[3];

    for (int kind = 0; kind < 3; kind++) {
        for (size_t i = 0; i < sizeof after; i++) {
            uint8_t *table = full_table(), *work = lend(LEN);
            size_t len, end;

            fill_rbsp(rbsp, LEN, kind, 1, after[i]);
            check("as long as is read", read_rbsp(rbsp, LEN).code, 0);
            len = fill_unit(unit, rbsp, LEN, headers[kind]);
            check("its unit", read_unit(unit, len, table).code, 0);
            end = add_unit(stream, 0, unit, len);
            check("its stream", aps_take_stream(table, stream, end, work, LEN, counts), 0);
            check("taken", counts[0] == 1 && same(work, rbsp, LEN), 1);
            check("a byte less", aps_take_stream(table, stream, end, work, LEN - 1, counts), APS_OUTPUT_TOO_SHORT);
            check("all places", sets_in(table), 20);

            fill_rbsp(rbsp, LEN + 1, kind, 1, after[i]);
            check("longer by one", read_rbsp(rbsp, LEN + 1).code, APS_INPUT_TOO_LONG);
            len = fill_unit(unit, rbsp, LEN + 1, headers[kind]);
            check("a longer unit", read_unit(unit, len, table).code, APS_INPUT_TOO_LONG);
            check("all places but one", is_empty(table, (uint8_t)kind, 1) && sets_in(table) == 19, 1);
            free(table);
            table = full_table();
            memset(work, UNTOUCHED, LEN);
            end = add_unit(stream, 0, unit, len);
            check("a longer unit's stream", aps_take_stream(table, stream, end, NULL, 0, counts), 0);
            check("a unit refused", counts[0] == 0 && counts[1] == 1 && counts[2] == 0, 1);
            check("its place emptied", is_empty(table, (uint8_t)kind, 1) && sets_in(table) == 19, 1);
            check("the same stream", aps_take_stream(table, stream, end, work, LEN, counts), 0);
            check("no work for it", untouched(work, 0, LEN), 1);
            unit[0] = 56;
            check("of a refused header", read_unit(unit, len, table).code, APS_INVALID_DATA);
            free(table);
            free(work);
        }
    }
}

/* Units with too long an RBSP under every first byte, and the same in a unit of over 65,536 bytes. */
static void each_first_byte(void)
{
    uint8_t *unit = lend(APS_LONGEST_INPUT + 1), *work = lend(APS_LONGEST_INPUT);

    unit[0] = 0;
    unit[1] = 0x89;
    for (int first = 0; first < 256; first++) {
        static const size_t lens[] = {2 + APS_LONGEST_RBSP + 1, APS_LONGEST_INPUT, APS_LONGEST_INPUT + 1};

        unit[2] = (uint8_t)first;
        for (size_t i = 0; i < 3; i++) {
            uint8_t *table = full_table();
            int emptied = names_place(unit[2]) && lens[i] <= APS_LONGEST_INPUT;
            uint32_t code = aps_take_unit(table, unit, lens[i], work, i ? APS_LONGEST_INPUT : 0);

            check("too long", code, APS_INPUT_TOO_LONG);
            check("places left", sets_in(table), 20 - emptied);
            check("the place emptied", !emptied || is_empty(table, unit[2] / 32, unit[2] % 32), 1);
            free(table);
        }
    }
    check("work kept", untouched(work, 0, APS_LONGEST_INPUT), 1);
    free(unit);
    free(work);
}

/* Streams need work buffers of the longest RBSP that they read, and of no byte where they read none. */
static void work_buffers(void)
{
    static const uint8_t unread[][6] = {
        {0, 9, 7, 7, 7, 7},                /* another type */
        {56, 0x89, 0, 0x10, 0xFF, 0xFF},   /* a layer that is refused */
        {0, 0x88, 0, 0x10, 0xFF, 0xFF},    /* a temporal id plus one */
        {0x80, 0x89, 0, 0x10, 0xFF, 0xFF}, /* a forbidden bit */
        {0, 0x89},                         /* a header alone */
        {7},                               /* under 2 bytes */
    };
    static const size_t unread_len[] = {6, 6, 6, 6, 2, 1}, read_len[] = {2, 3, 4, 5, 100, 2047, 2048};
    static uint8_t stream[4 * ROOM], rbsp[RBSP], unit[ROOM], longer[ROOM];
    uint8_t *table = full_table(), *before, *work;
    uint64_t counts[3] = {9, 9, 9};
    size_t len = 0, longer_len;

    check("no unit", aps_take_stream(table, (const uint8_t[]){0, 0, 0, 0}, 4, NULL, 0, counts), 0);
    for (size_t i = 0; i < sizeof unread_len / sizeof *unread_len; i++) {
        len = add_unit(stream, len, unread[i], unread_len[i]);
        check("nothing to read", aps_take_stream(table, stream, len, NULL, 0, counts), 0);
        check("its counts", counts[0] == 0 && counts[1] == i && counts[2] == 1, 1);
    }
    fill_rbsp(rbsp, APS_LONGEST_RBSP + 1, APS_LMCS, 2, 0);
    longer_len = fill_unit(longer, rbsp, APS_LONGEST_RBSP + 1, headers[0]);
    len = add_unit(stream, len, longer, longer_len);
    check("one too long to read", aps_take_stream(table, stream, len, NULL, 0, counts), 0);
    check("refused too", counts[0] == 0 && counts[1] == 6 && counts[2] == 1, 1);
    check("its place", is_empty(table, APS_LMCS, 2), 1);

    for (size_t i = 0; i < sizeof read_len / sizeof *read_len; i++) {
        size_t all = len, bytes = read_len[i];

        fill_rbsp(rbsp, bytes, APS_ALF, 3, 0);
        if (bytes == 2) {
            rbsp[1] = 0x10;
        }
        all = add_unit(stream, all, unit, fill_unit(unit, rbsp, bytes, headers[0]));
        all = add_unit(stream, all, (const uint8_t[]){0, 9}, 2);
        all = add_unit(stream, all, (const uint8_t[]){0, 0x89, 0, 0x10}, 4);
        before = lend_copy(table, APS_TABLE_BYTES);
        work = lend(bytes);
        counts[0] = 9;
        check("one short", aps_take_stream(table, stream, all, work, bytes - 1, counts), APS_OUTPUT_TOO_SHORT);
        check("none", aps_take_stream(table, stream, all, NULL, 0, counts), APS_OUTPUT_TOO_SHORT);
        check("as before", same(table, before, APS_TABLE_BYTES) && untouched(work, 0, bytes) && counts[0] == 9, 1);
        check("enough", aps_take_stream(table, stream, all, work, bytes, counts), 0);
        check("two units more", counts[0] == 2 && counts[1] == 6 && counts[2] == 2, 1);
        check("the last RBSP", work[0] == 0 && work[1] == 0x10 && same(work + 2, rbsp + 2, bytes - 2), 1);
        stream[0] = 1;
        check("a wrong split first", aps_take_stream(table, stream, all, NULL, 0, counts), APS_INVALID_DATA);
        stream[0] = 0;
        free(before);
        free(work);
    }
    free(table);
}

/* ---- flags that are neither 0 nor 1 */

/* A set as a unit of a header, which is refused before the set is. */
static void write_unit(const calls *k, const uint8_t *set, aps_unit_header header, uint32_t due)
{
    uint8_t *out = lend(ROOM);
    uint64_t len[1] = {77};
    uint32_t code = k->write_nal(set, header, out, ROOM, len);

    written("a unit of it", code, is_taken(header) ? due : (uint32_t)APS_INVALID_DATA, out, ROOM, len[0]);
    if (code == 0) {
        check("a unit's header", same_header(header_of(out), header), 1);
    }
    free(out);
}

static void write_all(const calls *k, const uint8_t *set, uint32_t due)
{
    static const aps_unit_header some[] = {
        {17, 0, 1}, {18, 0, 1}, {16, 0, 1}, {19, 0, 1}, {17, 55, 7}, {18, 55, 1}, {17, 56, 1}, {18, 0, 0}, {17, 0, 8},
    };
    uint8_t *out = lend(ROOM);
    uint64_t len[1] = {77};
    uint32_t code = k->write(set, out, ROOM, len);

    written("an RBSP of it", code, due, out, ROOM, len[0]);
    free(out);
    for (size_t i = 0; i < sizeof some / sizeof *some; i++) {
        write_unit(k, set, some[i], due);
    }
}

static void wrong_flags(void)
{
    for (int i = 0; i < 3; i++) {
        const calls *k = &kinds[i];
        uint8_t *set = lend_copy(full[i], k->size);

        write_all(k, set, 0);
        set[k->extension] = 1;
        write_all(k, set, APS_UNSUPPORTED);
        set[k->extension] = 0;
        for (const range *r = k->flags; r->len; r++) {
            for (size_t at = r->at; at < r->at + r->len; at++) {
                uint8_t before = set[at];

                set[at] = 2;
                write_all(k, set, APS_INVALID_DATA);
                if (at != k->extension) {
                    set[k->extension] = 1;
                    write_all(k, set, APS_UNSUPPORTED);
                    set[k->extension] = 0;
                }
                set[at] = 255;
                write_all(k, set, APS_INVALID_DATA);
                set[at] = before;
            }
        }
        write_all(k, set, 0);
        free(set);
    }
}

/* ---- sets whose RBSP has 2,048 bytes and one more */

/* A set into room for it and into no room and one byte: its refusal comes before 5, and that of the header before it. */
static void write_long(const aps_scaling *set, uint32_t due)
{
    const calls *k = &kinds[APS_SCALING];
    uint8_t out[1] = {UNTOUCHED};
    uint64_t len[1] = {77};
    uint32_t short_due = due ? due : (uint32_t)APS_OUTPUT_TOO_SHORT;

    write_all(k, (const uint8_t *)set, due);
    for (size_t room = 0; room < 2; room++) {
        check("a short output", k->write(set, out, room, len), short_due);
        check("a unit's too", k->write_nal(set, headers[1], out, room, len), short_due);
        check("a refused header", k->write_nal(set, (aps_unit_header){17, 56, 1}, out, room, len), APS_INVALID_DATA);
    }
    check("not written", untouched(out, 0, 1) && len[0] == 77, 1);
}

static void longest_sets(void)
{
    static uint8_t rbsp[APS_LONGEST_RBSP];
    aps_scaling *set = (aps_scaling *)(void *)lend_copy((const uint8_t *)&longest, sizeof longest);
    uint64_t len[1] = {77};

    check("the longest set", aps_scaling_write(set, rbsp, APS_LONGEST_RBSP, len), 0);
    check("its bytes", (long long)len[0], APS_LONGEST_RBSP);
    len[0] = 77;
    check("one short", aps_scaling_write(set, rbsp, APS_LONGEST_RBSP - 1, len), APS_OUTPUT_TOO_SHORT);
    check("read again", read_rbsp(rbsp, APS_LONGEST_RBSP).code, 0);
    write_long(set, 0);
    for (int longer = LONGER_STEPS + 1; longer <= LONGER_STEPS + 12; longer++) {
        fill_steps(set, longer);
        write_long(set, APS_INPUT_TOO_LONG);
        check("with room for 2,048 bytes", aps_scaling_write(set, rbsp, APS_LONGEST_RBSP, len), APS_INPUT_TOO_LONG);
    }
    /* Steps out of range, before and behind the 2,048th byte; a flag; the extension. */
    set->scaling_list[0][0] = 128;
    write_long(set, APS_INVALID_DATA);
    set->scaling_list[0][0] = 40;
    write_long(set, APS_INPUT_TOO_LONG);
    set->scaling_list[25][63] = -200;
    write_long(set, APS_INVALID_DATA);
    set->aps_extension_flag = 1;
    write_long(set, APS_UNSUPPORTED);
    set->aps_extension_flag = 0;
    set->scaling_list[25][63] = 0;
    write_long(set, APS_INPUT_TOO_LONG);
    set->scaling_list_pred_mode_flag[27] = 2;
    write_long(set, APS_INVALID_DATA);
    set->scaling_list_pred_mode_flag[27] = 0;
    set->scaling_list_copy_mode_flag[25] = 1;
    write_long(set, 0);
    check("length kept", (long long)len[0], 77);
    free(set);
}

/* ---- headers of any bytes */

/* A small set, and the same cut off, under each first byte with a set's type and each second byte without a layer. */
static void read_headers(void)
{
    uint8_t *table = lend(APS_TABLE_BYTES), unit[6] = {0}, work[4];

    aps_table_new(table);
    for (int bytes = 0; bytes < 65536; bytes++) {
        const uint8_t first = (uint8_t)(bytes / 256), second = (uint8_t)(bytes % 256);
        const int i = (first + second) % 3;
        const size_t len = 2 + rbsp_len[3 + i];
        aps_unit_header header;
        uint8_t *set;
        int read;

        if (first && !is_aps(second / 8)) {
            continue;
        }
        memcpy(unit + 2, rbsps[3 + i], rbsp_len[3 + i]);
        unit[0] = 0;
        unit[1] = 0x89;
        check("its place filled", aps_take_unit(table, unit, len, work, sizeof work), 0);
        unit[0] = first;
        unit[1] = second;
        read = is_taken(header_of(unit));
        check("a small set", read_unit(unit, len, table).code, read ? 0 : APS_INVALID_DATA);
        check("cut off", read_unit(unit, len - 1, table).code, read ? APS_UNEXPECTED_END : APS_INVALID_DATA);
        set = lend(kinds[i].size);
        check("its place after that", kinds[i].lookup(table, 0, set, &header), read ? APS_EMPTY_PLACE : 0);
        free(set);
    }
    free(table);
}

/* The full sets with each number in each field. */
static void write_headers(void)
{
    for (int i = 0; i < 3; i++) {
        for (int number = 0; number < 256; number++) {
            write_unit(&kinds[i], full[i], (aps_unit_header){(uint8_t)number, 0, 1}, 0);
            write_unit(&kinds[i], full[i], (aps_unit_header){17, (uint8_t)number, 1}, 0);
            write_unit(&kinds[i], full[i], (aps_unit_header){18, 55, (uint8_t)number}, 0);
        }
    }
}

/* ---- marks */

/* A table of a full set and a small one, each number's its own. */
static uint8_t *a_table(int number)
{
    const uint8_t small[4] = {(uint8_t)number, 0x89, (uint8_t)number, 0x10};
    uint8_t *table = lend(APS_TABLE_BYTES), *work = lend(APS_LONGEST_RBSP);

    aps_table_new(table);
    check("a full set", aps_take_unit(table, units[number % 3], unit_len[number % 3], work, APS_LONGEST_RBSP), 0);
    check("a small one", aps_take_unit(table, small, sizeof small, work, APS_LONGEST_RBSP), 0);
    free(work);
    return table;
}

/* A mark set; the table stays, and for a refusal the marks. */
static void set_mark(const uint8_t *table, uint8_t *marks, int mark)
{
    uint8_t *lent = lend_copy(table, APS_TABLE_BYTES), *before = lend_copy(marks, APS_MARKS_BYTES);
    uint32_t code = aps_set_mark(lent, marks, (uint8_t)mark);

    check("a mark", code, mark < APS_MARKS ? 0 : APS_INVALID_DATA);
    check("a table that stays", same(lent, table, APS_TABLE_BYTES), 1);
    check("marks that stay", code == 0 || same(marks, before, APS_MARKS_BYTES), 1);
    free(lent);
    free(before);
}

/* Back to a mark: what it kept, or null if it was never set. The marks stay, and for a refusal the table. */
static void go_back(const uint8_t *marks, int mark, const uint8_t *kept)
{
    uint8_t *table = lend(APS_TABLE_BYTES), *lent = lend_copy(marks, APS_MARKS_BYTES);
    uint32_t code = aps_go_back(table, lent, (uint8_t)mark);

    check("back", code, mark >= APS_MARKS ? APS_INVALID_DATA : kept ? 0 : APS_MARK_NOT_SET);
    if (code) {
        check("a table untouched", untouched(table, 0, APS_TABLE_BYTES), 1);
    } else {
        check("the table kept", kept && same(table, kept, APS_TABLE_BYTES), 1);
    }
    check("marks left as they are", same(lent, marks, APS_MARKS_BYTES), 1);
    free(table);
    free(lent);
}

/* Each mark never set, set, set again and not there. */
static void each_mark(void)
{
    uint8_t *marks = lend(APS_MARKS_BYTES), *tables[APS_MARKS], *kept[256] = {NULL};

    aps_marks_new(marks);
    for (int mark = 0; mark < APS_MARKS; mark++) {
        tables[mark] = a_table(mark);
    }
    for (int mark = 0; mark < 256; mark++) {
        go_back(marks, mark, NULL);
    }
    for (int again = 0; again < 3; again++) {
        for (int mark = 255; mark >= 0; mark--) {
            uint8_t *table = tables[(mark + 3 * again) % APS_MARKS];

            set_mark(table, marks, mark);
            if (mark < APS_MARKS) {
                kept[mark] = table;
                for (int other = 0; other <= APS_MARKS; other++) {
                    go_back(marks, other, kept[other]);
                }
            }
        }
    }
    for (int mark = 0; mark < 256; mark++) {
        go_back(marks, mark, kept[mark]);
    }
    aps_marks_new(marks);
    for (int mark = 0; mark < APS_MARKS; mark++) {
        go_back(marks, mark, NULL);
        free(tables[mark]);
    }
    free(marks);
}

/* ---- random bytes */

static uint64_t seed = UINT64_C(0x123456789ABCDEF1);

/* A number below an end, by a xorshift. */
static size_t below(size_t end)
{
    seed ^= seed << 13;
    seed ^= seed >> 7;
    seed ^= seed << 17;
    return (size_t)(seed >> 16) % end;
}

static void randomly(uint8_t *bytes, size_t len)
{
    for (size_t i = 0; i < len; i++) {
        bytes[i] = (uint8_t)below(256);
    }
}

/* Random bytes that mostly name a kind, a small set and what makes some 2,048 bytes of it, or a set's with up to two bits
 * flipped and sometimes cut off; how many. */
static size_t random_rbsp(uint8_t bytes[RBSP])
{
    size_t len, set = below(6);

    if (below(8) == 0) {
        static const uint8_t after[] = {0x00, 0x03, 0xFF};

        len = APS_LONGEST_RBSP - 8 + below(16);
        fill_rbsp(bytes, len, (int)(set % 3), (int)below(5), after[below(3)]);
        return len;
    }
    if (below(4) == 0) {
        len = below(200);
        randomly(bytes, len);
        if (len && below(3)) {
            bytes[0] &= 0x5F;
        }
        return len;
    }
    len = rbsp_len[set];
    memcpy(bytes, rbsps[set], len);
    for (size_t flips = below(3); flips; flips--) {
        size_t bit = below(len * 8);

        bytes[bit / 8] ^= (uint8_t)(1 << bit % 8);
    }
    return below(4) ? len : below(len);
}

/* A unit of such bytes, mostly of a header that is read and with escapes. */
static size_t random_unit(uint8_t unit[ROOM])
{
    static uint8_t rbsp[RBSP];
    size_t len = random_rbsp(rbsp);

    unit[0] = (uint8_t)below(below(8) ? 56 : 256);
    unit[1] = (uint8_t)(below(8) ? (17 + below(2)) * 8 + 1 + below(7) : below(256));
    if (below(3)) {
        uint64_t escaped[1] = {0};

        check("escapes", aps_rbsp_to_ebsp(rbsp, len, unit + 2, ROOM - 2, escaped), 0);
        check("at most half more", escaped[0] <= len + len / 2, 1);
        return 2 + (size_t)escaped[0];
    }
    memcpy(unit + 2, rbsp, len);
    return 2 + len;
}

static void random_escapes(void)
{
    uint8_t src[40], *bytes, *ebsp, *rbsp;
    uint64_t len[1], back[1];
    size_t n = below(sizeof src);

    for (size_t i = 0; i < n; i++) {
        static const uint8_t often[4] = {0, 0, 3, 1};

        src[i] = below(3) ? often[below(4)] : (uint8_t)below(256);
    }
    bytes = lend_copy(src, n);
    ebsp = lend(n + n / 2);
    rbsp = lend(n);
    check("escaped", aps_rbsp_to_ebsp(bytes, n, ebsp, n + n / 2, len), 0);
    check("rest of the escaped", untouched(ebsp, len[0], n + n / 2), 1);
    check("unescaped", aps_ebsp_to_rbsp(ebsp, len[0], rbsp, n, back), 0);
    check("as many", (long long)back[0], (long long)n);
    check("as before", same(rbsp, bytes, n), 1);
    check("any bytes unescaped", aps_ebsp_to_rbsp(bytes, n, rbsp, n, back), 0);
    check("no more than before", back[0] <= n, 1);
    free(bytes);
    free(ebsp);
    free(rbsp);
}

/* The shortest work buffer with which a stream is not refused with 5. */
static size_t least_room(const uint8_t *table, const uint8_t *stream, size_t len)
{
    size_t least = 0, enough = APS_LONGEST_RBSP;

    while (least < enough) {
        size_t room = (least + enough) / 2;
        uint8_t *copy = lend_copy(table, APS_TABLE_BYTES), *work = lend(room);
        uint64_t counts[3];

        if (aps_take_stream(copy, stream, len, work, room, counts) == APS_OUTPUT_TOO_SHORT) {
            check("a copy that stays", same(copy, table, APS_TABLE_BYTES) && untouched(work, 0, room), 1);
            least = room + 1;
        } else {
            enough = room;
        }
        free(copy);
        free(work);
    }
    return least;
}

static void random_stream(uint8_t *table)
{
    static uint8_t made[8 * (ROOM + 4)];
    uint8_t *stream, *work, *before = lend_copy(table, APS_TABLE_BYTES), *second = lend(APS_TABLE_BYTES), *list, *again;
    uint64_t counts[3] = {9, 9, 9}, as_many[3] = {9, 9, 9};
    size_t len = 0, list_len, again_len, units_in = below(6), least;
    uint32_t code;

    if (below(8) == 0) {
        len = below(9);
        randomly(made, len);
    }
    for (size_t i = 0; i < units_in; i++) {
        memcpy(made + len, (const uint8_t[]){0, 0, 0, 1}, 4);
        len += 4;
        len += random_unit(made + len);
    }
    stream = lend_copy(made, len);
    least = least_room(table, stream, len);
    work = lend(least);
    code = aps_take_stream(table, stream, len, work, least, counts);
    check("a random stream", code == 0 || code == APS_INVALID_DATA, 1);
    if (code) {
        check("a table that stays", same(table, before, APS_TABLE_BYTES), 1);
        check("a work buffer that stays", least == 0, 1);
        check("counts that stay", counts[0] == 9 && counts[1] == 9 && counts[2] == 9, 1);
    }
    free(work);
    work = lend(APS_LONGEST_RBSP);
    check("with more work", aps_take_stream(before, stream, len, work, APS_LONGEST_RBSP, as_many), code);
    check("the same table", same(table, before, APS_TABLE_BYTES), 1);
    check("the same counts", counts[0] == as_many[0] && counts[1] == as_many[1] && counts[2] == as_many[2], 1);
    check("no more work", untouched(work, least, APS_LONGEST_RBSP), 1);
    free(stream);
    free(work);

    look_up_all(table);
    list = write_list(table, &list_len);
    aps_table_new(second);
    work = lend(APS_LONGEST_RBSP);
    check("a list taken", aps_take_stream(second, list, list_len, work, APS_LONGEST_RBSP, counts), 0);
    check("all of it", counts[1] == 0 && counts[2] == 0, 1);
    look_up_all(second);
    again = write_list(second, &again_len);
    check("the list of that", again_len == list_len && same(again, list, list_len), 1);
    free(work);
    free(list);
    free(again);
    free(before);
    free(second);
    if (below(16) == 0) {
        aps_table_new(table);
    }
}

/* Any bytes as a table, a full one with bits flipped among them. */
static void random_table(void)
{
    static uint8_t unit[ROOM];
    uint8_t *table = lend(APS_TABLE_BYTES);
    size_t len;

    if (below(3)) {
        uint8_t *work = lend(APS_LONGEST_RBSP);

        aps_table_new(table);
        for (int i = 0; i < 3; i++) {
            check("a unit into it", aps_take_unit(table, units[i], unit_len[i], work, APS_LONGEST_RBSP), 0);
        }
        free(work);
        for (size_t flips = below(400); flips; flips--) {
            size_t bit = below(APS_TABLE_BYTES * 8);

            table[bit / 8] ^= (uint8_t)(1 << bit % 8);
        }
    } else {
        randomly(table, APS_TABLE_BYTES);
    }
    look_up_all(table);
    free(write_list(table, &len));
    len = random_unit(unit);
    read_unit(unit, len, table);
    look_up_all(table);
    free(table);
}

/* Marks that were never set and then any bytes as marks; one of them set to any bytes as a table. */
static void random_marks(void)
{
    uint8_t *marks = lend(APS_MARKS_BYTES), *before, *table = lend(APS_TABLE_BYTES);
    size_t from = below(APS_MARKS_BYTES), len;
    int set = (int)below(APS_MARKS);

    aps_marks_new(marks);
    randomly(marks + from, APS_MARKS_BYTES - from);
    before = lend_copy(marks, APS_MARKS_BYTES);
    for (int mark = 0; mark < 256; mark++) {
        uint32_t code = aps_go_back(table, marks, (uint8_t)mark);

        if (code == 0) {
            check("a mark there", mark < APS_MARKS, 1);
            look_up_all(table);
            free(write_list(table, &len));
            memset(table, UNTOUCHED, APS_TABLE_BYTES);
        } else {
            check("never set or not there", code, mark < APS_MARKS ? APS_MARK_NOT_SET : APS_INVALID_DATA);
            check("a table untouched", untouched(table, 0, APS_TABLE_BYTES), 1);
        }
    }
    check("marks that stay", same(marks, before, APS_MARKS_BYTES), 1);
    randomly(table, APS_TABLE_BYTES);
    set_mark(table, marks, set);
    go_back(marks, set, table);
    free(marks);
    free(before);
    free(table);
}

/* A struct of random bytes, or a full one with one, its flags mostly 0 or 1: refused, or written and read again. */
/* What a call on a set's meaning gave: the number that is due or, where that is 0, 0; after a refusal all is as it was. */
static void given(const char *what, uint32_t code, uint32_t due, const void *lent, size_t size)
{
    check(what, code, due);
    check("nothing of it", code == 0 || untouched(lent, 0, size), 1);
}

/* A number for a depth, a filter, an id or a sample: those that are taken, their neighbours and any. */
static uint32_t any_number(size_t end)
{
    return below(8) ? (uint32_t)below(end) : (uint32_t)(seed >> 32);
}

static void filters_of(const aps_alf *set, int is_writable)
{
    aps_luma_filters *luma = (void *)lend(sizeof *luma);
    aps_chroma_filters *chroma = (void *)lend(sizeof *chroma);
    aps_cc_filters *cb = (void *)lend(sizeof *cb), *cr = (void *)lend(sizeof *cr);
    aps_luma_weights *weights = (void *)lend(sizeof *weights);
    uint32_t depth = any_number(15), filter = any_number(27);
    uint32_t due = !is_writable ? APS_INVALID_DATA : depth < 8 || depth > 12 ? APS_DEPTH_OUT_OF_RANGE : 0;
    uint32_t due_weights = !is_writable || filter > 24 ? APS_INVALID_DATA : 0;

#define SENT(due, flag) ((due) ? (due) : (flag) ? 0 : (uint32_t)APS_NOT_SENT)
    given("luma", aps_alf_luma_filters(set, depth, luma), SENT(due, set->alf_luma_filter_signal_flag), luma, sizeof *luma);
    given("chroma", aps_alf_chroma_filters(set, depth, chroma), SENT(due, set->alf_chroma_filter_signal_flag), chroma,
          sizeof *chroma);
    given("Cb", aps_alf_cb_filters(set, depth, cb), SENT(due, set->alf_cc_cb_filter_signal_flag), cb, sizeof *cb);
    given("Cr", aps_alf_cr_filters(set, depth, cr), SENT(due, set->alf_cc_cr_filter_signal_flag), cr, sizeof *cr);
    given("weights", aps_alf_luma_weights(set, filter, weights), SENT(due_weights, set->alf_luma_filter_signal_flag), weights,
          sizeof *weights);
#undef SENT
    free(luma);
    free(chroma);
    free(cb);
    free(cr);
    free(weights);
}

static void curve_of(const aps_lmcs *set, int is_writable)
{
    aps_luma_curve *curve = (void *)lend(sizeof *curve);
    aps_ends *ends = (void *)lend(sizeof *ends);
    uint32_t *mapped = (void *)lend(sizeof *mapped);
    uint32_t depth = any_number(15), lower = any_number(5000), upper = any_number(5000), due = aps_lmcs_curve(set, depth, curve);
    int is_one = due == 0 || due == APS_CODEWORD_OUT_OF_RANGE || due == APS_CODEWORDS_TOO_LARGE;
    uint32_t end;

    check("a writable set", due == APS_INVALID_DATA, !is_writable);
    check("a depth", is_writable && (depth < 8 || depth > 12), due == APS_DEPTH_OUT_OF_RANGE);
    check("or a curve", due == APS_INVALID_DATA || due == APS_DEPTH_OUT_OF_RANGE || is_one, 1);
    given("tables", due, due, curve, sizeof *curve);
    end = due == 0 ? 1u << depth : 0;
    given("a sample", aps_lmcs_map_sample(set, depth, lower, mapped), due ? due : lower < end ? 0 : APS_SAMPLE_OUT_OF_RANGE,
          mapped, sizeof *mapped);
    given("a range", aps_lmcs_map_range(set, depth, lower, upper, ends),
          due ? due : lower <= upper && upper < end ? 0 : APS_SAMPLE_OUT_OF_RANGE, ends, sizeof *ends);
    check("below", due || lower >= end || *mapped < end, 1);
    free(curve);
    free(ends);
    free(mapped);
}

static void factors_of(const aps_scaling *set, int is_writable)
{
    uint8_t *eight = lend(64), *four = lend(16), *two = lend(4), *dc = lend(1);
    uint32_t id = any_number(30), due = is_writable ? 0 : APS_INVALID_DATA;

    if (is_writable && aps_scaling_dc(set, 14, dc)) {
        due = APS_ZERO_FACTOR;
        check("a zero", aps_scaling_dc(set, 14, dc), due);
    }
    dc[0] = UNTOUCHED;
    given("8x8", aps_scaling_matrix8(set, id, (void *)eight), id < 8 || id > 27 ? APS_INVALID_DATA : due, eight, 64);
    given("4x4", aps_scaling_matrix4(set, id, (void *)four), id < 2 || id > 7 ? APS_INVALID_DATA : due, four, 16);
    given("2x2", aps_scaling_matrix2(set, id, (void *)two), id > 1 ? APS_INVALID_DATA : due, two, 4);
    given("a DC", aps_scaling_dc(set, id, dc), id < 14 || id > 27 ? APS_INVALID_DATA : due, dc, 1);
    free(eight);
    free(four);
    free(two);
    free(dc);
}

/* H.265 lists of any bytes, read, written and made a set; and lists that hold any bytes. */
static void random_lists(void)
{
    size_t len = below(9) ? below(64) : 1200 + below(1200);
    uint8_t *bytes = lend(len), *out = lend(3000), *few = NULL;
    aps_hevc_lists *lists = (void *)lend(sizeof *lists), *any = (void *)lend(sizeof *any);
    aps_scaling *set = (void *)lend(sizeof *set);
    uint64_t end[1] = {77}, written_len[1] = {77};
    uint32_t code, made, wrote;

    for (size_t i = 0; i < len; i++) {
        bytes[i] = below(3) ? 0x55 : (uint8_t)below(256);
    }
    code = aps_hevc_parse(bytes, len, lists, end);
    check("lists", code <= APS_INVALID_DATA, 1);
    check("their end", code ? end[0] == 77 && untouched(lists, 0, sizeof *lists) : end[0] <= len * 8, 1);
    made = aps_hevc_scaling_set(bytes, len, set);
    check("a set of them", code ? made == code : made == 0 || made == APS_ZERO_ELEMENT, 1);
    check("or nothing", made == 0 || untouched(set, 0, sizeof *set), 1);
    if (code == 0) {
        wrote = aps_hevc_write(lists, out, 3000, written_len);
        written("lists again", wrote, 0, out, 3000, written_len[0]);
        check("as long", (long long)written_len[0], (long long)((end[0] + 7) / 8));
        few = lend((size_t)written_len[0] - 1);
        check("a byte less", aps_hevc_write(lists, few, (size_t)written_len[0] - 1, end), APS_OUTPUT_TOO_SHORT);
        check("nothing", untouched(few, 0, (size_t)written_len[0] - 1), 1);
        *any = *lists;
        ((uint8_t *)any)[below(sizeof *any)] = (uint8_t)below(256);
    } else {
        randomly((uint8_t *)any, sizeof *any);
    }
    memset(out, UNTOUCHED, 3000);
    written_len[0] = 77;
    wrote = aps_hevc_write(any, out, 3000, written_len);
    check("any lists", wrote == 0 || wrote == APS_INVALID_DATA, 1);
    written("any lists written", wrote, wrote, out, 3000, written_len[0]);
    free(bytes);
    free(out);
    free(few);
    free(lists);
    free(any);
    free(set);
}

/* What a set of any bytes means: a set that is not written with extension flag 0 gets 2, but for one that is too long. */
static void meaning(const calls *k, const uint8_t *set)
{
    uint8_t *plain = lend_copy(set, k->size), *out = lend(ROOM);
    uint64_t len[1] = {77};
    int is_writable;

    plain[k->extension] = 0;
    is_writable = are_flags(k, set) && k->write(plain, out, ROOM, len) != APS_INVALID_DATA;
    if (k->kind == APS_ALF) {
        filters_of((const void *)set, is_writable);
    } else if (k->kind == APS_LMCS) {
        curve_of((const void *)set, is_writable);
    } else {
        factors_of((const void *)set, is_writable);
    }
    free(plain);
    free(out);
}

static void random_set(const calls *k, const void *full_set)
{
    uint8_t *set = lend_copy(full_set, k->size), *out = lend(ROOM), *again = lend(k->size);
    uint64_t len[1] = {77}, end[1] = {77};
    uint32_t code;

    if (below(2)) {
        randomly(set, k->size);
    } else {
        set[below(k->size)] = (uint8_t)below(256);
    }
    if (below(4)) {
        for (const range *r = k->flags; r->len; r++) {
            for (size_t i = 0; i < r->len; i++) {
                set[r->at + i] &= 1;
            }
        }
    }
    code = k->write(set, out, ROOM, len);
    if (set[k->extension] == 1) {
        check("an extension", code, APS_UNSUPPORTED);
    } else if (!are_flags(k, set)) {
        check("a flag", code, APS_INVALID_DATA);
    } else {
        check("written or not", code == 0 || code == APS_INVALID_DATA || full_set == &longest, 1);
        check("or too long", code == 0 || code == APS_INVALID_DATA || code == APS_INPUT_TOO_LONG, 1);
    }
    written("a random set", code, code, out, ROOM, len[0]);
    if (code == 0) {
        check("read again", k->parse_rbsp(out, len[0], again, end), 0);
        check("to its end", (long long)end[0], (long long)len[0] * 8);
        read_rbsp(out, len[0]);
    }
    meaning(k, set);
    meaning(k, full_set);
    write_all(k, set, code);
    write_unit(k, set, (aps_unit_header){(uint8_t)below(256), (uint8_t)below(256), (uint8_t)below(256)}, code);
    write_unit(k, set, (aps_unit_header){(uint8_t)(16 + below(4)), (uint8_t)below(64), (uint8_t)below(9)}, code);
    free(set);
    free(out);
    free(again);
}

static void at_random(long rounds)
{
    static uint8_t rbsp[RBSP], unit[ROOM];
    uint8_t *table = lend(APS_TABLE_BYTES);
    long taken = 0, refused = 0;

    aps_table_new(table);
    for (long i = 0; i < rounds; i++) {
        size_t len = random_rbsp(rbsp);

        *(read_rbsp(rbsp, len).code ? &refused : &taken) += 1;
        len = random_unit(unit);
        *(read_unit(unit, len, table).code ? &refused : &taken) += 1;
        random_escapes();
        random_lists();
        if (i % 4 == 0) {
            random_stream(table);
            random_set(&kinds[i / 4 % 3], full[i / 4 % 3]);
            random_set(&kinds[APS_SCALING], &longest);
        }
        if (i % 16 == 0) {
            random_table();
            random_marks();
        }
    }
    check("some taken", taken > rounds / 4, 1);
    check("some refused", refused > rounds / 4, 1);
    free(table);
}

int main(int argc, char **argv)
{
    fill_sets();
    write_sets();
    nothing();
    one_short();
    too_long();
    longest_rbsps();
    each_first_byte();
    work_buffers();
    wrong_flags();
    longest_sets();
    read_headers();
    write_headers();
    each_mark();
    at_random(argc > 1 ? atol(argv[1]) : 2000);
    if (failures == 0) {
        puts("every argument is answered as the header says");
    }
    return failures != 0;
}

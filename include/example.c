/* The README's example from C: a stream is taken, its sets are looked up, cut and read back; a mark is set and gone back
 * to; and arguments that are refused. */
#include "kendwyra.h"

#include <stdio.h>
#include <string.h>

static int failures;

static void check(const char *what, long long got, long long wanted)
{
    if (got != wanted) {
        printf("%s: %lld, not %lld\n", what, got, wanted);
        failures++;
    }
}

static const uint8_t stream[] = {0, 0, 0, 1, 0x00, 0x89, 0x20, 0x42, 0x12, 0, 0, 0, 1, 0x00, 0x91, 0x00, 0x10};
static const uint8_t list[] = {0, 0, 0, 1, 0x00, 0x91, 0x00, 0x10, 0, 0, 0, 1, 0x00, 0x89, 0x20, 0x42, 0x12};

static uint8_t table[APS_TABLE_BYTES];
static uint8_t second[APS_TABLE_BYTES];
static uint8_t marks[APS_MARKS_BYTES];
static uint8_t work[APS_LONGEST_RBSP];
static uint8_t out[APS_LIST_BYTES];
static aps_alf alf;
static aps_lmcs lmcs;
static aps_scaling scaling;
static uint8_t long_input[APS_LONGEST_INPUT + 1];

static void sets_in_force(void)
{
    uint64_t counts[3], len[1];
    aps_head head;
    aps_unit_header header;

    aps_table_new(table);
    check("stream", aps_take_stream(table, stream, sizeof stream, work, sizeof work, counts), 0);
    check("accepted", counts[0], 2);
    check("refused", counts[1], 0);
    check("passed over", counts[2], 0);
    check("LMCS 0", aps_lmcs_lookup(table, 0, &lmcs, &header), 0);
    check("delta max", lmcs.lmcs_delta_max_bin_idx, 15);
    check("type", header.nal_unit_type, 17);
    check("layer", header.nuh_layer_id, 0);
    check("temporal id plus one", header.nuh_temporal_id_plus1, 1);
    check("head", aps_head_lookup(table, APS_ALF, 0, &head, &header), 0);
    check("kind", head.kind, APS_ALF);
    check("id", head.aps_adaptation_parameter_set_id, 0);
    check("chroma", head.aps_chroma_present_flag, 0);
    check("extension", head.aps_extension_flag, 0);
    check("head's type", header.nal_unit_type, 18);
    check("ALF 0", aps_alf_lookup(table, 0, &alf, &header), 0);
    check("luma filters", alf.alf_luma_filter_signal_flag, 0);

    check("list", aps_write_list(table, out, sizeof out, len), 0);
    check("length", len[0], sizeof list);
    check("bytes", memcmp(out, list, sizeof list), 0);

    aps_table_new(second);
    check("read back", aps_take_stream(second, out, len[0], work, sizeof work, counts), 0);
    check("LMCS 0 again", aps_lmcs_lookup(second, 0, &lmcs, &header), 0);
    check("delta max again", lmcs.lmcs_delta_max_bin_idx, 15);
    check("type again", header.nal_unit_type, 17);
    check("ALF 0 again", aps_alf_lookup(second, 0, &alf, &header), 0);
    check("its type again", header.nal_unit_type, 18);
}

/* A mark, a unit of LMCS 0 after it, and the list as it was. */
static void a_mark(void)
{
    uint64_t counts[3], len[1];
    aps_unit_header header;

    aps_table_new(table);
    aps_marks_new(marks);
    check("stream", aps_take_stream(table, stream, sizeof stream, work, sizeof work, counts), 0);
    check("mark 7", aps_set_mark(table, marks, 7), 0);
    check("a unit", aps_take_unit(table, (const uint8_t[]){5, 0x92, 0x20, 0x42, 0x12}, 5, work, sizeof work), 0);
    check("its layer", aps_lmcs_lookup(table, 0, &lmcs, &header) == 0 && header.nuh_layer_id == 5, 1);
    check("back", aps_go_back(table, marks, 7), 0);
    check("the layer before", aps_lmcs_lookup(table, 0, &lmcs, &header) == 0 && header.nuh_layer_id == 0, 1);
    check("its list", aps_write_list(table, out, sizeof out, len), 0);
    check("as before", len[0] == sizeof list && memcmp(out, list, sizeof list) == 0, 1);
    check("never set", aps_go_back(table, marks, 0), APS_MARK_NOT_SET);
    check("no such mark", aps_set_mark(table, marks, 8), APS_INVALID_DATA);
    check("to go back to", aps_go_back(table, marks, 8), APS_INVALID_DATA);
}

static void one_set(void)
{
    const aps_unit_header header = {17, 0, 1}, layered = {18, 55, 7};
    uint64_t end[1], len[1];
    aps_head head;

    check("its kind", stream[6] >> 5, APS_LMCS);
    check("head", aps_head_parse_rbsp(stream + 6, 3, &head, end), 0);
    check("kind", head.kind, APS_LMCS);
    check("set", aps_lmcs_parse_rbsp(stream + 6, 3, &lmcs, end), 0);
    check("bit", end[0], 24);
    check("delta max", lmcs.lmcs_delta_max_bin_idx, 15);
    check("written", aps_lmcs_write(&lmcs, out, sizeof out, len), 0);
    check("three bytes", len[0], 3);
    check("the same", memcmp(out, stream + 6, 3), 0);
    check("unit", aps_lmcs_write_nal(&lmcs, header, out, sizeof out, len), 0);
    check("the same unit", len[0] == 5 && memcmp(out, stream + 4, 5) == 0, 1);
    check("out of the unit", aps_lmcs_parse(out, 5, work, sizeof work, &lmcs, end), 0);
    check("bit again", end[0], 24);
    check("read without work", aps_lmcs_parse(out, 5, NULL, 0, &lmcs, end), APS_OUTPUT_TOO_SHORT);
    check("with as many bytes as its RBSP", aps_lmcs_parse(out, 5, work, 3, &lmcs, end), 0);
    check("a layer", aps_lmcs_write_nal(&lmcs, layered, out, sizeof out, len), 0);
    check("its header", out[0] == 55 && out[1] == 18 * 8 + 7, 1);
    check("escaped", aps_rbsp_to_ebsp((const uint8_t[]){0, 0, 1}, 3, out, sizeof out, len), 0);
    check("four bytes", len[0], 4);
}

/* A luma filter of one row for all: its coefficients, its clips at 10 bits and its weights; 7 and 8. */
static void filters(void)
{
    static aps_luma_filters luma;
    aps_chroma_filters chroma;
    aps_luma_weights weights;

    memset(&alf, 0, sizeof alf);
    alf.alf_luma_filter_signal_flag = 1;
    alf.alf_luma_coeff_abs[0][1] = 64;
    alf.alf_luma_coeff_sign[0][1] = 1;
    check("luma filters", aps_alf_luma_filters(&alf, 10, &luma), 0);
    check("a coefficient", luma.coefficients[24][1] == -64, 1);
    check("a clip", luma.clips[24][1], 1024);
    check("weights", aps_alf_luma_weights(&alf, 24, &weights), 0);
    check("exact", weights.taps[1] == -0.5f && weights.centre == 2.0f, 1);
    check("a depth of 7", aps_alf_luma_filters(&alf, 7, &luma), APS_DEPTH_OUT_OF_RANGE);
    check("no chroma", aps_alf_chroma_filters(&alf, 10, &chroma), APS_NOT_SENT);
    check("filter 25", aps_alf_luma_weights(&alf, 25, &weights), APS_INVALID_DATA);
}

/* Scaling lists that are all copies: 16 throughout. Bins 1 to 14 of a curve without deltas: what is mapped from where. */
static void factors_and_curve(void)
{
    uint8_t matrix[8][8], dc[1];
    aps_luma_curve curve;
    aps_ends ends;
    uint32_t mapped[1];

    memset(&scaling, 0, sizeof scaling);
    memset(scaling.scaling_list_copy_mode_flag, 1, sizeof scaling.scaling_list_copy_mode_flag);
    check("a matrix", aps_scaling_matrix8(&scaling, 27, matrix), 0);
    check("16", matrix[7][7], 16);
    check("a DC", aps_scaling_dc(&scaling, 14, dc) == 0 && dc[0] == 16, 1);
    check("id 8 is no 4x4", aps_scaling_matrix4(&scaling, 8, (uint8_t(*)[4])matrix), APS_INVALID_DATA);
    memset(&lmcs, 0, sizeof lmcs);
    check("a sum of 2 to the power 10", aps_lmcs_curve(&lmcs, 10, &curve), APS_CODEWORDS_TOO_LARGE);
    lmcs.lmcs_min_bin_idx = lmcs.lmcs_delta_max_bin_idx = 1;
    check("a curve", aps_lmcs_curve(&lmcs, 10, &curve), 0);
    check("its codewords", curve.codewords[0] == 0 && curve.codewords[1] == 64 && curve.pivots[16] == 14 * 64, 1);
    check("its scales", curve.inverse[1] == 1024 * 2 && curve.inverse_rest[1] == 0 && curve.chroma[0] == 2048, 1);
    check("a sample", aps_lmcs_map_sample(&lmcs, 10, 940, mapped) == 0 && mapped[0] == 940 - 64, 1);
    check("a range", aps_lmcs_map_range(&lmcs, 10, 0, 1023, &ends) == 0 && ends.least == 0 && ends.greatest == 14 * 64, 1);
    check("sample 1024", aps_lmcs_map_sample(&lmcs, 10, 1024, mapped), APS_SAMPLE_OUT_OF_RANGE);
}

/* H.265 lists that are all the default ones: 20 flags 0, each with a ue 0. */
static void masters(void)
{
    static const uint8_t defaults[] = {0x55, 0x55, 0x55, 0x55, 0x55};
    static aps_hevc_lists lists;
    uint8_t matrix[8][8], bytes[8];
    uint64_t end[1], len[1];

    check("lists", aps_hevc_parse(defaults, 5, &lists, end), 0);
    check("their end", end[0], 40);
    check("written", aps_hevc_write(&lists, bytes, sizeof bytes, len) == 0 && len[0] == 5 && memcmp(bytes, defaults, 5) == 0, 1);
    check("a set", aps_hevc_scaling_set(defaults, 5, &scaling), 0);
    check("its chroma flag", scaling.aps_chroma_present_flag, 1);
    check("intra", aps_scaling_matrix8(&scaling, 8, matrix) == 0 && matrix[7][7] == 115, 1);
    check("inter", aps_scaling_matrix8(&scaling, 23, matrix) == 0 && matrix[7][7] == 91, 1);
    check("cut off", aps_hevc_scaling_set(defaults, 4, &scaling), APS_UNEXPECTED_END);
}

/* A unit whose RBSP has 2,048 bytes, a small set and what follows it, and then one more. */
static void longest_rbsp(void)
{
    uint8_t *unit = long_input;
    uint64_t end[1] = {77};
    aps_head head;
    aps_unit_header header;

    aps_table_new(table);
    memset(unit, 0xFF, 2 + APS_LONGEST_RBSP + 1);
    memcpy(unit, stream + 13, 4);
    check("as long as is read", aps_take_unit(table, unit, 2 + APS_LONGEST_RBSP, work, sizeof work), 0);
    check("held", aps_head_lookup(table, APS_ALF, 0, &head, &header), 0);
    check("its end", aps_alf_parse_rbsp(unit + 2, APS_LONGEST_RBSP, &alf, end) == 0 && end[0] == 16, 1);
    check("longer by one", aps_alf_parse_rbsp(unit + 2, APS_LONGEST_RBSP + 1, &alf, end), APS_INPUT_TOO_LONG);
    check("a longer unit", aps_take_unit(table, unit, 2 + APS_LONGEST_RBSP + 1, NULL, 0), APS_INPUT_TOO_LONG);
    check("held no more", aps_head_lookup(table, APS_ALF, 0, &head, &header), APS_EMPTY_PLACE);
    memset(unit, 0, 2 + APS_LONGEST_RBSP + 1);
}

/* Null with length 0, and lengths and flags that are wrong: a number each, never a fault. arguments.c has more. */
static void refused(void)
{
    const aps_unit_header header = {17, 0, 1}, layer_56 = {17, 56, 1};
    uint64_t counts[3], len[1], end[1];
    aps_head head = {9, 9, 9, 9};
    aps_unit_header kept = {9, 9, 9};

    aps_table_new(table);
    check("no bytes", aps_take_stream(table, NULL, 0, NULL, 0, counts), 0);
    check("no unit", aps_take_unit(table, NULL, 0, NULL, 0), APS_UNEXPECTED_END);
    check("no RBSP", aps_alf_parse_rbsp(NULL, 0, &alf, end), APS_UNEXPECTED_END);
    check("a set that is cut off", aps_lmcs_parse_rbsp((const uint8_t[]){0x24}, 1, &lmcs, end), APS_UNEXPECTED_END);
    check("another kind", aps_scaling_parse_rbsp(stream + 6, 3, &scaling, end), APS_INVALID_DATA);
    check("no output", aps_lmcs_write_nal(&lmcs, header, NULL, 0, len), APS_OUTPUT_TOO_SHORT);
    check("no such layer", aps_lmcs_write_nal(&lmcs, layer_56, out, sizeof out, len), APS_INVALID_DATA);
    lmcs.lmcs_delta_sign_crs_flag = 2;
    check("a flag 2", aps_lmcs_write(&lmcs, out, sizeof out, len), APS_INVALID_DATA);
    check("nothing to escape", aps_rbsp_to_ebsp(NULL, 0, NULL, 0, len), 0);
    check("empty list", aps_write_list(table, NULL, 0, len), 0);
    check("no byte of it", len[0], 0);
    check("short work buffer", aps_take_stream(table, stream, sizeof stream, work, 2, counts), APS_OUTPUT_TOO_SHORT);
    check("a stream without sets", aps_take_stream(table, (const uint8_t[]){0, 0, 1, 0, 9}, 5, NULL, 0, counts), 0);
    check("its unit", counts[0] == 0 && counts[1] == 0 && counts[2] == 1, 1);
    check("a byte before the first unit", aps_take_stream(table, stream + 4, 5, work, sizeof work, counts), APS_INVALID_DATA);
    check("another type", aps_take_unit(table, (const uint8_t[]){0, 9}, 2, work, sizeof work), APS_PASSED_OVER);
    check("layer 56", aps_take_unit(table, (const uint8_t[]){56, 0x89, 0x00, 0x10}, 4, work, sizeof work), APS_INVALID_DATA);
    check("empty place", aps_head_lookup(table, APS_ALF, 0, &head, &kept), APS_EMPTY_PLACE);
    check("no such place", aps_lmcs_lookup(table, 4, &lmcs, &kept), APS_INVALID_DATA);
    check("no such kind", aps_head_lookup(table, 3, 0, &head, &kept), APS_INVALID_DATA);
    check("long stream", aps_take_stream(table, long_input, sizeof long_input, work, sizeof work, counts), APS_INPUT_TOO_LONG);
    check("long unit", aps_take_unit(table, long_input, sizeof long_input, work, sizeof work), APS_INPUT_TOO_LONG);
    check("extension flag 1", aps_take_unit(table, (const uint8_t[]){0, 0x89, 0x00, 0x20}, 4, work, sizeof work), 0);
    check("its list", aps_write_list(table, out, sizeof out, len), APS_UNSUPPORTED);
    check("head kept", head.kind == 9 && head.aps_extension_flag == 9, 1);
    check("header kept", kept.nal_unit_type == 9 && kept.nuh_temporal_id_plus1 == 9, 1);
}

int main(void)
{
    sets_in_force();
    a_mark();
    one_set();
    filters();
    factors_and_curve();
    masters();
    longest_rbsp();
    refused();
    if (failures == 0) {
        puts("all as the header says");
    }
    return failures != 0;
}

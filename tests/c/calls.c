/* Calls every function of winterhasp.h on sample A, with room and without: calls < SAMPLE. Status 1, and a line that says which
   answer differs, if one does. */

#include <stdio.h>
#include <stdlib.h>
#include <string.h>

#include "winterhasp.h"

enum { SAMPLE_BYTES = 89, FIRST_SOT = 57, HELD = 0x5A };

static int differs;

static void check(int holds, const char *what, int line)
{
    if (!holds) {
        printf("calls.c:%d: not so: %s\n", line, what);
        differs = 1;
    }
}

#define CHECK(what) check((what), #what, __LINE__)

static int all_held(const uint8_t *bytes, size_t count)
{
    for (size_t i = 0; i < count; i++)
        if (bytes[i] != HELD)
            return 0;
    return 1;
}

static void places(void)
{
    uint64_t value = 7;
    CHECK(winterhasp_in_file(57, 85, &value) == 1 && value == 142);
    CHECK(winterhasp_in_file(UINT64_MAX, 1, &value) == 0 && value == 142);
    CHECK(winterhasp_next_region(65536, 200000) == 131072);
    CHECK(winterhasp_pixel_type(9, 1) == 3 && winterhasp_pixel_type(17, 0) == 4);
}

static void headers(const uint8_t *sample)
{
    uint64_t start = 7, length = 7, value = 7, region, enlargements;
    CHECK(winterhasp_find_codestream(sample, SAMPLE_BYTES, &start, &length) == 0 && start == 0 && length == SAMPLE_BYTES);
    length = 7;
    CHECK(winterhasp_find_codestream(sample, 1, &start, &length) == WINTERHASP_FILE_TOO_SHORT && start == 0 && length == 7);
    CHECK(winterhasp_find_codestream(NULL, 0, &start, &length) == WINTERHASP_FILE_TOO_SHORT);
    CHECK(winterhasp_grow_header_region(sample, SAMPLE_BYTES, &region, &enlargements) == 0);
    CHECK(region == SAMPLE_BYTES && enlargements == 0);
    CHECK(winterhasp_main_header_extent(sample, 58, &value) == 0 && value == 7);
    CHECK(winterhasp_main_header_extent(sample, 59, &value) == 1 && value == FIRST_SOT);

    uint64_t width, height, components, bits, sign;
    CHECK(winterhasp_parse_siz_marker(sample, SAMPLE_BYTES, &width, &height, &components, &bits, &sign) == 0);
    CHECK(width == 10 && height == 6 && components == 1 && bits == 8 && sign == 0);
    CHECK(winterhasp_parse_siz_marker(sample, 42, &width, &height, &components, &bits, &sign) == WINTERHASP_SIZ_CUT_SHORT);
    CHECK(width == 2 && height == 6 && components == 1 && bits == 8 && sign == 0);
}

/* A jp2h at 0 that holds bpcc at 8, and jp2c at 17, with its length in 8 bytes more. */
static void boxes(const uint8_t *sample)
{
    enum { ROW = WINTERHASP_BOX_ROW_BYTES, FILE_BYTES = 35, JP2H = 0x6a703268, BPCC = 0x62706363, JP2C = 0x6a703263 };
    static const uint8_t file[FILE_BYTES] = { 0, 0, 0, 17, 'j', 'p', '2', 'h', 0, 0, 0, 9, 'b', 'p', 'c', 'c', 7,
                                              0, 0, 0, 1,  'j', 'p', '2', 'c', 0, 0, 0, 0, 0,   0,   0,   18,  0xFF, 0x4F };
    uint8_t table[3 * ROW + 1], damaged[FILE_BYTES];
    uint64_t value = 7;
    memset(table, HELD, sizeof table);
    CHECK(winterhasp_list_boxes(file, FILE_BYTES, table, 3 * ROW - 1, &value) == WINTERHASP_TABLE_TOO_SMALL && value == 3);
    CHECK(winterhasp_list_boxes(file, FILE_BYTES, NULL, 0, &value) == WINTERHASP_TABLE_TOO_SMALL && value == 3);
    CHECK(winterhasp_list_boxes(sample, SAMPLE_BYTES, table, sizeof table, &value) == WINTERHASP_BOX_DOES_NOT_FIT && value == 0);
    memcpy(damaged, file, FILE_BYTES);
    damaged[11] = 10;
    CHECK(winterhasp_list_boxes(damaged, FILE_BYTES, table, sizeof table, &value) == WINTERHASP_BOX_DOES_NOT_FIT && value == 8);
    damaged[11] = 0;
    CHECK(winterhasp_list_boxes(damaged, FILE_BYTES, table, sizeof table, &value) == WINTERHASP_BOX_LENGTH_WRONG && value == 8);
    damaged[11] = 1;
    CHECK(winterhasp_list_boxes(damaged, FILE_BYTES, table, sizeof table, &value) == WINTERHASP_BOX_CUT_SHORT && value == 8);
    memcpy(damaged, file, FILE_BYTES);
    memset(damaged + 25, 0xFF, 8);
    CHECK(winterhasp_list_boxes(damaged, FILE_BYTES, table, sizeof table, &value) == WINTERHASP_BOX_TOO_LONG && value == 17);
    CHECK(all_held(table, sizeof table));
    CHECK(winterhasp_list_boxes(NULL, 0, NULL, 0, &value) == 0 && value == 0);

    CHECK(winterhasp_list_boxes(file, FILE_BYTES, table, sizeof table, &value) == 0 && value == 3);
    CHECK(winterhasp_box_depth(table) == 1 && winterhasp_box_type(table) == JP2H && winterhasp_box_start(table) == 0);
    CHECK(winterhasp_box_content(table) == 8 && winterhasp_box_content_length(table) == 9);
    const uint8_t *bpcc = table + ROW, *jp2c = bpcc + ROW;
    CHECK(winterhasp_box_depth(bpcc) == 2 && winterhasp_box_type(bpcc) == BPCC && winterhasp_box_start(bpcc) == 8);
    CHECK(winterhasp_box_content(bpcc) == 16 && winterhasp_box_content_length(bpcc) == 1);
    CHECK(winterhasp_box_depth(jp2c) == 1 && winterhasp_box_type(jp2c) == JP2C && winterhasp_box_start(jp2c) == 17);
    CHECK(winterhasp_box_content(jp2c) == 33 && winterhasp_box_content_length(jp2c) == 2);
    CHECK(table[3 * ROW] == HELD);
}

/* Superboxes, one in the other: eight are listed, and nine are one too many. */
static void deep_boxes(void)
{
    enum { ROW = WINTERHASP_BOX_ROW_BYTES, DEEPEST = 8 };
    uint8_t file[8 * (DEEPEST + 1)], table[DEEPEST * ROW];
    uint64_t value = 7;
    for (uint8_t depth = 0; depth <= DEEPEST; depth++) {
        static const uint8_t head[8] = { 0, 0, 0, 0, 'u', 'i', 'n', 'f' };
        memcpy(file + 8 * depth, head, sizeof head);
        file[8 * depth + 3] = (uint8_t)(8 * (DEEPEST - depth));
    }
    CHECK(winterhasp_list_boxes(file, 8 * DEEPEST, table, sizeof table, &value) == 0 && value == DEEPEST);
    CHECK(winterhasp_box_depth(table + 7 * ROW) == 8 && winterhasp_box_content_length(table + 7 * ROW) == 0);
    memset(table, HELD, sizeof table);
    for (uint8_t depth = 0; depth <= DEEPEST; depth++)
        file[8 * depth + 3] = (uint8_t)(8 * (DEEPEST + 1 - depth));
    CHECK(winterhasp_list_boxes(file, sizeof file, table, sizeof table, &value) == WINTERHASP_BOXES_TOO_DEEP && value == 56);
    CHECK(all_held(table, sizeof table));
}

/* SIZ stands at 2 and TLM at 45; the first SOT, at 57, ends the search, which refuses what the main header is refused for. */
static void markers(const uint8_t *sample)
{
    enum { SOC = 0xFF4F, SIZ = 0xFF51, TLM = 0xFF55, PPM = 0xFF60, SOT = 0xFF90 };
    static const uint16_t absent[] = { SOC, PPM, SOT, TLM & 0xFF, TLM ^ 0x100 };
    static const struct { size_t length; uint32_t refusal; uint64_t place; } cut[] = {
        { 0, WINTERHASP_NO_SOC, 0 },
        { 3, WINTERHASP_NO_SIZ, 2 },
        { 44, WINTERHASP_SEGMENT_PAST_END, 2 },
        { 45, WINTERHASP_NO_TILE_PART, 45 },
        { 56, WINTERHASP_SEGMENT_PAST_END, 45 },
        { 58, WINTERHASP_NO_TILE_PART, 58 },
    };
    uint8_t other[SAMPLE_BYTES];
    uint64_t value = 7;
    CHECK(winterhasp_find_marker(sample, SAMPLE_BYTES, SIZ, &value) == 0 && value == 2);
    CHECK(winterhasp_find_marker(sample, 59, TLM, &value) == 0 && value == 45);
    for (size_t i = 0; i < sizeof absent / sizeof *absent; i++)
        CHECK(winterhasp_find_marker(sample, SAMPLE_BYTES, absent[i], &value) == WINTERHASP_NO_SUCH_MARKER && value == 45);
    for (size_t i = 0; i < sizeof cut / sizeof *cut; i++) {
        CHECK(winterhasp_find_marker(cut[i].length ? sample : NULL, cut[i].length, SIZ, &value) == cut[i].refusal);
        CHECK(value == cut[i].place);
    }

    /* a TLM of an unknown form, and one that is too short, behind SIZ */
    memcpy(other, sample, SAMPLE_BYTES);
    other[50] = 0x30;
    CHECK(winterhasp_find_marker(other, SAMPLE_BYTES, SIZ, &value) == WINTERHASP_TLM_FORM_UNKNOWN && value == 45);
    other[48] = 3;
    CHECK(winterhasp_find_marker(other, SAMPLE_BYTES, TLM, &value) == WINTERHASP_TLM_TOO_SHORT && value == 45);

    /* PPM in the place of TLM, and then in a comment of as many bytes */
    memcpy(other, sample, SAMPLE_BYTES);
    other[46] = 0x60;
    CHECK(winterhasp_find_marker(other, SAMPLE_BYTES, PPM, &value) == 0 && value == 45);
    other[46] = 0x64;
    other[49] = 0xFF;
    other[50] = 0x60;
    value = 7;
    CHECK(winterhasp_find_marker(other, SAMPLE_BYTES, PPM, &value) == WINTERHASP_NO_SUCH_MARKER && value == 7);
}

/* The sample has one component of 10 by 6, of which tile 5 is the corner from 8, 4 on. */
static void components(const uint8_t *sample)
{
    uint8_t fewer[45];
    uint64_t count = 7, x0 = 7, y0 = 7, x1 = 7, y1 = 7, bits = 7, sign = 7, xrsiz = 7, yrsiz = 7;
    CHECK(winterhasp_read_components(sample, 44, &count, &x0, &y0, &x1, &y1) == WINTERHASP_SEGMENT_PAST_END);
    CHECK(count == 2 && x0 == 7 && y0 == 7 && x1 == 7 && y1 == 7);
    CHECK(winterhasp_read_components(sample, 45, &count, &x0, &y0, &x1, &y1) == 0);
    CHECK(count == 1 && x0 == 0 && y0 == 0 && x1 == 10 && y1 == 6);
    CHECK(winterhasp_read_components_in_tile(sample, SAMPLE_BYTES, 5, &count, &x0, &y0, &x1, &y1) == 0);
    CHECK(count == 1 && x0 == 8 && y0 == 4 && x1 == 10 && y1 == 6);
    CHECK(winterhasp_read_components_in_tile(sample, SAMPLE_BYTES, 6, &count, &x0, &y0, &x1, &y1) == WINTERHASP_NO_SUCH_TILE);
    CHECK(count == 2 && x0 == 8 && y0 == 4 && x1 == 10 && y1 == 6);

    CHECK(winterhasp_component(sample, SAMPLE_BYTES, 1, &bits, &sign, &xrsiz, &yrsiz, &x0, &y0, &x1, &y1) ==
          WINTERHASP_NO_SUCH_COMPONENT);
    CHECK(bits == 7 && sign == 7 && xrsiz == 7 && yrsiz == 7 && x0 == 8 && y0 == 4 && x1 == 10 && y1 == 6);
    CHECK(winterhasp_component(sample, SAMPLE_BYTES, 0, &bits, &sign, &xrsiz, &yrsiz, &x0, &y0, &x1, &y1) == 0);
    CHECK(bits == 8 && sign == 0 && xrsiz == 1 && yrsiz == 1 && x0 == 0 && y0 == 0 && x1 == 10 && y1 == 6);

    /* a sample for 3 columns and 4 rows, of 12 bits with a sign */
    memcpy(fewer, sample, sizeof fewer);
    fewer[42] = 0x8B;
    fewer[43] = 3;
    fewer[44] = 4;
    CHECK(winterhasp_component_in_tile(fewer, sizeof fewer, 5, 0, &bits, &sign, &xrsiz, &yrsiz, &x0, &y0, &x1, &y1) == 0);
    CHECK(bits == 12 && sign == 1 && xrsiz == 3 && yrsiz == 4 && x0 == 3 && y0 == 1 && x1 == 4 && y1 == 2);
    CHECK(winterhasp_component_in_tile(fewer, sizeof fewer, 6, 1, &bits, &sign, &xrsiz, &yrsiz, &x0, &y0, &x1, &y1) ==
          WINTERHASP_NO_SUCH_TILE);
    CHECK(bits == 2 && sign == 1 && xrsiz == 3 && yrsiz == 4 && x0 == 3 && y0 == 1 && x1 == 4 && y1 == 2);
    CHECK(winterhasp_component_within(fewer, sizeof fewer, 1, 2, UINT32_MAX, 9, 0, &bits, &sign, &xrsiz, &yrsiz, &x0, &y0, &x1,
                                      &y1) == 0);
    CHECK(bits == 12 && sign == 1 && xrsiz == 3 && yrsiz == 4 && x0 == 1 && y0 == 1 && x1 == 1431655765 && y1 == 3);
    CHECK(winterhasp_component_within(fewer, 44, 0, 0, 10, 6, 0, &bits, &sign, &xrsiz, &yrsiz, &x0, &y0, &x1, &y1) ==
          WINTERHASP_NO_SUCH_COMPONENT);
    CHECK(bits == 12 && sign == 1 && xrsiz == 3 && yrsiz == 4 && x0 == 1 && y0 == 1 && x1 == 1431655765 && y1 == 3);
    fewer[44] = 0;
    CHECK(winterhasp_component(fewer, sizeof fewer, 0, &bits, &sign, &xrsiz, &yrsiz, &x0, &y0, &x1, &y1) ==
          WINTERHASP_SUBSAMPLING_OF_0);
    CHECK(bits == 2 && sign == 1);
    fewer[41] = 2;
    CHECK(winterhasp_read_components(fewer, sizeof fewer, &count, &x0, &y0, &x1, &y1) == WINTERHASP_COMPONENTS_NOT_HELD);
    CHECK(count == 2 && x0 == 1);
}

/* The image from 3 and the tiles from 1 on: tile 0 is the part from 3 to 5, and by the original's rule to 7. */
static void moved(const uint8_t *sample, uint8_t *header)
{
    memcpy(header, sample, 45);
    header[19] = 3;
    header[35] = 1;
}

static void components_by_rule(const uint8_t *sample)
{
    static const uint32_t standard[] = { WINTERHASP_RULE_ANNEX_B, WINTERHASP_RULE_IN_PLACE, 3, UINT32_MAX };
    uint8_t header[45];
    uint64_t count = 7, x0 = 7, y0 = 7, x1 = 7, y1 = 7, bits = 7, sign = 7, xrsiz = 7, yrsiz = 7;
    moved(sample, header);
    for (size_t i = 0; i < sizeof standard / sizeof *standard; i++) {
        uint32_t rule = standard[i];
        CHECK(winterhasp_read_components_in_tile_by_rule(header, 45, 0, rule, &count, &x0, &y0, &x1, &y1) == 0);
        CHECK(count == 1 && x0 == 3 && y0 == 0 && x1 == 5 && y1 == 4);
        CHECK(winterhasp_read_components_in_tile_by_rule(header, 45, 6, rule, &count, &x0, &y0, &x1, &y1) ==
              WINTERHASP_NO_SUCH_TILE);
        CHECK(count == 2 && x0 == 3 && y0 == 0 && x1 == 5 && y1 == 4);
        CHECK(winterhasp_component_in_tile_by_rule(header, 45, 2, rule, 0, &bits, &sign, &xrsiz, &yrsiz, &x0, &y0, &x1, &y1) == 0);
        CHECK(bits == 8 && sign == 0 && xrsiz == 1 && yrsiz == 1 && x0 == 9 && y0 == 0 && x1 == 10 && y1 == 4);
        CHECK(winterhasp_component_in_tile_by_rule(header, 45, 2, rule, 1, &bits, &sign, &xrsiz, &yrsiz, &x0, &y0, &x1, &y1) ==
              WINTERHASP_NO_SUCH_COMPONENT);
        CHECK(winterhasp_component_in_tile_by_rule(header, 45, 6, rule, 1, &bits, &sign, &xrsiz, &yrsiz, &x0, &y0, &x1, &y1) ==
              WINTERHASP_NO_SUCH_TILE);
        CHECK(bits == 2 && sign == 0 && x0 == 9 && y0 == 0 && x1 == 10 && y1 == 4);
    }
    CHECK(winterhasp_read_components_in_tile_by_rule(header, 45, 0, WINTERHASP_RULE_ORIGINAL, &count, &x0, &y0, &x1, &y1) == 0);
    CHECK(count == 1 && x0 == 3 && y0 == 0 && x1 == 7 && y1 == 4);
    CHECK(winterhasp_read_components_in_tile_by_rule(header, 45, 4, WINTERHASP_RULE_ORIGINAL, &count, &x0, &y0, &x1, &y1) ==
          WINTERHASP_TILE_OUTSIDE);
    CHECK(count == 2 && x1 == 7);
    CHECK(winterhasp_component_in_tile_by_rule(header, 45, 1, WINTERHASP_RULE_ORIGINAL, 0, &bits, &sign, &xrsiz, &yrsiz, &x0, &y0,
                                               &x1, &y1) == 0);
    CHECK(bits == 8 && x0 == 7 && y0 == 0 && x1 == 10 && y1 == 4);
    CHECK(winterhasp_component_in_tile_by_rule(header, 45, 4, WINTERHASP_RULE_ORIGINAL, 0, &bits, &sign, &xrsiz, &yrsiz, &x0, &y0,
                                               &x1, &y1) == WINTERHASP_TILE_OUTSIDE);

    /* the tiles from 4 on, which is past the image's origin */
    header[35] = 4;
    CHECK(winterhasp_read_components_in_tile(header, 45, 0, &count, &x0, &y0, &x1, &y1) == WINTERHASP_NO_GRID);
    CHECK(winterhasp_component_in_tile(header, 45, 0, 0, &bits, &sign, &xrsiz, &yrsiz, &x0, &y0, &x1, &y1) == WINTERHASP_NO_GRID);
    CHECK(count == 2 && bits == 2 && x0 == 7 && x1 == 10);
}

/* The decode header is the sample's first 45 bytes. */
static void main_header(const uint8_t *sample, uint8_t *decode_header)
{
    uint8_t table[3 * WINTERHASP_ROW_BYTES], out[46];
    uint64_t first, length = 7, entries = 7, fillers = 7;
    memset(table, HELD, sizeof table);
    memset(out, HELD, sizeof out);
    CHECK(winterhasp_parse_main_header(sample, SAMPLE_BYTES, NULL, 0, NULL, 0, &first, &length, &entries, &fillers) ==
          WINTERHASP_TABLE_TOO_SMALL);
    CHECK(first == 2 && length == 7 && entries == 7 && fillers == 7);
    CHECK(winterhasp_parse_main_header(sample, SAMPLE_BYTES, table, sizeof table, out, 44, &first, &length, &entries, &fillers) ==
          WINTERHASP_OUTPUT_TOO_SMALL);
    CHECK(first == 45 && fillers == 7 && all_held(table, sizeof table) && all_held(out, sizeof out));
    CHECK(winterhasp_parse_main_header(sample, SAMPLE_BYTES, table, sizeof table, out, sizeof out, &first, &length, &entries,
                                       &fillers) == 0);
    CHECK(first == FIRST_SOT && length == 45 && entries == 2 && fillers == 0);
    CHECK(memcmp(out, sample, 45) == 0 && out[45] == HELD);
    const uint8_t *second = table + WINTERHASP_ROW_BYTES;
    CHECK(winterhasp_row_index(second) == 5 && winterhasp_row_offset(second) == 71 && winterhasp_row_length(second) == 16);
    CHECK(!winterhasp_row_is_numbered(second) && second[18] == 0 && second[19] == 0 && second[20] == 0);
    CHECK(all_held(second + WINTERHASP_ROW_BYTES, WINTERHASP_ROW_BYTES));
    CHECK(winterhasp_tile_in_order(table, 2 * WINTERHASP_ROW_BYTES, 5) == 0);
    memcpy(decode_header, out, 45);
}

/* Of the steps behind SIZ the delimiters 0030 and FE92 are fillers; FF3F, the segment 0064 and what it holds, and what stands
   behind SOT are none. */
static void header_with_fillers(void)
{
    static const uint8_t codestream[] = { 0xFF, 0x4F, 0xFF, 0x51, 0, 2, 0, 0x30, 0xFF, 0x3F, 0, 0x64, 0, 4, 0, 0x30, 0xFE, 0x92,
                                          0xFF, 0x90, 0, 0x30 };
    uint8_t out[18];
    uint64_t first = 7, length = 7, entries = 7, fillers = 7;
    CHECK(winterhasp_parse_main_header(codestream, sizeof codestream, NULL, 0, out, 17, &first, &length, &entries, &fillers) ==
          WINTERHASP_OUTPUT_TOO_SMALL);
    CHECK(first == 18 && length == 7 && entries == 7 && fillers == 7);
    CHECK(winterhasp_parse_main_header(codestream, 10, NULL, 0, out, sizeof out, &first, &length, &entries, &fillers) ==
          WINTERHASP_NO_TILE_PART);
    CHECK(first == 10 && length == 7 && entries == 7 && fillers == 7);
    CHECK(winterhasp_parse_main_header(codestream, sizeof codestream, NULL, 0, out, sizeof out, &first, &length, &entries,
                                       &fillers) == 0);
    CHECK(first == 18 && length == 18 && entries == 0 && fillers == 2 && memcmp(out, codestream, 18) == 0);
}

/* Two TLM segments of two lengths each without an index, and between them one with the index 65,535. */
static void numberings(void)
{
    static const uint8_t codestream[] = { 0xFF, 0x4F, 0xFF, 0x51, 0, 2, 0xFF, 0x55, 0, 8, 0, 0, 0, 20, 0, 30,
                                          0xFF, 0x55, 0, 8, 1, 0x20, 0xFF, 0xFF, 0, 40,
                                          0xFF, 0x55, 0, 8, 2, 0, 0, 50, 0, 60, 0xFF, 0x90 };
    static const uint16_t carried_on[] = { 0, 1, 65535, 2, 3 }, restarting[] = { 0, 1, 65535, 0, 1 };
    static const winterhasp_reading readings[] = { { 0 }, { .numbering = WINTERHASP_NUMBERING_RESTARTING },
                                                   { .numbering = 2, .edition = UINT32_MAX }, { .numbering = UINT32_MAX, .edition = 2 } };
    uint8_t table[5 * WINTERHASP_ROW_BYTES], out[6];
    uint64_t first = 7, length = 7, entries = 7, fillers = 7;
    for (int call = -1; call < 4; call++) {
        memset(table, HELD, sizeof table);
        uint32_t status = call < 0 ? winterhasp_parse_main_header(codestream, sizeof codestream, table, sizeof table, out, sizeof out,
                                                                  &first, &length, &entries, &fillers)
                                   : winterhasp_parse_main_header_by_reading(codestream, sizeof codestream, readings[call], table,
                                                                             sizeof table, out, sizeof out, &first, &length,
                                                                             &entries, &fillers);
        CHECK(status == 0 && first == 36 && length == 6 && entries == 5 && fillers == 0);
        const uint16_t *wanted = call == WINTERHASP_NUMBERING_RESTARTING ? restarting : carried_on;
        for (int row = 0; row < 5; row++)
            CHECK(winterhasp_row_index(table + row * WINTERHASP_ROW_BYTES) == wanted[row]);
    }
}

/* SIZ with nothing but Rsiz, and CAP of one word: as it is, with a bit more than it has words, without bit 14 of Rsiz, and with an edition that
   is not there. */
static void editions(void)
{
    uint8_t codestream[] = { 0xFF, 0x4F, 0xFF, 0x51, 0, 4, 0x40, 0, 0xFF, 0x50, 0, 8, 0, 2, 0, 0, 0, 0, 0xFF, 0x90 };
    winterhasp_reading reading = { .edition = WINTERHASP_EDITION_NEWER };
    uint8_t out[18];
    uint64_t first = 7, length = 7, entries = 7, fillers = 7;
    for (int numbering = 0; numbering < 2; numbering++) {
        reading.numbering = numbering;
        CHECK(winterhasp_parse_main_header_by_reading(codestream, sizeof codestream, reading, NULL, 0, out, sizeof out, &first, &length,
                                                      &entries, &fillers) == 0);
        CHECK(first == 18 && length == 18 && entries == 0 && fillers == 0 && memcmp(out, codestream, 18) == 0);
    }
    length = entries = fillers = 7;
    memset(out, HELD, sizeof out);
    codestream[15] = 1;
    CHECK(winterhasp_parse_main_header_by_reading(codestream, sizeof codestream, reading, NULL, 0, out, sizeof out, &first, &length,
                                                  &entries, &fillers) == WINTERHASP_CAP_LENGTH_WRONG);
    CHECK(first == 8 && length == 7 && entries == 7 && fillers == 7 && all_held(out, sizeof out));
    codestream[6] = 0;
    CHECK(winterhasp_parse_main_header_by_reading(codestream, sizeof codestream, reading, NULL, 0, NULL, 0, &first, &length, &entries,
                                                  &fillers) == WINTERHASP_CAP_OUT_OF_PLACE);
    CHECK(first == 8 && length == 7 && entries == 7 && fillers == 7);
    for (uint32_t edition = 0; edition < 4; edition += 2) {
        reading.edition = edition;
        CHECK(winterhasp_parse_main_header_by_reading(codestream, sizeof codestream, reading, NULL, 0, out, sizeof out, &first, &length,
                                                      &entries, &fillers) == 0);
        CHECK(first == 18);
    }
}

/* What a check tells. */
typedef struct {
    uint64_t value, offset, listed_tile, listed_length, standing_tile, standing_length;
} difference;

/* Each of the numbers holds 7 before. */
static uint32_t checked(const uint8_t *codestream, size_t length, uint64_t region, difference *told)
{
    *told = (difference){ 7, 7, 7, 7, 7, 7 };
    return winterhasp_check_length_table(codestream, length, region, &told->value, &told->offset, &told->listed_tile,
                                         &told->listed_length, &told->standing_tile, &told->standing_length);
}

/* Whether it told the first of these, and left the others. */
static int told_alone(const difference *told, uint64_t value)
{
    return told->value == value && told->offset == 7 && told->listed_tile == 7 && told->listed_length == 7 &&
           told->standing_tile == 7 && told->standing_length == 7;
}

static int told_parts(const difference *told, uint64_t listed_tile, uint64_t listed_length, uint64_t standing_tile,
                      uint64_t standing_length)
{
    return told->listed_tile == listed_tile && told->listed_length == listed_length && told->standing_tile == standing_tile &&
           told->standing_length == standing_length;
}

/* The sample's table, at 45, lists tile 0 with 14 bytes and tile 5 with 16, and so they stand. */
static void length_tables(const uint8_t *sample)
{
    enum { DIFFERS = WINTERHASP_LENGTH_TABLE_DIFFERS, NONE = WINTERHASP_NO_TILE, TLM_BYTES = 12 };
    static const uint64_t regions[] = { 59, SAMPLE_BYTES, UINT64_MAX };
    uint8_t other[SAMPLE_BYTES + TLM_BYTES];
    difference told;
    for (size_t i = 0; i < sizeof regions / sizeof *regions; i++)
        CHECK(checked(sample, SAMPLE_BYTES, regions[i], &told) == 0 && told_alone(&told, 7));
    CHECK(checked(sample, SAMPLE_BYTES, 58, &told) == WINTERHASP_NO_TILE_PART && told_alone(&told, 58));
    CHECK(checked(NULL, 0, 0, &told) == WINTERHASP_NO_SOC && told_alone(&told, 0));
    CHECK(checked(sample, 80, 80, &told) == WINTERHASP_TILE_PART_CUT_SHORT && told_alone(&told, 71));

    /* another length, and another tile */
    memcpy(other, sample, SAMPLE_BYTES);
    other[56] = 17;
    CHECK(checked(other, SAMPLE_BYTES, SAMPLE_BYTES, &told) == DIFFERS && told.value == 1 && told.offset == 71);
    CHECK(told_parts(&told, 5, 17, 5, 16));
    other[51] = 6;
    CHECK(checked(other, SAMPLE_BYTES, SAMPLE_BYTES, &told) == DIFFERS && told.value == 0 && told.offset == FIRST_SOT);
    CHECK(told_parts(&told, 6, 14, 0, 14));
    CHECK(checked(other, 80, 80, &told) == WINTERHASP_TILE_PART_CUT_SHORT && told_alone(&told, 71));
    /* the second tile-part cut off; its entry left out; and a comment in the place of the table */
    CHECK(checked(sample, 71, 71, &told) == DIFFERS && told.value == 1 && told.offset == 71 && told_parts(&told, 5, 16, NONE, 0));
    memcpy(other, sample, 54);
    other[48] = 7;
    memcpy(other + 54, sample + FIRST_SOT, SAMPLE_BYTES - FIRST_SOT);
    CHECK(checked(other, SAMPLE_BYTES - 3, SAMPLE_BYTES, &told) == DIFFERS && told.value == 1 && told.offset == 68);
    CHECK(told_parts(&told, NONE, 0, 5, 16));
    memcpy(other, sample, SAMPLE_BYTES);
    other[46] = 0x64;
    CHECK(checked(other, SAMPLE_BYTES, SAMPLE_BYTES, &told) == DIFFERS && told.value == 0 && told.offset == FIRST_SOT);
    CHECK(told_parts(&told, NONE, 0, 0, 14));

    /* the table twice, under one number and under two */
    memcpy(other, sample, FIRST_SOT);
    memcpy(other + FIRST_SOT, sample + 45, SAMPLE_BYTES - 45);
    CHECK(checked(other, sizeof other, sizeof other, &told) == WINTERHASP_TLM_NUMBER_REPEATED && told_alone(&told, FIRST_SOT));
    other[FIRST_SOT + 4] = 1;
    CHECK(checked(other, sizeof other, sizeof other, &told) == DIFFERS && told.value == 2 && told_parts(&told, 0, 14, NONE, 0));
}

/* Three segments of 22,000 lengths each without an index: where numbers are carried on the third has one that is past 65,534. */
static void too_many_entries(void)
{
    enum { SEGMENT = 44006 };
    static uint8_t codestream[6 + 3 * SEGMENT + 2] = { 0xFF, 0x4F, 0xFF, 0x51, 0, 2 };
    static uint8_t table[66000 * WINTERHASP_ROW_BYTES];
    static const uint8_t front[] = { 0xFF, 0x55, 0xAB, 0xE4, 0, 0 }, sot[] = { 0xFF, 0x90 };
    uint8_t out[6];
    uint64_t first = 7, length = 7, entries = 7, fillers = 7;
    for (int segment = 0; segment < 3; segment++)
        memcpy(codestream + 6 + segment * SEGMENT, front, sizeof front);
    memcpy(codestream + 6 + 3 * SEGMENT, sot, sizeof sot);
    memset(table, HELD, sizeof table);
    memset(out, HELD, sizeof out);
    CHECK(winterhasp_parse_main_header(codestream, sizeof codestream, table, sizeof table, out, sizeof out, &first, &length, &entries,
                                       &fillers) == WINTERHASP_TLM_TOO_MANY_ENTRIES);
    CHECK(first == 6 + 2 * SEGMENT && length == 7 && entries == 7 && fillers == 7);
    CHECK(all_held(table, sizeof table) && all_held(out, sizeof out));
    const winterhasp_reading restarting = { .numbering = WINTERHASP_NUMBERING_RESTARTING };
    CHECK(winterhasp_parse_main_header_by_reading(codestream, sizeof codestream, restarting, table, sizeof table, out, sizeof out,
                                                  &first, &length, &entries, &fillers) == 0);
    CHECK(first == 6 + 3 * SEGMENT && length == 6 && entries == 66000);
    CHECK(winterhasp_row_index(table + 65999 * (size_t)WINTERHASP_ROW_BYTES) == 21999);

    /* checked, the last is the one of the last number */
    difference told;
    for (int segment = 0; segment < 3; segment++)
        codestream[6 + segment * SEGMENT + 4] = (uint8_t)(2 - segment);
    CHECK(checked(codestream, sizeof codestream, UINT64_MAX, &told) == WINTERHASP_TLM_TOO_MANY_ENTRIES && told_alone(&told, 6));
}

static void parts(const uint8_t *sample)
{
    uint8_t table[2 * WINTERHASP_ROW_BYTES], out[17];
    uint64_t value;
    CHECK(winterhasp_scan_sot_markers(sample, SAMPLE_BYTES, FIRST_SOT, table, sizeof table - 1, &value) ==
          WINTERHASP_TABLE_TOO_SMALL);
    CHECK(value == 2);
    CHECK(winterhasp_scan_sot_markers(sample, SAMPLE_BYTES, FIRST_SOT, table, sizeof table, &value) == 0 && value == 2);
    CHECK(winterhasp_row_index(table) == 0 && winterhasp_row_offset(table) == FIRST_SOT && winterhasp_row_length(table) == 14);
    CHECK(winterhasp_row_is_numbered(table) && winterhasp_row_tpsot(table) == 0 && winterhasp_row_tnsot(table) == 1);
    CHECK(winterhasp_tile_in_order(table, sizeof table, 5) == 1 && winterhasp_tile_in_order(table, sizeof table, 1) == 0);
    CHECK(winterhasp_tile_in_order(table, sizeof table - 1, 5) == 0 && winterhasp_tile_in_order(NULL, 0, 5) == 0);
    CHECK(winterhasp_scan_sot_markers(sample, 80, FIRST_SOT, table, sizeof table, &value) == WINTERHASP_TILE_PART_CUT_SHORT);
    CHECK(value == 71);

    const uint8_t *joined = sample + FIRST_SOT;
    memset(out, HELD, sizeof out);
    CHECK(winterhasp_split_count(joined, 30) == 2);
    CHECK(winterhasp_split_part(joined, 30, 1, out, 15, &value) == WINTERHASP_OUTPUT_TOO_SMALL && value == 16);
    CHECK(all_held(out, sizeof out));
    CHECK(winterhasp_split_part(joined, 30, 1, out, sizeof out, &value) == 0 && value == 16);
    CHECK(memcmp(out, sample + 71, 16) == 0 && out[16] == HELD);
    CHECK(winterhasp_split_part(joined, 30, 2, NULL, 0, &value) == 0 && value == 0);
    CHECK(winterhasp_split_at(joined, 30, 0, NULL, 0, &value) == WINTERHASP_OUTPUT_TOO_SMALL && value == 14);
    CHECK(winterhasp_split_at(joined, 30, 14, out, sizeof out, &value) == 0 && value == 16);
    CHECK(winterhasp_split_at(joined, 30, 30, out, sizeof out, &value) == 0 && value == 0);
}

/* A table in which no two rows are alike, and its index: the numbers of its rows, tile by tile. */
enum { ROWS = 6 };
static const uint16_t tiles[ROWS] = { 5, 0, 65535, 5, 0, 5 };
static const uint8_t numbers[ROWS] = { 1, 4, 0, 3, 5, 2 };

static void indexed(uint8_t *table)
{
    memset(table, 0, ROWS * WINTERHASP_ROW_BYTES);
    for (size_t i = 0; i < ROWS; i++) {
        uint8_t *row = table + i * WINTERHASP_ROW_BYTES;
        row[0] = (uint8_t)(tiles[i] >> 8);
        row[1] = (uint8_t)tiles[i];
        row[17] = (uint8_t)(14 + i);
    }
}

static int keys_held(const uint64_t *keys, size_t count)
{
    return all_held((const uint8_t *)keys, count * sizeof *keys);
}

/* Into each of both too little, into both enough, and a table of no row. */
static void index_made(const uint8_t *table, uint64_t *made)
{
    static const size_t small[][2] = { { 0, 0 }, { ROWS - 1, ROWS }, { ROWS, ROWS - 1 } };
    uint64_t index[ROWS + 1], scratch[ROWS + 1], value;
    size_t bytes = ROWS * WINTERHASP_ROW_BYTES;
    memset(index, HELD, sizeof index);
    memset(scratch, HELD, sizeof scratch);
    for (size_t i = 0; i < sizeof small / sizeof *small; i++) {
        value = 7;
        CHECK(winterhasp_index_tiles(table, bytes, index, small[i][0], scratch, small[i][1], &value) == WINTERHASP_TABLE_TOO_SMALL);
        CHECK(value == ROWS && keys_held(index, ROWS + 1) && keys_held(scratch, ROWS + 1));
    }
    CHECK(winterhasp_index_tiles(table, bytes, NULL, 0, NULL, 0, &value) == WINTERHASP_TABLE_TOO_SMALL && value == ROWS);
    CHECK(winterhasp_index_tiles(table, bytes, index, ROWS + 1, scratch, ROWS + 1, &value) == 0 && value == ROWS);
    for (size_t i = 0; i < ROWS; i++)
        CHECK(winterhasp_key_number(index[i]) == numbers[i] && winterhasp_key_tile(index[i]) == tiles[numbers[i]]);
    CHECK(memcmp(index, scratch, sizeof index) == 0 && keys_held(index + ROWS, 1));
    memcpy(made, index, ROWS * sizeof *made);
    CHECK(winterhasp_index_tiles(NULL, 0, NULL, 0, NULL, 0, &value) == 0 && value == 0);
}

/* From each number of rows on, with a scratch for the others alone; and of another table's index. */
static void index_extended(const uint8_t *table, const uint64_t *made)
{
    uint64_t index[ROWS + 1], before[ROWS + 1], scratch[ROWS], value;
    size_t bytes = ROWS * WINTERHASP_ROW_BYTES;
    for (size_t have = 0; have <= ROWS; have++) {
        size_t more = ROWS - have;
        memset(index, HELD, sizeof index);
        CHECK(winterhasp_index_tiles(table, have * WINTERHASP_ROW_BYTES, index, have, scratch, ROWS, &value) == 0 && value == have);
        memcpy(before, index, sizeof index);
        memset(scratch, HELD, sizeof scratch);
        value = 7;
        if (more > 0) {
            CHECK(winterhasp_extend_index(table, bytes, have, index, ROWS, scratch, more - 1, &value) == WINTERHASP_TABLE_TOO_SMALL);
            CHECK(value == ROWS && memcmp(index, before, sizeof index) == 0 && keys_held(scratch, ROWS));
        }
        CHECK(winterhasp_extend_index(table, bytes, have, index, ROWS - 1, scratch, ROWS, &value) == WINTERHASP_TABLE_TOO_SMALL);
        CHECK(value == ROWS && memcmp(index, before, sizeof index) == 0 && keys_held(scratch, ROWS));
        CHECK(winterhasp_extend_index(table, bytes, have, index, ROWS + 1, more ? scratch : NULL, more, &value) == 0 && value == ROWS);
        CHECK(memcmp(index, made, ROWS * sizeof *made) == 0 && keys_held(index + ROWS, 1) && keys_held(scratch + more, have));
    }
    memset(index, HELD, sizeof index);
    CHECK(winterhasp_extend_index(table, bytes, ROWS + 1, index, ROWS, scratch, ROWS, &value) == 0 && value == ROWS);
    CHECK(memcmp(index, made, ROWS * sizeof *made) == 0 && memcmp(scratch, made, ROWS * sizeof *made) == 0);
}

/* Tile 5 has rows 0, 3 and 5, and tile 1 has none. */
static void index_by_tile(void)
{
    uint8_t table[ROWS * WINTERHASP_ROW_BYTES], out[4 * WINTERHASP_ROW_BYTES];
    uint64_t index[ROWS], first = 7, count = 7, value = 7;
    indexed(table);
    index_made(table, index);
    index_extended(table, index);
    CHECK(winterhasp_tile_run(index, ROWS, 5, &first, &count) == 1 && first == 2 && count == 3);
    CHECK(winterhasp_tile_run(index, ROWS, 65535, &first, &count) == 1 && first == 5 && count == 1);
    CHECK(winterhasp_tile_run(index, ROWS, 1, &first, &count) == 0 && first == 2 && count == 0);
    CHECK(winterhasp_tile_run(NULL, 0, 5, &first, &count) == 0 && first == 0 && count == 0);

    memset(out, HELD, sizeof out);
    CHECK(winterhasp_tile_entries(table, sizeof table, index, ROWS, 5, out, 3 * WINTERHASP_ROW_BYTES - 1, &value) ==
          WINTERHASP_TABLE_TOO_SMALL);
    CHECK(value == 3 && all_held(out, sizeof out));
    CHECK(winterhasp_tile_entries(table, sizeof table, index, ROWS, 1, NULL, 0, &value) == 0 && value == 0);
    CHECK(winterhasp_tile_entries(table, sizeof table, index, ROWS, 5, out, sizeof out, &value) == 0 && value == 3);
    for (size_t i = 0; i < 3; i++) {
        const uint8_t *row = table + winterhasp_key_number(index[2 + i]) * WINTERHASP_ROW_BYTES;
        CHECK(memcmp(out + i * WINTERHASP_ROW_BYTES, row, WINTERHASP_ROW_BYTES) == 0);
    }
    CHECK(all_held(out + 3 * WINTERHASP_ROW_BYTES, WINTERHASP_ROW_BYTES));

    /* no index: row 99, which is not there, row 1, of tile 0, and row 3 */
    for (size_t i = 0; i < 3; i++)
        index[i] = ((uint64_t)5 << 48) + (i == 0 ? 99 : 2 * i - 1);
    CHECK(winterhasp_tile_entries(table, sizeof table, index, 3, 5, out, sizeof out, &value) == 0 && value == 1);
    CHECK(winterhasp_row_index(out) == 5 && winterhasp_row_length(out) == 17);
}

/* Tile 5 of the sample is 2 by 2, and its part of 16 bytes is the second. */
static void tile(const uint8_t *sample, const uint8_t *decode_header)
{
    uint8_t table[2 * WINTERHASP_ROW_BYTES], out[64];
    uint64_t value;
    memset(out, HELD, sizeof out);
    CHECK(winterhasp_rewrite_siz_for_tile(decode_header, 45, 6, out, sizeof out, &value) == WINTERHASP_NO_SUCH_TILE);
    CHECK(value == 2 && all_held(out, sizeof out));
    CHECK(winterhasp_rewrite_siz_for_tile(decode_header, 45, 5, out, sizeof out, &value) == 0 && value == 45);
    CHECK(winterhasp_big_endian(out + 8, 4) == 2 && winterhasp_big_endian(out + 12, 4) == 2 && out[45] == HELD);

    CHECK(winterhasp_scan_sot_markers(sample, SAMPLE_BYTES, FIRST_SOT, table, sizeof table, &value) == 0);
    const uint8_t *row = table + WINTERHASP_ROW_BYTES;
    memset(out, HELD, sizeof out);
    CHECK(winterhasp_build_minimal_codestream(decode_header, 45, row, WINTERHASP_ROW_BYTES, sample, SAMPLE_BYTES, out, 62,
                                              &value) == WINTERHASP_OUTPUT_TOO_SMALL);
    CHECK(value == 63 && all_held(out, sizeof out));
    CHECK(winterhasp_build_minimal_codestream(decode_header, 45, row, WINTERHASP_ROW_BYTES, sample, SAMPLE_BYTES, out,
                                              sizeof out, &value) == 0);
    CHECK(value == 63 && out[61] == 0xFF && out[62] == 0xD9 && out[63] == HELD);
    CHECK(winterhasp_big_endian(out + 49, 2) == 0 && memcmp(out + 51, sample + 77, 10) == 0);
}

/* Whether a header says that the image is a single tile of this area. */
static int lies(const uint8_t *header, uint64_t x0, uint64_t y0, uint64_t x1, uint64_t y1)
{
    return winterhasp_big_endian(header + 8, 4) == x1 && winterhasp_big_endian(header + 12, 4) == y1 &&
           winterhasp_big_endian(header + 16, 4) == x0 && winterhasp_big_endian(header + 20, 4) == y0 &&
           winterhasp_big_endian(header + 24, 4) == x1 - x0 && winterhasp_big_endian(header + 28, 4) == y1 - y0 &&
           winterhasp_big_endian(header + 32, 4) == x0 && winterhasp_big_endian(header + 36, 4) == y0;
}

/* The same of a size, from 0, 0 on. */
static int says(const uint8_t *header, uint64_t width, uint64_t height)
{
    return lies(header, 0, 0, width, height);
}

/* Tile 0 is cut off by the image, and tile 1, from 5 to 9, has full size: in place both are written. */
static void tile_in_place(const uint8_t *sample, const uint8_t *row)
{
    enum { RULE = WINTERHASP_RULE_IN_PLACE };
    uint8_t header[45], out[64];
    uint64_t value;
    moved(sample, header);
    memset(out, HELD, sizeof out);
    CHECK(winterhasp_rewrite_siz_for_tile_by_rule(header, 45, 6, RULE, NULL, 0, &value) == WINTERHASP_NO_SUCH_TILE && value == 2);
    CHECK(winterhasp_rewrite_siz_for_tile_by_rule(header, 45, 0, RULE, out, 44, &value) == WINTERHASP_OUTPUT_TOO_SMALL);
    CHECK(value == 45 && all_held(out, sizeof out));
    CHECK(winterhasp_rewrite_siz_for_tile_by_rule(header, 45, 0, RULE, out, sizeof out, &value) == 0 && value == 45);
    CHECK(lies(out, 3, 0, 5, 4) && memcmp(out + 40, header + 40, 5) == 0 && all_held(out + 45, sizeof out - 45));
    CHECK(winterhasp_rewrite_siz_for_tile_by_rule(header, 45, 1, RULE, out, sizeof out, &value) == 0 && lies(out, 5, 0, 9, 4));
    CHECK(winterhasp_rewrite_siz_for_tile_by_rule(header, 39, 6, RULE, out, sizeof out, &value) == 0);
    CHECK(value == 39 && memcmp(out, header, 39) == 0);

    memset(out, HELD, sizeof out);
    CHECK(winterhasp_build_minimal_codestream_by_rule(header, 45, row, WINTERHASP_ROW_BYTES, sample, SAMPLE_BYTES, RULE, out, 60,
                                                      &value) == WINTERHASP_OUTPUT_TOO_SMALL);
    CHECK(value == 61 && all_held(out, sizeof out));
    CHECK(winterhasp_build_minimal_codestream_by_rule(header, 45, row, WINTERHASP_ROW_BYTES, sample, SAMPLE_BYTES, RULE, out,
                                                      sizeof out, &value) == 0);
    CHECK(value == 61 && lies(out, 3, 0, 5, 4) && memcmp(out + 45, sample + FIRST_SOT, 14) == 0 && out[61] == HELD);

    /* no grid: the tiles from 4 on, which is past the image's origin */
    header[35] = 4;
    memset(out, HELD, sizeof out);
    CHECK(winterhasp_rewrite_siz_for_tile_by_rule(header, 45, 6, RULE, out, sizeof out, &value) == WINTERHASP_NO_GRID && value == 2);
    CHECK(winterhasp_build_minimal_codestream_by_rule(header, 45, row, WINTERHASP_ROW_BYTES, sample, SAMPLE_BYTES, RULE, NULL, 0,
                                                      &value) == WINTERHASP_NO_GRID);
    CHECK(value == 2 && all_held(out, sizeof out));
}

static void tile_by_rule(const uint8_t *sample)
{
    static const uint32_t standard[] = { WINTERHASP_RULE_ANNEX_B, 3, UINT32_MAX };
    /* the sample's first part, which is of tile 0 */
    static const uint8_t row[WINTERHASP_ROW_BYTES] = { [9] = FIRST_SOT, [17] = 14 };
    uint8_t header[45], out[64];
    uint64_t value;
    moved(sample, header);
    for (size_t i = 0; i < sizeof standard / sizeof *standard; i++) {
        uint32_t rule = standard[i];
        memset(out, HELD, sizeof out);
        CHECK(winterhasp_rewrite_siz_for_tile_by_rule(header, 45, 6, rule, NULL, 0, &value) == WINTERHASP_NO_SUCH_TILE);
        CHECK(value == 2);
        CHECK(winterhasp_rewrite_siz_for_tile_by_rule(header, 45, 0, rule, out, 44, &value) == WINTERHASP_OUTPUT_TOO_SMALL);
        CHECK(value == 45 && all_held(out, sizeof out));
        CHECK(winterhasp_rewrite_siz_for_tile_by_rule(header, 45, 0, rule, out, sizeof out, &value) == 0 && value == 45);
        CHECK(says(out, 2, 4) && all_held(out + 45, sizeof out - 45));
        CHECK(winterhasp_rewrite_siz_for_tile_by_rule(header, 45, 1, rule, out, sizeof out, &value) == 0);
        CHECK(memcmp(out, header, 45) == 0);

        memset(out, HELD, sizeof out);
        CHECK(winterhasp_build_minimal_codestream_by_rule(header, 45, row, sizeof row, sample, SAMPLE_BYTES, rule, out, 60,
                                                          &value) == WINTERHASP_OUTPUT_TOO_SMALL);
        CHECK(value == 61 && all_held(out, sizeof out));
        CHECK(winterhasp_build_minimal_codestream_by_rule(header, 45, row, sizeof row, sample, SAMPLE_BYTES, rule, out,
                                                          sizeof out, &value) == 0);
        CHECK(value == 61 && says(out, 2, 4) && memcmp(out + 45, sample + FIRST_SOT, 14) == 0 && out[61] == HELD);
    }
    CHECK(winterhasp_rewrite_siz_for_tile_by_rule(header, 45, 0, WINTERHASP_RULE_ORIGINAL, out, sizeof out, &value) == 0);
    CHECK(memcmp(out, header, 45) == 0);
    CHECK(winterhasp_rewrite_siz_for_tile_by_rule(header, 45, 1, WINTERHASP_RULE_ORIGINAL, out, sizeof out, &value) == 0);
    CHECK(says(out, 3, 4));
    CHECK(winterhasp_rewrite_siz_for_tile_by_rule(header, 45, 4, WINTERHASP_RULE_ORIGINAL, out, sizeof out, &value) ==
          WINTERHASP_TILE_OUTSIDE);
    CHECK(value == 2);
    CHECK(winterhasp_build_minimal_codestream_by_rule(header, 45, row, sizeof row, sample, SAMPLE_BYTES, WINTERHASP_RULE_ORIGINAL,
                                                      out, 60, &value) == WINTERHASP_OUTPUT_TOO_SMALL);
    CHECK(winterhasp_build_minimal_codestream_by_rule(header, 45, row, sizeof row, sample, SAMPLE_BYTES, WINTERHASP_RULE_ORIGINAL,
                                                      out, sizeof out, &value) == 0);
    CHECK(value == 61 && memcmp(out, header, 45) == 0);
    tile_in_place(sample, row);

    /* no grid: the tiles from 4 on, which is past the image's origin */
    header[35] = 4;
    memset(out, HELD, sizeof out);
    CHECK(winterhasp_rewrite_siz_for_tile(header, 45, 0, out, sizeof out, &value) == WINTERHASP_NO_GRID && value == 2);
    CHECK(winterhasp_build_minimal_codestream(header, 45, row, sizeof row, sample, SAMPLE_BYTES, out, sizeof out, &value) ==
          WINTERHASP_NO_GRID);
    CHECK(value == 2 && all_held(out, sizeof out));
}

int main(void)
{
    static uint8_t sample[SAMPLE_BYTES + 1], decode_header[45];
    if (fread(sample, 1, sizeof sample, stdin) != SAMPLE_BYTES)
        return EXIT_FAILURE;
    places();
    headers(sample);
    boxes(sample);
    deep_boxes();
    markers(sample);
    components(sample);
    components_by_rule(sample);
    main_header(sample, decode_header);
    header_with_fillers();
    numberings();
    editions();
    length_tables(sample);
    too_many_entries();
    parts(sample);
    index_by_tile();
    tile(sample, decode_header);
    tile_by_rule(sample);
    return differs ? EXIT_FAILURE : EXIT_SUCCESS;
}

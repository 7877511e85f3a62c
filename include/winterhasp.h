/*
 * Winterhasp: JPEG 2000 main headers and tile-parts, read by a proved library.
 *
 * `bash tools/proved.sh host` writes target/staticlib/libhost.a, for x86-64 from x86-64-v2 on: cc program.c target/staticlib/libhost.a
 *
 * What is lent. Bytes, and the keys of an index, are lent as a pointer and their number; where that is 0 the
 * pointer may be NULL. What is `const` is read, the rest is written to. Nothing that is written may overlap
 * anything else that is lent, and nothing is kept after the call. No function allocates, blocks, calls back
 * or holds state: each may be called from any thread.
 *
 * What comes back. 0 where a function accepts, and else a refusal's number. The first number that is lent
 * (`value`, `first_sot`, `start`, `width`, `components`, `bits`) then holds the refusal's place, or for 17
 * and 18 what is needed; the other numbers, the table, the index, the scratch and the output hold what they
 * held before. On acceptance all beyond the stated count is left as it was. The functions that never refuse
 * say so. Every input has an answer: none is checked by the caller first.
 *
 * docs/RULES.md says exactly what each function answers, under the heading that is named here.
 */
#ifndef WINTERHASP_H
#define WINTERHASP_H

#include <stddef.h>
#include <stdint.h>

#ifdef __cplusplus
extern "C" {
#endif

/* Refusals: docs/RULES.md, "Refusals", with the place of each and what to do. */

#define WINTERHASP_NO_SOC                       1 /* the start marker (SOC) is missing */
#define WINTERHASP_NO_SIZ                       2 /* the image size segment (SIZ) is missing */
#define WINTERHASP_SEGMENT_PAST_END             3 /* a header segment runs past the end */
#define WINTERHASP_TLM_TOO_SHORT                4 /* a tile-part length segment (TLM) is too short */
#define WINTERHASP_TLM_FORM_UNKNOWN             5 /* a tile-part length segment (TLM) has an unknown form */
#define WINTERHASP_NO_TILE_PART                 6 /* no tile-part was reached */
#define WINTERHASP_TILE_PART_CUT_SHORT          7 /* too few bytes are left for a tile-part */
#define WINTERHASP_SOT_LENGTH_WRONG             8 /* the first segment of a tile-part (SOT) has a wrong length */
#define WINTERHASP_TILE_PART_PAST_END           9 /* a tile-part runs past the end */
#define WINTERHASP_TILE_OUTSIDE                10 /* the tile lies outside the image, or a sum on the way to its size is too large */
#define WINTERHASP_FILE_TOO_SHORT              11 /* the file is too short */
#define WINTERHASP_NOT_JPEG_2000               12 /* the file is neither a JP2 nor a codestream */
#define WINTERHASP_BOX_CUT_SHORT               13 /* the header of a JP2 box is cut short */
#define WINTERHASP_NO_CODESTREAM_BOX           14 /* no codestream box (jp2c) was found */
#define WINTERHASP_CODESTREAM_BOX_TOO_SHORT    15 /* the codestream box (jp2c) is shorter than its own header */
#define WINTERHASP_BOX_TOO_LONG                16 /* a JP2 box is longer than any file */
#define WINTERHASP_OUTPUT_TOO_SMALL            17 /* the output that was lent has too few bytes */
#define WINTERHASP_TABLE_TOO_SMALL             18 /* the table or the index that was lent has too little room */
#define WINTERHASP_HEADER_TOO_LONG             19 /* too many bytes were lent for the main header */
#define WINTERHASP_SIZ_CUT_SHORT               20 /* the image size segment (SIZ) is cut short */
#define WINTERHASP_SIZ_NOT_FOUND               21 /* no image size segment (SIZ) was found */
#define WINTERHASP_IMAGE_ENDS_BEFORE_IT_STARTS 22 /* the image ends before it starts */
#define WINTERHASP_LISTING_TOO_LONG            23 /* the file is too long for the listing program */
#define WINTERHASP_COMPONENTS_NOT_HELD         24 /* the image size segment (SIZ) does not hold the components that it counts */
#define WINTERHASP_SUBSAMPLING_OF_0            25 /* a component's samples lie 0 apart */
#define WINTERHASP_TLM_TOO_MANY_ENTRIES        26 /* the tile-part length segments (TLM) have more entries without an index than there are tile numbers */
#define WINTERHASP_BOX_DOES_NOT_FIT            27 /* a box does not fit into the file, or into the box that holds it */
#define WINTERHASP_BOX_LENGTH_WRONG            28 /* a box's length is below its own header, or 0 within another box */
#define WINTERHASP_BOXES_TOO_DEEP              29 /* boxes hold each other more than 8 deep */
#define WINTERHASP_NO_GRID                     30 /* the image size segment (SIZ) lays no grid of tiles over the image */
#define WINTERHASP_NO_SUCH_TILE                31 /* the grid has no tile of this index */
#define WINTERHASP_TLM_NUMBER_REPEATED         32 /* two tile-part length segments (TLM) have the same number */
#define WINTERHASP_CAP_OUT_OF_PLACE            33 /* the capabilities segment (CAP) is announced and missing, or stands there unannounced or twice */
#define WINTERHASP_CAP_LENGTH_WRONG            34 /* the capabilities segment (CAP) is not as long as its bits ask */

/* No refusal: what is returned where there is no component of the number, or no marker of the code, that was asked for, and
   where a length table differs from what stands there. */

enum { WINTERHASP_NO_SUCH_COMPONENT = 256, WINTERHASP_NO_SUCH_MARKER = 257, WINTERHASP_LENGTH_TABLE_DIFFERS = 258 };

/* What is told for the tile of an entry or a tile-part that is not there: no tile has this index. */

enum { WINTERHASP_NO_TILE = 65536 };

/* The rule by which a tile's place is told, and by which it is cut out:
   - WINTERHASP_RULE_ANNEX_B, by which all functions go that take no rule: it lies where the standard has it, and is moved to 0, 0
     when it is cut out. Moved, it may decode to other samples than in the whole picture;
   - WINTERHASP_RULE_ORIGINAL, to compare with the program that this library is ported from, which counts tiles from the image
     origin: it is moved too;
   - WINTERHASP_RULE_IN_PLACE, for a tile that is to be decoded: it lies where the standard has it, and stays there.
   Any other number means Annex B's. The refusals of a tile are 30, then 31, and by the original's rule 10. */

enum { WINTERHASP_RULE_ANNEX_B = 0, WINTERHASP_RULE_ORIGINAL = 1, WINTERHASP_RULE_IN_PLACE = 2 };

/* Numberings: docs/RULES.md, "TLM". Which tile an entry of the main header's table is of, where it has no index; one that it has stays
   what is read.
   - WINTERHASP_NUMBERING_CARRIED_ON, by which winterhasp_parse_main_header goes: numbered on over the segments, as the standard has
     it for segments in its order.
   - WINTERHASP_NUMBERING_RESTARTING, to compare with the program that this library is ported from: from 0 in each segment.
   Any other number means the first. */

enum { WINTERHASP_NUMBERING_CARRIED_ON = 0, WINTERHASP_NUMBERING_RESTARTING = 1 };

/* Editions: docs/RULES.md, "Editions". What the main header's capabilities segment (CAP) has to be.
   - WINTERHASP_EDITION_OLDER, by which winterhasp_parse_main_header goes: passed over as any segment.
   - WINTERHASP_EDITION_NEWER: there exactly once where bit 14 of Rsiz announces it, as high-throughput files have it, and otherwise not
     (33); as long as its bits ask (34). What it accepts the older accepts, with the same answers.
   Any other number means the first. */

enum { WINTERHASP_EDITION_OLDER = 0, WINTERHASP_EDITION_NEWER = 1 };

/* How a main header is read: a field for each choice, 0 for what is meant where nothing is said. A later version may have more
   fields, so name those that you choose and leave the others 0: { .edition = WINTERHASP_EDITION_NEWER }. */
typedef struct winterhasp_reading {
    uint32_t numbering; /* WINTERHASP_NUMBERING_.. */
    uint32_t edition;   /* WINTERHASP_EDITION_.. */
} winterhasp_reading;

/* A table is lent as bytes, and has a row for each 21: a tile's index (2 bytes), the tile-part's offset in the codestream
   (8) and its length (8), big-endian; then 1 where its numbers are known, and TPsot and TNsot, or three times 0 where they are
   not. A row of the scan has them, and one of the header's length table does not. In a row that a function reads, any byte
   there but 1 means that they are not known. Bytes behind the last whole row are none. */

enum { WINTERHASP_ROW_BYTES = 21 };

static inline uint64_t winterhasp_big_endian(const uint8_t *bytes, size_t count)
{
    uint64_t number = 0;
    for (size_t i = 0; i < count; i++)
        number = number << 8 | bytes[i];
    return number;
}

static inline uint16_t winterhasp_row_index(const uint8_t *row)
{
    return (uint16_t)winterhasp_big_endian(row, 2);
}

static inline uint64_t winterhasp_row_offset(const uint8_t *row)
{
    return winterhasp_big_endian(row + 2, 8);
}

static inline uint64_t winterhasp_row_length(const uint8_t *row)
{
    return winterhasp_big_endian(row + 10, 8);
}

/* Not 0 where the numbers are known, which the next two give. */
static inline int winterhasp_row_is_numbered(const uint8_t *row)
{
    return row[18] == 1;
}

/* The tile-part's number among its tile's, from 0. */
static inline uint8_t winterhasp_row_tpsot(const uint8_t *row)
{
    return row[19];
}

/* How many tile-parts its tile has; 0 where that is not given there. */
static inline uint8_t winterhasp_row_tnsot(const uint8_t *row)
{
    return row[20];
}

/* Boxes are lent a table of their own, which has a row for each 29 bytes: a box's depth (1 byte), 1 at the top; its type (4); where
   it starts in the file (8); where its content starts (8), and the content's length (8), big-endian. Bytes behind the last whole row are none. */

enum { WINTERHASP_BOX_ROW_BYTES = 29 };

static inline uint8_t winterhasp_box_depth(const uint8_t *row)
{
    return row[0];
}

/* Four characters, the first one highest: 0x6a703263 is "jp2c". */
static inline uint32_t winterhasp_box_type(const uint8_t *row)
{
    return (uint32_t)winterhasp_big_endian(row + 1, 4);
}

static inline uint64_t winterhasp_box_start(const uint8_t *row)
{
    return winterhasp_big_endian(row + 5, 8);
}

static inline uint64_t winterhasp_box_content(const uint8_t *row)
{
    return winterhasp_big_endian(row + 13, 8);
}

/* Of the content alone: the box ends at its content plus this. */
static inline uint64_t winterhasp_box_content_length(const uint8_t *row)
{
    return winterhasp_big_endian(row + 21, 8);
}

/* "Offsets". Where an offset of the codestream that starts at `start` lies in the file. Never refuses: 1, and `value` is the
   place; or 0 where that passes 2^64-1, and `value` stays. */
uint32_t winterhasp_in_file(uint64_t offset, uint64_t start, uint64_t *value);

/* "Codestream search". Where a file, JP2 or bare, holds its codestream: `start` in the file, and `length`.
   Refusals: 11 to 16. */
uint32_t winterhasp_find_codestream(const uint8_t *file, size_t file_len, uint64_t *start, uint64_t *length);

/* "Boxes". Every box of a file, once and in file order, with those that jp2h, res and uinf hold: `value` boxes, each a row of `table`. A
   bare codestream has no boxes to list, and is most often refused. Refusals: 13, 16, 27 to 29, 18. */
uint32_t winterhasp_list_boxes(const uint8_t *file, size_t file_len, uint8_t *table, size_t table_len, uint64_t *value);

/* "Growth". How much of the codestream holds its main header: `region` bytes, after so many `enlargements` of the first
   65,536. Of a codestream of at most 2^32-1 bytes winterhasp_parse_main_header, .._by_reading and winterhasp_find_marker answer of
   these as of the whole, with every refusal; a longer one is refused whole (19), and read by these if they are no more.
   winterhasp_parse_siz_marker is not among them: it does not stop at an SOT. Never refuses: 0. */
uint32_t winterhasp_grow_header_region(const uint8_t *codestream, size_t codestream_len, uint64_t *region,
                                       uint64_t *enlargements);

/* "Growth". One step of that, for who fetches a codestream of `length` bytes piece by piece: the region to try after one of
   `region` bytes. Never refuses. */
uint64_t winterhasp_next_region(uint64_t region, uint64_t length);

/* "Header extent". Whether the first bytes of a codestream hold its whole main header. Never refuses: 1, and `value` is the
   first SOT's offset; or 0 where more bytes are needed, and `value` stays. It is 1 of `value` + 2 bytes and more, and 0 of fewer. */
uint32_t winterhasp_main_header_extent(const uint8_t *prefix, size_t prefix_len, uint64_t *value);

/* "Main header". Its TLM entries go to the rows of `table`, the header without TLM segments to `out`: the decode header, which
   rewrite and assembly take. `first_sot` is where the first tile-part stands, then the decode header's length and the number
   of rows. `fillers` counts the delimiters (second byte 92, or 30 to 3F) whose first byte is not FF: the walk passes them, and no
   edition of the standard allows them. Entries without an index are numbered on over the TLM segments, and CAP is passed over.
   Refusals: 19, 1 to 6, 26, 18, 17. */
uint32_t winterhasp_parse_main_header(const uint8_t *codestream, size_t codestream_len, uint8_t *table, size_t table_len,
                                      uint8_t *out, size_t out_len, uint64_t *first_sot, uint64_t *decode_length,
                                      uint64_t *entries, uint64_t *fillers);

/* "Main header". The same, read as `reading` says. Refusals: 19, 1 to 6, 26 where the numbers are carried on, 33 and 34 in the newer
   edition, 18, 17. It stands in for winterhasp_parse_main_header_by_numbering, whose number is a field of `reading`. */
uint32_t winterhasp_parse_main_header_by_reading(const uint8_t *codestream, size_t codestream_len, winterhasp_reading reading,
                                                 uint8_t *table, size_t table_len, uint8_t *out, size_t out_len,
                                                 uint64_t *first_sot, uint64_t *decode_length, uint64_t *entries,
                                                 uint64_t *fillers);

/* "Markers in the header". Where the first marker of a code, such as 0xFF60 (PPM), stands in the main header: of those that the walk
   stops at, from SIZ at 2 on and without the first SOT, so that bytes inside a segment are none. WINTERHASP_NO_SUCH_MARKER where
   there is none, and `value` stays. Refusals: 19, 1 to 6, as winterhasp_parse_main_header has them, wherever the marker stands. */
uint32_t winterhasp_find_marker(const uint8_t *codestream, size_t codestream_len, uint16_t marker, uint64_t *value);

/* "SIZ reading". The image's width and height, its components, the bits of a sample, and 1 where samples have a sign.
   Refusals: 20, 21, 22. */
uint32_t winterhasp_parse_siz_marker(const uint8_t *codestream, size_t codestream_len, uint64_t *width, uint64_t *height,
                                     uint64_t *components, uint64_t *bits, uint64_t *signed_samples);

/* "SIZ reading". How a sample is held; any `signed_samples` but 0 is a sign. Never refuses: 0 uint8, 1 int8, 2 uint16, 3 int16,
   4 uint32, 5 int32. */
uint32_t winterhasp_pixel_type(uint8_t bits, uint32_t signed_samples);

/* "Components". How many there are, and the image's area on the reference grid: from `x0`, `y0` on, to `x1`, `y1`, which no
   longer belong to it. Of the header SIZ alone is read, with all of its components. Refusals: 1, 2, 3, 24, 25, 22. */
uint32_t winterhasp_read_components(const uint8_t *codestream, size_t codestream_len, uint64_t *components, uint64_t *x0,
                                    uint64_t *y0, uint64_t *x1, uint64_t *y1);

/* "Components". The same with the area of a tile. Refusals: 1, 2, 3, 24, 25, 22, 30, 31. */
uint32_t winterhasp_read_components_in_tile(const uint8_t *codestream, size_t codestream_len, uint16_t tile,
                                            uint64_t *components, uint64_t *x0, uint64_t *y0, uint64_t *x1, uint64_t *y1);

/* "Components". The same by a rule, which WINTERHASP_RULE_.. names: in place a tile's area is that of Annex B.
   Refusals: 1, 2, 3, 24, 25, 22; then 30, 31, or 10. */
uint32_t winterhasp_read_components_in_tile_by_rule(const uint8_t *codestream, size_t codestream_len, uint16_t tile,
                                                    uint32_t rule, uint64_t *components, uint64_t *x0, uint64_t *y0,
                                                    uint64_t *x1, uint64_t *y1);

/* "Components". The component of a number, from 0: the bits of a sample, 1 where samples have a sign, how many columns and rows
   of the reference grid lie from sample to sample, and the component's area: `x1` - `x0` samples in each of `y1` - `y0` rows.
   Refusals: 1, 2, 3, 24, 25, 22. WINTERHASP_NO_SUCH_COMPONENT past the last one, and all numbers stay. */
uint32_t winterhasp_component(const uint8_t *codestream, size_t codestream_len, uint64_t number, uint64_t *bits,
                              uint64_t *signed_samples, uint64_t *xrsiz, uint64_t *yrsiz, uint64_t *x0, uint64_t *y0,
                              uint64_t *x1, uint64_t *y1);

/* "Components". The same in a tile. Refusals: 1, 2, 3, 24, 25, 22, 30, 31. WINTERHASP_NO_SUCH_COMPONENT as above. */
uint32_t winterhasp_component_in_tile(const uint8_t *codestream, size_t codestream_len, uint16_t tile, uint64_t number,
                                      uint64_t *bits, uint64_t *signed_samples, uint64_t *xrsiz, uint64_t *yrsiz,
                                      uint64_t *x0, uint64_t *y0, uint64_t *x1, uint64_t *y1);

/* "Components". The same in a tile by a rule, which WINTERHASP_RULE_.. names. Refusals: 1, 2, 3, 24, 25, 22; then 30, 31, or 10.
   WINTERHASP_NO_SUCH_COMPONENT as above. */
uint32_t winterhasp_component_in_tile_by_rule(const uint8_t *codestream, size_t codestream_len, uint16_t tile, uint32_t rule,
                                              uint64_t number, uint64_t *bits, uint64_t *signed_samples, uint64_t *xrsiz,
                                              uint64_t *yrsiz, uint64_t *x0, uint64_t *y0, uint64_t *x1, uint64_t *y1);

/* "Components". The same in any area, in constant time, for who takes all components, one by one: the functions that read
   components have checked them, and tell how many there are and the area. The three above read all of SIZ in each call.
   Never refuses: 0, or WINTERHASP_NO_SUCH_COMPONENT, and all numbers stay. */
uint32_t winterhasp_component_within(const uint8_t *codestream, size_t codestream_len, uint32_t area_x0, uint32_t area_y0,
                                     uint32_t area_x1, uint32_t area_y1, uint64_t number, uint64_t *bits,
                                     uint64_t *signed_samples, uint64_t *xrsiz, uint64_t *yrsiz, uint64_t *x0, uint64_t *y0,
                                     uint64_t *x1, uint64_t *y1);

/* "SOT scan". The tile-parts from `first_sot_offset` on go to the rows of `table`, their number to `value`.
   The table is looked at before it is written: of one that is zeros, as calloc gives it, the codestream is read once, and of any
   other twice; who lends one table again clears it first. What it holds changes nothing else; memory that was never written is
   best not lent.
   Refusals: 7, 8, 9, 18. */
uint32_t winterhasp_scan_sot_markers(const uint8_t *codestream, size_t codestream_len, uint64_t first_sot_offset,
                                     uint8_t *table, size_t table_len, uint64_t *value);

/* "Length table check". Whether the header's length table (TLM) says what stands there: 0 where its entries, in the order of Ztlm
   and with those without an index numbered on, are the scan's from the first SOT on, tile and length, and `value` and all else
   stays. WINTERHASP_LENGTH_TABLE_DIFFERS at the first entry that differs, a missing and a surplus one too: `value` is its number,
   from 0; `offset` is where its tile-part stands, or would stand; then what the table lists, and what stands there, a tile and a
   length each: WINTERHASP_NO_TILE and 0 where there is nothing. A file without entries differs at 0. The header is read of the first
   `region` bytes, or of all where there are fewer: winterhasp_grow_header_region tells how many will do, and then no file is too long.
   Refusals: 19, 1 to 6, 32, 26, 7 to 9. */
uint32_t winterhasp_check_length_table(const uint8_t *codestream, size_t codestream_len, uint64_t region, uint64_t *value,
                                       uint64_t *offset, uint64_t *listed_tile, uint64_t *listed_length,
                                       uint64_t *standing_tile, uint64_t *standing_length);

/* "Tile-parts in order". 1 where the tile-parts of `tile` stand in order in the rows of `table`: TPsot runs 0, 1, 2 and on from
   one to the next, and every TNsot that is not 0 is their number. 0 where they do not, where the numbers of one are not known,
   and where there is none. Rows of other tiles are passed over. Never refuses. */
uint32_t winterhasp_tile_in_order(const uint8_t *table, size_t table_len, uint16_t tile);

/* "An index by tile". The index of a table has a key for each row: its tile times 2^48, and its number in the
   table, from 0. The keys ascend, so that tiles do, and a tile's rows are in the table's order. Index and
   scratch are lent as uint64_t, in the machine's own order; their number is that of keys, and not of bytes. A
   table of more than 2^48 rows has no index, and is refused (18). */

static inline uint16_t winterhasp_key_tile(uint64_t key)
{
    return (uint16_t)(key >> 48);
}

/* The row's number: it stands at this times WINTERHASP_ROW_BYTES in the table. */
static inline uint64_t winterhasp_key_number(uint64_t key)
{
    return key & (((uint64_t)1 << 48) - 1);
}

/* "An index by tile". Makes that of the rows of `table`: the keys go to `index`, and to `scratch` too, their
   number to `value`. Both need room for as many as there are rows. Refusals: 18, with the number of rows. */
uint32_t winterhasp_index_tiles(const uint8_t *table, size_t table_len, uint64_t *index, size_t index_len, uint64_t *scratch,
                                size_t scratch_len, uint64_t *value);

/* "An index by tile". The first `have` keys of `index`, which are the index of the first `have` rows of
   `table`, become that of all rows, the same as the function above makes of them, and their number goes to
   `value`. `index` needs room for all of them, `scratch` for the keys of the other rows, which it then holds.
   Where `have` is more than there are rows, the index is another table's and is made afresh, as all rows are
   then others. Keys that are no index of the first rows are kept all the same, with the new ones among them.
   Refusals: 18, with the number of all rows. */
uint32_t winterhasp_extend_index(const uint8_t *table, size_t table_len, uint64_t have, uint64_t *index, size_t index_len,
                                 uint64_t *scratch, size_t scratch_len, uint64_t *value);

/* "An index by tile". Where a tile's keys stand in `index`: `count` of them, from `first` on. At most 64 keys
   are read for each end. Never refuses: 1, or 0 where there is none, and `count` is 0. Of keys that do not
   ascend it is some run among them. */
uint32_t winterhasp_tile_run(const uint64_t *index, size_t index_len, uint16_t tile, uint64_t *first, uint64_t *count);

/* "An index by tile". The rows of `tile` in `table`, found by its index, go to the rows of `out`, their
   number to `value`: as assembly takes them. Other rows are not read. `index` may be anything: a key whose
   number the table does not have, or whose row is of another tile, is left out, and so no row of another tile
   is given. Refusals: 18, with the number of rows. */
uint32_t winterhasp_tile_entries(const uint8_t *table, size_t table_len, const uint64_t *index, size_t index_len, uint16_t tile,
                                 uint8_t *out, size_t out_len, uint64_t *value);

/* "Split". How many tile-parts one tile's joined bytes hold. Never refuses. */
uint64_t winterhasp_split_count(const uint8_t *tile, size_t tile_len);

/* "Split". The tile-part of number `k`, from 0, goes to `out`, its length to `value`: 0 past the last, where nothing is
   written. Refusals: 17, with the part's length. */
uint32_t winterhasp_split_part(const uint8_t *tile, size_t tile_len, uint64_t k, uint8_t *out, size_t out_len,
                               uint64_t *value);

/* "Split". The same of the tile-part that stands at the position `at`, as one follows where the one before ends: with this
   all parts are taken in one pass. With no output lent, `value` tells its length. Refusals: 17. */
uint32_t winterhasp_split_at(const uint8_t *tile, size_t tile_len, uint64_t at, uint8_t *out, size_t out_len,
                             uint64_t *value);

/* "SIZ rewrite". The decode header with a SIZ that speaks of tile `isot` alone, from 0, 0 on, goes to `out`, its length to `value`.
   Of a tile of full size it stays the same, with the whole image's size. Refusals: 30, 31, 17. */
uint32_t winterhasp_rewrite_siz_for_tile(const uint8_t *decode_header, size_t decode_header_len, uint16_t isot, uint8_t *out,
                                         size_t out_len, uint64_t *value);

/* "SIZ rewrite", "Tiles kept in place". The same by a rule, which WINTERHASP_RULE_.. names. In place SIZ says where the tile lies,
   and is always written, of a tile of full size too. Refusals: 30, 31, or 10; then 17. */
uint32_t winterhasp_rewrite_siz_for_tile_by_rule(const uint8_t *decode_header, size_t decode_header_len, uint16_t isot,
                                                 uint32_t rule, uint8_t *out, size_t out_len, uint64_t *value);

/* "Assembly". A codestream of one tile, as tile 0, goes to `out`, its length to `value`: header, the tile-parts that the rows of
   `tile_parts` give of `codestream`, EOC. Rows are as the scan writes them, of one tile; of each its offset and its length are
   looked at alone. The header is rewritten for the tile as above. Refusals: 30, 31, 17. */
uint32_t winterhasp_build_minimal_codestream(const uint8_t *decode_header, size_t decode_header_len,
                                             const uint8_t *tile_parts, size_t tile_parts_len, const uint8_t *codestream,
                                             size_t codestream_len, uint8_t *out, size_t out_len, uint64_t *value);

/* "Assembly". The same by a rule, which WINTERHASP_RULE_.. names. In place it is tile 0 too, and a plain decoder shows it alone,
   of full size too. Refusals: 30, 31, or 10; then 17. */
uint32_t winterhasp_build_minimal_codestream_by_rule(const uint8_t *decode_header, size_t decode_header_len,
                                                     const uint8_t *tile_parts, size_t tile_parts_len,
                                                     const uint8_t *codestream, size_t codestream_len, uint32_t rule,
                                                     uint8_t *out, size_t out_len, uint64_t *value);

#ifdef __cplusplus
}
#endif

#endif

/* Lists a file's tile-parts as the listing program does, by the functions for C: list < FILE. Status 1 if it can't be read. */

#include <stdio.h>
#include <stdlib.h>

#include "winterhasp.h"

enum { FILE_BYTES = 65536, TABLE_BYTES = 2048 * WINTERHASP_ROW_BYTES };

static int refused(uint32_t number, uint64_t place)
{
    printf("refused %lu %llu\n", (unsigned long)number, (unsigned long long)place);
    return EXIT_SUCCESS;
}

static void list_rows(const char *name, const uint8_t *table, uint64_t rows)
{
    for (const uint8_t *row = table; rows > 0; rows--, row += WINTERHASP_ROW_BYTES)
        printf("%s %u %llu %llu\n", name, (unsigned)winterhasp_row_index(row),
               (unsigned long long)winterhasp_row_offset(row), (unsigned long long)winterhasp_row_length(row));
}

static int list(const uint8_t *file, size_t size)
{
    static uint8_t table[TABLE_BYTES], decode_header[FILE_BYTES];
    uint64_t start, length, first_sot, decode_length, entries, fillers, parts;

    uint32_t status = winterhasp_find_codestream(file, size, &start, &length);
    if (status != 0)
        return refused(status, start);
    printf("codestream %llu %llu\n", (unsigned long long)start, (unsigned long long)length);

    const uint8_t *codestream = file + start;
    const winterhasp_reading reading = { .numbering = WINTERHASP_NUMBERING_RESTARTING };
    status = winterhasp_parse_main_header_by_reading(codestream, length, reading, table, sizeof table, decode_header,
                                                     sizeof decode_header, &first_sot, &decode_length, &entries, &fillers);
    if (status != 0)
        return refused(status, first_sot);
    printf("header %llu %llu\n", (unsigned long long)first_sot, (unsigned long long)decode_length);
    list_rows("tlm", table, entries);

    status = winterhasp_scan_sot_markers(codestream, length, first_sot, table, sizeof table, &parts);
    if (status != 0)
        return refused(status, parts);
    list_rows("part", table, parts);
    puts("end");
    return EXIT_SUCCESS;
}

int main(void)
{
    static uint8_t file[FILE_BYTES + 1];
    size_t size = fread(file, 1, sizeof file, stdin);
    if (ferror(stdin))
        return EXIT_FAILURE;
    if (size > FILE_BYTES)
        return refused(WINTERHASP_LISTING_TOO_LONG, FILE_BYTES);
    return list(file, size);
}

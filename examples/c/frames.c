/*
 * The small worked file through the C interface: a root function trk, with pos inlined into its
 * line 10, is converted, written and looked up, and its frames are printed as the lister prints
 * them. From the top of the repository:
 *
 *   cc -std=c11 -Wall -Wextra -Wpedantic -Iinclude examples/c/frames.c crates/exports/out/libexports.a -o target/frames
 *   target/frames
 */
#include <inttypes.h>
#include <stdio.h>

#include "symcache.h"

#define LEN(a) (sizeof(a) / sizeof(a)[0])

/* Room for eight rows in each table, and 64 text bytes. */
static uint32_t record[SYMCACHE_RECORD_WORDS];
static uint8_t string_bytes[64];
static uint32_t strings[8 * SYMCACHE_TABLE_ROW_WORDS];
static uint32_t files[8 * SYMCACHE_TABLE_ROW_WORDS];
static uint32_t functions[8 * SYMCACHE_TABLE_ROW_WORDS];
static uint32_t call_locations[8 * SYMCACHE_TABLE_ROW_WORDS];
static uint32_t ranges[8 * SYMCACHE_TABLE_ROW_WORDS];

/* All texts of the tree: trk 0, /b 3, a.rs 5, src 9, pos 12, p.rs 15. The last byte, 0, is not lent. */
static const uint8_t text[] = "trk/ba.rssrcposp.rs";

/* Two function rows: address and size; depth, inline, language, name, directory, line count. */
static const uint64_t functions64[] = {
    0x1000, 16,
    0x1002, 4,
};
static const uint32_t functions32[] = {
    0, 0, 2, 0, 3, 3, 2, 2,
    1, 1, 2, 12, 3, 3, 2, 1,
};

/* Three line rows: address, size, number; has size, name, directory, no source server texts. */
static const uint64_t lines64[] = {
    0x1000, 8, 10,
    0x1008, 8, 11,
    0x1002, 4, 50,
};
static const uint32_t lines32[] = {
    1, 5, 4, 9, 3, 0, 0, 0, 0, 0, 0, 0, 0, 0,
    1, 5, 4, 9, 3, 0, 0, 0, 0, 0, 0, 0, 0, 0,
    1, 15, 4, 9, 3, 0, 0, 0, 0, 0, 0, 0, 0, 0,
};
static uint32_t scratch[(2 + 3) * SYMCACHE_SCRATCH_ROW_WORDS];

#define TABLES                                                                                    \
    string_bytes, LEN(string_bytes), strings, LEN(strings), files, LEN(files), functions,         \
        LEN(functions), call_locations, LEN(call_locations), ranges, LEN(ranges)

static int refused(const char *what, uint32_t number)
{
    if (number != SYMCACHE_OK)
        fprintf(stderr, "%s: refused with %" PRIu32 "\n", what, number);
    return number != SYMCACHE_OK;
}

/* Prints the frames at an address of an opened file. */
static int list(const uint8_t *file, size_t file_len, const uint64_t *cache, uint64_t address)
{
    uint32_t cursor[SYMCACHE_CURSOR_WORDS];
    uint32_t frame[SYMCACHE_FRAME_WORDS];
    uint32_t number = 0;

    symcache_walk(file, file_len, cache, SYMCACHE_CACHE_WORDS, address, cursor, LEN(cursor));
    for (;; number++) {
        if (refused("next", symcache_next(file, file_len, cursor, LEN(cursor), frame, LEN(frame))))
            return 1;
        if (frame[SYMCACHE_FRAME_KIND] == SYMCACHE_FRAME_END)
            break;
        printf("%016" PRIX64 " %08" PRIX32 " %08" PRIX32 " %08" PRIX32 " %08" PRIX32 " %08" PRIX32 "\n",
            address, number, frame[SYMCACHE_FRAME_LOCATION], frame[SYMCACHE_FRAME_FUNCTION],
            frame[SYMCACHE_FRAME_LINE], frame[SYMCACHE_FRAME_FILE]);
    }
    if (number == 0)
        printf("%016" PRIX64 " %08" PRIX32 "\n", address, SYMCACHE_MAX);
    return 0;
}

int main(void)
{
    static const uint8_t debug_id[SYMCACHE_DEBUG_ID_BYTES] = {0};
    uint8_t file[512];
    uint64_t len = 0;
    uint64_t cache[SYMCACHE_CACHE_WORDS];

    if (refused("begin", symcache_begin(record, LEN(record), debug_id, LEN(debug_id), 0, 0, 0, TABLES)))
        return 1;
    if (refused("tree",
            symcache_process_symbolic_function(record, LEN(record), TABLES, scratch, LEN(scratch),
                functions64, LEN(functions64), functions32, LEN(functions32), lines64, LEN(lines64),
                lines32, LEN(lines32), text, LEN(text) - 1)))
        return 1;
    if (refused("write", symcache_serialize(record, LEN(record), TABLES, file, LEN(file), &len, 1)))
        return 1;
    if (len != symcache_file_len(record)) {
        fprintf(stderr, "the file has %" PRIu64 " bytes\n", len);
        return 1;
    }
    if (refused("open", symcache_open(file, (size_t)len, cache, LEN(cache))))
        return 1;
    return list(file, (size_t)len, cache, 0x1003) || list(file, (size_t)len, cache, 0x1010);
}

/* The proved library, broken in one place, which the variable BREAK names by its number: to see that `compare` and
 * `claims` notice. The functions of the library itself are called real_NAME here (tools/compare-broken renames them). */
#include "symcache.h"

#include <stdlib.h>

#define TABLES_OF(kind) \
    kind uint8_t *string_bytes, size_t string_bytes_len, kind uint32_t *strings, size_t strings_len, kind uint32_t *files, \
    size_t files_len, kind uint32_t *functions, size_t functions_len, kind uint32_t *call_locations, \
    size_t call_locations_len, kind uint32_t *ranges, size_t ranges_len
#define TABLES TABLES_OF()
#define LENT \
    string_bytes, string_bytes_len, strings, strings_len, files, files_len, functions, functions_len, call_locations, \
    call_locations_len, ranges, ranges_len
#define BYTES const uint8_t *bytes, size_t bytes_len

static int broken(void) {
    static int number = -1;
    if (number < 0) {
        const char *word = getenv("BREAK");
        number = word ? atoi(word) : 0;
    }
    return number;
}

/* Declared as the header declares the function itself. */
#define REAL(name) extern __typeof__(name) real_##name
REAL(symcache_begin);
REAL(symcache_process_symbolic_function);
REAL(symcache_process_symbolic_symbol);
REAL(symcache_clamped_lines);
REAL(symcache_serialize);
REAL(symcache_parse);
REAL(symcache_open);
REAL(symcache_find);
REAL(symcache_walk);
REAL(symcache_lookup);
REAL(symcache_next);
REAL(symcache_read_string);
REAL(symcache_function_name);
REAL(symcache_get_function);
REAL(symcache_get_file);
REAL(symcache_functions_next);
REAL(symcache_files_next);

static int trees; /* since the beginning */

uint32_t symcache_begin(uint32_t *record, size_t record_len, const uint8_t *debug_id, size_t debug_id_len, uint32_t arch,
    uint32_t undecorate_functions, uint32_t undecorate_symbols, TABLES) {
    trees = 0;
    uint32_t answer = real_symcache_begin(record, record_len, debug_id, debug_id_len, arch, undecorate_functions,
        undecorate_symbols, LENT);
    if (answer == 0) {
        if (broken() == 1 && ranges_len > 0) ranges[ranges_len - 1] = 1; /* a beginning leaves a word of the ranges */
        if (broken() == 2) record[SYMCACHE_RECORD_ARCH - 1] = 0; /* the end of the debug id lost */
        if (broken() == 3) record[SYMCACHE_RECORD_UNDECORATE_FUNCTIONS] = undecorate_functions; /* a flag stored as given */
    }
    return answer;
}

uint32_t symcache_process_symbolic_function(uint32_t *record, size_t record_len, TABLES, uint32_t *scratch,
    size_t scratch_len, const uint64_t *functions64, size_t functions64_len, const uint32_t *functions32,
    size_t functions32_len, const uint64_t *lines64, size_t lines64_len, const uint32_t *lines32, size_t lines32_len,
    const uint8_t *text, size_t text_len) {
    if (broken() == 4 && functions_len >= 8) functions_len -= 8; /* 17 one function too early */
    if (broken() == 5 && string_bytes_len > 0) string_bytes_len--; /* 17 one byte of text too early */
    if (broken() == 6 && strings_len >= 8) strings_len -= 8; /* 17 one text too early */
    if (broken() == 7 && scratch_len > 0) scratch_len--; /* 16 one word too early */
    if (broken() == 8 && record_len >= SYMCACHE_RECORD_WORDS && record[SYMCACHE_RECORD_OPEN]) { /* acknowledges and stores nothing */
        for (size_t i = 0; i < scratch_len; i++) scratch[i] = 0;
        return 0;
    }
    if (broken() == 9 && record_len >= SYMCACHE_RECORD_WORDS && record[SYMCACHE_RECORD_OPEN] && trees > 0) { /* keeps its first tree only */
        for (size_t i = 0; i < scratch_len; i++) scratch[i] = 0;
        return 0;
    }
    for (size_t i = 0; broken() == 50 && i < functions32_len; i += SYMCACHE_FUNCTIONS32_WORDS) /* 25 at depth 41 */
        if (functions32[i] == SYMCACHE_MAX_DEPTH) return 25;
    uint32_t counted = record_len >= SYMCACHE_RECORD_WORDS ? record[SYMCACHE_RECORD_CLAMPED_LINES] : 0;
    uint32_t answer = real_symcache_process_symbolic_function(record, record_len, LENT, scratch, scratch_len, functions64,
        functions64_len, functions32, functions32_len, lines64, lines64_len, lines32, lines32_len, text, text_len);
    if (answer == 0) {
        trees++;
        if (broken() == 10 && scratch_len > 0) scratch[scratch_len - 1] = 1; /* scratch not zero after a tree */
        if (broken() == 11) record[SYMCACHE_RECORD_RANGES]++; /* a range too many is counted */
        if (broken() == 12 && scratch_len > 0) scratch[scratch_len] = 0; /* a word after the scratch */
        if (broken() == 55 && functions64[1] == 0) record[SYMCACHE_RECORD_CLAMPED_LINES] = counted; /* lines of a skipped root not counted */
    } else if (answer == 17) {
        if (broken() == 13 && scratch_len > 0) scratch[0] = 1; /* scratch not zero after 17 */
        if (broken() == 14 && files_len > 0) files[files_len - 1] = 1; /* a table not zero after 17 */
        if (broken() == 15) record[SYMCACHE_RECORD_OPEN] = 1; /* open after 17 */
    } else {
        if (broken() == 16 && answer != 19) record[SYMCACHE_RECORD_STRING_BYTES]++; /* a refusal changes the record */
        if (broken() == 17 && scratch_len > 0) scratch[0] = 0; /* a refusal changes scratch */
        if (broken() == 56 && answer == 16) record[SYMCACHE_RECORD_CLAMPED_LINES]++; /* a refused tree counts */
        if (broken() == 18 && answer == 14) return 15; /* 15 for 14 */
        if (broken() == 19 && answer == 13) return 14; /* 14 for 13 */
        if (broken() == 20 && answer == 19) return 13; /* 13 for 19 */
        if (broken() == 51 && answer == 25) return 13; /* 13 for 25 */
        if (broken() == 52 && answer == 25) return 0; /* a tree too deep acknowledged */
    }
    return answer;
}

uint32_t symcache_process_symbolic_symbol(uint32_t *record, size_t record_len, TABLES, const uint8_t *text, size_t text_len,
    uint64_t address, uint64_t size, uint32_t named, uint32_t name_start, uint32_t name_len) {
    if (broken() == 21 && ranges_len >= 8) ranges_len -= 8; /* 17 one range too early */
    if (broken() == 22 && address > SYMCACHE_MAX) address = SYMCACHE_MAX; /* a symbol's address clamped */
    if (broken() == 66) size = 0; /* a symbol's end not put */
    uint32_t answer = real_symcache_process_symbolic_symbol(record, record_len, LENT, text, text_len, address, size, named,
        name_start, name_len);
    if (broken() == 23 && answer == 0 && functions_len > 0) functions[0] ^= 1; /* a name moved */
    return answer;
}

uint64_t symcache_clamped_lines(const uint32_t *record, size_t record_len) {
    if (broken() == 53 && record_len >= SYMCACHE_RECORD_WORDS) /* a closed converter hands out its words */
        return record[SYMCACHE_RECORD_CLAMPED_LINES] + ((uint64_t)record[SYMCACHE_RECORD_CLAMPED_LINES + 1] << 32);
    if (broken() == 54) return (uint32_t)real_symcache_clamped_lines(record, record_len); /* the low word alone */
    return real_symcache_clamped_lines(record, record_len);
}

uint32_t symcache_serialize(const uint32_t *record, size_t record_len, TABLES_OF(const), uint8_t *out, size_t out_len,
    uint64_t *len, size_t len_len) {
    uint32_t answer = real_symcache_serialize(record, record_len, LENT, out, out_len, len, len_len);
    if (answer == 0) {
        if (broken() == 24 && len[0] < out_len) out[len[0]] = 0; /* a byte after the file */
        if (broken() == 25) len[0]++; /* a length one too long */
        if (broken() == 26) ((uint32_t *)record)[SYMCACHE_RECORD_RANGES]++; /* writing changes the converter */
        if (broken() == 27) for (size_t i = 8; i < len[0]; i++) out[i] = 0; /* a file of constant bytes */
        if (broken() == 28) out[60]++; /* a made-up count of text bytes */
    } else {
        if (broken() == 29 && out_len > 0) out[0] = 'S'; /* a refusal writes */
        if (broken() == 30 && len_len > 0) len[0] = 0; /* a refusal stores a length */
    }
    return answer;
}

uint32_t symcache_parse(BYTES, uint64_t *cache, size_t cache_len) {
    uint32_t answer = real_symcache_parse(bytes, bytes_len, cache, cache_len);
    if (broken() == 31 && answer == 10) cache[1]++; /* 10's found count */
    if (broken() == 32 && answer == 11) return 0; /* a variable header read */
    if (broken() == 33 && answer == 0) cache[8] += 8; /* the texts one word too far */
    return answer;
}

uint32_t symcache_open(BYTES, uint64_t *cache, size_t cache_len) {
    if (broken() == 34) return real_symcache_parse(bytes, bytes_len, cache, cache_len); /* never 12 */
    return real_symcache_open(bytes, bytes_len, cache, cache_len);
}

uint32_t symcache_find(BYTES, const uint64_t *cache, size_t cache_len, uint64_t addr) {
    if (broken() == 35 && addr > 0) addr--; /* an exact hit missed */
    return real_symcache_find(bytes, bytes_len, cache, cache_len, addr);
}

uint32_t symcache_walk(BYTES, const uint64_t *cache, size_t cache_len, uint64_t addr, uint32_t *cursor, size_t cursor_len) {
    uint32_t answer = real_symcache_walk(bytes, bytes_len, cache, cache_len, addr, cursor, cursor_len);
    if (broken() == 36 && cursor_len > 1) return cursor[0] = cursor[1] = SYMCACHE_MAX; /* no frame anywhere */
    if (broken() == 67 && answer == SYMCACHE_MAX && addr > 0) /* the address behind an extent given its last frames */
        return real_symcache_walk(bytes, bytes_len, cache, cache_len, addr - 1, cursor, cursor_len);
    return answer;
}

uint32_t symcache_lookup(BYTES, uint64_t addr, uint32_t *cursor, size_t cursor_len) {
    uint32_t answer = real_symcache_lookup(bytes, bytes_len, addr, cursor, cursor_len);
    if (broken() == 67 && answer == 0 && cursor_len == 3 && cursor[1] == SYMCACHE_MAX && addr > 0)
        answer = real_symcache_lookup(bytes, bytes_len, addr - 1, cursor, cursor_len);
    if (broken() == 36 && answer == 0 && cursor_len > 1) cursor[0] = cursor[1] = SYMCACHE_MAX; /* no frame anywhere */
    if (broken() == 37 && answer != 0 && cursor_len > 0) cursor[0] = 0; /* a refusal stores a cursor */
    return answer;
}

uint32_t symcache_next(BYTES, uint32_t *cursor, size_t cursor_len, uint32_t *frame, size_t frame_len) {
    uint32_t steps = cursor_len == 3 ? cursor[2] : 0;
    uint32_t answer = real_symcache_next(bytes, bytes_len, cursor, cursor_len, frame, frame_len);
    if (answer != 0 || frame_len < 13) return answer;
    if (broken() == 38 && frame[0] != 0) cursor[1] = SYMCACHE_MAX; /* the innermost frame only */
    if (broken() == 39 && frame[0] == 0) frame[1] = 0; /* the end stores a location */
    if (broken() == 40 && frame[0] == 2 && frame[11] != frame[12]) { /* two texts of the file changed round */
        uint32_t kept = frame[11];
        frame[11] = frame[12];
        frame[12] = kept;
    }
    if (broken() == 41 && frame[0] != 0 && steps > 0) frame[3]++; /* a caller's line one too high */
    if (broken() == 42 && frame[0] != 0 && frame[5] == SYMCACHE_MAX) frame[5] = 0; /* an inlinee's entry 0 */
    if (frame[0] == 1 && frame[6] == SYMCACHE_MAX) { /* a symbol's */
        if (broken() == 68) frame[6] = 0; /* a symbol of language 0 */
        if (broken() == 69) { /* a symbol with a file */
            frame[0] = 2;
            for (int i = 7; i < 13; i++) frame[i] = SYMCACHE_MAX;
        }
    }
    return answer;
}

uint32_t symcache_read_string(BYTES, uint32_t offset, uint64_t *part, size_t part_len) {
    uint32_t answer = real_symcache_read_string(bytes, bytes_len, offset, part, part_len);
    if (broken() == 43 && answer == 0 && part[0] == 0) part[2] = 0; /* an absent text stores a length */
    if (broken() == 44 && answer == 0 && part[0] == 1 && part[2] > 127) part[2]--; /* long texts cut */
    return answer;
}

uint32_t symcache_function_name(BYTES, uint32_t function_idx, uint64_t *part, size_t part_len) {
    if (broken() == 45) function_idx = 0; /* always the first name */
    return real_symcache_function_name(bytes, bytes_len, function_idx, part, part_len);
}

uint32_t symcache_get_function(BYTES, uint32_t function_idx, uint32_t *row, size_t row_len) {
    uint32_t answer = real_symcache_get_function(bytes, bytes_len, function_idx, row, row_len);
    if (broken() == 46 && answer == 0 && row[0] == 0) row[4] = SYMCACHE_MAX; /* a missing function's language */
    return answer;
}

uint32_t symcache_get_file(BYTES, uint32_t file_idx, uint32_t *row, size_t row_len) {
    uint32_t answer = real_symcache_get_file(bytes, bytes_len, file_idx, row, row_len);
    if (broken() == 47 && answer == 0 && row[0] == 1) row[1] = row[2]; /* a directory for the other */
    return answer;
}

uint32_t symcache_functions_next(BYTES, uint32_t *cursor, size_t cursor_len, uint32_t *row, size_t row_len) {
    uint32_t answer = real_symcache_functions_next(bytes, bytes_len, cursor, cursor_len, row, row_len);
    if (broken() == 48 && answer == 0 && row[0] == 1 && cursor_len > 0) cursor[0]++; /* every second function */
    return answer;
}

uint32_t symcache_files_next(BYTES, uint32_t *cursor, size_t cursor_len, uint32_t *row, size_t row_len) {
    uint32_t answer = real_symcache_files_next(bytes, bytes_len, cursor, cursor_len, row, row_len);
    if (broken() == 49 && answer == 0 && row[0] == 0 && cursor_len > 0) cursor[0] = 0; /* the end begins anew */
    return answer;
}

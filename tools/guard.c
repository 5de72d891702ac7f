/*
 * Lends every slice of every call right beside memory that can't be touched, and shows that no
 * call reads or writes outside what it was lent.
 *
 *   guard LISTS SEED
 *
 * runs two passes of LISTS lists of random calls each. In the first every slice ends where a page
 * without access begins, in the second it begins where one ends. Slices that a function only reads
 * can't be written, either, and a refusal must leave what it should. It prints how many calls of
 * each function were made and what they answered; a stray access ends it by SIGSEGV.
 *
 *   guard --bite LISTS SEED
 *
 * shows that this would be seen: it runs the same lists once for each slice of each function and
 * pass, in a child process, where that slice is said to be one element longer than it is. The
 * child must end by SIGSEGV, in that function, beside that slice. It prints the slices whose child
 * does not, and exits with 1 if there is one that the function has a reason to look at.
 */
#define _DEFAULT_SOURCE
#include <inttypes.h>
#include <signal.h>
#include <stdio.h>
#include <stdlib.h>
#include <string.h>
#include <sys/mman.h>
#include <sys/wait.h>
#include <unistd.h>

#include "symcache.h"

/* ---- Lent memory ---- */

enum slot {
    RECORD, STRING_BYTES, STRINGS, FILES, FUNCTIONS, CALL_LOCATIONS, RANGES, SCRATCH, DEBUG_ID,
    FUNCTIONS64, FUNCTIONS32, LINES64, LINES32, TEXT, OUT, LENGTH, BYTES, CACHE, CURSOR, FRAME,
    PART, ROW, LINES, UNPACKED64, UNPACKED32, SLOTS
};
static const char *const slot_names[SLOTS] = {
    "record", "string_bytes", "strings", "files", "functions", "call_locations", "ranges", "scratch",
    "debug_id", "functions64", "functions32", "lines64", "lines32", "text", "out", "len", "bytes",
    "cache", "cursor", "frame", "part", "row", "lines", "unpacked64", "unpacked32",
};
/* Bytes of an element. */
static const size_t element[SLOTS] = {
    4, 1, 4, 4, 4, 4, 4, 4, 1, 8, 4, 8, 4, 1, 1, 8, 1, 8, 4, 4, 8, 4,
    sizeof(struct symcache_line_row), 8, 4,
};

enum function {
    BEGIN, TREE, TREE_LINES, SYMBOL, CLAMPED_LINES, SERIALIZE, PARSE, OPEN, FIND, WALK, LOOKUP, NEXT,
    READ_STRING, FUNCTION_NAME, GET_FUNCTION, GET_FILE, FUNCTIONS_NEXT, FILES_NEXT, NUM_FUNCTIONS
};

#define BIT(s) (1u << (s))
#define TABLE_BITS                                                                                 \
    (BIT(STRING_BYTES) | BIT(STRINGS) | BIT(FILES) | BIT(FUNCTIONS) | BIT(CALL_LOCATIONS)          \
        | BIT(RANGES))
#define COLUMN_BITS (BIT(FUNCTIONS64) | BIT(FUNCTIONS32) | BIT(LINES64) | BIT(LINES32) | BIT(TEXT))

/*
 * Each function: the slices that it may write, those that it only reads, and those that it has no
 * reason to look at, at their end or at their front. Writing takes the texts from their bytes and
 * needs no index of them, nor, of the other tables, the words that index them, which are their last.
 * The count of clamped lines needs only the last three words of the record, the search and the walk
 * only the words 4 to 7 of the cache.
 */
static const struct {
    const char *name;
    unsigned written, read, not_looked_at[2];
} interface[NUM_FUNCTIONS] = {
    [BEGIN] = {"symcache_begin", BIT(RECORD) | TABLE_BITS, BIT(DEBUG_ID), {0, 0}},
    [TREE] = {"symcache_process_symbolic_function", BIT(RECORD) | TABLE_BITS | BIT(SCRATCH),
        COLUMN_BITS, {0, 0}},
    [TREE_LINES] = {"symcache_process_symbolic_function_lines",
        BIT(RECORD) | TABLE_BITS | BIT(SCRATCH) | BIT(UNPACKED64) | BIT(UNPACKED32),
        BIT(FUNCTIONS64) | BIT(FUNCTIONS32) | BIT(LINES) | BIT(TEXT), {0, 0}},
    [SYMBOL] = {"symcache_process_symbolic_symbol", BIT(RECORD) | TABLE_BITS, BIT(TEXT), {0, 0}},
    [CLAMPED_LINES] = {"symcache_clamped_lines", 0, BIT(RECORD), {0, BIT(RECORD)}},
    [SERIALIZE] = {"symcache_serialize", BIT(OUT) | BIT(LENGTH), BIT(RECORD) | TABLE_BITS,
        {BIT(STRINGS) | BIT(FILES) | BIT(FUNCTIONS) | BIT(CALL_LOCATIONS) | BIT(RANGES), BIT(STRINGS)}},
    [PARSE] = {"symcache_parse", BIT(CACHE), BIT(BYTES), {0, 0}},
    [OPEN] = {"symcache_open", BIT(CACHE), BIT(BYTES), {0, 0}},
    [FIND] = {"symcache_find", 0, BIT(BYTES) | BIT(CACHE), {0, BIT(CACHE)}},
    [WALK] = {"symcache_walk", BIT(CURSOR), BIT(BYTES) | BIT(CACHE), {0, BIT(CACHE)}},
    [LOOKUP] = {"symcache_lookup", BIT(CURSOR), BIT(BYTES), {0, 0}},
    [NEXT] = {"symcache_next", BIT(CURSOR) | BIT(FRAME), BIT(BYTES), {0, 0}},
    [READ_STRING] = {"symcache_read_string", BIT(PART), BIT(BYTES), {0, 0}},
    [FUNCTION_NAME] = {"symcache_function_name", BIT(PART), BIT(BYTES), {0, 0}},
    [GET_FUNCTION] = {"symcache_get_function", BIT(ROW), BIT(BYTES), {0, 0}},
    [GET_FILE] = {"symcache_get_file", BIT(ROW), BIT(BYTES), {0, 0}},
    [FUNCTIONS_NEXT] = {"symcache_functions_next", BIT(CURSOR) | BIT(ROW), BIT(BYTES), {0, 0}},
    [FILES_NEXT] = {"symcache_files_next", BIT(CURSOR) | BIT(ROW), BIT(BYTES), {0, 0}},
};

#define REGION (16u * 4096u)
static size_t page;
static unsigned char *low[SLOTS]; /* where the regions begin, between pages without access */
static void *at[SLOTS];           /* the slices that are lent now */
static size_t len[SLOTS];
static int at_front; /* the second pass */

/*
 * The slice that is said to be one element longer than it is, in calls of one function; in none if
 * that is NUM_FUNCTIONS.
 */
static enum function bite_function = NUM_FUNCTIONS;
static enum slot bite_slot;

#define ANSWERS (SYMCACHE_TOO_DEEP + 1)

static enum function calling;
static unsigned long list_number;
static unsigned long calls[NUM_FUNCTIONS];
/* Of find and walk: 0 an index, 1 MAX. Of the count: 0 none, 1 some. */
static unsigned long answers[NUM_FUNCTIONS][ANSWERS];

static void map_regions(void)
{
    page = (size_t)sysconf(_SC_PAGESIZE);
    for (int s = 0; s < SLOTS; s++) {
        int flags = MAP_PRIVATE | MAP_ANONYMOUS;
        unsigned char *p = mmap(NULL, REGION + 2 * page, PROT_NONE, flags, -1, 0);
        if (p == MAP_FAILED || mprotect(p + page, REGION, PROT_READ | PROT_WRITE) != 0) {
            perror("mmap");
            exit(2);
        }
        low[s] = p + page;
    }
}

/* Lends a slice of so many elements. Its content is what the memory held. */
static void lend(enum slot s, size_t n)
{
    size_t bytes = n * element[s];
    if (bytes > REGION) {
        fprintf(stderr, "%s: no room for %zu elements\n", slot_names[s], n);
        exit(2);
    }
    at[s] = at_front ? low[s] : low[s] + REGION - bytes;
    len[s] = n;
}

/*
 * In a call that is bitten, a slice lacks its last element, or in the second pass its first: that
 * one lies on the page without access.
 */
static int bitten(enum slot s)
{
    return calling == bite_function && s == bite_slot && len[s] > 0;
}

static void *pointer(enum slot s)
{
    if (!bitten(s))
        return at[s];
    return at_front ? (unsigned char *)at[s] - element[s] : (unsigned char *)at[s] + element[s];
}

/* Moves the rest of a slice to where it lies in such a call, and back. */
static void shift(enum slot s, int there)
{
    static unsigned char lacked[sizeof(struct symcache_line_row)];
    size_t e = element[s], rest = (len[s] - 1) * e;
    unsigned char *p = at[s];
    if (there) {
        memcpy(lacked, at_front ? p : p + rest, e);
        memmove(at_front ? p : p + e, at_front ? p + e : p, rest);
    } else {
        memmove(at_front ? p + e : p, at_front ? p : p + e, rest);
        memcpy(at_front ? p : p + rest, lacked, e);
    }
}

#define P8(s) (uint8_t *)pointer(s), len[s]
#define P32(s) (uint32_t *)pointer(s), len[s]
#define P64(s) (uint64_t *)pointer(s), len[s]
#define PROWS(s) (struct symcache_line_row *)pointer(s), len[s]
#define TABLES                                                                                     \
    P8(STRING_BYTES), P32(STRINGS), P32(FILES), P32(FUNCTIONS), P32(CALL_LOCATIONS), P32(RANGES)

static void protect(enum function f, int access)
{
    for (int s = 0; s < SLOTS; s++)
        if (interface[f].read & BIT(s))
            mprotect(low[s], REGION, access);
}

/* ---- What a call leaves ---- */

static unsigned char before[SLOTS][REGION]; /* what the written slices held before the call */

static void remember(enum function f)
{
    for (int s = 0; s < SLOTS; s++)
        if (interface[f].written & BIT(s))
            memcpy(before[s], at[s], len[s] * element[s]);
}

static void demand(int holds, const char *what, int s, uint32_t answer)
{
    if (holds)
        return;
    fprintf(stderr, "%s answered %" PRIu32 ", and %s %s, list %lu\n", interface[calling].name,
        answer, slot_names[s], what, list_number);
    exit(1);
}

static int is_zero(int s)
{
    unsigned char *p = at[s];
    for (size_t i = 0; i < len[s] * element[s]; i++)
        if (p[i] != 0)
            return 0;
    return 1;
}

/*
 * A refusal leaves a written slice as it was; but 17 leaves zeros and a closed converter, and 10
 * has its counts. An accepted tree leaves zeros in scratch and in what its rows were unpacked to,
 * a write what lies beyond the file.
 */
static void check_slice(int s, uint32_t answer)
{
    unsigned char *p = at[s];
    size_t from = 0, bytes = len[s] * element[s];
    if (answer == SYMCACHE_TABLE_FULL && s == RECORD) {
        demand(((uint32_t *)at[s])[SYMCACHE_RECORD_OPEN] == 0, "is open", s, answer);
        return;
    }
    if (answer == SYMCACHE_TABLE_FULL
        || (answer == 0 && (s == SCRATCH || s == UNPACKED64 || s == UNPACKED32))) {
        demand(is_zero(s), "is not zero", s, answer);
        return;
    }
    if (answer == 0) {
        if (s != OUT || len[LENGTH] == 0)
            return;
        from = (size_t)((uint64_t *)at[LENGTH])[0];
    }
    if (answer == SYMCACHE_UNEXPECTED_STRING_BYTES && s == CACHE)
        from = 2 * element[s];
    if (from < bytes)
        demand(memcmp(before[s] + from, p + from, bytes - from) == 0, "changed", s, answer);
}

static void check_left(uint32_t answer)
{
    for (int s = 0; s < SLOTS; s++)
        if (interface[calling].written & BIT(s))
            check_slice(s, answer);
}

/* Around each call: `calling` names it, and what it only reads can't be written. */
static void enter(enum function f)
{
    calling = f;
    remember(f);
    if (bitten(bite_slot))
        shift(bite_slot, 1);
    protect(f, PROT_READ);
}

static uint32_t leave(uint32_t answer)
{
    protect(calling, PROT_READ | PROT_WRITE);
    if (bitten(bite_slot))
        shift(bite_slot, 0);
    calls[calling]++;
    if (calling == FIND || calling == WALK)
        answers[calling][answer == SYMCACHE_MAX]++;
    else if (calling == CLAMPED_LINES)
        answers[calling][answer]++;
    else if (answer < ANSWERS) {
        answers[calling][answer]++;
        check_left(answer);
    } else {
        fprintf(stderr, "%s answered %" PRIu32 "\n", interface[calling].name, answer);
        exit(1);
    }
    calling = NUM_FUNCTIONS;
    return answer;
}

static void on_fault(int sig, siginfo_t *info, void *context)
{
    char say[200];
    unsigned char *a = info->si_addr;
    const char *who = calling < NUM_FUNCTIONS ? interface[calling].name : "guard itself";
    const char *where = "elsewhere", *side = "";
    int slot = SLOTS, n;
    (void)sig, (void)context;
    for (int s = 0; s < SLOTS; s++)
        if (a >= low[s] - page && a < low[s] + REGION + page)
            slot = s;
    if (slot < SLOTS) {
        where = slot_names[slot];
        side = a < low[slot] ? ", before it" : ", after it";
        if (a >= low[slot] && a < low[slot] + REGION)
            side = ", which is only read";
    }
    if (bite_function < NUM_FUNCTIONS) {
        /* Where this access isn't the one that was asked for, the child does not die by it. */
        if (calling != bite_function || slot != (int)bite_slot || (a < low[slot]) != at_front)
            _exit(3);
        return;
    }
    n = snprintf(say, sizeof say, "stray access in %s: %s%s, list %lu\n", who, where, side,
        list_number);
    if (write(2, say, (size_t)n) < 0)
        _exit(2);
    /* The handler is gone now: the access is made again, and ends the program. */
}

/* ---- Random content ---- */

static uint64_t state;

static uint64_t random64(void)
{
    uint64_t z = state += UINT64_C(0x9e3779b97f4a7c15);
    z = (z ^ (z >> 30)) * UINT64_C(0xbf58476d1ce4e5b9);
    z = (z ^ (z >> 27)) * UINT64_C(0x94d049bb133111eb);
    return z ^ (z >> 31);
}

static uint64_t below(uint64_t n)
{
    return random64() % n;
}

static int one_in(uint64_t n)
{
    return below(n) == 0;
}

static void fill(enum slot s)
{
    unsigned char *p = at[s];
    for (size_t i = 0; i < len[s] * element[s]; i++)
        p[i] = (unsigned char)random64();
}

/* A length about the one that a function asks for. */
static size_t about(size_t n)
{
    switch (below(8)) {
    case 0:
        return below(n + 1);
    case 1:
        return n + below(3);
    case 2:
        return n == 0 ? 0 : n - 1;
    default:
        return n;
    }
}

static uint64_t any_address(void)
{
    switch (below(12)) {
    case 0:
        return SYMCACHE_MAX - below(30);
    case 1:
        return SYMCACHE_MAX + below(30);
    case 2:
        return random64();
    case 3:
        return UINT64_MAX - below(30);
    default:
        return below(500);
    }
}

static uint64_t any_size(void)
{
    return one_in(20) ? random64() : below(60);
}

static uint32_t any_index(uint32_t count)
{
    switch (below(6)) {
    case 0:
        return (uint32_t)random64();
    case 1:
        return count;
    case 2:
        return SYMCACHE_MAX;
    default:
        return (uint32_t)below((uint64_t)count + 2);
    }
}

/* A text to take parts of: mostly names, at times any bytes. */
static void any_text(void)
{
    static const char names[] = "_foo@4 bar@@+8 src/a.rs ?x(y) \xC3\xA9\xE2\x82\xAC\xF0\x9F\x98\x80 "
                                "@fast@12";
    int ascii = !one_in(10);
    size_t from = below(sizeof names);
    uint8_t *p;
    lend(TEXT, one_in(12) ? 0 : below(one_in(4) ? 600 : 90));
    p = at[TEXT];
    if (one_in(20))
        fill(TEXT);
    else
        for (size_t i = 0; i < len[TEXT]; i++) {
            unsigned char c = (unsigned char)names[(from + i) % (sizeof names - 1)];
            p[i] = ascii && c >= 0x80 ? 'a' : c;
        }
}

/* A part of the text: start and length, often up to its very end, at times outside. */
static void any_part(uint32_t *p)
{
    size_t n = len[TEXT];
    p[0] = (uint32_t)below(n + 1);
    p[1] = one_in(4) ? (uint32_t)(n - p[0]) : (uint32_t)below((n - p[0] < 20 ? n - p[0] : 20) + 1);
    if (one_in(150))
        p[below(2)] = (uint32_t)random64();
    if (one_in(150))
        p[1]++;
}

/* A table of a few rows, or none, and a few words more at times. */
static size_t any_words(size_t scale)
{
    size_t rows = one_in(10) ? 0 : below(scale + 1);
    return rows * 8 + (one_in(3) ? below(8) : 0);
}

static const enum slot tables[] = {STRING_BYTES, STRINGS, FILES, FUNCTIONS, CALL_LOCATIONS, RANGES};

static size_t capacity(enum slot s)
{
    return s == STRING_BYTES ? len[s] : len[s] / 8;
}

/* Tables of one size for a list, with any content. */
static void any_tables(void)
{
    static const size_t scales[] = {3, 20, 200, 200, 200};
    size_t scale = scales[below(5)];
    for (size_t i = 0; i < 6; i++) {
        enum slot s = tables[i];
        size_t words = any_words(scale);
        if (scale == 200 && !one_in(12))
            words = 200 * 8;
        lend(s, s == STRING_BYTES ? words * 2 : words);
        if (one_in(2))
            fill(s);
    }
}

/* A count that a table has room for, or one above. */
static uint32_t any_count(size_t rows)
{
    return (uint32_t)(one_in(4) ? rows + (one_in(6) ? 1 : 0) : below(rows + 1));
}

/*
 * A record that no call left: any words, or an open converter with counts that its tables have
 * room for.
 */
static void any_record(void)
{
    uint32_t *r;
    lend(RECORD, one_in(4) ? about(SYMCACHE_RECORD_WORDS) : SYMCACHE_RECORD_WORDS);
    fill(RECORD);
    r = at[RECORD];
    if (len[RECORD] < SYMCACHE_RECORD_WORDS || one_in(8))
        return;
    for (size_t i = 0; i < 6; i++)
        r[SYMCACHE_RECORD_STRING_BYTES + i] = any_count(capacity(tables[i]));
    r[SYMCACHE_RECORD_UNDECORATE_FUNCTIONS] = (uint32_t)below(3);
    r[SYMCACHE_RECORD_OPEN] = 1;
}

/* Rows of a tree, mostly right; one in forty is a chain that ends at depth 40 to 43. */
static void any_rows(void)
{
    bool chain = one_in(40);
    size_t f = chain ? SYMCACHE_MAX_DEPTH + below(4) : 1 + below(one_in(5) ? 12 : 4), l = 0, line = 0;
    size_t lines[SYMCACHE_MAX_DEPTH + 4];
    for (size_t i = 0; i < f; i++)
        l += lines[i] = one_in(4) ? 0 : below(5);
    any_text();
    lend(FUNCTIONS64, f * SYMCACHE_FUNCTIONS64_WORDS);
    lend(FUNCTIONS32, f * SYMCACHE_FUNCTIONS32_WORDS);
    lend(LINES64, l * SYMCACHE_LINES64_WORDS);
    lend(LINES32, l * SYMCACHE_LINES32_WORDS);
    lend(SCRATCH, (f + l) * SYMCACHE_SCRATCH_ROW_WORDS + (one_in(4) ? below(9) : 0));
    fill(SCRATCH);
    for (size_t i = 0, depth = 0; i < f; i++) {
        uint64_t *r64 = (uint64_t *)at[FUNCTIONS64] + i * SYMCACHE_FUNCTIONS64_WORDS;
        uint32_t *r32 = (uint32_t *)at[FUNCTIONS32] + i * SYMCACHE_FUNCTIONS32_WORDS;
        uint64_t base = any_address();
        depth = i == 0 ? 0 : chain ? i : 1 + below(depth + 1);
        r64[0] = base;
        r64[1] = any_size();
        r32[SYMCACHE_FUNCTION_DEPTH] = (uint32_t)depth;
        r32[SYMCACHE_FUNCTION_INLINE] = (uint32_t)(i == 0 ? below(8) == 0 : below(4) > 0);
        r32[SYMCACHE_FUNCTION_LANGUAGE] = (uint32_t)below(30);
        any_part(r32 + SYMCACHE_FUNCTION_NAME_START);
        any_part(r32 + SYMCACHE_FUNCTION_COMP_DIR_START);
        r32[SYMCACHE_FUNCTION_LINES] = (uint32_t)lines[i];
        for (size_t j = 0; j < lines[i]; j++, line++) {
            uint64_t *l64 = (uint64_t *)at[LINES64] + line * SYMCACHE_LINES64_WORDS;
            uint32_t *l32 = (uint32_t *)at[LINES32] + line * SYMCACHE_LINES32_WORDS;
            l64[0] = one_in(6) ? any_address() : base + below(50);
            l64[1] = any_size();
            l64[2] = random64();
            l32[SYMCACHE_LINE_HAS_SIZE] = (uint32_t)below(4);
            any_part(l32 + SYMCACHE_LINE_NAME_START);
            any_part(l32 + SYMCACHE_LINE_DIRECTORY_START);
            for (size_t k = SYMCACHE_LINE_SRCSRV_NAME_PRESENT; k < SYMCACHE_LINES32_WORDS; k += 3) {
                l32[k] = one_in(3);
                any_part(l32 + k + 1);
            }
        }
    }
}

/* A slice of the rows is cut, or a word of it changed. */
static void spoil_rows(void)
{
    static const enum slot columns[] = {FUNCTIONS64, FUNCTIONS32, LINES64, LINES32, TEXT, SCRATCH};
    enum slot s = columns[below(6)];
    unsigned char copy[REGION];
    size_t n = below(len[s] + 1);
    if (one_in(2) && len[s] > 0) {
        ((unsigned char *)at[s])[below(len[s] * element[s])] = (unsigned char)random64();
        return;
    }
    if (one_in(2) && len[s] > 0)
        n = len[s] - 1;
    memcpy(copy, at[s], n * element[s]);
    lend(s, n);
    memcpy(at[s], copy, n * element[s]);
}

/* ---- Calls of the converter ---- */

static unsigned char file[REGION]; /* the last file written */
static size_t file_len;

static uint32_t call_begin(void)
{
    lend(DEBUG_ID, about(SYMCACHE_DEBUG_ID_BYTES));
    fill(DEBUG_ID);
    enter(BEGIN);
    return leave(symcache_begin(P32(RECORD), P8(DEBUG_ID), (uint32_t)random64(), (uint32_t)below(3),
        (uint32_t)below(3), TABLES));
}

static uint32_t call_tree(void)
{
    any_rows();
    if (one_in(6))
        spoil_rows();
    enter(TREE);
    return leave(symcache_process_symbolic_function(P32(RECORD), TABLES, P32(SCRATCH),
        P64(FUNCTIONS64), P32(FUNCTIONS32), P64(LINES64), P32(LINES32), P8(TEXT)));
}

static struct symcache_text_part part_of(const uint32_t *words)
{
    struct symcache_text_part part = {words[0], words[1]};
    return part;
}

static struct symcache_optional_part optional_of(const uint32_t *words)
{
    struct symcache_optional_part part = {words[0] != 0, part_of(words + 1)};
    return part;
}

/* The same tree with its line rows as a list. */
static uint32_t call_tree_lines(void)
{
    size_t n;
    any_rows();
    n = len[LINES64] / SYMCACHE_LINES64_WORDS;
    lend(LINES, n);
    for (size_t j = 0; j < n; j++) {
        const uint64_t *l64 = (uint64_t *)at[LINES64] + j * SYMCACHE_LINES64_WORDS;
        const uint32_t *l32 = (uint32_t *)at[LINES32] + j * SYMCACHE_LINES32_WORDS;
        struct symcache_line_row *row = (struct symcache_line_row *)at[LINES] + j;
        memset(row, 0, sizeof *row);
        row->address = l64[0];
        row->has_size = l32[SYMCACHE_LINE_HAS_SIZE] != 0;
        row->size = l64[1];
        row->number = l64[2];
        row->name = part_of(l32 + SYMCACHE_LINE_NAME_START);
        row->directory = part_of(l32 + SYMCACHE_LINE_DIRECTORY_START);
        row->srcsrv_name = optional_of(l32 + SYMCACHE_LINE_SRCSRV_NAME_PRESENT);
        row->srcsrv_dir = optional_of(l32 + SYMCACHE_LINE_SRCSRV_DIR_PRESENT);
        row->revision = optional_of(l32 + SYMCACHE_LINE_REVISION_PRESENT);
    }
    lend(UNPACKED64, about(n * SYMCACHE_LINES64_WORDS));
    fill(UNPACKED64);
    lend(UNPACKED32, about(n * SYMCACHE_LINES32_WORDS));
    fill(UNPACKED32);
    if (one_in(6))
        spoil_rows();
    enter(TREE_LINES);
    return leave(symcache_process_symbolic_function_lines(P32(RECORD), TABLES, P32(SCRATCH),
        P64(UNPACKED64), P32(UNPACKED32), P64(FUNCTIONS64), P32(FUNCTIONS32), PROWS(LINES),
        P8(TEXT)));
}

static uint32_t call_symbol(void)
{
    uint32_t name[2];
    uint32_t named = (uint32_t)below(4);
    uint64_t address = any_address(), size = any_size();
    any_text();
    any_part(name);
    enter(SYMBOL);
    return leave(symcache_process_symbolic_symbol(
        P32(RECORD), TABLES, P8(TEXT), address, size, named, name[0], name[1]));
}

/* What the record's words say where it is open, else 0. */
static void call_clamped_lines(void)
{
    uint64_t count, wanted = 0;
    const uint32_t *r = at[RECORD];
    if (len[RECORD] >= SYMCACHE_RECORD_WORDS && r[SYMCACHE_RECORD_OPEN] != 0)
        wanted = r[SYMCACHE_RECORD_CLAMPED_LINES]
            | (uint64_t)r[SYMCACHE_RECORD_CLAMPED_LINES + 1] << 32;
    enter(CLAMPED_LINES);
    count = symcache_clamped_lines(P32(RECORD));
    leave(count != 0);
    if (count != wanted) {
        fprintf(stderr, "symcache_clamped_lines answered %" PRIu64 ", not %" PRIu64 ", list %lu\n",
            count, wanted, list_number);
        exit(1);
    }
}

static uint32_t call_serialize(void)
{
    size_t n = 100 + below(1000);
    uint32_t answer;
    if (len[RECORD] >= SYMCACHE_RECORD_WORDS) {
        uint64_t needed = symcache_file_len(at[RECORD]);
        static const size_t more[] = {0, 0, 0, 20, 24, 50};
        if (needed < REGION - 100 && !one_in(8))
            n = one_in(6) ? (size_t)needed - 1 : (size_t)needed + more[below(6)];
    }
    if (one_in(12))
        n = below(n);
    lend(OUT, n);
    fill(OUT);
    lend(LENGTH, about(SYMCACHE_LEN_WORDS));
    enter(SERIALIZE);
    answer = leave(symcache_serialize(P32(RECORD), TABLES, P8(OUT), P64(LENGTH)));
    if (answer == 0) {
        file_len = n;
        memcpy(file, at[OUT], n);
    }
    return answer;
}

/* ---- Calls of the reader ---- */

static void put32(unsigned char *p, uint32_t v)
{
    for (int i = 0; i < 4; i++)
        p[i] = (unsigned char)(v >> (8 * i));
}

static uint32_t get32(const unsigned char *p)
{
    return p[0] | (uint32_t)p[1] << 8 | (uint32_t)p[2] << 16 | (uint32_t)p[3] << 24;
}

/* The bytes to read: the last file, whole, cut or damaged, or any bytes. */
static void any_bytes(void)
{
    unsigned char made[REGION];
    size_t n = file_len;
    memcpy(made, file, n);
    switch (below(8)) {
    case 0:
        n = one_in(2) ? below(n + 1) : n == 0 ? 0 : n - 1;
        break;
    case 1:
        n = one_in(3) ? below(200) : one_in(2) ? 8 : 80;
        for (size_t i = 0; i < n; i++)
            made[i] = (unsigned char)random64();
        break;
    case 2: /* a header with small counts before any bytes */
        n = 80 + below(400);
        for (size_t i = 0; i < n; i++)
            made[i] = (unsigned char)(one_in(3) ? random64() : 0);
        for (size_t i = 44; i < 64; i += 4)
            put32(made + i, (uint32_t)below(7));
        put32(made + 64, 0);
        break;
    case 3:
    case 4:
        for (uint64_t i = below(12); i > 0 && n > 0; i--) {
            size_t k = one_in(2) ? below(n) : below(n < 80 ? n : 80);
            made[k] = one_in(2) ? (unsigned char)random64() : (unsigned char)(made[k] + 1);
        }
        break;
    default:
        break;
    }
    if (n >= 8 && !one_in(12)) {
        memcpy(made, one_in(40) ? "CMYS" : "SYMC", 4);
        put32(made + 4, one_in(40) ? 8 : 9);
    }
    if (one_in(12)) {
        static const unsigned char extra[20] = {1, 2, 3};
        memcpy(made + n, extra, sizeof extra);
        n += below(sizeof extra);
    }
    lend(BYTES, n);
    memcpy(at[BYTES], made, n);
}

/* A count of the header: 44 files, 48 functions, 60 text bytes. */
static uint32_t header_count(size_t where)
{
    return len[BYTES] < 80 ? 3 : get32((unsigned char *)at[BYTES] + where);
}

/* An address at, before or after a start. */
static uint64_t looked_up(void)
{
    if (len[BYTES] >= 80 && !one_in(4)) {
        size_t words = (len[BYTES] - 80) / 4;
        if (words > 0)
            return get32((unsigned char *)at[BYTES] + 80 + 4 * below(words)) + below(3) - 1;
    }
    return any_address();
}

static void lend_filled(enum slot s, size_t n)
{
    lend(s, about(n));
    fill(s);
}

static void call_walk_and_next(uint32_t opened)
{
    lend(CURSOR, about(SYMCACHE_CURSOR_WORDS));
    fill(CURSOR);
    switch (below(opened == 0 ? 4 : 2)) {
    case 0: {
        uint64_t addr = looked_up();
        enter(LOOKUP);
        leave(symcache_lookup(P8(BYTES), addr, P32(CURSOR)));
        break;
    }
    case 1: { /* a made-up cursor, mostly of small numbers */
        uint32_t *c = at[CURSOR];
        for (size_t i = 0; i < len[CURSOR] && !one_in(3); i++)
            c[i] = (uint32_t)below(8);
        break;
    }
    default: {
        uint64_t addr = looked_up();
        enter(WALK);
        leave(symcache_walk(P8(BYTES), P64(CACHE), addr, P32(CURSOR)));
        enter(FIND);
        leave(symcache_find(P8(BYTES), P64(CACHE), addr));
        break;
    }
    }
    for (int i = 0; i < 6; i++) {
        lend_filled(FRAME, SYMCACHE_FRAME_WORDS);
        enter(NEXT);
        if (leave(symcache_next(P8(BYTES), P32(CURSOR), P32(FRAME))) != 0)
            break;
        if (len[FRAME] > 0 && *(uint32_t *)at[FRAME] == SYMCACHE_FRAME_END)
            break;
    }
}

static void call_rows(void)
{
    uint32_t i = any_index(header_count(60));
    lend_filled(PART, SYMCACHE_PART_WORDS);
    enter(READ_STRING);
    leave(symcache_read_string(P8(BYTES), i, P64(PART)));

    i = any_index(header_count(48));
    lend_filled(PART, SYMCACHE_PART_WORDS);
    enter(FUNCTION_NAME);
    leave(symcache_function_name(P8(BYTES), i, P64(PART)));

    lend_filled(ROW, SYMCACHE_FUNCTION_WORDS);
    enter(GET_FUNCTION);
    leave(symcache_get_function(P8(BYTES), i, P32(ROW)));

    i = any_index(header_count(44));
    lend_filled(ROW, SYMCACHE_FILE_WORDS);
    enter(GET_FILE);
    leave(symcache_get_file(P8(BYTES), i, P32(ROW)));

    lend(CURSOR, one_in(6) ? below(3) : 1);
    if (len[CURSOR] > 0)
        *(uint32_t *)at[CURSOR] = any_index(header_count(48));
    lend_filled(ROW, SYMCACHE_LISTED_FUNCTION_WORDS);
    enter(FUNCTIONS_NEXT);
    leave(symcache_functions_next(P8(BYTES), P32(CURSOR), P32(ROW)));

    lend(CURSOR, one_in(6) ? below(3) : 1);
    if (len[CURSOR] > 0)
        *(uint32_t *)at[CURSOR] = any_index(header_count(44));
    lend_filled(ROW, SYMCACHE_LISTED_FILE_WORDS);
    enter(FILES_NEXT);
    leave(symcache_files_next(P8(BYTES), P32(CURSOR), P32(ROW)));
}

/*
 * A cache that no file has: any words, small ones, those of the file with some changed, or tables
 * right at the front or the end of the bytes.
 */
static void any_cache(void)
{
    uint64_t *c;
    if (one_in(3))
        lend_filled(CACHE, SYMCACHE_CACHE_WORDS);
    c = at[CACHE];
    if (one_in(2) && len[CACHE] >= SYMCACHE_CACHE_WORDS) {
        uint64_t ranges = below(5), locations = ranges + below(3);
        c[SYMCACHE_CACHE_NUM_RANGES] = ranges;
        c[SYMCACHE_CACHE_NUM_SOURCE_LOCATIONS] = locations;
        c[SYMCACHE_CACHE_RANGES] = one_in(2) ? 0 : len[BYTES] + below(2) - 4 * ranges;
        c[SYMCACHE_CACHE_SOURCE_LOCATIONS] = one_in(2) ? 0 : len[BYTES] + below(2) - 16 * locations;
        return;
    }
    for (size_t k = 0; k < len[CACHE]; k++)
        if (one_in(4))
            c[k] = one_in(8) ? random64() : below(len[BYTES] + 10);
}

static void call_readers(void)
{
    uint32_t opened;
    any_bytes();
    lend_filled(CACHE, SYMCACHE_CACHE_WORDS);
    enter(PARSE);
    leave(symcache_parse(P8(BYTES), P64(CACHE)));
    lend_filled(CACHE, SYMCACHE_CACHE_WORDS);
    enter(OPEN);
    opened = leave(symcache_open(P8(BYTES), P64(CACHE)));
    for (int i = 0; i < 4; i++) {
        call_walk_and_next(opened);
        call_rows();
    }
    for (int i = 0; i < 6; i++) {
        uint64_t addr = looked_up();
        any_cache();
        enter(FIND);
        leave(symcache_find(P8(BYTES), P64(CACHE), addr));
        lend_filled(CURSOR, SYMCACHE_CURSOR_WORDS);
        enter(WALK);
        leave(symcache_walk(P8(BYTES), P64(CACHE), addr, P32(CURSOR)));
    }
}

/* ---- Lists ---- */

/*
 * A list: a beginning, or a record that no call left, then trees, symbols and writes, and readings
 * of what was written.
 */
static void run_list(void)
{
    uint64_t n = 1 + below(14);
    any_tables();
    if (one_in(4))
        any_record();
    else {
        lend(RECORD, one_in(6) ? about(SYMCACHE_RECORD_WORDS) : SYMCACHE_RECORD_WORDS);
        fill(RECORD);
        call_begin();
    }
    while (n-- > 0) {
        uint32_t answer;
        switch (below(4)) {
        case 0:
            answer = call_symbol();
            break;
        case 1:
            answer = call_serialize();
            break;
        default:
            answer = one_in(2) ? call_tree() : call_tree_lines();
            break;
        }
        call_clamped_lines();
        if (answer == SYMCACHE_TABLE_FULL && !one_in(4))
            call_begin();
    }
    call_serialize();
    call_readers();
}

static void run(unsigned long lists, uint64_t seed)
{
    state = seed;
    for (list_number = 0; list_number < lists; list_number++)
        run_list();
}

static void print_calls(void)
{
    for (int f = 0; f < NUM_FUNCTIONS; f++) {
        const char *between = ":";
        printf("%s %lu", interface[f].name, calls[f]);
        for (unsigned i = 0; i < ANSWERS; i++)
            if (answers[f][i] > 0) {
                if (f == FIND || f == WALK)
                    printf("%s %s %lu", between, i == 1 ? "MAX" : "an index", answers[f][i]);
                else if (f == CLAMPED_LINES)
                    printf("%s %s %lu", between, i == 1 ? "some" : "none", answers[f][i]);
                else
                    printf("%s %u %lu", between, i, answers[f][i]);
                between = ",";
            }
        printf("\n");
    }
}

/* Whether the lists, with one slice said to be longer, end by SIGSEGV. */
static int dies(enum function f, enum slot s, unsigned long lists, uint64_t seed)
{
    int status;
    pid_t child;
    fflush(stdout);
    child = fork();
    if (child < 0) {
        perror("fork");
        exit(2);
    }
    if (child == 0) {
        bite_function = f;
        bite_slot = s;
        run(lists, seed);
        _exit(0);
    }
    if (waitpid(child, &status, 0) != child) {
        perror("waitpid");
        exit(2);
    }
    return WIFSIGNALED(status) && WTERMSIG(status) == SIGSEGV;
}

static int bite(unsigned long lists, uint64_t seed)
{
    int tried = 0, died = 0, missed = 0;
    for (at_front = 0; at_front < 2; at_front++)
        for (int f = 0; f < NUM_FUNCTIONS; f++)
            for (int s = 0; s < SLOTS; s++) {
                int looked_at = !(interface[f].not_looked_at[at_front] & BIT(s));
                if (!((interface[f].written | interface[f].read) & BIT(s)))
                    continue;
                tried++;
                if (dies((enum function)f, (enum slot)s, lists, seed)) {
                    died++;
                    continue;
                }
                missed += looked_at;
                printf("%s of %s, longer at its %s: no fault%s\n", slot_names[s], interface[f].name,
                    at_front ? "front" : "end", looked_at ? "" : " (not looked at there)");
            }
    printf("%d slices said to be longer, %d runs ended by SIGSEGV\n", tried, died);
    return missed > 0;
}

int main(int argc, char **argv)
{
    int biting = argc > 1 && strcmp(argv[1], "--bite") == 0;
    struct sigaction action;
    unsigned long lists;
    uint64_t seed;
    if (argc != 3 + biting) {
        fprintf(stderr, "usage: guard [--bite] LISTS SEED\n");
        return 2;
    }
    lists = strtoul(argv[1 + biting], NULL, 10);
    seed = strtoull(argv[2 + biting], NULL, 10);
    map_regions();
    memset(&action, 0, sizeof action);
    action.sa_sigaction = on_fault;
    action.sa_flags = SA_SIGINFO | SA_RESETHAND;
    sigaction(SIGSEGV, &action, NULL);
    if (biting)
        return bite(lists, seed);
    for (at_front = 0; at_front < 2; at_front++)
        run(lists, seed);
    print_calls();
    printf("%lu lists with slices before a page without access, %lu with slices after one: no fault\n",
        lists, lists);
    return 0;
}

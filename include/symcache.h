/*
 * SymCache version 9 in C: from function trees to inline frames.
 *
 * The functions below are in libexports.a, which `rt lib` in crates/exports proves and writes to
 * crates/exports/out. Each is total: it takes any content of any length, always ends, and gives one
 * answer.
 *
 * Lending. A slice is lent as a pointer and its length in ELEMENTS (not bytes), for the call only:
 * nothing keeps a pointer. As `restrict` says, a slice that is written must not share memory with
 * another slice of the same call. Slices are aligned for their element: 4 bytes for uint32_t, 8 for
 * uint64_t; bytes need no alignment. Where the length is 0 the pointer is not followed. Words that
 * have no room in a lent slice are not stored; words that a lent slice lacks are read as 0. Content
 * beyond the words named here stays.
 *
 * Numbers. A function that can refuse answers 0 for success, or the number of the one reason that
 * counts. Every refusal leaves all lent memory as it was, with two exceptions: SYMCACHE_TABLE_FULL
 * (17) empties the tables, and SYMCACHE_UNEXPECTED_STRING_BYTES (10) of symcache_parse and
 * symcache_open stores its two counts in `cache`. Every other function that reads a file answers 10
 * without counts and stores nothing; symcache_parse has them.
 *
 * No function has state of its own: different threads may call with different memory at the same
 * time.
 */
#ifndef SYMCACHE_H
#define SYMCACHE_H

#include <stdbool.h>
#include <stddef.h>
#include <stdint.h>

#ifdef __cplusplus
extern "C" {
#define SYMCACHE_RESTRICT __restrict
#else
#define SYMCACHE_RESTRICT restrict
#endif

/* ---- Numbers ---- */

#define SYMCACHE_OK 0u
/* The maker of the file: tested in this order. */
#define SYMCACHE_TOO_SHORT 1u                /* under 8 bytes */
#define SYMCACHE_WRONG_ENDIANNESS 2u         /* the magic is reversed */
#define SYMCACHE_WRONG_FORMAT 3u             /* another magic */
#define SYMCACHE_WRONG_VERSION 4u            /* the version is not 9 */
#define SYMCACHE_INVALID_HEADER 5u           /* the header is cut off */
#define SYMCACHE_INVALID_FILES 6u            /* the files are cut off */
#define SYMCACHE_INVALID_FUNCTIONS 7u        /* the functions are cut off */
#define SYMCACHE_INVALID_SOURCE_LOCATIONS 8u /* the source locations are cut off */
#define SYMCACHE_INVALID_RANGES 9u           /* the ranges are cut off, or more than locations */
#define SYMCACHE_UNEXPECTED_STRING_BYTES 10u /* the texts, or the padding before them, cut off */
#define SYMCACHE_INVALID_VARIABLE_HEADER 11u /* the variable header is 1: no variables here */
#define SYMCACHE_UNORDERED_RANGES 12u        /* starts that do not ascend; open and lookup only */
/* The feeder of rows. */
#define SYMCACHE_INVALID_ROWS 13u            /* rows that are not those of a tree in preorder */
#define SYMCACHE_INVALID_TEXT 14u            /* a text outside the lent text, or not UTF-8 */
#define SYMCACHE_ADDRESS_OVERFLOW 15u        /* address plus size above 2^64 - 1 in a function row */
/* The lender. */
#define SYMCACHE_SCRATCH_TOO_SMALL 16u       /* scratch under four words a function or line row */
#define SYMCACHE_TABLE_FULL 17u              /* a table needs more rows or bytes than it has */
#define SYMCACHE_OUTPUT_TOO_SHORT 18u        /* the output is shorter than the file */
#define SYMCACHE_CLOSED 19u                  /* converter closed, or a count above its capacity */
/* The feeder of rows again, right after 13. */
#define SYMCACHE_TOO_DEEP 25u                /* a function row deeper than 41 */

/* "None" in a 32-bit field: no location, no file, no text, no entry, no language. */
#define SYMCACHE_MAX UINT32_C(0xFFFFFFFF)

/* ---- How much memory to lend ---- */

#define SYMCACHE_RECORD_WORDS 20u      /* uint32_t: the converter's record */
#define SYMCACHE_DEBUG_ID_BYTES 32u    /* uint8_t */
#define SYMCACHE_TABLE_ROW_WORDS 8u    /* uint32_t a row of a table */
#define SYMCACHE_SCRATCH_ROW_WORDS 4u  /* uint32_t a function row, and a line row */
#define SYMCACHE_FUNCTIONS64_WORDS 2u  /* uint64_t a function row */
#define SYMCACHE_FUNCTIONS32_WORDS 8u  /* uint32_t a function row */
#define SYMCACHE_LINES64_WORDS 3u      /* uint64_t a line row */
#define SYMCACHE_LINES32_WORDS 14u     /* uint32_t a line row */
#define SYMCACHE_LEN_WORDS 1u          /* uint64_t: the written length */
#define SYMCACHE_CACHE_WORDS 10u       /* uint64_t: where the tables of a file lie */
#define SYMCACHE_CURSOR_WORDS 3u       /* uint32_t: a walk over frames */
#define SYMCACHE_FRAME_WORDS 13u       /* uint32_t: one frame */
#define SYMCACHE_PART_WORDS 3u         /* uint64_t: a text's part of the file */
#define SYMCACHE_FUNCTION_WORDS 5u     /* uint32_t: symcache_get_function */
#define SYMCACHE_FILE_WORDS 7u         /* uint32_t: symcache_get_file */
#define SYMCACHE_LIST_CURSOR_WORDS 1u  /* uint32_t: symcache_functions_next, symcache_files_next */
#define SYMCACHE_LISTED_FUNCTION_WORDS 6u /* uint32_t: symcache_functions_next */
#define SYMCACHE_LISTED_FILE_WORDS 8u  /* uint32_t: symcache_files_next */

/* Ceilings: what is lent beyond them is not used. */
#define SYMCACHE_MAX_ROWS UINT32_C(16777216)          /* rows of a table */
#define SYMCACHE_MAX_STRING_BYTES UINT32_C(268435456) /* text bytes */
#define SYMCACHE_MAX_FUNCTION_ROWS UINT32_C(65536)    /* function rows of one tree */

/*
 * The deepest function row that a tree may have, with the root at 0; and so the most frames that a
 * lookup gives in a file that symcache_serialize wrote from a record and tables as the calls since
 * symcache_begin left them. Files of other makers may give more.
 */
#define SYMCACHE_MAX_DEPTH 41u
#define SYMCACHE_MAX_FRAMES 42u

/*
 * Six tables are lent to each call of the converter, always in this order, and keep their content
 * between calls:
 *   string_bytes    the texts as the file will have them; its capacity is its length
 *   strings         an index of the texts, a row for each; half as many rows as text bytes are
 *                   always enough
 *   files, functions, call_locations, ranges
 * From one symcache_begin to the next lend each at the very length that it had there, with the
 * content that the call before left. A table too short for what is in use is SYMCACHE_CLOSED (19),
 * and nothing changes. Any other length than at the beginning is taken: the call ends, stays inside
 * what is lent and has one outcome. But rows are found by places that go with the length, so
 * what was stored before may be missed, stored twice or found where it is not, and the file need
 * not show the frames of the rows. To go on with larger tables begin anew, and add all again.
 * A table's capacity is its length divided by 8, rounded down, in rows. Rows and text bytes that
 * calls need at most, with F function rows, L line rows and S symbols in all: functions F + S,
 * files L, call_locations L, ranges 2F + 2L + 2S, strings F + 6L + S, text bytes the texts' lengths
 * and up to 5 bytes for each. Equal rows and texts are stored once, so far fewer are usual.
 */

/* Indices into the record. Only the functions below write it; the counts are there to be read. */
enum {
    SYMCACHE_RECORD_DEBUG_ID = 0,              /* 8 words: 32 bytes, little-endian */
    SYMCACHE_RECORD_ARCH = 8,
    SYMCACHE_RECORD_UNDECORATE_FUNCTIONS = 9,  /* 0 is no, anything else yes */
    SYMCACHE_RECORD_UNDECORATE_SYMBOLS = 10,
    SYMCACHE_RECORD_STRING_BYTES = 11,         /* text bytes in use */
    SYMCACHE_RECORD_STRINGS = 12,              /* rows in use, here and below */
    SYMCACHE_RECORD_FILES = 13,
    SYMCACHE_RECORD_FUNCTIONS = 14,
    SYMCACHE_RECORD_CALL_LOCATIONS = 15,
    SYMCACHE_RECORD_RANGES = 16,
    SYMCACHE_RECORD_CLAMPED_LINES = 17,        /* 2 words, the low one first: symcache_clamped_lines */
    SYMCACHE_RECORD_OPEN = 19
};

/*
 * Indices into the words of one row of functions32 (functions64: address, size). A text is a start
 * and a length in the lent text.
 */
enum {
    SYMCACHE_FUNCTION_DEPTH = 0, /* the root 0; an inlinee its caller's plus 1; at most 41 */
    SYMCACHE_FUNCTION_INLINE,    /* 0 is no, anything else yes */
    SYMCACHE_FUNCTION_LANGUAGE,
    SYMCACHE_FUNCTION_NAME_START,
    SYMCACHE_FUNCTION_NAME_LEN,
    SYMCACHE_FUNCTION_COMP_DIR_START, /* need not be UTF-8; then it counts as absent */
    SYMCACHE_FUNCTION_COMP_DIR_LEN,
    SYMCACHE_FUNCTION_LINES /* how many of the line rows are its own */
};

/* Indices into the words of one row of lines32 (lines64: address, size, line number). */
enum {
    SYMCACHE_LINE_HAS_SIZE = 0, /* 0: the size is absent and counts as 1 */
    SYMCACHE_LINE_NAME_START,
    SYMCACHE_LINE_NAME_LEN,
    SYMCACHE_LINE_DIRECTORY_START,
    SYMCACHE_LINE_DIRECTORY_LEN,
    SYMCACHE_LINE_SRCSRV_NAME_PRESENT, /* 0: absent, its start and length are not looked at */
    SYMCACHE_LINE_SRCSRV_NAME_START,
    SYMCACHE_LINE_SRCSRV_NAME_LEN,
    SYMCACHE_LINE_SRCSRV_DIR_PRESENT,
    SYMCACHE_LINE_SRCSRV_DIR_START,
    SYMCACHE_LINE_SRCSRV_DIR_LEN,
    SYMCACHE_LINE_REVISION_PRESENT,
    SYMCACHE_LINE_REVISION_START,
    SYMCACHE_LINE_REVISION_LEN
};

/* Indices into the words of `cache`. Offsets count from the file's first byte. */
enum {
    SYMCACHE_CACHE_FILES = 0,
    SYMCACHE_CACHE_NUM_FILES,
    SYMCACHE_CACHE_FUNCTIONS,
    SYMCACHE_CACHE_NUM_FUNCTIONS,
    SYMCACHE_CACHE_SOURCE_LOCATIONS,
    SYMCACHE_CACHE_NUM_SOURCE_LOCATIONS,
    SYMCACHE_CACHE_RANGES,
    SYMCACHE_CACHE_NUM_RANGES,
    SYMCACHE_CACHE_STRINGS,
    SYMCACHE_CACHE_STRING_BYTES
};

/* Indices into the words of a frame. */
enum {
    SYMCACHE_FRAME_KIND = 0, /* one of the three below */
    SYMCACHE_FRAME_LOCATION,
    SYMCACHE_FRAME_FUNCTION, /* as stored, here and the next two: outside its table too */
    SYMCACHE_FRAME_LINE,
    SYMCACHE_FRAME_FILE,
    SYMCACHE_FRAME_ENTRY,    /* MAX: inlined, or outside the table */
    SYMCACHE_FRAME_LANGUAGE, /* as stored; MAX outside the table */
    SYMCACHE_FRAME_COMP_DIR, /* text offsets for symcache_read_string, here and below */
    SYMCACHE_FRAME_DIRECTORY,
    SYMCACHE_FRAME_NAME,
    SYMCACHE_FRAME_SRCSRV_NAME,
    SYMCACHE_FRAME_SRCSRV_DIR,
    SYMCACHE_FRAME_REVISION
};
#define SYMCACHE_FRAME_END 0u          /* no frame: the walk has ended */
#define SYMCACHE_FRAME_WITHOUT_FILE 1u /* a frame without a file */
#define SYMCACHE_FRAME_WITH_FILE 2u    /* a frame with a file */

/* ---- The converter ---- */

/*
 * Begins a new list of calls: all six tables become zero and the record an open converter with
 * nothing in it. debug_id: its first 32 bytes count, missing ones are 0. arch, and the two switches
 * (0 no, anything else yes: names of functions, and of symbols, are freed of their Windows
 * decorations before they are stored).
 * Answers 0, or SYMCACHE_CLOSED where the record has fewer than 20 words; then nothing changes.
 * Lend: record 20 words; tables as large as all calls to come need (see above).
 */
uint32_t symcache_begin(
    uint32_t *SYMCACHE_RESTRICT record, size_t record_len,
    const uint8_t *SYMCACHE_RESTRICT debug_id, size_t debug_id_len,
    uint32_t arch, uint32_t undecorate_functions, uint32_t undecorate_symbols,
    uint8_t *SYMCACHE_RESTRICT string_bytes, size_t string_bytes_len,
    uint32_t *SYMCACHE_RESTRICT strings, size_t strings_len,
    uint32_t *SYMCACHE_RESTRICT files, size_t files_len,
    uint32_t *SYMCACHE_RESTRICT functions, size_t functions_len,
    uint32_t *SYMCACHE_RESTRICT call_locations, size_t call_locations_len,
    uint32_t *SYMCACHE_RESTRICT ranges, size_t ranges_len);

/*
 * Adds a tree: a function and its inlinees as rows in preorder (a function, then its inlinees in
 * order), with their line rows in the same order, and one text of which all texts are parts.
 * Answers 0, or, in this order, SYMCACHE_CLOSED (19), SYMCACHE_INVALID_ROWS (13: no function rows,
 * over 65,536, a first depth other than 0, a later depth of 0 or above its predecessor's plus 1,
 * line counts that do not sum to the line rows, a length that is no multiple of its stride, row
 * counts that disagree), SYMCACHE_TOO_DEEP (25: a function row deeper than 41; one that is skipped,
 * too), SYMCACHE_INVALID_TEXT (14: a text outside the lent text, or one other than a compilation
 * directory that is not UTF-8; in rows that are skipped, too), SYMCACHE_ADDRESS_OVERFLOW (15),
 * SYMCACHE_SCRATCH_TOO_SMALL (16), SYMCACHE_TABLE_FULL (17). After 0 all of scratch is zero. 17
 * fills all tables and scratch with zeros and closes the converter until symcache_begin. Another
 * refusal changes nothing.
 * Lend: scratch of four words for each function row and each line row; more is only zeroed. Its
 * content before does not matter.
 */
uint32_t symcache_process_symbolic_function(
    uint32_t *SYMCACHE_RESTRICT record, size_t record_len,
    uint8_t *SYMCACHE_RESTRICT string_bytes, size_t string_bytes_len,
    uint32_t *SYMCACHE_RESTRICT strings, size_t strings_len,
    uint32_t *SYMCACHE_RESTRICT files, size_t files_len,
    uint32_t *SYMCACHE_RESTRICT functions, size_t functions_len,
    uint32_t *SYMCACHE_RESTRICT call_locations, size_t call_locations_len,
    uint32_t *SYMCACHE_RESTRICT ranges, size_t ranges_len,
    uint32_t *SYMCACHE_RESTRICT scratch, size_t scratch_len,
    const uint64_t *SYMCACHE_RESTRICT functions64, size_t functions64_len,
    const uint32_t *SYMCACHE_RESTRICT functions32, size_t functions32_len,
    const uint64_t *SYMCACHE_RESTRICT lines64, size_t lines64_len,
    const uint32_t *SYMCACHE_RESTRICT lines32, size_t lines32_len,
    const uint8_t *SYMCACHE_RESTRICT text, size_t text_len);

/* A part of the lent text; one that may be absent; and a line row. */
struct symcache_text_part {
    uint32_t start;
    uint32_t len;
};

struct symcache_optional_part {
    bool present;
    struct symcache_text_part part;
};

struct symcache_line_row {
    uint64_t address;
    bool has_size; /* without one it covers one address */
    uint64_t size;
    uint64_t number;
    struct symcache_text_part name;
    struct symcache_text_part directory;
    struct symcache_optional_part srcsrv_name;
    struct symcache_optional_part srcsrv_dir;
    struct symcache_optional_part revision;
};

/*
 * The same tree call with its line rows as one list of rows. They are unpacked into memory that is
 * lent for it: SYMCACHE_LINES64_WORDS and SYMCACHE_LINES32_WORDS for each line row; less is
 * SYMCACHE_SCRATCH_TOO_SMALL (16). That memory counts as scratch: its content before does not
 * matter, all of it is zero after 0 and after 17, and another refusal changes none of it.
 */
uint32_t symcache_process_symbolic_function_lines(
    uint32_t *SYMCACHE_RESTRICT record, size_t record_len,
    uint8_t *SYMCACHE_RESTRICT string_bytes, size_t string_bytes_len,
    uint32_t *SYMCACHE_RESTRICT strings, size_t strings_len,
    uint32_t *SYMCACHE_RESTRICT files, size_t files_len,
    uint32_t *SYMCACHE_RESTRICT functions, size_t functions_len,
    uint32_t *SYMCACHE_RESTRICT call_locations, size_t call_locations_len,
    uint32_t *SYMCACHE_RESTRICT ranges, size_t ranges_len,
    uint32_t *SYMCACHE_RESTRICT scratch, size_t scratch_len,
    uint64_t *SYMCACHE_RESTRICT unpacked64, size_t unpacked64_len,
    uint32_t *SYMCACHE_RESTRICT unpacked32, size_t unpacked32_len,
    const uint64_t *SYMCACHE_RESTRICT functions64, size_t functions64_len,
    const uint32_t *SYMCACHE_RESTRICT functions32, size_t functions32_len,
    const struct symcache_line_row *SYMCACHE_RESTRICT lines, size_t lines_len,
    const uint8_t *SYMCACHE_RESTRICT text, size_t text_len);

/*
 * Adds a symbol: named (0 no, anything else yes), its name a part of the lent text. An unnamed
 * symbol, and one at an address above MAX, is accepted and changes nothing.
 * Answers 0, or, in this order, SYMCACHE_CLOSED (19), SYMCACHE_INVALID_TEXT (14: named, and the
 * name is outside the lent text or not UTF-8), SYMCACHE_TABLE_FULL (17). 17 fills all tables with
 * zeros and closes the converter until symcache_begin. Another refusal changes nothing.
 */
uint32_t symcache_process_symbolic_symbol(
    uint32_t *SYMCACHE_RESTRICT record, size_t record_len,
    uint8_t *SYMCACHE_RESTRICT string_bytes, size_t string_bytes_len,
    uint32_t *SYMCACHE_RESTRICT strings, size_t strings_len,
    uint32_t *SYMCACHE_RESTRICT files, size_t files_len,
    uint32_t *SYMCACHE_RESTRICT functions, size_t functions_len,
    uint32_t *SYMCACHE_RESTRICT call_locations, size_t call_locations_len,
    uint32_t *SYMCACHE_RESTRICT ranges, size_t ranges_len,
    const uint8_t *SYMCACHE_RESTRICT text, size_t text_len,
    uint64_t address, uint64_t size, uint32_t named, uint32_t name_start, uint32_t name_len);

/*
 * How many line rows of the trees accepted since symcache_begin lie past the 32-bit space, in whole
 * or in part: their address is above MAX, or the address plus the size (1 where absent) is. Their
 * start or end was cut back to MAX, so the file lacks what lies above. Each line row counts once, in
 * function rows that are skipped, too. The count stays at 2^64 - 1 once there; refused calls and
 * symbols count nothing. 0 while the converter is closed, whatever the record's words say.
 * Lend: record 20 words; one with fewer is a closed converter.
 */
uint64_t symcache_clamped_lines(const uint32_t *SYMCACHE_RESTRICT record, size_t record_len);

/*
 * Writes the file and stores its length in len[0]. The converter stays as it is: writing may be
 * repeated, and calls may follow.
 * Answers 0, or, in this order, SYMCACHE_CLOSED (19), SYMCACHE_OUTPUT_TOO_SHORT (18). A refusal
 * changes neither out nor len. Bytes of out beyond the file stay.
 * Lend: out of symcache_file_len bytes; len of one word.
 */
uint32_t symcache_serialize(
    const uint32_t *SYMCACHE_RESTRICT record, size_t record_len,
    const uint8_t *SYMCACHE_RESTRICT string_bytes, size_t string_bytes_len,
    const uint32_t *SYMCACHE_RESTRICT strings, size_t strings_len,
    const uint32_t *SYMCACHE_RESTRICT files, size_t files_len,
    const uint32_t *SYMCACHE_RESTRICT functions, size_t functions_len,
    const uint32_t *SYMCACHE_RESTRICT call_locations, size_t call_locations_len,
    const uint32_t *SYMCACHE_RESTRICT ranges, size_t ranges_len,
    uint8_t *SYMCACHE_RESTRICT out, size_t out_len,
    uint64_t *SYMCACHE_RESTRICT len, size_t len_len);

/*
 * The length of the file that symcache_serialize writes for this record of 20 words: 80 bytes, the
 * rows, four bytes of padding where the ranges are odd, and the texts. (Not a function of the
 * library: it is counted here, from the record.)
 */
static inline uint64_t symcache_file_len(const uint32_t *record)
{
    uint64_t files = record[SYMCACHE_RECORD_FILES];
    uint64_t functions = record[SYMCACHE_RECORD_FUNCTIONS];
    uint64_t call_locations = record[SYMCACHE_RECORD_CALL_LOCATIONS];
    uint64_t ranges = record[SYMCACHE_RECORD_RANGES];
    uint64_t rows = 24 * files + 16 * functions + 16 * call_locations + 20 * ranges;
    return 80 + rows + 4 * (ranges % 2) + record[SYMCACHE_RECORD_STRING_BYTES];
}

/* ---- The reader ---- */
/* `bytes` is a whole file, lent again at each call. Bytes after its texts are ignored. */

/*
 * Reads the header: where the tables lie and how many rows each has, ten words of `cache`. Takes
 * constant time.
 * Answers 0, or 1 to 11 in that order. With 10, cache[0] is the count of text bytes expected and
 * cache[1] the count found; any other refusal leaves cache.
 */
uint32_t symcache_parse(
    const uint8_t *SYMCACHE_RESTRICT bytes, size_t bytes_len,
    uint64_t *SYMCACHE_RESTRICT cache, size_t cache_len);

/*
 * As symcache_parse, and then tests that the starts of the ranges ascend strictly: 12 if not, and
 * cache is left. Takes time in the count of ranges. Done once, it serves any number of
 * symcache_find and symcache_walk.
 */
uint32_t symcache_open(
    const uint8_t *SYMCACHE_RESTRICT bytes, size_t bytes_len,
    uint64_t *SYMCACHE_RESTRICT cache, size_t cache_len);

/*
 * The index of the source location that an address belongs to, or MAX where it is above MAX or
 * below the first start. `cache` is what symcache_open gave for these bytes (counts are its words
 * cut to 32 bits; with any other content the answer is some index or MAX). It may be the empty
 * mapping's: symcache_walk tests that.
 */
uint32_t symcache_find(
    const uint8_t *SYMCACHE_RESTRICT bytes, size_t bytes_len,
    const uint64_t *SYMCACHE_RESTRICT cache, size_t cache_len,
    uint64_t addr);

/*
 * Begins the walk over the frames at an address in a file that symcache_open read: stores the
 * cursor and answers the index of the source location that it begins at, or MAX where there is no
 * frame. What that says of an address in a written file: docs/INTERFACE.md, "No frame".
 */
uint32_t symcache_walk(
    const uint8_t *SYMCACHE_RESTRICT bytes, size_t bytes_len,
    const uint64_t *SYMCACHE_RESTRICT cache, size_t cache_len,
    uint64_t addr,
    uint32_t *SYMCACHE_RESTRICT cursor, size_t cursor_len);

/*
 * symcache_open and symcache_walk in one call: answers 0 and stores the cursor, or 1 to 12 in that
 * order and leaves it. Tests all starts each time.
 */
uint32_t symcache_lookup(
    const uint8_t *SYMCACHE_RESTRICT bytes, size_t bytes_len,
    uint64_t addr,
    uint32_t *SYMCACHE_RESTRICT cursor, size_t cursor_len);

/*
 * The next frame of a walk, innermost first: stores it in `frame` (without a file the six text
 * offsets stay) and moves the cursor. At the end only frame[0] is stored, as SYMCACHE_FRAME_END,
 * and the cursor stays. The walk ends at MAX, outside the table, or at an index already met; in a
 * written file after SYMCACHE_MAX_FRAMES (42) frames at most (see there). A cursor of fewer than
 * three words is one that has ended.
 * Answers 0, or 1 to 11 in that order; then cursor and frame stay.
 * Lend: cursor of 3 words, frame of 13.
 */
uint32_t symcache_next(
    const uint8_t *SYMCACHE_RESTRICT bytes, size_t bytes_len,
    uint32_t *SYMCACHE_RESTRICT cursor, size_t cursor_len,
    uint32_t *SYMCACHE_RESTRICT frame, size_t frame_len);

/*
 * The text at an offset of the string section: part[0] is 1, part[1] where its bytes begin in the
 * file, part[2] how many there are; they are UTF-8. part[0] is 0, and the rest stays, where the
 * text is absent: the offset is MAX or past the section, the length prefix is cut, above ten bytes
 * or above 64 bits, the text is cut, or it is not UTF-8.
 * Answers 0, or 1 to 11 in that order; then part stays.
 * Lend: part of 3 words.
 */
uint32_t symcache_read_string(
    const uint8_t *SYMCACHE_RESTRICT bytes, size_t bytes_len,
    uint32_t offset,
    uint64_t *SYMCACHE_RESTRICT part, size_t part_len);

/*
 * The name of a function, as symcache_read_string gives it. part[0] is 0 where the caller's
 * stand-in counts ("?" in the Rust): the name is absent, or the function is not in the table.
 * Answers 0, or 1 to 11 in that order; then part stays.
 * Lend: part of 3 words.
 */
uint32_t symcache_function_name(
    const uint8_t *SYMCACHE_RESTRICT bytes, size_t bytes_len,
    uint32_t function_idx,
    uint64_t *SYMCACHE_RESTRICT part, size_t part_len);

/*
 * A row of the functions: row[0] is 1, row[1] to row[4] its name's offset, compilation directory's
 * offset, entry and language. row[0] is 0, and the rest stays, outside the table.
 * Answers 0, or 1 to 11 in that order; then row stays.
 * Lend: row of 5 words.
 */
uint32_t symcache_get_function(
    const uint8_t *SYMCACHE_RESTRICT bytes, size_t bytes_len,
    uint32_t function_idx,
    uint32_t *SYMCACHE_RESTRICT row, size_t row_len);

/*
 * A row of the files: row[0] is 1, row[1] to row[6] the offsets of its compilation directory,
 * directory, name, srcsrv name, srcsrv directory and revision. row[0] is 0, and the rest stays,
 * outside the table.
 * Answers 0, or 1 to 11 in that order; then row stays.
 * Lend: row of 7 words.
 */
uint32_t symcache_get_file(
    const uint8_t *SYMCACHE_RESTRICT bytes, size_t bytes_len,
    uint32_t file_idx,
    uint32_t *SYMCACHE_RESTRICT row, size_t row_len);

/*
 * The next function with an entry other than MAX, in the file's order: row[0] is 1, row[1] its
 * index, row[2] to row[5] as symcache_get_function's row[1] to row[4]; the cursor (0 at first)
 * moves past it. At the end only row[0] is stored, as 0, and the cursor stays. A cursor of no words
 * is at the end.
 * Answers 0, or 1 to 11 in that order; then cursor and row stay.
 * Lend: cursor of 1 word, row of 6.
 */
uint32_t symcache_functions_next(
    const uint8_t *SYMCACHE_RESTRICT bytes, size_t bytes_len,
    uint32_t *SYMCACHE_RESTRICT cursor, size_t cursor_len,
    uint32_t *SYMCACHE_RESTRICT row, size_t row_len);

/*
 * The next file, in the file's order: row[0] is 1, row[1] its index, row[2] to row[7] as
 * symcache_get_file's row[1] to row[6]; otherwise as symcache_functions_next.
 * Answers 0, or 1 to 11 in that order; then cursor and row stay.
 * Lend: cursor of 1 word, row of 8.
 */
uint32_t symcache_files_next(
    const uint8_t *SYMCACHE_RESTRICT bytes, size_t bytes_len,
    uint32_t *SYMCACHE_RESTRICT cursor, size_t cursor_len,
    uint32_t *SYMCACHE_RESTRICT row, size_t row_len);

#undef SYMCACHE_RESTRICT

#ifdef __cplusplus
}
#endif

#endif

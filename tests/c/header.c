/*
 * Test of wom.h: its constants and functions, and fourteen of its sixteen
 * entries, each on document 01's values and on calls that it refuses by each of
 * its numbers, on pages of 256 and of 512 bytes and on blocks. Every
 * expectation is a literal. The pulses of a page's fill are compared with the
 * cells, counted before and after it, as well. The other two entries are tested
 * by file.c, wom_write_file, and by reading.c, wom_read_file; more of blocks is
 * in block.c.
 *
 *     header               all checks; exit status 0 when none is wrong, else 1
 *     header plant KIND    the same with one wrong expectation of that kind, so
 *                          that the test is seen to fail: exit status 1
 *
 * Kinds: constant       a constant of the header
 *        text           a text of the header
 *        parts          an answer, taken apart
 *        word           what a word entry answers for a value or its word
 *        word-refusal   a refusal by a word entry
 *        answer         the answer of a page entry
 *        page           the page that it leaves
 *        other          the data, record or output that it leaves
 *        refusal        a refusal by a page entry
 *        page-kept      the page of a refused call
 *        other-kept     the data, record or output of a refused call
 *        cleared        the cells of the page that a call clears
 *        pulses         the pulses of a page's fill, answered and counted
 */
#include <string.h>

#include "testing.h"
#include "wom.h"

#define COUNT(table) (sizeof(table) / sizeof(table)[0])

/* An answer, put together: a refusal, and that of a word's fill. */
#define REFUSED(number, index) ((uint64_t)(number) << 56 | (index))
#define FILLED(word, pulses) ((uint64_t)(pulses) << 48 | (word))

/* ---- The header's constants and functions ------------------------------ */

#define CONSTANT(name, value) {#name, name, value}

static const struct {
    const char *name;
    uint64_t came;
    uint64_t expected;
} constants[] = {
    CONSTANT(WOM_REFUSED_PAGE_LENGTH, 1),
    CONSTANT(WOM_REFUSED_DATA_LENGTH, 2),
    CONSTANT(WOM_REFUSED_OUTPUT_LENGTH, 3),
    CONSTANT(WOM_REFUSED_NOT_BLANK, 4),
    CONSTANT(WOM_REFUSED_STATE, 5),
    CONSTANT(WOM_REFUSED_HEADER, 6),
    CONSTANT(WOM_REFUSED_WORD, 7),
    CONSTANT(WOM_REFUSED_RECORD_LENGTH, 8),
    CONSTANT(WOM_REFUSED_DATA_CELLS, 9),
    CONSTANT(WOM_REFUSED_HIGH_BIT, 10),
    CONSTANT(WOM_REFUSED_NEIGHBOURS, 11),
    CONSTANT(WOM_REFUSED_SUM, 12),
    CONSTANT(WOM_REFUSED_PAGES_LENGTH, 13),
    CONSTANT(WOM_REFUSED_FILE_CUT, 14),
    CONSTANT(WOM_REFUSED_FILE_FIELD, 15),
    CONSTANT(WOM_REFUSED_FILE_TAIL, 16),
    CONSTANT(WOM_REFUSED_BLOCK_LENGTH, 17),
    CONSTANT(WOM_REFUSED_NO_PAGE, 18),
    CONSTANT(WOM_REFUSED_TARGET_NOT_BLANK, 19),
    CONSTANT(WOM_WORD_CELLS, 46),
    CONSTANT(WOM_PAGE_BYTES, 256),
    CONSTANT(WOM_LARGE_PAGE_BYTES, 512),
    CONSTANT(WOM_HEADER_BYTES, 3),
    CONSTANT(WOM_WORDS, 44),
    CONSTANT(WOM_FIRST_BYTES, 176),
    CONSTANT(WOM_SECOND_BYTES_MAX, 126),
    CONSTANT(WOM_SECOND_BYTES_SURE, 82),
    CONSTANT(WOM_INSPECT_BYTES_MAX, 247),
    CONSTANT(WOM_INSPECT_BYTES_SURE, 126),
    CONSTANT(WOM_WORDS_OF(256), 44),
    CONSTANT(WOM_WORDS_OF(256 + 256), 88),
    CONSTANT(WOM_WORDS_OF(511), 0),
    CONSTANT(WOM_FIRST_BYTES_OF(WOM_PAGE_BYTES), 176),
    CONSTANT(sizeof(uint8_t[WOM_FIRST_BYTES_OF(WOM_LARGE_PAGE_BYTES)]), 352),
    CONSTANT(WOM_FIRST_BYTES_OF(0), 0),
    CONSTANT(WOM_SECOND_BYTES_MAX_OF(256), 126),
    CONSTANT(WOM_SECOND_BYTES_MAX_OF(512), 253),
    CONSTANT(WOM_SECOND_BYTES_MAX_OF(1024), 0),
    CONSTANT(WOM_SECOND_BYTES_SURE_OF(256), 82),
    CONSTANT(WOM_SECOND_BYTES_SURE_OF(512), 165),
    CONSTANT(WOM_SECOND_BYTES_SURE_OF(257), 0),
    CONSTANT(WOM_INSPECT_BYTES_MAX_OF(256), 247),
    CONSTANT(sizeof(uint8_t[WOM_INSPECT_BYTES_MAX_OF(512)]), 495),
    CONSTANT(WOM_INSPECT_BYTES_MAX_OF(255), 0),
    CONSTANT(WOM_INSPECT_BYTES_SURE_OF(256), 126),
    CONSTANT(WOM_INSPECT_BYTES_SURE_OF(256 + 256), 253),
    CONSTANT(WOM_INSPECT_BYTES_SURE_OF(513), 0),
    CONSTANT(WOM_STATE_BLANK, 0),
    CONSTANT(WOM_STATE_FIRST, 1),
    CONSTANT(WOM_STATE_FILLED, 3),
    CONSTANT(WOM_STATE_SECOND, 7),
    CONSTANT(WOM_STATE_INSPECT, 9),
    CONSTANT(WOM_FILE_PAGES_MAX, 64),
    CONSTANT(sizeof(uint8_t[WOM_FILE_PAGES_MAX * WOM_PAGE_BYTES]), 16384),
    CONSTANT(WOM_FILE_BYTES(0), 12),
    CONSTANT(WOM_FILE_BYTES(1), 271),
    CONSTANT(WOM_FILE_BYTES(1 + 1), 530),
    CONSTANT(sizeof(uint8_t[WOM_FILE_BYTES(WOM_FILE_PAGES_MAX)]), 16588),
    CONSTANT(WOM_BLOCK_PAGES, 16),
    CONSTANT(sizeof(uint8_t[WOM_BLOCK_BYTES]), 4096),
    CONSTANT(WOM_MARK(0), 0x0001),
    CONSTANT(WOM_MARK(1), 0x0002),
    CONSTANT(WOM_MARK(7 + 1), 0x0100),
    CONSTANT(WOM_MARK(15), 0x8000),
    CONSTANT(WOM_MARK(0) | WOM_MARK(15), 0x8001),
    CONSTANT(sizeof WOM_MARK(15), 2),
    CONSTANT(WOM_VERSION, 70100),
};

static void check_constants(void)
{
    size_t i;

    for (i = 0; i < COUNT(constants); i++) {
        in_case(constants[i].name, constants[i].expected);
        check_number("constant", constants[i].came, constants[i].expected);
    }
}

static const struct {
    unsigned number;
    const char *expected;
} texts[] = {
    {0, "no refusal"},
    {1, "page length"},
    {2, "data length"},
    {3, "output length"},
    {4, "not blank"},
    {5, "state"},
    {6, "header"},
    {7, "word"},
    {8, "record length"},
    {9, "data cells"},
    {10, "high bit"},
    {11, "neighbours"},
    {12, "sum"},
    {13, "pages length"},
    {14, "file cut"},
    {15, "file field"},
    {16, "file tail"},
    {17, "unknown refusal"},
    {255, "unknown refusal"},
    {4294967295u, "unknown refusal"},
};

static void check_text(const char *came, const char *expected)
{
    check_number("text", strcmp(came, expected) == 0, 1);
}

static void check_texts(void)
{
    size_t i;

    for (i = 0; i < COUNT(texts); i++) {
        in_case(texts[i].expected, texts[i].number);
        check_text(wom_refusal_name(texts[i].number), texts[i].expected);
    }
    in_case("WOM_VERSION_STRING", WOM_VERSION);
    check_text(WOM_VERSION_STRING, "7.1.0");
}

static const struct {
    uint64_t answer;
    unsigned refusal;
    uint64_t low; /* the result or the index */
} answers[] = {
    {0, 0, 0},
    {4294967295u, 0, 4294967295u},
    {UINT64_C(0x00ffffffffffffff), 0, UINT64_C(0x00ffffffffffffff)},
    {UINT64_C(0x0100000000000000), 1, 0},
    {UINT64_C(0x070000000000002b), 7, 43},
    {UINT64_C(0x08000000000003f4), 8, 1012},
    {UINT64_C(0x08000000000007bc), 8, 1980},
    {UINT64_C(0x0800000000000f78), 8, 3960},
    {UINT64_C(0x0d00000000000000), 13, 0},
    {UINT64_C(0x1000000000000000), 16, 0},
    {UINT64_C(0x1300000000000000), 19, 0},
    {UINT64_C(0x0000004012345678), 0, UINT64_C(0x4012345678)},
    {UINT64_C(0x8000000000000000), 128, 0},
    {UINT64_MAX, 255, UINT64_C(0x00ffffffffffffff)},
};

static void check_parts(void)
{
    size_t i;

    for (i = 0; i < COUNT(answers); i++) {
        in_case("answer", answers[i].answer);
        check_number("parts", wom_refusal(answers[i].answer),
                     answers[i].refusal);
        check_number("parts", wom_result(answers[i].answer), answers[i].low);
        check_number("parts", wom_index(answers[i].answer), answers[i].low);
    }
}

/* Answers as of a word's fill. A refusal's number is in neither part. */
static const struct {
    uint64_t answer;
    uint64_t word;
    unsigned pulses;
} filled_answers[] = {
    {0, 0, 0},
    {UINT64_C(0x0000000000000001), 1, 0},
    {UINT64_C(0x00003fffffffffff), UINT64_C(0x3fffffffffff), 0},
    {UINT64_C(0x0000ffffffffffff), UINT64_C(0xffffffffffff), 0},
    {UINT64_C(0x0001000000000000), 0, 1},
    {UINT64_C(0x0017000000000000), 0, 23},
    {UINT64_C(0x0080000000000000), 0, 128},
    {UINT64_C(0x00ff000000000000), 0, 255},
    {UINT64_C(0x00172aaaaaaaaaaa), UINT64_C(0x2aaaaaaaaaaa), 23},
    {UINT64_C(0x0100000000000000), 0, 0},
    {UINT64_C(0x0c00000000000000), 0, 0},
    {UINT64_C(0xff00000000000000), 0, 0},
    {UINT64_MAX, UINT64_C(0xffffffffffff), 255},
};

static void check_filled_parts(void)
{
    size_t i;

    for (i = 0; i < COUNT(filled_answers); i++) {
        uint64_t answer = filled_answers[i].answer;

        in_case("answer of a fill", answer);
        check_number("parts", wom_filled_word(answer), filled_answers[i].word);
        check_number("parts", wom_filled_pulses(answer),
                     filled_answers[i].pulses);
    }
}

/* Answers as of a file's reading. A refusal's number is in neither part. */
static const struct {
    uint64_t answer;
    uint32_t device;
    unsigned pages;
} file_answers[] = {
    {0, 0, 0},
    {UINT64_C(0x0000000000000001), 1, 0},
    {UINT64_C(0x0000000080000000), 0x80000000, 0},
    {UINT64_C(0x00000000ffffffff), 0xffffffff, 0},
    {UINT64_C(0x0000000100000000), 0, 1},
    {UINT64_C(0x0000004000000000), 0, 64},
    {UINT64_C(0x0000004012345678), 0x12345678, 64},
    {UINT64_C(0x00000007ffffffff), 0xffffffff, 7},
    {UINT64_C(0x0080000000000000), 0, 0x800000},
    {UINT64_C(0x00ffffff00000000), 0, 0xffffff},
    {UINT64_C(0x0100000000000000), 0, 0},
    {UINT64_C(0x1000000000000000), 0, 0},
    {UINT64_C(0xff00000000000000), 0, 0},
    {UINT64_MAX, 0xffffffff, 0xffffff},
};

static void check_file_parts(void)
{
    size_t i;

    for (i = 0; i < COUNT(file_answers); i++) {
        uint64_t answer = file_answers[i].answer;

        in_case("answer of a file's reading", answer);
        check_number("parts", wom_file_device(answer), file_answers[i].device);
        check_number("parts", wom_file_pages(answer), file_answers[i].pages);
    }
}

/* ---- Words ------------------------------------------------------------- */

#define END (-1)

#define EVEN_TO_34 0, 2, 4, 6, 8, 10, 12, 14, 16, 18, 20, 22, 24, 26, 28, 30, \
                   32, 34
#define EVEN_TO_40 EVEN_TO_34, 36, 38, 40
#define EVERY_ODD 1, 3, 5, 7, 9, 11, 13, 15, 17, 19, 21, 23, 25, 27, 29, 31, \
                  33, 35, 37, 39, 41, 43, 45
#define EVERY_THIRD 0, 3, 6, 9, 12, 15, 18, 21, 24, 27, 30, 33, 36, 39, 42, 45

/* A value, the set cells of its word and of its filled word, the pulses of the
 * fill, its capacity */
static const struct value {
    uint32_t value;
    int cells[24];
    int filled[24];
    unsigned pulses;
    unsigned capacity;
} values[] = {
    {0, {END}, {EVEN_TO_40, 42, 44, END}, 23, 23},
    {1, {45, END}, {EVEN_TO_40, 42, 45, END}, 22, 22},
    {2, {44, END}, {EVEN_TO_40, 42, 44, END}, 22, 23},
    {3, {43, END}, {EVEN_TO_40, 43, END}, 21, 22},
    {77, {37, 39, 45, END}, {EVEN_TO_34, 37, 39, 41, 43, 45, END}, 20, 22},
    {243, {34, 41, 44, END}, {EVEN_TO_34, 36, 38, 41, 44, END}, 19, 22},
    {2971215072u, {EVERY_ODD, END}, {EVERY_ODD, END}, 0, 22},
    {2971215073u, {0, END}, {EVEN_TO_40, 42, 44, END}, 22, 23},
    {2971215074u, {0, 45, END}, {EVEN_TO_40, 42, 45, END}, 21, 22},
    {3889371024u, {EVERY_THIRD, END}, {EVERY_THIRD, END}, 0, 15},
    {4294967295u,
     {0, 2, 6, 11, 13, 15, 19, 21, 25, 33, 37, 40, 43, END},
     {0, 2, 4, 6, 8, 11, 13, 15, 17, 19, 21, 23, 25, 27, 29, 31, 33, 35, 37, 40,
      43, END},
     8,
     21},
};

/* The word with these cells set: cell 45 is the bit worth 1. */
static uint64_t word_of(const int *cells)
{
    uint64_t word = 0;

    for (; *cells != END; cells++)
        word |= UINT64_C(1) << (45 - *cells);
    return word;
}

static void check_values(void)
{
    size_t i;

    for (i = 0; i < COUNT(values); i++) {
        const struct value *row = &values[i];
        uint64_t word = word_of(row->cells);

        in_case("value", row->value);
        check_number("word", wom_encode_word(row->value), word);
        check_number("word", wom_decode_word(word), row->value);
        check_number("word", wom_fill_word(word),
                     FILLED(word_of(row->filled), row->pulses));
        check_number("word", wom_word_capacity(word), row->capacity);
    }
}

/* A word and the answer of its fill, each as a whole number */
static const struct {
    uint64_t word;
    uint64_t answer;
} fills[] = {
    {UINT64_C(0x000000000000), UINT64_C(0x00172aaaaaaaaaaa)}, /* of 0 */
    {UINT64_C(0x000000000001), UINT64_C(0x00162aaaaaaaaaa9)}, /* of 1 */
    {UINT64_C(0x000000000002), UINT64_C(0x00162aaaaaaaaaaa)}, /* of 2 */
    {UINT64_C(0x000000000004), UINT64_C(0x00152aaaaaaaaaa4)}, /* of 3 */
    {UINT64_C(0x000000000141), UINT64_C(0x00142aaaaaaaa955)}, /* of 77 */
    {UINT64_C(0x000000000812), UINT64_C(0x00132aaaaaaaaa92)}, /* of 243 */
    {UINT64_C(0x249249249249), UINT64_C(0x0000249249249249)}, /* 3889371024 */
};

static void check_fills(void)
{
    size_t i;

    for (i = 0; i < COUNT(fills); i++) {
        in_case("fill of the word", fills[i].word);
        check_number("word", wom_fill_word(fills[i].word), fills[i].answer);
    }
}

/* The refusal is the whole answer: a refused fill has no pulses. */
static const struct {
    uint64_t word;
    unsigned number;
} refused_words[] = {
    {UINT64_C(0x0000400000000000), 10}, /* the lowest bit above cell 0 */
    {UINT64_C(0x8000000000000000), 10},
    {UINT64_MAX, 10},
    {UINT64_C(0x0000300000000000), 11}, /* cells 0 and 1 */
    {UINT64_C(0x0000000000000003), 11}, /* cells 44 and 45 */
    {UINT64_C(0x00003fffffffffff), 11}, /* every cell */
    {UINT64_C(0x00002aaaaaaaaaaa), 12}, /* every even cell: 4807526975 */
    {UINT64_C(0x0000288545101125), 12}, /* 4294967296 */
};

static void check_refused_words(void)
{
    size_t i;

    for (i = 0; i < COUNT(refused_words); i++) {
        uint64_t word = refused_words[i].word;
        uint64_t refused = REFUSED(refused_words[i].number, 0);

        in_case("word", word);
        check_number("word-refusal", wom_decode_word(word), refused);
        check_number("word-refusal", wom_fill_word(word), refused);
        check_number("word-refusal", wom_word_capacity(word), refused);
    }
}

/* ---- Pages and records ------------------------------------------------- */

/* Four words take 23 bytes of a page, and four values 16 bytes of a first
 * record. The pages here have the same four words eleven times, or, of 512
 * bytes, twenty-two times, but for a few bytes where a record begins or ends:
 * the page's first five, with the header, and the last two of its words. */
struct page {
    uint8_t start[5];
    uint8_t words[23];
    uint8_t end[2];
};

#define TIMES_7(b) b, b, b, b, b, b, b
#define TIMES_16(b) TIMES_7(b), TIMES_7(b), b, b
#define TIMES_23(b) TIMES_16(b), TIMES_7(b)

static const struct page blank = {{0}, {0}, {0}};

/* 176 zero bytes, filled, and over them: no record, one zero byte, the byte
 * 10010110, 126 bytes of ones. Where 23 ones are written to a word, all its 46
 * cells are set. */
static const struct page zeros_first = {{0x01}, {0}, {0}};
static const struct page zeros_filled = {
    {0x03, 0, 0, 0xaa, 0xaa}, {TIMES_23(0xaa)}, {0xaa, 0xaa},
};
static const struct page zeros_none = {
    {0x07, 0, 0, 0xaa, 0xaa}, {TIMES_23(0xaa)}, {0xaa, 0xaa},
};
static const struct page zeros_zero = {
    {0x07, 1, 0, 0xaa, 0xaa}, {TIMES_23(0xaa)}, {0xaa, 0xaa},
};
static const struct page zeros_byte = {
    {0x07, 1, 0, 0xeb, 0xbe}, {TIMES_23(0xaa)}, {0xaa, 0xaa},
};
static const struct page zeros_ones = {
    {0x07, 126, 0, 0xff, 0xff}, {TIMES_23(0xff)}, {0xff, 0xaa},
};

/* 44 times 3889371024, filled, which sets no cell of a word, and over it 82
 * bytes of ones: four data cells are left. A separator in cell 45 stands right
 * before the next word's cell 0. */
#define LEAST_WORDS \
    0x92, 0x49, 0x24, 0x92, 0x49, 0x26, 0x49, 0x24, 0x92, 0x49, 0x24, 0x99, \
    0x24, 0x92, 0x49, 0x24, 0x92, 0x64, 0x92, 0x49, 0x24, 0x92, 0x49
#define LEAST_WORDS_ONES \
    0xdb, 0x6d, 0xb6, 0xdb, 0x6d, 0xb7, 0x6d, 0xb6, 0xdb, 0x6d, 0xb6, 0xdd, \
    0xb6, 0xdb, 0x6d, 0xb6, 0xdb, 0x76, 0xdb, 0x6d, 0xb6, 0xdb, 0x6d

static const struct page least_first = {
    {0x01, 0, 0, 0x92, 0x49}, {LEAST_WORDS}, {0x92, 0x49},
};
static const struct page least_filled = {
    {0x03, 0, 0, 0x92, 0x49}, {LEAST_WORDS}, {0x92, 0x49},
};
static const struct page least_ones = {
    {0x07, 82, 0, 0xdb, 0x6d}, {LEAST_WORDS_ONES}, {0xd2, 0x49},
};

/* 1, 77, 243 and 3889371024, filled, and over them: no record, one zero
 * byte. */
#define MIXED_WORDS_FILLED \
    0xaa, 0xaa, 0xaa, 0xaa, 0xaa, 0xa6, 0xaa, 0xaa, 0xaa, 0xaa, 0x95, 0x5a, \
    0xaa, 0xaa, 0xaa, 0xaa, 0xa4, 0xa4, 0x92, 0x49, 0x24, 0x92, 0x49

static const struct page mixed_first = {
    {0x01, 0, 0, 0x00, 0x00},
    {0x00, 0x00, 0x00, 0x00, 0x00, 0x04, 0x00, 0x00, 0x00, 0x00, 0x14, 0x10,
     0x00, 0x00, 0x00, 0x02, 0x04, 0xa4, 0x92, 0x49, 0x24, 0x92, 0x49},
    {0x92, 0x49},
};
static const struct page mixed_filled = {
    {0x03, 0, 0, 0xaa, 0xaa}, {MIXED_WORDS_FILLED}, {0x92, 0x49},
};
static const struct page mixed_none = {
    {0x07, 0, 0, 0xaa, 0xaa}, {MIXED_WORDS_FILLED}, {0x92, 0x49},
};
static const struct page mixed_zero = {
    {0x07, 1, 0, 0xaa, 0xaa}, {MIXED_WORDS_FILLED}, {0x92, 0x49},
};

/* 44 times 3, filled, and over it 121 bytes of ones, which take every data
 * cell; the same as versions before 4.0.0 left it, with cell 45 set. */
#define THREES_WORDS_ONES \
    0xff, 0xff, 0xff, 0xff, 0xff, 0xdb, 0xff, 0xff, 0xff, 0xff, 0xff, 0x6f, \
    0xff, 0xff, 0xff, 0xff, 0xfd, 0xbf, 0xff, 0xff, 0xff, 0xff, 0xf6

static const struct page threes_first = {
    {0x01, 0, 0, 0x00, 0x00},
    {0x00, 0x00, 0x00, 0x00, 0x00, 0x10, 0x00, 0x00, 0x00, 0x00, 0x00, 0x40,
     0x00, 0x00, 0x00, 0x00, 0x01, 0x00, 0x00, 0x00, 0x00, 0x00, 0x04},
    {0x00, 0x04},
};
static const struct page threes_filled = {
    {0x03, 0, 0, 0xaa, 0xaa},
    {0xaa, 0xaa, 0xaa, 0xaa, 0xaa, 0x92, 0xaa, 0xaa, 0xaa, 0xaa, 0xaa, 0x4a,
     0xaa, 0xaa, 0xaa, 0xaa, 0xa9, 0x2a, 0xaa, 0xaa, 0xaa, 0xaa, 0xa4},
    {0xaa, 0xa4},
};
static const struct page threes_ones = {
    {0x07, 121, 0, 0xff, 0xff}, {THREES_WORDS_ONES}, {0xff, 0xf6},
};
static const struct page threes_filled_earlier = {
    {0x03, 0, 0, 0xaa, 0xaa},
    {0xaa, 0xaa, 0xaa, 0xaa, 0xaa, 0x96, 0xaa, 0xaa, 0xaa, 0xaa, 0xaa, 0x5a,
     0xaa, 0xaa, 0xaa, 0xaa, 0xa9, 0x6a, 0xaa, 0xaa, 0xaa, 0xaa, 0xa5},
    {0xaa, 0xa5},
};
static const struct page threes_ones_earlier = {
    {0x07, 121, 0, 0xff, 0xff},
    {0xff, 0xff, 0xff, 0xff, 0xff, 0xdf, 0xff, 0xff, 0xff, 0xff, 0xff, 0x7f,
     0xff, 0xff, 0xff, 0xff, 0xfd, 0xff, 0xff, 0xff, 0xff, 0xff, 0xf7},
    {0xff, 0xf7},
};

/* 176 zero bytes, and over them by the Inspect code: no record, one zero byte,
 * 247 of them, the byte 00000001, whose pair goes into the page's next byte,
 * the same where cell 9 is set, the byte 10010110, 126 bytes of ones, of which
 * the last word takes 19. */
static const struct page zeros_inspect_none = {{0x09}, {0}, {0}};
static const struct page zeros_inspect_zero = {{0x09, 1}, {0}, {0}};
static const struct page zeros_inspect_zeros = {{0x09, 247}, {0}, {0}};
static const struct page zeros_inspect_one = {
    {0x09, 1, 0, 0x01, 0x80}, {0}, {0},
};
static const struct page zeros_inspect_one_9 = {
    {0x09, 1, 0, 0x01, 0xc0}, {0}, {0},
};
static const struct page zeros_inspect_byte = {
    {0x09, 1, 0, 0xcd, 0xe0}, {0}, {0},
};
static const struct page zeros_inspect_ones = {
    {0x09, 126, 0, 0xff, 0xff}, {TIMES_23(0xff)}, {0xff, 0x00},
};

/* 44 times 3889371024, and over it by the Inspect code: the byte 10010110, 165
 * zero bytes, which leave each word as it is, 126 bytes of ones. */
static const struct page least_inspect_byte = {
    {0x09, 1, 0, 0xd6, 0xf9}, {LEAST_WORDS}, {0x92, 0x49},
};
static const struct page least_inspect_zeros = {
    {0x09, 165, 0, 0x92, 0x49}, {LEAST_WORDS}, {0x92, 0x49},
};
static const struct page least_inspect_ones = {
    {0x09, 126, 0, 0xff, 0xff}, {TIMES_23(0xff)}, {0xff, 0x49},
};

/* Over pages of 512 bytes, each record taking every data cell: 253 bytes of
 * ones over 352 zero bytes, 165 over 88 times 3889371024, 242 over 88 times
 * 3. */
static const struct page zeros_ones_253 = {
    {0x07, 253, 0, 0xff, 0xff}, {TIMES_23(0xff)}, {0xff, 0xff},
};
static const struct page least_ones_165 = {
    {0x07, 165, 0, 0xdb, 0x6d}, {LEAST_WORDS_ONES}, {0xdb, 0x6d},
};
static const struct page threes_ones_242 = {
    {0x07, 242, 0, 0xff, 0xff}, {THREES_WORDS_ONES}, {0xff, 0xf6},
};

/* By the Inspect code, over 352 zero bytes: 255 zero bytes, the most that byte
 * 1 alone can tell, 256, 257 and 495 of them; over 88 times 3889371024: 330
 * zero bytes, which leave each word as it is; over any page: 253 bytes of
 * ones. */
static const struct page zeros_inspect_255 = {{0x09, 0xff, 0x00}, {0}, {0}};
static const struct page zeros_inspect_256 = {{0x09, 0x00, 0x01}, {0}, {0}};
static const struct page zeros_inspect_257 = {{0x09, 0x01, 0x01}, {0}, {0}};
static const struct page zeros_inspect_495 = {{0x09, 0xef, 0x01}, {0}, {0}};
static const struct page least_inspect_330 = {
    {0x09, 0x4a, 0x01, 0x92, 0x49}, {LEAST_WORDS}, {0x92, 0x49},
};
static const struct page inspect_ones_253 = {
    {0x09, 0xfd, 0x00, 0xff, 0xff}, {TIMES_23(0xff)}, {0xff, 0xff},
};

/* No page of any state. */
static const struct page all_nines = {
    {0x99, 0x99, 0x99, 0x99, 0x99}, {TIMES_23(0x99)}, {0x99, 0x99},
};

/* Sixteen bytes, which repeat themselves. */
static const uint8_t zeros[16] = {0};
static const uint8_t one[16] = {TIMES_16(0x01)};
static const uint8_t ones[16] = {TIMES_16(0xff)};
static const uint8_t byte[16] = {TIMES_16(0x96)};
static const uint8_t nines[16] = {TIMES_16(0x99)};
static const uint8_t least[16] = {
    0xe7, 0xd3, 0x17, 0x90, 0xe7, 0xd3, 0x17, 0x90,
    0xe7, 0xd3, 0x17, 0x90, 0xe7, 0xd3, 0x17, 0x90,
};
static const uint8_t mixed[16] = {
    0, 0, 0, 1, 0, 0, 0, 77, 0, 0, 0, 243, 0xe7, 0xd3, 0x17, 0x90,
};

#define ROOM 4112 /* bytes for a page or another buffer, and bytes after it */

/* On a page of 256 or of 512 bytes; after the words of the latter are three
 * bytes of 0. Of 4096 bytes: a block whose page 0 this is, and the others
 * blank. */
static void lay_page(uint8_t bytes[ROOM], const struct page *page, size_t size)
{
    size_t times = size == 512 ? 22 : 11, i;

    memset(bytes, 0x55, ROOM);
    memset(bytes, 0, size);
    for (i = 0; i < times; i++)
        memcpy(bytes + 3 + 23 * i, page->words, 23);
    memcpy(bytes, page->start, 5);
    memcpy(bytes + 1 + 23 * times, page->end, 2);
}

static void lay_record(uint8_t bytes[ROOM], const uint8_t sixteen[16],
                       size_t length)
{
    size_t i;

    for (i = 0; i < length; i++)
        bytes[i] = sixteen[i % 16];
}

/* ---- Page entries ------------------------------------------------------ */

enum entry {
    WRITE_FIRST,
    READ_FIRST,
    PAGE_CAPACITY,
    FILL_PAGE,
    WRITE_SECOND,
    READ_SECOND,
    WRITE_INSPECT,
    READ_INSPECT,
    PLACE_RECORD,
    COLLECT_BLOCK
};

static const char *const names[] = {
    "wom_write_first", "wom_read_first", "wom_page_capacity", "wom_fill_page",
    "wom_write_second", "wom_read_second", "wom_write_inspect",
    "wom_read_inspect", "wom_place_record", "wom_collect_block",
};

/* The other buffer is the data, the record, the output or the target; page
 * capacity and fill page have none. A buffer of length 0 is given as null. Of a
 * block page 0 and page 2 are marked. */
static uint64_t call(enum entry entry, uint8_t *page, size_t page_length,
                     uint8_t *other, size_t other_length)
{
    page = page_length == 0 ? NULL : page;
    other = other_length == 0 ? NULL : other;
    switch (entry) {
    case WRITE_FIRST:
        return wom_write_first(page, page_length, other, other_length);
    case READ_FIRST:
        return wom_read_first(page, page_length, other, other_length);
    case PAGE_CAPACITY:
        return wom_page_capacity(page, page_length);
    case FILL_PAGE:
        return wom_fill_page(page, page_length);
    case WRITE_SECOND:
        return wom_write_second(page, page_length, other, other_length);
    case READ_SECOND:
        return wom_read_second(page, page_length, other, other_length);
    case WRITE_INSPECT:
        return wom_write_inspect(page, page_length, other, other_length);
    case READ_INSPECT:
        return wom_read_inspect(page, page_length, other, other_length);
    case PLACE_RECORD:
        return wom_place_record(page, page_length, 0x0005, other, other_length);
    default:
        return wom_collect_block(page, page_length, 0x0005, other,
                                 other_length);
    }
}

/* A call: its buffers, what it must answer, and what it must leave in them. */
struct trial {
    enum entry entry;
    uint8_t page[ROOM];
    size_t page_length;
    uint8_t other[ROOM];
    size_t length; /* of the other buffer */
    uint64_t answer;
    uint8_t page_left[ROOM];
    uint8_t other_left[ROOM];
};

static uint64_t cleared_cells(const uint8_t *before, const uint8_t *after)
{
    uint64_t count = 0;
    int i;

    for (i = 0; i < 8 * ROOM; i++)
        count += (before[i / 8] & ~after[i / 8]) >> i % 8 & 1;
    return count;
}

static void check_trial(struct trial *trial)
{
    int refused = wom_refusal(trial->answer) != 0;
    uint8_t before[ROOM];
    uint64_t answer;

    memcpy(before, trial->page, ROOM);
    answer = call(trial->entry, trial->page, trial->page_length, trial->other,
                  trial->length);
    check_number(refused ? "refusal" : "answer", answer, trial->answer);
    check_bytes(refused ? "page-kept" : "page", trial->page, trial->page_left,
                ROOM);
    check_bytes(refused ? "other-kept" : "other", trial->other,
                trial->other_left, ROOM);
    check_number("cleared", cleared_cells(before, trial->page), 0);
}

/* The page and the other buffer with its length; the result, the page
 * afterwards, and what the other buffer starts with afterwards, in how many
 * bytes. All else stays. Of a record of no byte and one zero byte over the same
 * page only byte 1 differs. */
static const struct accepted {
    enum entry entry;
    const struct page *page;
    const uint8_t *other;
    size_t length;
    uint64_t result;
    const struct page *page_left;
    const uint8_t *put;
    size_t put_length;
} accepted[] = {
    {WRITE_FIRST, &blank, zeros, 176, 0, &zeros_first, zeros, 0},
    {WRITE_FIRST, &blank, least, 176, 0, &least_first, zeros, 0},
    {WRITE_FIRST, &blank, mixed, 176, 0, &mixed_first, zeros, 0},

    {READ_FIRST, &zeros_first, nines, 176, 0, &zeros_first, zeros, 176},
    {READ_FIRST, &least_first, nines, 177, 0, &least_first, least, 176},
    {READ_FIRST, &mixed_first, nines, 300, 0, &mixed_first, mixed, 176},

    {PAGE_CAPACITY, &zeros_first, nines, 0, 1012, &zeros_first, zeros, 0},
    {PAGE_CAPACITY, &least_first, nines, 0, 660, &least_first, zeros, 0},
    {PAGE_CAPACITY, &mixed_first, nines, 0, 891, &mixed_first, zeros, 0},
    {PAGE_CAPACITY, &zeros_filled, nines, 0, 1012, &zeros_filled, zeros, 0},
    {PAGE_CAPACITY, &least_filled, nines, 0, 660, &least_filled, zeros, 0},
    {PAGE_CAPACITY, &mixed_filled, nines, 0, 891, &mixed_filled, zeros, 0},
    {PAGE_CAPACITY, &threes_first, nines, 0, 968, &threes_first, zeros, 0},
    {PAGE_CAPACITY, &threes_filled, nines, 0, 968, &threes_filled, zeros, 0},
    {PAGE_CAPACITY, &threes_filled_earlier, nines, 0, 968,
     &threes_filled_earlier, zeros, 0},

    {FILL_PAGE, &zeros_first, nines, 0, 1012, &zeros_filled, zeros, 0},
    {FILL_PAGE, &least_first, nines, 0, 0, &least_filled, zeros, 0},
    {FILL_PAGE, &mixed_first, nines, 0, 671, &mixed_filled, zeros, 0},
    {FILL_PAGE, &threes_first, nines, 0, 924, &threes_filled, zeros, 0},

    {WRITE_SECOND, &zeros_filled, zeros, 0, 0, &zeros_none, zeros, 0},
    {WRITE_SECOND, &zeros_filled, zeros, 1, 0, &zeros_zero, zeros, 0},
    {WRITE_SECOND, &zeros_filled, byte, 1, 0, &zeros_byte, zeros, 0},
    {WRITE_SECOND, &zeros_filled, ones, 126, 0, &zeros_ones, zeros, 0},
    {WRITE_SECOND, &least_filled, ones, 82, 0, &least_ones, zeros, 0},
    {WRITE_SECOND, &mixed_filled, zeros, 0, 0, &mixed_none, zeros, 0},
    {WRITE_SECOND, &mixed_filled, zeros, 1, 0, &mixed_zero, zeros, 0},
    {WRITE_SECOND, &threes_filled, ones, 121, 0, &threes_ones, zeros, 0},
    {WRITE_SECOND, &threes_filled_earlier, ones, 121, 0, &threes_ones_earlier,
     zeros, 0},

    {READ_SECOND, &zeros_none, nines, 0, 0, &zeros_none, zeros, 0},
    {READ_SECOND, &zeros_zero, nines, 1, 1, &zeros_zero, zeros, 1},
    {READ_SECOND, &zeros_byte, nines, 2, 1, &zeros_byte, byte, 1},
    {READ_SECOND, &zeros_ones, nines, 126, 126, &zeros_ones, ones, 126},
    {READ_SECOND, &least_ones, nines, 300, 82, &least_ones, ones, 82},
    {READ_SECOND, &mixed_none, nines, 1, 0, &mixed_none, zeros, 0},
    {READ_SECOND, &mixed_zero, nines, 2, 1, &mixed_zero, zeros, 1},
    {READ_SECOND, &threes_ones, nines, 121, 121, &threes_ones, ones, 121},
    {READ_SECOND, &threes_ones_earlier, nines, 300, 121, &threes_ones_earlier,
     ones, 121},

    {WRITE_INSPECT, &zeros_first, zeros, 0, 0, &zeros_inspect_none, zeros, 0},
    {WRITE_INSPECT, &zeros_first, zeros, 1, 0, &zeros_inspect_zero, zeros, 0},
    {WRITE_INSPECT, &zeros_first, zeros, 247, 0, &zeros_inspect_zeros, zeros,
     0},
    {WRITE_INSPECT, &zeros_first, one, 1, 0, &zeros_inspect_one, zeros, 0},
    {WRITE_INSPECT, &zeros_first, byte, 1, 0, &zeros_inspect_byte, zeros, 0},
    {WRITE_INSPECT, &zeros_first, ones, 126, 0, &zeros_inspect_ones, zeros, 0},
    {WRITE_INSPECT, &least_first, byte, 1, 0, &least_inspect_byte, zeros, 0},
    {WRITE_INSPECT, &least_first, zeros, 165, 0, &least_inspect_zeros, zeros,
     0},
    {WRITE_INSPECT, &least_first, ones, 126, 0, &least_inspect_ones, zeros, 0},

    {READ_INSPECT, &zeros_inspect_none, nines, 0, 0, &zeros_inspect_none, zeros,
     0},
    {READ_INSPECT, &zeros_inspect_none, nines, 1, 0, &zeros_inspect_none, zeros,
     0},
    {READ_INSPECT, &zeros_inspect_zero, nines, 1, 1, &zeros_inspect_zero, zeros,
     1},
    {READ_INSPECT, &zeros_inspect_zeros, nines, 247, 247, &zeros_inspect_zeros,
     zeros, 247},
    {READ_INSPECT, &zeros_inspect_one, nines, 2, 1, &zeros_inspect_one, one, 1},
    {READ_INSPECT, &zeros_inspect_one_9, nines, 2, 1, &zeros_inspect_one_9, one,
     1},
    {READ_INSPECT, &zeros_inspect_byte, nines, 2, 1, &zeros_inspect_byte, byte,
     1},
    {READ_INSPECT, &zeros_inspect_ones, nines, 126, 126, &zeros_inspect_ones,
     ones, 126},
    {READ_INSPECT, &least_inspect_byte, nines, 1, 1, &least_inspect_byte, byte,
     1},
    {READ_INSPECT, &least_inspect_zeros, nines, 166, 165, &least_inspect_zeros,
     zeros, 165},
    {READ_INSPECT, &least_inspect_ones, nines, 4096, 126, &least_inspect_ones,
     ones, 126},
};

/* The same with pages of 512 bytes. */
static const struct accepted accepted_512[] = {
    {WRITE_FIRST, &blank, zeros, 352, 0, &zeros_first, zeros, 0},
    {WRITE_FIRST, &blank, least, 352, 0, &least_first, zeros, 0},
    {WRITE_FIRST, &blank, mixed, 352, 0, &mixed_first, zeros, 0},

    {READ_FIRST, &zeros_first, nines, 352, 0, &zeros_first, zeros, 352},
    {READ_FIRST, &least_first, nines, 353, 0, &least_first, least, 352},
    {READ_FIRST, &mixed_first, nines, 600, 0, &mixed_first, mixed, 352},

    {PAGE_CAPACITY, &zeros_first, nines, 0, 2024, &zeros_first, zeros, 0},
    {PAGE_CAPACITY, &least_first, nines, 0, 1320, &least_first, zeros, 0},
    {PAGE_CAPACITY, &mixed_first, nines, 0, 1782, &mixed_first, zeros, 0},
    {PAGE_CAPACITY, &zeros_filled, nines, 0, 2024, &zeros_filled, zeros, 0},
    {PAGE_CAPACITY, &least_filled, nines, 0, 1320, &least_filled, zeros, 0},
    {PAGE_CAPACITY, &mixed_filled, nines, 0, 1782, &mixed_filled, zeros, 0},
    {PAGE_CAPACITY, &threes_filled, nines, 0, 1936, &threes_filled, zeros, 0},

    {FILL_PAGE, &zeros_first, nines, 0, 2024, &zeros_filled, zeros, 0},
    {FILL_PAGE, &least_first, nines, 0, 0, &least_filled, zeros, 0},
    {FILL_PAGE, &mixed_first, nines, 0, 1342, &mixed_filled, zeros, 0},
    {FILL_PAGE, &threes_first, nines, 0, 1848, &threes_filled, zeros, 0},

    {WRITE_SECOND, &zeros_filled, zeros, 0, 0, &zeros_none, zeros, 0},
    {WRITE_SECOND, &zeros_filled, zeros, 1, 0, &zeros_zero, zeros, 0},
    {WRITE_SECOND, &zeros_filled, byte, 1, 0, &zeros_byte, zeros, 0},
    {WRITE_SECOND, &zeros_filled, ones, 253, 0, &zeros_ones_253, zeros, 0},
    {WRITE_SECOND, &least_filled, ones, 165, 0, &least_ones_165, zeros, 0},
    {WRITE_SECOND, &mixed_filled, zeros, 1, 0, &mixed_zero, zeros, 0},
    {WRITE_SECOND, &threes_filled, ones, 242, 0, &threes_ones_242, zeros, 0},

    {READ_SECOND, &zeros_none, nines, 0, 0, &zeros_none, zeros, 0},
    {READ_SECOND, &zeros_zero, nines, 1, 1, &zeros_zero, zeros, 1},
    {READ_SECOND, &zeros_byte, nines, 2, 1, &zeros_byte, byte, 1},
    {READ_SECOND, &zeros_ones_253, nines, 253, 253, &zeros_ones_253, ones, 253},
    {READ_SECOND, &least_ones_165, nines, 165, 165, &least_ones_165, ones, 165},
    {READ_SECOND, &mixed_zero, nines, 2, 1, &mixed_zero, zeros, 1},
    {READ_SECOND, &threes_ones_242, nines, 600, 242, &threes_ones_242, ones,
     242},

    {WRITE_INSPECT, &zeros_first, zeros, 0, 0, &zeros_inspect_none, zeros, 0},
    {WRITE_INSPECT, &zeros_first, byte, 1, 0, &zeros_inspect_byte, zeros, 0},
    {WRITE_INSPECT, &zeros_first, zeros, 255, 0, &zeros_inspect_255, zeros, 0},
    {WRITE_INSPECT, &zeros_first, zeros, 256, 0, &zeros_inspect_256, zeros, 0},
    {WRITE_INSPECT, &zeros_first, zeros, 257, 0, &zeros_inspect_257, zeros, 0},
    {WRITE_INSPECT, &zeros_first, zeros, 495, 0, &zeros_inspect_495, zeros, 0},
    {WRITE_INSPECT, &least_first, zeros, 330, 0, &least_inspect_330, zeros, 0},
    {WRITE_INSPECT, &zeros_first, ones, 253, 0, &inspect_ones_253, zeros, 0},
    {WRITE_INSPECT, &least_first, ones, 253, 0, &inspect_ones_253, zeros, 0},
    {WRITE_INSPECT, &mixed_first, ones, 253, 0, &inspect_ones_253, zeros, 0},
    {WRITE_INSPECT, &threes_first, ones, 253, 0, &inspect_ones_253, zeros, 0},

    {READ_INSPECT, &zeros_inspect_none, nines, 0, 0, &zeros_inspect_none, zeros,
     0},
    {READ_INSPECT, &zeros_inspect_byte, nines, 2, 1, &zeros_inspect_byte, byte,
     1},
    {READ_INSPECT, &zeros_inspect_255, nines, 255, 255, &zeros_inspect_255,
     zeros, 255},
    {READ_INSPECT, &zeros_inspect_256, nines, 256, 256, &zeros_inspect_256,
     zeros, 256},
    {READ_INSPECT, &zeros_inspect_257, nines, 600, 257, &zeros_inspect_257,
     zeros, 257},
    {READ_INSPECT, &zeros_inspect_495, nines, 495, 495, &zeros_inspect_495,
     zeros, 495},
    {READ_INSPECT, &least_inspect_330, nines, 331, 330, &least_inspect_330,
     zeros, 330},
    {READ_INSPECT, &inspect_ones_253, nines, 253, 253, &inspect_ones_253, ones,
     253},
};

/* The same with blocks: the record goes over page 0, and two pages are kept. */
static const struct accepted accepted_4096[] = {
    {PLACE_RECORD, &zeros_first, zeros, 0, 0, &zeros_none, zeros, 0},
    {PLACE_RECORD, &zeros_first, zeros, 1, 0, &zeros_zero, zeros, 0},
    {PLACE_RECORD, &zeros_first, byte, 1, 0, &zeros_byte, zeros, 0},
    {PLACE_RECORD, &zeros_first, ones, 126, 0, &zeros_ones, zeros, 0},
    {PLACE_RECORD, &least_first, ones, 82, 0, &least_ones, zeros, 0},
    {PLACE_RECORD, &mixed_first, zeros, 1, 0, &mixed_zero, zeros, 0},
    {PLACE_RECORD, &threes_first, ones, 121, 0, &threes_ones, zeros, 0},

    {COLLECT_BLOCK, &blank, zeros, 4096, 2, &blank, zeros, 0},
    {COLLECT_BLOCK, &all_nines, zeros, 4096, 2, &all_nines, nines, 256},
};

static void check_accepted_call(const struct accepted *row, size_t size)
{
    struct trial trial = {.entry = row->entry,
                          .page_length = size,
                          .length = row->length,
                          .answer = row->result};

    lay_page(trial.page, row->page, size);
    lay_page(trial.page_left, row->page_left, size);
    lay_record(trial.other, row->other, ROOM);
    lay_record(trial.other_left, row->other, ROOM);
    lay_record(trial.other_left, row->put, row->put_length);
    check_trial(&trial);
}

static void check_accepted(void)
{
    size_t i;

    for (i = 0; i < COUNT(accepted); i++) {
        in_case(names[accepted[i].entry], i);
        check_accepted_call(&accepted[i], 256);
    }
    for (i = 0; i < COUNT(accepted_512); i++) {
        in_case(names[accepted_512[i].entry], 1000 + i);
        check_accepted_call(&accepted_512[i], 512);
    }
    for (i = 0; i < COUNT(accepted_4096); i++) {
        in_case(names[accepted_4096[i].entry], 2000 + i);
        check_accepted_call(&accepted_4096[i], 4096);
    }
}

/* The page with its length, and what one of its bytes is put to before the
 * call; the other buffer's length; the refusal's number and index. After a page
 * of 256 bytes come bytes that are not 0. */
static const struct refused {
    enum entry entry;
    const struct page *page;
    size_t page_length;
    int byte;
    uint8_t value;
    size_t length;
    unsigned number;
    uint64_t index;
} refused[] = {
    {WRITE_FIRST, &blank, 0, 0, 0x00, 176, 1, 0},
    {WRITE_FIRST, &blank, 0, 0, 0x00, 0, 1, 0},
    {WRITE_FIRST, &blank, 255, 0, 0x00, 176, 1, 0},
    {WRITE_FIRST, &blank, 257, 0, 0x00, 176, 1, 0},
    {WRITE_FIRST, &blank, 256, 0, 0x00, 0, 2, 0},
    {WRITE_FIRST, &blank, 256, 0, 0x00, 175, 2, 0},
    {WRITE_FIRST, &blank, 256, 0, 0x00, 177, 2, 0},
    {WRITE_FIRST, &blank, 256, 0, 0x80, 176, 4, 0},
    {WRITE_FIRST, &blank, 256, 255, 0x01, 176, 4, 0},

    {READ_FIRST, &zeros_first, 0, 0, 0x01, 176, 1, 0},
    {READ_FIRST, &zeros_first, 0, 0, 0x01, 0, 1, 0},
    {READ_FIRST, &zeros_first, 255, 0, 0x01, 176, 1, 0},
    {READ_FIRST, &zeros_first, 257, 0, 0x01, 176, 1, 0},
    {READ_FIRST, &zeros_first, 512, 0, 0x01, 352, 6, 0}, /* bytes 509 to 511 */
    {READ_FIRST, &zeros_first, 256, 0, 0x07, 176, 5, 0},
    {READ_FIRST, &zeros_filled, 256, 0, 0x03, 176, 5, 0},
    {READ_FIRST, &zeros_inspect_none, 256, 0, 0x09, 176, 5, 0},
    {READ_FIRST, &zeros_first, 256, 1, 0x01, 176, 6, 0},
    {READ_FIRST, &zeros_first, 256, 2, 0x80, 176, 6, 0},
    {READ_FIRST, &zeros_first, 256, 3, 0xc0, 176, 7, 0}, /* cells 0 and 1 */
    {READ_FIRST, &zeros_first, 256, 8, 0x03, 176, 7, 1}, /* cells 0 and 1 */
    {READ_FIRST, &zeros_first, 256, 255, 0x03, 176, 7, 43}, /* 44 and 45 */
    {READ_FIRST, &zeros_none, 256, 0, 0x01, 176, 7, 0}, /* every even cell */
    {READ_FIRST, &zeros_first, 256, 0, 0x01, 175, 3, 0},
    {READ_FIRST, &zeros_first, 256, 0, 0x01, 0, 3, 0},

    {PAGE_CAPACITY, &zeros_first, 0, 0, 0x01, 0, 1, 0},
    {PAGE_CAPACITY, &zeros_first, 257, 0, 0x01, 0, 1, 0},
    {PAGE_CAPACITY, &zeros_first, 512, 0, 0x01, 0, 6, 0},
    {PAGE_CAPACITY, &zeros_first, 256, 0, 0x00, 0, 5, 0},
    {PAGE_CAPACITY, &zeros_first, 256, 0, 0x02, 0, 5, 0},
    {PAGE_CAPACITY, &zeros_none, 256, 0, 0x07, 0, 5, 0},
    {PAGE_CAPACITY, &zeros_inspect_none, 256, 0, 0x09, 0, 5, 0},
    {PAGE_CAPACITY, &zeros_first, 256, 1, 0x80, 0, 6, 0},
    {PAGE_CAPACITY, &zeros_first, 256, 2, 0x01, 0, 6, 0},
    {PAGE_CAPACITY, &zeros_first, 256, 8, 0x03, 0, 7, 1},
    {PAGE_CAPACITY, &zeros_filled, 256, 0, 0x01, 0, 7, 0}, /* the sum */
    {PAGE_CAPACITY, &zeros_filled, 0, 0, 0x03, 0, 1, 0},
    {PAGE_CAPACITY, &zeros_filled, 255, 0, 0x03, 0, 1, 0},
    {PAGE_CAPACITY, &zeros_filled, 256, 1, 0x01, 0, 6, 0},
    {PAGE_CAPACITY, &zeros_filled, 256, 2, 0x80, 0, 6, 0},
    {PAGE_CAPACITY, &zeros_ones, 256, 0, 0x03, 0, 6, 0},
    {PAGE_CAPACITY, &zeros_first, 256, 0, 0x03, 0, 7, 0}, /* room everywhere */
    {PAGE_CAPACITY, &zeros_filled, 256, 3, 0x2a, 0, 7, 0}, /* at cell 0 */
    {PAGE_CAPACITY, &zeros_filled, 256, 8, 0xab, 0, 7, 1}, /* a data cell */
    {PAGE_CAPACITY, &zeros_filled, 256, 255, 0xab, 0, 7, 43}, /* a data cell */
    {PAGE_CAPACITY, &threes_filled, 256, 255, 0xa1, 0, 7, 43}, /* at cell 42 */

    {FILL_PAGE, &zeros_first, 0, 0, 0x01, 0, 1, 0},
    {FILL_PAGE, &zeros_first, 255, 0, 0x01, 0, 1, 0},
    {FILL_PAGE, &zeros_first, 257, 0, 0x01, 0, 1, 0},
    {FILL_PAGE, &zeros_first, 256, 0, 0x00, 0, 5, 0},
    {FILL_PAGE, &zeros_first, 256, 0, 0x03, 0, 5, 0},
    {FILL_PAGE, &zeros_first, 256, 0, 0x07, 0, 5, 0},
    {FILL_PAGE, &zeros_first, 256, 0, 0x81, 0, 5, 0},
    {FILL_PAGE, &zeros_filled, 256, 0, 0x03, 0, 5, 0},
    {FILL_PAGE, &least_filled, 256, 0, 0x03, 0, 5, 0},
    {FILL_PAGE, &zeros_inspect_none, 256, 0, 0x09, 0, 5, 0},
    {FILL_PAGE, &zeros_first, 256, 1, 0x01, 0, 6, 0},
    {FILL_PAGE, &zeros_first, 256, 2, 0x80, 0, 6, 0},
    {FILL_PAGE, &zeros_first, 256, 3, 0xc0, 0, 7, 0}, /* cells 0 and 1 */
    {FILL_PAGE, &zeros_first, 256, 8, 0x03, 0, 7, 1}, /* cells 0 and 1 */
    {FILL_PAGE, &zeros_first, 256, 255, 0x03, 0, 7, 43}, /* 44 and 45 */
    {FILL_PAGE, &mixed_first, 256, 255, 0x4b, 0, 7, 43}, /* 44 and 45 */
    {FILL_PAGE, &zeros_filled, 256, 0, 0x01, 0, 7, 0}, /* every even cell */

    {WRITE_SECOND, &zeros_filled, 0, 0, 0x03, 1, 1, 0},
    {WRITE_SECOND, &zeros_filled, 0, 0, 0x03, 0, 1, 0},
    {WRITE_SECOND, &zeros_filled, 255, 0, 0x03, 1, 1, 0},
    {WRITE_SECOND, &zeros_filled, 257, 0, 0x03, 127, 1, 0},
    {WRITE_SECOND, &zeros_filled, 256, 0, 0x00, 1, 5, 0},
    {WRITE_SECOND, &zeros_filled, 256, 0, 0x01, 1, 5, 0},
    {WRITE_SECOND, &zeros_filled, 256, 0, 0x02, 1, 5, 0},
    {WRITE_SECOND, &zeros_filled, 256, 0, 0x07, 127, 5, 0},
    {WRITE_SECOND, &mixed_first, 256, 0, 0x01, 1, 5, 0},
    {WRITE_SECOND, &zeros_ones, 256, 0, 0x07, 1, 5, 0},
    {WRITE_SECOND, &zeros_inspect_none, 256, 0, 0x09, 1, 5, 0},
    {WRITE_SECOND, &zeros_filled, 256, 0, 0x09, 1, 5, 0},
    {WRITE_SECOND, &zeros_filled, 256, 1, 0x01, 1, 6, 0},
    {WRITE_SECOND, &zeros_filled, 256, 2, 0x01, 127, 6, 0},
    {WRITE_SECOND, &zeros_ones, 256, 0, 0x03, 1, 6, 0},
    {WRITE_SECOND, &mixed_first, 256, 0, 0x03, 1, 7, 0}, /* not filled */
    {WRITE_SECOND, &zeros_filled, 256, 3, 0x2a, 1, 7, 0}, /* room at cell 0 */
    {WRITE_SECOND, &zeros_filled, 256, 3, 0xea, 1, 7, 0}, /* a data cell */
    {WRITE_SECOND, &least_filled, 256, 3, 0xb2, 1, 7, 0}, /* cell 3 is one */
    {WRITE_SECOND, &zeros_filled, 256, 8, 0xa8, 1, 7, 1}, /* room at cell 0 */
    {WRITE_SECOND, &zeros_filled, 256, 255, 0xa8, 0, 7, 43}, /* at cell 44 */
    {WRITE_SECOND, &zeros_filled, 256, 255, 0xab, 127, 7, 43}, /* a data cell */
    {WRITE_SECOND, &threes_filled, 256, 255, 0xa0, 1, 7, 43}, /* at cell 42 */
    {WRITE_SECOND, &threes_filled_earlier, 256, 255, 0xa1, 1, 7, 43}, /* 42 */
    {WRITE_SECOND, &zeros_filled, 256, 0, 0x03, 127, 8, 1012},
    {WRITE_SECOND, &least_filled, 256, 0, 0x03, 83, 8, 660},
    {WRITE_SECOND, &mixed_filled, 256, 0, 0x03, 112, 8, 891},
    {WRITE_SECOND, &threes_filled, 256, 0, 0x03, 122, 8, 968},
    {WRITE_SECOND, &threes_filled_earlier, 256, 0, 0x03, 122, 8, 968},

    {READ_SECOND, &zeros_ones, 0, 0, 0x07, 126, 1, 0},
    {READ_SECOND, &zeros_ones, 0, 0, 0x07, 0, 1, 0},
    {READ_SECOND, &zeros_ones, 257, 0, 0x07, 126, 1, 0},
    {READ_SECOND, &zeros_ones, 256, 0, 0x01, 126, 5, 0},
    {READ_SECOND, &zeros_filled, 256, 0, 0x03, 126, 5, 0},
    {READ_SECOND, &zeros_inspect_none, 256, 0, 0x09, 126, 5, 0},
    {READ_SECOND, &zeros_ones, 256, 0, 0x09, 126, 5, 0},
    {READ_SECOND, &zeros_ones, 256, 1, 127, 127, 6, 0},
    {READ_SECOND, &zeros_ones, 256, 2, 0x01, 126, 6, 0},
    {READ_SECOND, &zeros_none, 256, 2, 0x01, 256, 6, 0}, /* 256 */
    {READ_SECOND, &zeros_none, 256, 3, 0x00, 126, 7, 0}, /* room at cell 0 */
    {READ_SECOND, &zeros_none, 256, 255, 0xa8, 126, 7, 43}, /* at cell 44 */
    {READ_SECOND, &threes_ones, 256, 255, 0xf0, 126, 7, 43}, /* at cell 42 */
    {READ_SECOND, &zeros_none, 256, 255, 0xab, 126, 9, 0}, /* a spare cell */
    {READ_SECOND, &least_ones, 256, 1, 83, 126, 9, 0}, /* too few data cells */
    {READ_SECOND, &zeros_ones, 256, 0, 0x07, 125, 3, 0},
    {READ_SECOND, &zeros_ones, 256, 0, 0x07, 0, 3, 0},

    {WRITE_INSPECT, &zeros_first, 0, 0, 0x01, 1, 1, 0},
    {WRITE_INSPECT, &zeros_first, 0, 0, 0x01, 0, 1, 0},
    {WRITE_INSPECT, &zeros_first, 255, 0, 0x01, 1, 1, 0},
    {WRITE_INSPECT, &zeros_first, 257, 0, 0x01, 248, 1, 0},
    {WRITE_INSPECT, &zeros_first, 512, 0, 0x01, 1, 6, 0}, /* 509 to 511 */
    {WRITE_INSPECT, &zeros_ones, 255, 0, 0x07, 1, 1, 0},
    {WRITE_INSPECT, &zeros_first, 256, 0, 0x00, 1, 5, 0},
    {WRITE_INSPECT, &zeros_first, 256, 0, 0x02, 1, 5, 0},
    {WRITE_INSPECT, &zeros_first, 256, 0, 0x09, 248, 5, 0},
    {WRITE_INSPECT, &zeros_first, 256, 0, 0x81, 1, 5, 0},
    {WRITE_INSPECT, &zeros_filled, 256, 0, 0x03, 1, 5, 0},
    {WRITE_INSPECT, &zeros_ones, 256, 0, 0x07, 1, 5, 0},
    {WRITE_INSPECT, &zeros_inspect_none, 256, 0, 0x09, 1, 5, 0},
    {WRITE_INSPECT, &zeros_inspect_ones, 256, 0, 0x09, 1, 5, 0},
    {WRITE_INSPECT, &zeros_first, 256, 1, 0x01, 1, 6, 0},
    {WRITE_INSPECT, &zeros_first, 256, 2, 0x80, 248, 6, 0},
    {WRITE_INSPECT, &zeros_ones, 256, 0, 0x01, 1, 6, 0},
    {WRITE_INSPECT, &zeros_first, 256, 3, 0xc0, 1, 7, 0}, /* cells 0 and 1 */
    {WRITE_INSPECT, &zeros_first, 256, 8, 0x03, 1, 7, 1}, /* cells 0 and 1 */
    {WRITE_INSPECT, &zeros_first, 256, 255, 0x03, 0, 7, 43}, /* 44 and 45 */
    {WRITE_INSPECT, &zeros_first, 256, 255, 0x03, 4096, 7, 43},
    {WRITE_INSPECT, &zeros_filled, 256, 0, 0x01, 1, 7, 0}, /* every even cell */

    {READ_INSPECT, &zeros_inspect_ones, 0, 0, 0x09, 126, 1, 0},
    {READ_INSPECT, &zeros_inspect_ones, 0, 0, 0x09, 0, 1, 0},
    {READ_INSPECT, &zeros_inspect_ones, 255, 0, 0x09, 126, 1, 0},
    {READ_INSPECT, &zeros_ones, 257, 0, 0x07, 126, 1, 0},
    {READ_INSPECT, &zeros_inspect_ones, 256, 0, 0x01, 126, 5, 0},
    {READ_INSPECT, &zeros_inspect_ones, 256, 0, 0x08, 126, 5, 0},
    {READ_INSPECT, &zeros_inspect_ones, 256, 0, 0x0b, 126, 5, 0},
    {READ_INSPECT, &blank, 256, 0, 0x00, 126, 5, 0},
    {READ_INSPECT, &zeros_first, 256, 0, 0x01, 126, 5, 0},
    {READ_INSPECT, &zeros_filled, 256, 0, 0x03, 126, 5, 0},
    {READ_INSPECT, &zeros_ones, 256, 0, 0x07, 126, 5, 0},
    {READ_INSPECT, &zeros_none, 256, 1, 248, 248, 5, 0},
    {READ_INSPECT, &zeros_inspect_zeros, 256, 1, 248, 248, 6, 0},
    {READ_INSPECT, &zeros_inspect_ones, 256, 1, 255, 255, 6, 0},
    {READ_INSPECT, &zeros_inspect_none, 256, 2, 0x01, 256, 6, 0}, /* 256 */
    {READ_INSPECT, &zeros_inspect_none, 512, 0, 0x09, 126, 6, 0},
    {READ_INSPECT, &zeros_inspect_ones, 256, 2, 0x80, 0, 6, 0},
    {READ_INSPECT, &zeros_inspect_none, 256, 3, 0xaa, 126, 7, 0}, /* the sum */
    {READ_INSPECT, &zeros_inspect_zeros, 256, 3, 0xaa, 0, 7, 0}, /* then 9, 3 */
    {READ_INSPECT, &zeros_inspect_none, 256, 3, 0xc0, 126, 7, 0}, /* not read */
    {READ_INSPECT, &zeros_inspect_zero, 256, 4, 0xc0, 126, 7, 0}, /* not read */
    {READ_INSPECT, &zeros_inspect_one, 256, 4, 0xe0, 126, 7, 0}, /* 9 and 10 */
    {READ_INSPECT, &zeros_inspect_zero, 256, 8, 0x03, 126, 7, 1},
    {READ_INSPECT, &zeros_inspect_ones, 256, 255, 0x18, 126, 7, 43},
    {READ_INSPECT, &zeros_inspect_ones, 256, 255, 0x03, 0, 7, 43},
    {READ_INSPECT, &zeros_inspect_ones, 256, 1, 125, 126, 7, 43},
    {READ_INSPECT, &zeros_inspect_ones, 256, 1, 0, 126, 7, 0},
    {READ_INSPECT, &zeros_inspect_ones, 256, 1, 127, 127, 9, 0}, /* 1015 bits */
    {READ_INSPECT, &zeros_inspect_ones, 256, 1, 247, 247, 9, 0},
    {READ_INSPECT, &least_inspect_zeros, 256, 1, 166, 166, 9, 0},
    {READ_INSPECT, &least_inspect_zeros, 256, 1, 166, 0, 9, 0},
    {READ_INSPECT, &zeros_inspect_one, 256, 0, 0x09, 0, 3, 0},
    {READ_INSPECT, &zeros_inspect_ones, 256, 0, 0x09, 125, 3, 0},
    {READ_INSPECT, &zeros_inspect_zeros, 256, 0, 0x09, 246, 3, 0},
};

/* The same with pages of 512 bytes. */
static const struct refused refused_512[] = {
    {WRITE_FIRST, &blank, 511, 0, 0x00, 352, 1, 0},
    {WRITE_FIRST, &blank, 513, 0, 0x00, 352, 1, 0},
    {WRITE_FIRST, &blank, 384, 0, 0x00, 264, 1, 0},
    {WRITE_FIRST, &blank, 1024, 0, 0x00, 704, 1, 0},
    {WRITE_FIRST, &blank, 512, 0, 0x00, 176, 2, 0},
    {WRITE_FIRST, &blank, 512, 0, 0x00, 351, 2, 0},
    {WRITE_FIRST, &blank, 512, 0, 0x00, 353, 2, 0},
    {WRITE_FIRST, &blank, 256, 0, 0x00, 352, 2, 0},
    {WRITE_FIRST, &blank, 512, 0, 0x80, 352, 4, 0},
    {WRITE_FIRST, &blank, 512, 256, 0x01, 352, 4, 0},
    {WRITE_FIRST, &blank, 512, 508, 0x01, 352, 4, 0},
    {WRITE_FIRST, &blank, 512, 509, 0x01, 352, 4, 0},
    {WRITE_FIRST, &blank, 512, 510, 0x10, 352, 4, 0},
    {WRITE_FIRST, &blank, 512, 511, 0x80, 352, 4, 0},

    {READ_FIRST, &zeros_first, 511, 0, 0x01, 352, 1, 0},
    {READ_FIRST, &zeros_first, 513, 0, 0x01, 352, 1, 0},
    {READ_FIRST, &zeros_first, 512, 0, 0x03, 352, 5, 0},
    {READ_FIRST, &zeros_first, 512, 1, 0x01, 352, 6, 0},
    {READ_FIRST, &zeros_first, 512, 2, 0x80, 352, 6, 0},
    {READ_FIRST, &zeros_first, 512, 509, 0x80, 352, 6, 0},
    {READ_FIRST, &zeros_first, 512, 510, 0x01, 352, 6, 0},
    {READ_FIRST, &zeros_first, 512, 511, 0x01, 0, 6, 0},
    {READ_FIRST, &zeros_none, 512, 511, 0x01, 352, 5, 0},
    {READ_FIRST, &zeros_first, 512, 3, 0xc0, 352, 7, 0},
    {READ_FIRST, &zeros_first, 512, 255, 0x03, 352, 7, 43},
    {READ_FIRST, &zeros_first, 512, 256, 0xc0, 352, 7, 44},
    {READ_FIRST, &zeros_first, 512, 508, 0x03, 352, 7, 87},
    {READ_FIRST, &zeros_first, 512, 0, 0x01, 351, 3, 0},
    {READ_FIRST, &zeros_first, 512, 0, 0x01, 176, 3, 0},

    {PAGE_CAPACITY, &zeros_first, 511, 0, 0x01, 0, 1, 0},
    {PAGE_CAPACITY, &zeros_first, 512, 0, 0x07, 0, 5, 0},
    {PAGE_CAPACITY, &zeros_first, 512, 1, 0x80, 0, 6, 0},
    {PAGE_CAPACITY, &zeros_first, 512, 509, 0x01, 0, 6, 0},
    {PAGE_CAPACITY, &least_first, 512, 510, 0x08, 0, 6, 0},
    {PAGE_CAPACITY, &mixed_first, 512, 511, 0x80, 0, 6, 0},
    {PAGE_CAPACITY, &zeros_first, 512, 508, 0x03, 0, 7, 87},
    {PAGE_CAPACITY, &zeros_filled, 513, 0, 0x03, 0, 1, 0},
    {PAGE_CAPACITY, &zeros_filled, 512, 2, 0x01, 0, 6, 0},
    {PAGE_CAPACITY, &zeros_filled, 512, 509, 0xaa, 0, 6, 0},
    {PAGE_CAPACITY, &least_filled, 512, 510, 0x01, 0, 6, 0},
    {PAGE_CAPACITY, &mixed_filled, 512, 511, 0x01, 0, 6, 0},
    {PAGE_CAPACITY, &zeros_first, 512, 0, 0x03, 0, 7, 0},
    {PAGE_CAPACITY, &zeros_filled, 512, 256, 0xba, 0, 7, 44},
    {PAGE_CAPACITY, &zeros_filled, 512, 508, 0xab, 0, 7, 87},

    {FILL_PAGE, &zeros_first, 511, 0, 0x01, 0, 1, 0},
    {FILL_PAGE, &zeros_first, 512, 0, 0x03, 0, 5, 0},
    {FILL_PAGE, &zeros_first, 512, 2, 0x80, 0, 6, 0},
    {FILL_PAGE, &zeros_first, 512, 509, 0x01, 0, 6, 0},
    {FILL_PAGE, &zeros_first, 512, 510, 0x01, 0, 6, 0},
    {FILL_PAGE, &zeros_first, 512, 511, 0x01, 0, 6, 0},
    {FILL_PAGE, &zeros_first, 512, 256, 0xc0, 0, 7, 44},
    {FILL_PAGE, &mixed_first, 512, 508, 0x4b, 0, 7, 87},

    {WRITE_SECOND, &zeros_filled, 513, 0, 0x03, 1, 1, 0},
    {WRITE_SECOND, &zeros_filled, 512, 0, 0x01, 1, 5, 0},
    {WRITE_SECOND, &zeros_filled, 512, 1, 0x01, 1, 6, 0},
    {WRITE_SECOND, &zeros_filled, 512, 509, 0x01, 1, 6, 0},
    {WRITE_SECOND, &zeros_filled, 512, 510, 0x80, 254, 6, 0},
    {WRITE_SECOND, &zeros_filled, 512, 511, 0x01, 0, 6, 0},
    {WRITE_SECOND, &zeros_filled, 512, 508, 0xa8, 0, 7, 87},
    {WRITE_SECOND, &zeros_filled, 512, 0, 0x03, 254, 8, 2024},
    {WRITE_SECOND, &least_filled, 512, 0, 0x03, 166, 8, 1320},
    {WRITE_SECOND, &mixed_filled, 512, 0, 0x03, 223, 8, 1782},
    {WRITE_SECOND, &least_filled, 512, 0, 0x03, 4096, 8, 1320},

    {READ_SECOND, &zeros_none, 511, 0, 0x07, 253, 1, 0},
    {READ_SECOND, &zeros_none, 512, 0, 0x03, 253, 5, 0},
    {READ_SECOND, &zeros_none, 512, 1, 254, 254, 6, 0},
    {READ_SECOND, &zeros_none, 512, 2, 0x01, 253, 6, 0},
    {READ_SECOND, &zeros_none, 512, 509, 0x01, 253, 6, 0},
    {READ_SECOND, &zeros_ones_253, 512, 510, 0x01, 253, 6, 0},
    {READ_SECOND, &least_ones_165, 512, 511, 0x80, 0, 6, 0},
    {READ_SECOND, &zeros_none, 512, 3, 0x2a, 253, 7, 0},
    {READ_SECOND, &zeros_none, 512, 508, 0xa8, 253, 7, 87},
    {READ_SECOND, &least_ones_165, 512, 1, 166, 253, 9, 0}, /* 1320 bits */
    {READ_SECOND, &least_ones_165, 512, 1, 253, 253, 9, 0},
    {READ_SECOND, &zeros_ones_253, 512, 1, 252, 253, 9, 0}, /* a spare cell */
    {READ_SECOND, &zeros_none, 512, 508, 0xab, 253, 9, 0},
    {READ_SECOND, &zeros_ones_253, 512, 0, 0x07, 252, 3, 0},
    {READ_SECOND, &zeros_ones_253, 512, 0, 0x07, 126, 3, 0},

    {WRITE_INSPECT, &zeros_first, 511, 0, 0x01, 1, 1, 0},
    {WRITE_INSPECT, &zeros_first, 513, 0, 0x01, 496, 1, 0},
    {WRITE_INSPECT, &zeros_first, 512, 0, 0x03, 0, 5, 0},
    {WRITE_INSPECT, &zeros_inspect_495, 512, 511, 0x01, 1, 5, 0},
    {WRITE_INSPECT, &zeros_first, 512, 1, 0x01, 1, 6, 0},
    {WRITE_INSPECT, &zeros_first, 512, 2, 0x01, 496, 6, 0},
    {WRITE_INSPECT, &zeros_first, 512, 509, 0x80, 1, 6, 0},
    {WRITE_INSPECT, &zeros_first, 512, 510, 0x01, 496, 6, 0},
    {WRITE_INSPECT, &zeros_first, 512, 511, 0x01, 0, 6, 0},
    {WRITE_INSPECT, &zeros_filled, 512, 0, 0x01, 1, 7, 0}, /* every even cell */
    {WRITE_INSPECT, &zeros_first, 512, 255, 0x03, 0, 7, 43},
    {WRITE_INSPECT, &zeros_first, 512, 256, 0xc0, 1, 7, 44},
    {WRITE_INSPECT, &zeros_first, 512, 508, 0x03, 4096, 7, 87},

    {READ_INSPECT, &zeros_inspect_none, 511, 0, 0x09, 495, 1, 0},
    {READ_INSPECT, &zeros_inspect_495, 513, 0, 0x09, 495, 1, 0},
    {READ_INSPECT, &zeros_inspect_495, 512, 0, 0x07, 495, 5, 0},
    {READ_INSPECT, &zeros_ones_253, 512, 511, 0x01, 495, 5, 0},
    {READ_INSPECT, &zeros_inspect_495, 512, 1, 0xf0, 496, 6, 0}, /* 496 */
    {READ_INSPECT, &inspect_ones_253, 512, 2, 0x01, 509, 6, 0},  /* 509 */
    {READ_INSPECT, &zeros_inspect_none, 512, 2, 0x02, 512, 6, 0}, /* 512 */
    {READ_INSPECT, &zeros_inspect_none, 512, 2, 0x80, 0, 6, 0},
    {READ_INSPECT, &zeros_inspect_none, 512, 509, 0x01, 495, 6, 0},
    {READ_INSPECT, &zeros_inspect_495, 512, 510, 0x01, 495, 6, 0},
    {READ_INSPECT, &inspect_ones_253, 512, 511, 0x80, 0, 6, 0},
    {READ_INSPECT, &inspect_ones_253, 512, 1, 0, 495, 7, 0}, /* not read */
    {READ_INSPECT, &inspect_ones_253, 512, 1, 126, 495, 7, 43},
    {READ_INSPECT, &inspect_ones_253, 512, 1, 127, 495, 7, 44},
    {READ_INSPECT, &inspect_ones_253, 512, 1, 252, 495, 7, 87},
    {READ_INSPECT, &zeros_inspect_495, 512, 256, 0xaa, 0, 7, 44}, /* the sum */
    {READ_INSPECT, &zeros_inspect_none, 512, 508, 0x03, 495, 7, 87},
    {READ_INSPECT, &inspect_ones_253, 512, 1, 254, 495, 9, 0}, /* 2024 bits */
    {READ_INSPECT, &least_inspect_330, 512, 1, 0x4b, 495, 9, 0}, /* 2640 */
    {READ_INSPECT, &least_inspect_330, 512, 1, 0xef, 0, 9, 0},
    {READ_INSPECT, &zeros_inspect_256, 512, 0, 0x09, 0, 3, 0},
    {READ_INSPECT, &zeros_inspect_257, 512, 0, 0x09, 1, 3, 0},
    {READ_INSPECT, &zeros_inspect_257, 512, 0, 0x09, 256, 3, 0},
    {READ_INSPECT, &zeros_inspect_495, 512, 0, 0x09, 494, 3, 0},
};

/* The same with blocks, of whose targets no byte is 0. */
static const struct refused refused_4096[] = {
    {PLACE_RECORD, &zeros_first, 0, 0, 0x01, 1, 17, 0},
    {PLACE_RECORD, &zeros_first, 0, 0, 0x01, 0, 17, 0},
    {PLACE_RECORD, &zeros_first, 256, 0, 0x01, 1, 17, 0},
    {PLACE_RECORD, &zeros_first, 4095, 0, 0x01, 1, 17, 0},
    {PLACE_RECORD, &zeros_first, 4097, 0, 0x01, 127, 17, 0},
    {PLACE_RECORD, &blank, 4096, 0, 0x00, 0, 18, 0},
    {PLACE_RECORD, &zeros_first, 4096, 0, 0x00, 1, 18, 0},
    {PLACE_RECORD, &zeros_filled, 4096, 0, 0x03, 1, 18, 0},
    {PLACE_RECORD, &zeros_none, 4096, 0, 0x07, 0, 18, 0},
    {PLACE_RECORD, &zeros_inspect_none, 4096, 0, 0x09, 0, 18, 0},
    {PLACE_RECORD, &zeros_first, 4096, 0, 0x81, 1, 18, 0},
    {PLACE_RECORD, &zeros_first, 4096, 1, 0x01, 1, 18, 0},
    {PLACE_RECORD, &zeros_first, 4096, 2, 0x80, 1, 18, 0},
    {PLACE_RECORD, &zeros_first, 4096, 3, 0xc0, 1, 18, 0},
    {PLACE_RECORD, &zeros_first, 4096, 255, 0x03, 1, 18, 0},
    {PLACE_RECORD, &zeros_filled, 4096, 0, 0x01, 1, 18, 0}, /* the sum */
    {PLACE_RECORD, &zeros_first, 4096, 0, 0x01, 127, 18, 0},
    {PLACE_RECORD, &least_first, 4096, 0, 0x01, 83, 18, 0},
    {PLACE_RECORD, &mixed_first, 4096, 0, 0x01, 112, 18, 0},
    {PLACE_RECORD, &threes_first, 4096, 0, 0x01, 4096, 18, 0},

    {COLLECT_BLOCK, &zeros_first, 0, 0, 0x01, 4096, 17, 0},
    {COLLECT_BLOCK, &zeros_first, 0, 0, 0x01, 0, 17, 0},
    {COLLECT_BLOCK, &zeros_first, 4095, 0, 0x01, 4096, 17, 0},
    {COLLECT_BLOCK, &zeros_first, 4097, 0, 0x01, 4096, 17, 0},
    {COLLECT_BLOCK, &zeros_first, 4096, 0, 0x01, 0, 17, 0},
    {COLLECT_BLOCK, &zeros_first, 4096, 0, 0x01, 256, 17, 0},
    {COLLECT_BLOCK, &zeros_first, 4096, 0, 0x01, 4095, 17, 0},
    {COLLECT_BLOCK, &zeros_first, 4096, 0, 0x01, 4097, 17, 0},
    {COLLECT_BLOCK, &zeros_first, 4096, 0, 0x01, 4096, 19, 0},
};

static void check_refused_call(const struct refused *row, size_t size)
{
    struct trial trial = {.entry = row->entry,
                          .page_length = row->page_length,
                          .length = row->length,
                          .answer = REFUSED(row->number, row->index)};

    lay_page(trial.page, row->page, size);
    trial.page[row->byte] = row->value;
    memcpy(trial.page_left, trial.page, ROOM);
    lay_record(trial.other, nines, ROOM);
    memcpy(trial.other_left, trial.other, ROOM);
    check_trial(&trial);
}

static void check_refused(void)
{
    size_t i;

    for (i = 0; i < COUNT(refused); i++) {
        in_case(names[refused[i].entry], i);
        check_refused_call(&refused[i], 256);
    }
    for (i = 0; i < COUNT(refused_512); i++) {
        in_case(names[refused_512[i].entry], 1000 + i);
        check_refused_call(&refused_512[i], 512);
    }
    for (i = 0; i < COUNT(refused_4096); i++) {
        in_case(names[refused_4096[i].entry], 2000 + i);
        check_refused_call(&refused_4096[i], 4096);
    }
}

/* ---- Walks of the Inspect code ----------------------------------------- */

#define X2(s) s s
#define X3(s) s s s
#define X4(s) X2(s) X2(s)
#define X5(s) X2(s) X3(s)
#define X9(s) X4(s) X5(s)
#define X15(s) X5(s) X5(s) X5(s)
#define X18(s) X9(s) X9(s)
#define X22(s) X18(s) X4(s)
#define X23(s) X18(s) X5(s)
#define X30(s) X15(s) X15(s)
#define X33(s) X30(s) X3(s)
#define X36(s) X18(s) X18(s)
#define X37(s) X36(s) s
#define X38(s) X36(s) X2(s)
#define X44(s) X22(s) X22(s)
#define X45(s) X44(s) s
#define X46(s) X44(s) X2(s)

/* The cells of each word in the first round; the record's bits that the walk of
 * each word takes; the cells of each word afterwards, and those of the last
 * word of 44; the longest record that fits, in bytes, and the bits that the
 * walks take of a longer one, on 256 bytes and on 512. Where the walks of 44
 * words take half a byte more than the record, the last word takes four bits
 * fewer, and its later cells are as they were; those of 88 take whole bytes. */
static const struct walk {
    const char *first;
    const char *bits;
    const char *cells;
    const char *last;
    struct fit {
        size_t bytes;
        uint64_t bits;
    } fit, fit_512;
} walks[] = {
    /* the most bits and the fewest */
    {X46("0"), X45("0"), X46("0"), X46("0"), {247, 1980}, {495, 3960}},
    {X46("0"), X23("1"), X46("1"), X38("1") "00000000", {126, 1012},
     {253, 2024}},
    /* cell 45 remains alone: 0, set, set after a pair 10 */
    {X46("0"), "0" X22("1"), "0" X44("1") "0", "0" X36("1") "000000000",
     {126, 1012}, {253, 2024}},
    {X45("0") "1", "0" X22("1"), "0" X44("1") "1", "0" X36("1") "000000001",
     {126, 1012}, {253, 2024}},
    {X23("01"), X23("0"), X23("01"), X23("01"), {126, 1012}, {253, 2024}},
    {X15("100") "1", X30("0"), X15("100") "1", X15("100") "1", {165, 1320},
     {330, 2640}},
    /* ones over 01 and over 10 */
    {X23("01"), "10101" X18("0"), "11" "0" "11" "10" "11" X18("10") "1",
     "11" "0" "11" "10" "11" X18("10") "1", {126, 1012}, {253, 2024}},
    {X37("0") "101000001", X37("0") "01" "0001", X37("0") "10" "11" "00011",
     X37("0") "10" "11" "00001", {236, 1892}, {473, 3784}},
    {X33("0") "0100000010010", X33("0") "1" "000000" "1" "00",
     X33("0") "11" "000000" "11" "010", X33("0") "11" "00000010010",
     {236, 1892}, {473, 3784}},
};

/* '0' or '1', over a 0. */
static void put_bit(uint8_t *bytes, size_t number, char bit)
{
    bytes[number / 8] |= (uint8_t)((bit == '1') << (7 - number % 8));
}

static void lay_cells(uint8_t bytes[ROOM], size_t size, uint8_t state,
                      size_t length, const char *cells, const char *last)
{
    size_t words = size == 512 ? 88 : 44, i;

    memset(bytes, 0x55, ROOM);
    memset(bytes, 0, size);
    bytes[0] = state;
    bytes[1] = (uint8_t)(length % 256);
    bytes[2] = (uint8_t)(length / 256);
    for (i = 0; i < words * 46; i++)
        put_bit(bytes + 3, i,
                i / 46 < words - 1 ? cells[i % 46] : last[i % 46]);
}

/* Before the record, and with the longest that fits. */
static void lay_before(uint8_t bytes[ROOM], const struct walk *row, size_t size)
{
    lay_cells(bytes, size, 0x01, 0, row->first, row->first);
}

static void lay_after(uint8_t bytes[ROOM], const struct walk *row, size_t size)
{
    if (size == 512)
        lay_cells(bytes, 512, 0x09, row->fit_512.bytes, row->cells, row->cells);
    else
        lay_cells(bytes, 256, 0x09, row->fit.bytes, row->cells, row->last);
}

/* The same bits over and over. */
static void lay_bits(uint8_t *bytes, size_t length, const char *bits)
{
    size_t i;

    memset(bytes, 0, length);
    for (i = 0; i < 8 * length; i++)
        put_bit(bytes, i, bits[i % strlen(bits)]);
}

/* A record of that length, which is refused where it does not fit. */
static void check_written(const struct walk *row, size_t size,
                          const struct fit *fit, size_t length)
{
    struct trial trial = {
        .entry = WRITE_INSPECT, .page_length = size, .length = length};

    lay_before(trial.page, row, size);
    lay_bits(trial.other, ROOM, row->bits);
    lay_bits(trial.other_left, ROOM, row->bits);
    if (length > fit->bytes) {
        trial.answer = REFUSED(8, fit->bits);
        lay_before(trial.page_left, row, size);
    } else {
        lay_after(trial.page_left, row, size);
    }
    check_trial(&trial);
}

/* An output of that length, which is refused where it is too short. */
static void check_read(const struct walk *row, size_t size,
                       const struct fit *fit, size_t length)
{
    struct trial trial = {
        .entry = READ_INSPECT, .page_length = size, .length = length};

    lay_after(trial.page, row, size);
    lay_after(trial.page_left, row, size);
    lay_record(trial.other, nines, ROOM);
    lay_record(trial.other_left, nines, ROOM);
    trial.answer = length < fit->bytes ? REFUSED(3, 0) : fit->bytes;
    if (length >= fit->bytes)
        lay_bits(trial.other_left, fit->bytes, row->bits);
    check_trial(&trial);
}

static void check_walk(const struct walk *row, size_t size,
                       const struct fit *fit)
{
    check_written(row, size, fit, fit->bytes);
    check_written(row, size, fit, fit->bytes + 1);
    check_written(row, size, fit, 4096);
    check_read(row, size, fit, fit->bytes);
    check_read(row, size, fit, fit->bytes + 1);
    check_read(row, size, fit, fit->bytes - 1);
}

static void check_walks(void)
{
    size_t i;

    for (i = 0; i < COUNT(walks); i++) {
        in_case("walk", i);
        check_walk(&walks[i], 256, &walks[i].fit);
        in_case("walk", 1000 + i);
        check_walk(&walks[i], 512, &walks[i].fit_512);
    }
}

/* ---- Pulses of a page's fill ------------------------------------------- */

/* The value of one word and that of the 43 others, or the 87 others, and the
 * pulses of the page's fill, whichever word the one is. */
static const struct page_fill {
    uint32_t one;
    uint32_t others;
    uint64_t pulses;
    uint64_t pulses_512;
} page_fills[] = {
    {0, 0, 1012, 2024},
    {77, 0, 1009, 2021},
    {3889371024u, 0, 989, 2001},
    {3889371024u, 3889371024u, 0, 0},
    {0, 3889371024u, 23, 23},
    {243, 3889371024u, 19, 19},
    {1, 4294967295u, 366, 718},
};

static void lay_values(uint8_t data[352], const struct page_fill *row, int word)
{
    int i;

    for (i = 0; i < 352; i++) {
        uint32_t value = i / 4 == word ? row->one : row->others;

        data[i] = (uint8_t)(value >> (24 - 8 * (i % 4)));
    }
}

static uint64_t set_cells(const uint8_t *bytes, size_t length)
{
    uint64_t count = 0;
    size_t i;

    for (i = 0; i < 8 * length; i++)
        count += bytes[i / 8] >> i % 8 & 1;
    return count;
}

/* The state's one cell is in byte 0, and not among the pulses. */
static void check_pulses(size_t size, const uint8_t data[352], uint64_t pulses)
{
    uint8_t before[512] = {0}, after[512];

    check_number("answer",
                 wom_write_first(before, size, data, size == 512 ? 352 : 176),
                 0);
    memcpy(after, before, 512);
    check_number("pulses", wom_fill_page(after, size), pulses);
    check_number("pulses", set_cells(after + 3, 509),
                 set_cells(before + 3, 509) + pulses);
    check_number("pulses", set_cells(after, 512),
                 set_cells(before, 512) + pulses + 1);
}

static void check_each_word(const struct page_fill *row)
{
    uint8_t data[352];
    int word;

    for (word = 0; word < 88; word++) {
        lay_values(data, row, word);
        in_case("wom_fill_page, one word", (uint64_t)word);
        if (word < 44)
            check_pulses(256, data, row->pulses);
        check_pulses(512, data, row->pulses_512);
    }
}

static void check_page_fills(void)
{
    size_t i;

    for (i = 0; i < COUNT(page_fills); i++)
        check_each_word(&page_fills[i]);
}

/* ------------------------------------------------------------------------ */

int main(int argc, char **argv)
{
    take_arguments("header [plant KIND]", argc, argv);
    check_constants();
    check_texts();
    check_parts();
    check_filled_parts();
    check_file_parts();
    check_values();
    check_fills();
    check_refused_words();
    check_accepted();
    check_refused();
    check_walks();
    check_page_fills();
    return finish("header");
}

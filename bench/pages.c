/*
 * The page operations on 100 pseudo-random pages, with the longest record that
 * fits, and each on the page that takes it most instructions. A random record
 * of the Inspect code is one tenth ones. How it is started: passes.h. Before
 * each call the page is copied afresh, for `nothing` as well. The pages are of
 * 256 bytes, or of PAGE_BYTES.
 *
 * Kinds: answer    an answer
 *        page      the page afterwards
 *        out       the output afterwards
 *        data      the first record afterwards, which is only read
 *        record    the second record afterwards, which is only read
 *        sparse    that of the Inspect code
 *        refusal   an answer on a page that is refused
 */
#include "../tests/c/testing.h"
#include "passes.h"
#include "plain.h"
#include "wom.h"

#ifndef PAGE_BYTES
#define PAGE_BYTES WOM_PAGE_BYTES
#endif
#define FIRST_BYTES WOM_FIRST_BYTES_OF(PAGE_BYTES)
#define RECORD_BYTES WOM_SECOND_BYTES_MAX_OF(PAGE_BYTES)
#define SPARSE_BYTES WOM_INSPECT_BYTES_MAX_OF(PAGE_BYTES)
#define LAST_BYTE (PAGE_BYTES == 512 ? 508 : 255) /* of the words */

#define COUNT 100

/* The worst pages come after the random ones. Write first and read first have a
 * turn for each set cell, write second and read second one for each data cell,
 * write inspect and read inspect one for each pair; page capacity and fill page
 * take the same on every page. */
enum { MOST_SET = COUNT, MOST_ROOM, SHORT_RECORD, LAST_PART, ACCEPTED };

/* All words have the value. The record of the Inspect code has some zeros, then
 * ones: a pair each. */
static const struct {
    uint32_t value;
    size_t longest; /* the record's bytes, or fewer where these do not fit */
    size_t zeros;   /* bits */
} worst[ACCEPTED - COUNT] = {
    {2971215072u, RECORD_BYTES, 0}, /* every odd cell is set */
    {0, RECORD_BYTES, 0},           /* 23 data cells a word */
    {0, 10, 0}, /* the longest to copy and to test the spare cells */
    /* the walk ends in the last word, four cells before its end */
    {0, RECORD_BYTES, PAGE_BYTES == 512 ? 4 : 12},
};

#if PAGE_BYTES == 512
#define REFUSED 45
#else
#define REFUSED 36
#endif
#define PAGES (ACCEPTED + REFUSED)

typedef uint8_t page_bytes[PAGE_BYTES];

/* For each page: the first record, the second record and its length, the
 * Inspect code's, with room for one that does not fit, and its length, and the
 * page in its five states. The refused ones are compared only. */
static uint8_t data[PAGES][FIRST_BYTES];
static uint8_t record[PAGES][RECORD_BYTES];
static size_t record_length[PAGES];
static uint8_t sparse[PAGES][SPARSE_BYTES + 1];
static size_t sparse_length[PAGES];
static page_bytes blank[PAGES], first[PAGES], filled[PAGES], second[PAGES];
static page_bytes inspect[PAGES];

/* What a call works on. */
static page_bytes page;
static uint8_t out[SPARSE_BYTES]; /* no record is longer */

#define WITH_DATA(f)                                                  \
    static uint64_t call_##f(int i)                                   \
    {                                                                 \
        memcpy(page, blank[i], sizeof page);                          \
        return f(page, sizeof page, data[i], sizeof data[i]);         \
    }
#define WITH_PAGE(name, f, pages)                                     \
    static uint64_t call_##name(int i)                                \
    {                                                                 \
        memcpy(page, pages[i], sizeof page);                          \
        return f(page, sizeof page);                                  \
    }
#define WITH_RECORD(f, pages, record)                                 \
    static uint64_t call_##f(int i)                                   \
    {                                                                 \
        memcpy(page, pages[i], sizeof page);                          \
        return f(page, sizeof page, record[i], record##_length[i]);   \
    }
#define WITH_OUTPUT(f, pages)                                         \
    static uint64_t call_##f(int i)                                   \
    {                                                                 \
        memcpy(page, pages[i], sizeof page);                          \
        return f(page, sizeof page, out, sizeof out);                 \
    }

static uint64_t call_nothing(int i)
{
    memcpy(page, blank[i], sizeof page);
    return page[0];
}
WITH_DATA(wom_write_first)
WITH_DATA(plain_write_first)
WITH_OUTPUT(wom_read_first, first)
WITH_OUTPUT(plain_read_first, first)
WITH_PAGE(wom_page_capacity, wom_page_capacity, first)
WITH_PAGE(plain_page_capacity, plain_page_capacity, first)
WITH_PAGE(wom_filled_capacity, wom_page_capacity, filled)
WITH_PAGE(plain_filled_capacity, plain_page_capacity, filled)
WITH_PAGE(wom_fill_page, wom_fill_page, first)
WITH_PAGE(plain_fill_page, plain_fill_page, first)
WITH_RECORD(wom_write_second, filled, record)
WITH_RECORD(plain_write_second, filled, record)
WITH_OUTPUT(wom_read_second, second)
WITH_OUTPUT(plain_read_second, second)
WITH_RECORD(wom_write_inspect, first, sparse)
WITH_RECORD(plain_write_inspect, first, sparse)
WITH_OUTPUT(wom_read_inspect, inspect)
WITH_OUTPUT(plain_read_inspect, inspect)

/* Page capacity stands here twice: of a first-round page, and under the name
 * filled_capacity of a filled page. */
static const struct operation operations[] = {
    {"nothing", call_nothing, MOST_SET},
    {"wom_write_first", call_wom_write_first, MOST_SET},
    {"plain_write_first", call_plain_write_first, MOST_SET},
    {"wom_read_first", call_wom_read_first, MOST_SET},
    {"plain_read_first", call_plain_read_first, MOST_SET},
    {"wom_page_capacity", call_wom_page_capacity, MOST_ROOM},
    {"plain_page_capacity", call_plain_page_capacity, MOST_ROOM},
    {"wom_filled_capacity", call_wom_filled_capacity, MOST_ROOM},
    {"plain_filled_capacity", call_plain_filled_capacity, MOST_ROOM},
    {"wom_fill_page", call_wom_fill_page, MOST_ROOM},
    {"plain_fill_page", call_plain_fill_page, MOST_ROOM},
    {"wom_write_second", call_wom_write_second, MOST_ROOM},
    {"plain_write_second", call_plain_write_second, MOST_ROOM},
    {"wom_read_second", call_wom_read_second, SHORT_RECORD},
    {"plain_read_second", call_plain_read_second, SHORT_RECORD},
    {"wom_write_inspect", call_wom_write_inspect, MOST_ROOM},
    {"plain_write_inspect", call_plain_write_inspect, MOST_ROOM},
    {"wom_read_inspect", call_wom_read_inspect, LAST_PART},
    {"plain_read_inspect", call_plain_read_inspect, LAST_PART},
};

#define OPERATIONS ((int)(sizeof operations / sizeof operations[0]))

/* The library's. */
enum {
    WRITE_FIRST = 1,
    READ_FIRST = 3,
    PAGE_CAPACITY = 5,
    FILLED_CAPACITY = 7,
    FILL_PAGE = 9,
    WRITE_SECOND = 11,
    READ_SECOND = 13,
    WRITE_INSPECT = 15,
    READ_INSPECT = 17
};

/* Page 0, with one of its bytes put to another value, or its records made
 * longer, so that an operation refuses it by a number. The Inspect code's
 * record on it is longer than 255 bytes where the page has 512. */
static const struct refused {
    int operation;
    int byte;
    uint8_t value;
    size_t longer;
    unsigned number;
} refused[REFUSED] = {
    {WRITE_FIRST, 0, 0x01, 0, 4},
    {WRITE_FIRST, PAGE_BYTES - 1, 0x80, 0, 4},
    {READ_FIRST, 0, 0x07, 0, 5},
    {READ_FIRST, 1, 0x01, 0, 6},
    {READ_FIRST, LAST_BYTE, 0xff, 0, 7},
    {PAGE_CAPACITY, 0, 0x00, 0, 5},
    {PAGE_CAPACITY, 2, 0x01, 0, 6},
    {PAGE_CAPACITY, 3, 0xff, 0, 7},
    {FILLED_CAPACITY, 0, 0x07, 0, 5},
    {FILLED_CAPACITY, 1, 0x01, 0, 6},
    {FILLED_CAPACITY, 3, 0x00, 0, 7},   /* not well formed */
    {FILLED_CAPACITY, LAST_BYTE, 0xff, 0, 7}, /* a data cell is set */
    {FILL_PAGE, 0, 0x03, 0, 5},
    {FILL_PAGE, 1, 0x80, 0, 6},
    {FILL_PAGE, 128, 0xff, 0, 7},
    {WRITE_SECOND, 0, 0x01, 0, 5},
    {WRITE_SECOND, 2, 0x80, 0, 6},
    {WRITE_SECOND, LAST_BYTE, 0x00, 0, 7}, /* not well formed */
    {WRITE_SECOND, 128, 0xff, 0, 7}, /* a data cell is set */
    {WRITE_SECOND, 0, 0x03, 1, 8},
    {READ_SECOND, 0, 0x01, 0, 5},
    {READ_SECOND, 1, RECORD_BYTES + 1, 0, 6},
    {READ_SECOND, 3, 0x00, 0, 7},
    {READ_SECOND, 1, 0, 0, 9},   /* spare data cells are set */
    {READ_SECOND, 1, RECORD_BYTES, 0, 9}, /* too few data cells */
    {WRITE_INSPECT, 0, 0x03, 0, 5},
    {WRITE_INSPECT, 1, 0x01, 0, 6},
    {WRITE_INSPECT, 2, 0x80, 0, 6},
    {WRITE_INSPECT, 128, 0xff, 0, 7},
    {WRITE_INSPECT, 0, 0x01, 1, 8},
    {READ_INSPECT, 0, 0x07, 0, 5},
    {READ_INSPECT, 1, (SPARSE_BYTES + 1) % 256, 0, 6},
    {READ_INSPECT, 2, PAGE_BYTES / 256, 0, 6},
    {READ_INSPECT, 3, 0xaa, 0, 7}, /* the sum */
    {READ_INSPECT, 1, 0, 0, 7},    /* a pair 11 that is not read */
    {READ_INSPECT, 1, SPARSE_BYTES % 256, 0, 9},
#if PAGE_BYTES == 512
    {READ_FIRST, 509, 0x80, 0, 6},
    {PAGE_CAPACITY, 510, 0x01, 0, 6},
    {FILLED_CAPACITY, 511, 0x01, 0, 6},
    {FILL_PAGE, 509, 0xff, 0, 6},
    {WRITE_SECOND, 510, 0x10, 0, 6},
    {READ_SECOND, 511, 0x80, 0, 6},
    {WRITE_INSPECT, 509, 0x01, 0, 6},
    {READ_INSPECT, 510, 0x01, 0, 6},
    {READ_INSPECT, 2, 0, 0, 7}, /* a pair 11 that is not read */
#endif
};

/* Each bit is 1 with a probability of one tenth. */
static void fill_sparsely(uint8_t *bytes, size_t length, uint64_t *state)
{
    size_t i;

    for (i = 0; i < 8 * length; i++) {
        *state = next_state(*state);
        bytes[i / 8] |= (uint8_t)(((*state >> 32) % 10 == 0) << i % 8);
    }
}

/* Ones, after that many bits 0. */
static void fill_with_ones(uint8_t *bytes, size_t length, size_t zeros)
{
    size_t i;

    for (i = zeros; i < 8 * length; i++)
        bytes[i / 8] |= (uint8_t)(0x80 >> i % 8);
}

static void put_values(uint8_t *bytes, uint32_t value)
{
    int i;

    for (i = 0; i < FIRST_BYTES; i++)
        bytes[i] = (uint8_t)(value >> (24 - 8 * (i % 4)));
}

/* Page i in its first round, filled and in its second round, from its first
 * record and a random second one: the longest that fits, of at most that many
 * bytes. */
static void make_page(int i, size_t longest, uint64_t *state)
{
    size_t fits;

    plain_write_first(first[i], sizeof first[i], data[i], sizeof data[i]);
    fits = plain_page_capacity(first[i], sizeof first[i]) / 8;
    record_length[i] = fits < longest ? fits : longest;
    fill_at_random(record[i], record_length[i], state);
    memcpy(filled[i], first[i], sizeof filled[i]);
    plain_fill_page(filled[i], sizeof filled[i]);
    memcpy(second[i], filled[i], sizeof second[i]);
    plain_write_second(second[i], sizeof second[i], record[i],
                       record_length[i]);
}

/* Page i in its second round by the Inspect code: the record is cut to the
 * longest that fits, which plain C says where it refuses the whole. */
static void make_inspect(int i)
{
    uint64_t fits;

    memcpy(inspect[i], first[i], sizeof inspect[i]);
    fits = plain_write_inspect(inspect[i], sizeof inspect[i], sparse[i],
                               sizeof sparse[i]);
    sparse_length[i] = (size_t)wom_index(fits) / 8;
    plain_write_inspect(inspect[i], sizeof inspect[i], sparse[i],
                        sparse_length[i]);
}

static void make_pages(void)
{
    uint64_t state = 1;
    uint64_t sparse_state = 2;
    int i;

    for (i = 0; i < COUNT; i++) {
        fill_at_random(data[i], sizeof data[i], &state);
        make_page(i, RECORD_BYTES, &state);
        fill_sparsely(sparse[i], sizeof sparse[i], &sparse_state);
        make_inspect(i);
    }
    for (; i < ACCEPTED; i++) {
        put_values(data[i], worst[i - COUNT].value);
        make_page(i, worst[i - COUNT].longest, &state);
        fill_with_ones(sparse[i], sizeof sparse[i], worst[i - COUNT].zeros);
        make_inspect(i);
    }
}

static void make_refused(void)
{
    int i;

    for (i = ACCEPTED; i < PAGES; i++) {
        const struct refused *row = &refused[i - ACCEPTED];

        memcpy(data[i], data[0], sizeof data[i]);
        memcpy(record[i], record[0], sizeof record[i]);
        record_length[i] = record_length[0] + row->longer;
        memcpy(sparse[i], sparse[0], sizeof sparse[i]);
        sparse_length[i] = sparse_length[0] + row->longer;
        memcpy(first[i], first[0], sizeof first[i]);
        memcpy(filled[i], filled[0], sizeof filled[i]);
        memcpy(second[i], second[0], sizeof second[i]);
        memcpy(inspect[i], inspect[0], sizeof inspect[i]);
        blank[i][row->byte] = row->value;
        first[i][row->byte] = row->value;
        filled[i][row->byte] = row->value;
        second[i][row->byte] = row->value;
        inspect[i][row->byte] = row->value;
    }
}

/* What a call leaves. */
struct left {
    uint64_t answer;
    page_bytes page;
    uint8_t out[sizeof out];
    uint8_t data[sizeof data[0]];
    uint8_t record[sizeof record[0]];
    uint8_t sparse[sizeof sparse[0]];
};

static void take_buffers(struct left *left, int i)
{
    memcpy(left->page, page, sizeof page);
    memcpy(left->out, out, sizeof out);
    memcpy(left->data, data[i], sizeof data[i]);
    memcpy(left->record, record[i], sizeof record[i]);
    memcpy(left->sparse, sparse[i], sizeof sparse[i]);
}

static void make_call(struct left *left, int k, int i)
{
    memset(out, i, sizeof out);
    left->answer = operations[k].call(i);
    take_buffers(left, i);
}

/* Operation k of the library, on page i: the answer, with this refusal's
 * number, and every byte are those of plain C. */
static void compare_call(int k, int i, unsigned number)
{
    struct left before, library, plain;

    take_buffers(&before, i);
    make_call(&library, k, i);
    make_call(&plain, k + 1, i);
    in_case(operations[k].name, (uint64_t)i);
    check_answers(library.answer, plain.answer, number);
    check_bytes("page", library.page, plain.page, sizeof plain.page);
    check_bytes("out", library.out, plain.out, sizeof plain.out);
    check_bytes("data", library.data, before.data, sizeof before.data);
    check_bytes("record", library.record, before.record, sizeof before.record);
    check_bytes("sparse", library.sparse, before.sparse, sizeof before.sparse);
}

static void compare_pages(int k)
{
    int i;

    for (i = 0; i < ACCEPTED; i++)
        compare_call(k, i, 0);
}

static void compare_refused(void)
{
    int i;

    for (i = 0; i < REFUSED; i++)
        compare_call(refused[i].operation, ACCEPTED + i, refused[i].number);
}

static int compare(void)
{
    int k;

    for (k = WRITE_FIRST; k < OPERATIONS; k += 2)
        compare_pages(k);
    compare_refused();
    return finish("bench: pages beside plain C");
}

int main(int argc, char **argv)
{
    make_pages();
    if (asks_for_passes(argc, argv))
        return make_passes(operations, OPERATIONS, COUNT, argv);
    take_arguments(USAGE("pages"), argc, argv);
    make_refused();
    return compare();
}

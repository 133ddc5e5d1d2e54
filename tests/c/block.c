/*
 * Test of wom_place_record and wom_collect_block. Pages of every capacity, in
 * several orders, with marks of every kind, ties among them, and pages that are
 * passed over at each index; records from no byte to the greatest length there
 * is; every choice of pages to be kept; targets with a byte that is not 0 at
 * each place; blocks of other lengths. How each call is made: rooms.h.
 *
 *     block               all checks; exit status 0 when none is wrong, else 1
 *     block plant KIND    the same with one wrong expectation of that kind, so
 *                         that the test is seen to fail: exit status 1
 *
 * Kinds: those of rooms.h, and
 *        page      a page that is made, as the other entries take it
 *        written   a record that is written over a page, by the other entries
 *        cleared   the cells that are cleared by that
 *        literal   a page after a call, written out
 *        choice    a page of a random block, chosen before each other
 *        each      a choice of pages to be kept: the answer, and the target
 *        blank     a page after the kept ones, as wom_write_first takes it
 */
#include <string.h>

#include "rooms.h"
#include "testing.h"
#include "wom.h"

#define PAGE 256
#define PAGES 16
#define BLOCK 4096
#define BEYOND (80 * PAGE) /* a block, and bytes for one that is longer */

#define EVERY 0xffff /* page is marked */

#define LEAST 660 /* capacity of a page */
#define GREATEST 1012

/* ---- Pages ------------------------------------------------------------- */

/* Values whose words have the capacities 15 to 23. */
static const uint32_t values[] = {
    3889371024u, 216747218, 12078908, 673134, 37512, 2090, 116, 6, 0,
};

/* A first-round page of each capacity, from LEAST on. */
static uint8_t pages[GREATEST - LEAST + 1][PAGE];

static const uint8_t *page_of(size_t capacity)
{
    return pages[capacity - LEAST];
}

static void put_value(uint8_t bytes[4], uint32_t value)
{
    int i;

    for (i = 0; i < 4; i++)
        bytes[i] = (uint8_t)(value >> (24 - 8 * i));
}

/* Words of 23 bits, then at most one of 16 to 22, then words of 15. */
static void make_page(size_t capacity)
{
    uint8_t *page = pages[capacity - LEAST];
    size_t beyond = capacity - LEAST;
    uint8_t data[176];
    int word;

    for (word = 0; word < 44; word++) {
        size_t more = beyond < 8 ? beyond : 8;

        put_value(data + 4 * word, values[more]);
        beyond -= more;
    }
    in_case("page of the capacity", capacity);
    check_number("page", wom_write_first(page, PAGE, data, sizeof data), 0);
    check_number("page", wom_page_capacity(page, PAGE), capacity);
}

static void make_pages(void)
{
    size_t capacity;

    for (capacity = LEAST; capacity <= GREATEST; capacity++)
        make_page(capacity);
}

/* ---- A record that is placed ------------------------------------------- */

static uint8_t record[300];

static void make_record(void)
{
    uint64_t state = 3;

    fill_at_random(record, sizeof record, &state);
}

/* The block, and pages after it that would take a record too. */
static uint8_t block[BEYOND];
static uint16_t marks;

static void lay_page(size_t index, const uint8_t *page)
{
    memcpy(block + PAGE * index, page, PAGE);
}

static void lay_pages(const uint8_t *page)
{
    size_t i;

    for (i = 0; i < BEYOND / PAGE; i++)
        lay_page(i, page);
}

static uint16_t mark(size_t index)
{
    return (uint16_t)(1u << index);
}

static uint64_t place(const uint8_t *given, size_t length, uint8_t *into,
                      size_t block_length)
{
    return wom_place_record(into, block_length, marks, given, length);
}

static uint64_t cleared_cells(const uint8_t *before, const uint8_t *after)
{
    uint64_t count = 0;
    int i;

    for (i = 0; i < 8 * PAGE; i++)
        count += (before[i / 8] & ~after[i / 8]) >> i % 8 & 1;
    return count;
}

/* By fill and second record. */
static void write_over(uint8_t *page, size_t length)
{
    uint8_t before[PAGE], out[126];

    memcpy(before, page, PAGE);
    in_case("fill and second record, length", length);
    check_number("written", wom_refusal(wom_fill_page(page, PAGE)), 0);
    check_number("written", wom_write_second(page, PAGE, record, length), 0);
    check_number("written", wom_read_second(page, PAGE, out, sizeof out),
                 length);
    check_number("written", memcmp(out, record, length) == 0, 1);
    check_number("cleared", cleared_cells(before, page), 0);
}

/* A call, in the case of that name and number. */
static struct trial placing(const char *name, uint64_t number, size_t length)
{
    struct trial trial = {.name = name,
                          .number = number,
                          .input = record,
                          .input_bytes = length,
                          .input_length = length,
                          .out_length = BLOCK,
                          .before = block};

    return trial;
}

/* The record goes to that page, and every other page is as it was. */
static void check_placed_by(operation *made, const char *name, uint64_t number,
                            size_t length, size_t index)
{
    struct trial trial = placing(name, number, length);
    uint8_t after[BLOCK];

    memcpy(after, block, BLOCK);
    write_over(after + PAGE * index, length);
    trial.answer = index;
    trial.output = after;
    trial.written = BLOCK;
    check_trial(made, &trial);
}

static void check_placed(const char *name, uint64_t number, size_t length,
                         size_t index)
{
    check_placed_by(place, name, number, length, index);
}

/* A record that is longer than the bytes here is given with no byte. */
static void check_refused_by(operation *made, const char *name, uint64_t number,
                             size_t length, size_t block_length,
                             unsigned refusal)
{
    struct trial trial = placing(name, number, length);

    if (length > sizeof record)
        trial.input_bytes = 0;
    trial.out_length = block_length;
    trial.answer = (uint64_t)refusal << 56;
    check_trial(made, &trial);
}

static void check_no_page(const char *name, uint64_t number, size_t length)
{
    check_refused_by(place, name, number, length, BLOCK, 18);
}

/* ---- Pages written out ------------------------------------------------- */

/* In a block with pages of capacity 660, 1012 and 660, and blank ones: the
 * length of the record, 10010110 or no byte; its page, and what that starts
 * with afterwards. */
static const struct literal {
    uint16_t marks;
    size_t length;
    uint64_t index;
    uint8_t start[8];
} literals[] = {
    {0x0007, 1, 0, {0x07, 0x01, 0x00, 0xd2, 0x69, 0xb4, 0x92, 0x49}},
    {0x0006, 1, 2, {0x07, 0x01, 0x00, 0xd2, 0x69, 0xb4, 0x92, 0x49}},
    {0x0002, 1, 1, {0x07, 0x01, 0x00, 0xeb, 0xbe, 0xaa, 0xaa, 0xaa}},
    {0x000a, 1, 1, {0x07, 0x01, 0x00, 0xeb, 0xbe, 0xaa, 0xaa, 0xaa}},
    {0x0007, 0, 0, {0x07, 0x00, 0x00, 0x92, 0x49, 0x24, 0x92, 0x49}},
    {0xfff2, 0, 1, {0x07, 0x00, 0x00, 0xaa, 0xaa, 0xaa, 0xaa, 0xaa}},
};

static void check_literals(void)
{
    static const uint8_t byte[] = {0x96};
    size_t i;

    memset(block, 0, sizeof block);
    lay_page(0, page_of(660));
    lay_page(1, page_of(1012));
    lay_page(2, page_of(660));
    for (i = 0; i < COUNT(literals); i++) {
        const struct literal *row = &literals[i];
        uint8_t start[8], after[BLOCK];

        memcpy(start, row->start, 8);
        memcpy(after, block, BLOCK);
        in_case("page written out", i);
        check_number("literal",
                     wom_place_record(after, BLOCK, row->marks, byte,
                                      row->length),
                     row->index);
        check_bytes("literal", after + PAGE * row->index, start, 8);
    }
}

/* ---- Which page: orders of capacities ---------------------------------- */

/* The page of each rank: that of rank k has 16 k bits more than that of rank
 * 0. */
static const uint8_t orders[][PAGES] = {
    {0, 1, 2, 3, 4, 5, 6, 7, 8, 9, 10, 11, 12, 13, 14, 15},
    {15, 14, 13, 12, 11, 10, 9, 8, 7, 6, 5, 4, 3, 2, 1, 0},
    {7, 12, 0, 3, 15, 9, 1, 14, 4, 10, 6, 2, 13, 8, 11, 5},
};
static const uint8_t *const mixed = orders[2];

static void lay_ranks(const uint8_t order[PAGES], size_t smallest)
{
    size_t k;

    lay_pages(page_of(smallest));
    for (k = 0; k < PAGES; k++)
        lay_page(order[k], page_of(smallest + 16 * k));
}

/* The rank of the page for a record, where the page of rank 0 takes so many
 * bytes: two more with each rank. */
static size_t rank_for(size_t length, size_t takes)
{
    return length <= takes ? 0 : (length - takes + 1) / 2;
}

/* Records of 0 to 127 bytes, which fit some pages just so, and others by one
 * bit not, or with seven to spare. */
static void check_lengths(const uint8_t order[PAGES], size_t smallest)
{
    size_t length;

    marks = EVERY;
    lay_ranks(order, smallest);
    for (length = 0; length <= 127; length++) {
        size_t rank = rank_for(length, smallest / 8);

        if (rank < PAGES)
            check_placed("smallest capacity", smallest, length, order[rank]);
        else
            check_no_page("smallest capacity", smallest, length);
    }
}

static void check_orders(void)
{
    static const size_t smallest[] = {671, 672, 679, 680};
    size_t i, j;

    for (i = 0; i < COUNT(orders); i++)
        for (j = 0; j < COUNT(smallest); j++)
            check_lengths(orders[i], smallest[j]);
}

/* The best pages are not marked. */
static void check_unmarked(void)
{
    static const size_t lengths[] = {0, 82, 84, 85, 90, 91, 101, 114, 115};
    size_t i, k;

    lay_ranks(mixed, 672);
    marks = EVERY;
    for (k = 0; k < PAGES; k++) {
        marks ^= mark(mixed[k]);
        for (i = 0; i < COUNT(lengths); i++) {
            size_t rank = rank_for(lengths[i], 84);

            rank = rank <= k ? k + 1 : rank;
            if (rank < PAGES)
                check_placed("marks", marks, lengths[i], mixed[rank]);
            else
                check_no_page("marks", marks, lengths[i]);
        }
    }
}

/* One page is marked: its longest record, and one byte more. */
static void check_single(size_t rank)
{
    marks = mark(mixed[rank]);
    check_placed("one mark", marks, 0, mixed[rank]);
    check_placed("one mark", marks, 84 + 2 * rank, mixed[rank]);
    check_no_page("one mark", marks, 85 + 2 * rank);
    marks = (uint16_t)~marks;
    check_placed("all marks but one", marks, 84,
                 rank == 0 ? mixed[1] : mixed[0]);
}

static void check_pair(size_t rank, size_t greater)
{
    marks = mark(mixed[rank]) | mark(mixed[greater]);
    check_placed("two marks", marks, 84 + 2 * rank, mixed[rank]);
    check_placed("two marks", marks, 85 + 2 * rank, mixed[greater]);
    check_no_page("two marks", marks, 85 + 2 * greater);
}

static void check_marks(void)
{
    size_t i, j;

    lay_ranks(mixed, 672);
    for (i = 0; i < PAGES; i++) {
        check_single(i);
        for (j = i + 1; j < PAGES; j++)
            check_pair(i, j);
    }
    marks = 0;
    check_no_page("no mark", 0, 0);
    check_no_page("no mark", 0, 82);
    check_no_page("no mark", 0, SIZE_MAX);
}

/* ---- Which page: equals ------------------------------------------------ */

/* The pages at two indices are the smallest that take 90 bytes. Of the others
 * one is too small by a bit, and all the rest are greater by a bit. */
static void check_tie(size_t low, size_t high)
{
    uint64_t number = 16 * low + high;

    lay_pages(page_of(721));
    lay_page((high + 1) % PAGES, page_of(719));
    lay_page(low, page_of(720));
    lay_page(high, page_of(720));
    marks = EVERY;
    check_placed("16 times an index, and its equal", number, 90, low);
    marks = mark(low) | mark(high);
    check_placed("16 times an index, and its equal", number, 90, low);
    marks = EVERY ^ mark(low);
    check_placed("16 times an index, and its equal", number, 90, high);
}

static void check_ties(void)
{
    size_t i, j;

    for (i = 0; i < PAGES; i++)
        for (j = i + 1; j < PAGES; j++)
            check_tie(i, j);
    lay_pages(page_of(800));
    for (i = 0; i < PAGES; i++) {
        marks = (uint16_t)(EVERY << i);
        check_placed("all equal", marks, 100, i);
        check_placed("all equal", marks, 0, i);
        check_no_page("all equal", marks, 101);
    }
}

/* ---- Pages that are passed over ---------------------------------------- */

/* They are made of a page of this capacity, and stand among greater ones. */
#define SMALL 690
#define GREATER 700

/* Its byte, and another value: of the state, of the header, with neighbours in
 * the first word and in the last. */
static const struct {
    size_t byte;
    uint8_t value;
} changes[] = {
    {0, 0x00}, {0, 0x02}, {0, 0x03}, {0, 0x07}, {0, 0x09}, {0, 0x81},
    {1, 0x01}, {1, 0x80}, {2, 0x01}, {2, 0x80}, {3, 0xd2}, {255, 0x4b},
};

enum {
    BLANK,
    FILLED,
    SECOND,
    INSPECT,
    SUM, /* of the weights of every even cell */
    CHANGED,
    BAD = CHANGED + (int)COUNT(changes)
};

static uint8_t bad[BAD][PAGE];

static void make_bad(void)
{
    size_t i;

    for (i = FILLED; i < BAD; i++)
        memcpy(bad[i], page_of(SMALL), PAGE);
    in_case("page that is passed over", 0);
    check_number("page", wom_refusal(wom_fill_page(bad[FILLED], PAGE)), 0);
    check_number("page", wom_refusal(wom_fill_page(bad[SECOND], PAGE)), 0);
    check_number("page", wom_write_second(bad[SECOND], PAGE, record, 80), 0);
    check_number("page", wom_write_inspect(bad[INSPECT], PAGE, record, 80), 0);
    memset(bad[SUM] + 3, 0xaa, PAGE - 3);
    for (i = CHANGED; i < BAD; i++)
        bad[i][changes[i - CHANGED].byte] = changes[i - CHANGED].value;
}

static void check_bad(uint64_t number, const uint8_t *page)
{
    uint8_t out[176];

    in_case("page that is passed over", number);
    check_number("page",
                 wom_refusal(wom_read_first(page, PAGE, out, 176)) != 0, 1);
}

/* Marked among others, with another and alone. */
static void check_passed_over(uint64_t number, const uint8_t *page,
                              size_t index)
{
    size_t other = (index + 5) % PAGES;

    check_bad(number, page);
    lay_pages(page_of(GREATER));
    lay_page(index, page);
    marks = EVERY;
    check_placed("page that is passed over", number, 82, index == 0);
    marks = mark(index) | mark(other);
    check_placed("page that is passed over", number, 0, other);
    marks = mark(index);
    check_no_page("page that is passed over", number, 0);
}

static void check_each_bad(void)
{
    size_t i, index;

    for (i = 0; i < BAD; i++) {
        for (index = 0; index < PAGES; index++)
            check_passed_over(i, bad[i], index);
        lay_pages(bad[i]);
        marks = EVERY;
        check_no_page("16 pages that are passed over", i, 1);
        lay_page(9, page_of(900));
        check_placed("15 pages that are passed over", i, 1, 9);
    }
}

static void check_states(void)
{
    uint8_t page[PAGE];
    unsigned state;

    memcpy(page, page_of(SMALL), PAGE);
    for (state = 0; state < 256; state++) {
        page[0] = (uint8_t)state;
        if (state != 0x01)
            check_passed_over(1000 + state, page, state % PAGES);
    }
}

/* Cells 0 and 1 of each word are set: 44 words of 46 cells, from byte 3 on. */
static void check_words(void)
{
    uint8_t page[PAGE];
    size_t word;

    for (word = 0; word < 44; word++) {
        size_t cell = 24 + 46 * word, i;

        memcpy(page, page_of(SMALL), PAGE);
        for (i = cell; i < cell + 2; i++)
            page[i / 8] |= (uint8_t)(0x80 >> i % 8);
        check_passed_over(2000 + word, page, word % PAGES);
    }
}

/* ---- Every capacity, and every length of a record ---------------------- */

/* The one page with room, among marked ones that are blank. */
static void check_capacities(void)
{
    size_t capacity;

    marks = EVERY;
    for (capacity = LEAST; capacity <= GREATEST; capacity++) {
        memset(block, 0, sizeof block);
        lay_page(capacity % PAGES, page_of(capacity));
        check_placed("capacity", capacity, capacity / 8, capacity % PAGES);
        check_no_page("capacity", capacity, capacity / 8 + 1);
    }
}

/* 8 times a far length is small when it is counted in 32 or 64 bits. Right
 * before a guard, no byte of such a record can be touched. */
static const size_t too_long[] = {
    127, 128, 129, 247, 255, 256, 257, 300, POWER(13), POWER(16),
    POWER(16) + 10, POWER(29), POWER(29) + 10, POWER(32), POWER(32) + 10,
    POWER(61), POWER(61) + 10, POWER(61) - 1, POWER(62), POWER(62) + 82,
    POWER(63) - 1, POWER(63), POWER(63) + 10, SIZE_MAX - 7, SIZE_MAX - 1,
    SIZE_MAX,
};

static void check_too_long(void)
{
    size_t i;

    lay_pages(page_of(GREATEST));
    for (i = 0; i < COUNT(too_long); i++) {
        marks = EVERY;
        check_no_page("too long", i, too_long[i]);
        marks = mark(15);
        check_no_page("too long", i, too_long[i]);
    }
}

/* ---- Random blocks ----------------------------------------------------- */

static uint8_t first_record[176];

static void lay_at_random(uint64_t *state)
{
    size_t i;

    memset(block, 0, sizeof block);
    for (i = 0; i < PAGES; i++) {
        fill_at_random(first_record, sizeof first_record, state);
        in_case("random page", i);
        check_number("page",
                     wom_write_first(block + PAGE * i, PAGE, first_record,
                                     sizeof first_record),
                     0);
    }
}

static int takes(size_t index, size_t length)
{
    return (marks & mark(index)) != 0 &&
           length <= wom_page_capacity(block + PAGE * index, PAGE) / 8;
}

/* Whether one page comes before another: it is smaller, or of the same capacity
 * and a lower index. */
static int comes_before(size_t index, size_t other)
{
    uint64_t mine = wom_page_capacity(block + PAGE * index, PAGE);
    uint64_t its = wom_page_capacity(block + PAGE * other, PAGE);

    return mine < its || (mine == its && index < other);
}

/* Of the pages that take the record, the chosen one comes before each other. */
static void check_choice(uint64_t number, size_t length)
{
    uint8_t after[BLOCK];
    uint64_t chosen;
    size_t i;

    memcpy(after, block, BLOCK);
    chosen = wom_place_record(after, BLOCK, marks, record, length);
    in_case("random block", number);
    if (chosen >= PAGES) {
        for (i = 0; i < PAGES; i++)
            check_number("choice", (uint64_t)takes(i, length), 0);
        check_no_page("random block", number, length);
        return;
    }
    check_number("choice", (uint64_t)takes(chosen, length), 1);
    for (i = 0; i < PAGES; i++)
        if (i != chosen && takes(i, length))
            check_number("choice", (uint64_t)comes_before(chosen, i), 1);
    check_placed("random block", number, length, chosen);
}

static void check_random(void)
{
    uint64_t state = 4;
    uint64_t number;
    uint8_t drawn[3];

    for (number = 0; number < 400; number++) {
        if (number % 8 == 0)
            lay_at_random(&state);
        fill_at_random(drawn, sizeof drawn, &state);
        marks = (uint16_t)(drawn[0] << 8 | drawn[1]);
        check_choice(number, 100 + drawn[2] % 20);
    }
}

/* ---- Blocks of other lengths ------------------------------------------- */

/* The bytes of the far ones are not there. */
static const size_t other_lengths[] = {
    0, 1, 255, 256, 512, 3840, 4095, 4097, 4098, 4352, 8192, 12288, 20479,
    POWER(16), POWER(16) + 4096, POWER(32), POWER(32) + 4096, POWER(40),
    POWER(63), POWER(63) + 4096, SIZE_MAX - 4095, SIZE_MAX - 1, SIZE_MAX,
};

/* Whatever the marks and the record. */
static void check_block_lengths(void)
{
    static const size_t lengths[] = {0, 1, 82, 127, SIZE_MAX};
    size_t i, j;

    lay_pages(page_of(800));
    for (i = 0; i < COUNT(other_lengths); i++)
        for (j = 0; j < COUNT(lengths); j++) {
            marks = EVERY;
            check_refused_by(place, "block of another length", i, lengths[j],
                             other_lengths[i], 17);
            marks = 0;
            check_refused_by(place, "block of another length", i, lengths[j],
                             other_lengths[i], 17);
        }
}

/* ---- Pages that are kept ----------------------------------------------- */

static uint8_t source[BEYOND]; /* random */
static uint8_t target[BEYOND];
static uint16_t keep;

static void make_source(void)
{
    uint64_t state = 5;

    fill_at_random(source, sizeof source, &state);
}

static uint64_t collect(const uint8_t *from, size_t from_length, uint8_t *to,
                        size_t to_length)
{
    return wom_collect_block(from, from_length, keep, to, to_length);
}

static struct trial collecting(const char *name, uint64_t number)
{
    struct trial trial = {.name = name,
                          .number = number,
                          .input = source,
                          .input_bytes = BLOCK,
                          .input_length = BLOCK,
                          .out_length = BLOCK,
                          .before = target};

    return trial;
}

/* The target, blank before, has those pages in its front. */
static void check_kept_by(operation *made, const uint8_t *chosen, size_t count)
{
    struct trial trial = collecting("pages kept", keep);
    uint8_t after[BLOCK] = {0};
    size_t i;

    for (i = 0; i < count; i++)
        memcpy(after + PAGE * i, source + PAGE * chosen[i], PAGE);
    memset(target, 0, sizeof target);
    trial.answer = count;
    trial.output = after;
    trial.written = BLOCK;
    check_trial(made, &trial);
}

#define FRONT 0, 1, 2, 3, 4, 5, 6, 7
#define BACK 8, 9, 10, 11, 12, 13, 14, 15

static const struct {
    uint16_t keep;
    size_t count;
    uint8_t pages[PAGES];
} choices[] = {
    {0x0000, 0, {0}},
    {0x0001, 1, {0}},
    {0x0002, 1, {1}},
    {0x4000, 1, {14}},
    {0x8000, 1, {15}},
    {0x8001, 2, {0, 15}},
    {0x0180, 2, {7, 8}},
    {0x1248, 4, {3, 6, 9, 12}},
    {0xc003, 4, {0, 1, 14, 15}},
    {0x9249, 6, {0, 3, 6, 9, 12, 15}},
    {0x5555, 8, {0, 2, 4, 6, 8, 10, 12, 14}},
    {0xaaaa, 8, {1, 3, 5, 7, 9, 11, 13, 15}},
    {0x00ff, 8, {FRONT}},
    {0xff00, 8, {BACK}},
    {0xf3cf, 12, {0, 1, 2, 3, 6, 7, 8, 9, 12, 13, 14, 15}},
    {0xfffe, 15, {1, 2, 3, 4, 5, 6, 7, BACK}},
    {0x7fff, 15, {FRONT, 8, 9, 10, 11, 12, 13, 14}},
    {0xff7f, 15, {0, 1, 2, 3, 4, 5, 6, BACK}},
    {0xffff, 16, {FRONT, BACK}},
};

static void check_choices_by(operation *made)
{
    size_t i;

    for (i = 0; i < COUNT(choices); i++) {
        keep = choices[i].keep;
        check_kept_by(made, choices[i].pages, choices[i].count);
    }
}

/* Sources that hold random bytes, blank pages among them or alone, ones, and a
 * page of each kind. */
static void check_sources(void)
{
    size_t i;

    make_source();
    check_choices_by(collect);
    memset(source, 0, PAGE);
    memset(source + 6 * PAGE, 0, 2 * PAGE);
    check_choices_by(collect);
    memset(source, 0, sizeof source);
    check_choices_by(collect);
    memset(source, 0xff, sizeof source);
    check_choices_by(collect);
    for (i = 0; i < PAGES; i++)
        memcpy(source + PAGE * i, bad[i], PAGE);
    check_choices_by(collect);
    make_source();
}

/* Each kept page stands after as many pages as are kept before it. */
static size_t lay_kept(uint8_t after[BLOCK])
{
    size_t count = 0, i;

    memset(after, 0, BLOCK);
    for (i = 0; i < PAGES; i++)
        if (keep >> i & 1)
            memcpy(after + PAGE * count++, source + PAGE * i, PAGE);
    return count;
}

static void check_each_keep(void)
{
    uint8_t after[BLOCK];
    unsigned each;

    for (each = 0; each <= EVERY; each++) {
        size_t count;

        keep = (uint16_t)each;
        count = lay_kept(after);
        memset(target, 0, BLOCK);
        in_case("pages kept", each);
        check_number("each",
                     wom_collect_block(source, BLOCK, keep, target, BLOCK),
                     count);
        check_bytes("each", target, after, BLOCK);
    }
}

/* Each page after the kept ones takes a first record. */
static void check_blank(void)
{
    size_t i, page;

    for (i = 0; i < COUNT(choices); i++) {
        memset(target, 0, BLOCK);
        in_case("pages kept", choices[i].keep);
        check_number("each",
                     wom_collect_block(source, BLOCK, choices[i].keep, target,
                                       BLOCK),
                     choices[i].count);
        for (page = choices[i].count; page < PAGES; page++)
            check_number("blank",
                         wom_write_first(target + PAGE * page, PAGE,
                                         first_record, sizeof first_record),
                         0);
    }
}

/* A placed record is read from where its page stands afterwards. */
static void check_placed_and_kept(void)
{
    uint8_t out[126];

    lay_ranks(mixed, 672);
    memset(target, 0, BLOCK);
    in_case("placed and kept", mixed[3]);
    check_number("each", wom_place_record(block, BLOCK, EVERY, record, 90),
                 mixed[3]);
    check_number("each",
                 wom_collect_block(block, BLOCK, EVERY ^ mark(0), target,
                                   BLOCK),
                 15);
    check_number("each",
                 wom_read_second(target + PAGE * (mixed[3] - 1), PAGE, out,
                                 sizeof out),
                 90);
    check_number("each", memcmp(out, record, 90) == 0, 1);
}

/* ---- Targets that are not blank, and blocks of other lengths ----------- */

/* A source that is longer than the bytes here is given with no byte. */
static void check_not_collected(const char *name, uint64_t number,
                                size_t source_length, size_t target_length,
                                unsigned refusal)
{
    struct trial trial = collecting(name, number);

    trial.input_bytes = source_length < BEYOND ? source_length : 0;
    trial.input_length = source_length;
    trial.out_length = target_length;
    trial.answer = (uint64_t)refusal << 56;
    check_trial(collect, &trial);
}

/* A byte that is not 0, at each place, with one cell set. */
static void check_not_blank(void)
{
    static const uint16_t keeps[] = {0xffff, 0x0000, 0x0001, 0x8000, 0x0ff0};
    size_t at;

    memset(target, 0, sizeof target);
    for (at = 0; at < BLOCK; at++) {
        target[at] = (uint8_t)(1 << at % 8);
        keep = keeps[at % COUNT(keeps)];
        check_not_collected("not blank at", at, BLOCK, BLOCK, 19);
        target[at] = 0;
    }
    memset(target, 0xff, sizeof target);
    check_not_collected("every cell set", 0, BLOCK, BLOCK, 19);
}

/* The source, the target, or both; refused whether the target is blank or
 * not. */
static void check_lengths_of_both(uint8_t byte)
{
    size_t i;

    memset(target, byte, sizeof target);
    for (i = 0; i < COUNT(other_lengths); i++) {
        size_t length = other_lengths[i];
        size_t other = other_lengths[COUNT(other_lengths) - 1 - i];

        check_not_collected("target of", byte, length, BLOCK, 17);
        check_not_collected("target of", byte, BLOCK, length, 17);
        check_not_collected("target of", byte, length, length, 17);
        check_not_collected("target of", byte, length, other, 17);
    }
}

static void check_collected_lengths(void)
{
    static const uint16_t keeps[] = {0xffff, 0x0000, 0x8001};
    size_t i;

    for (i = 0; i < COUNT(keeps); i++) {
        keep = keeps[i];
        check_lengths_of_both(0x00);
        check_lengths_of_both(0x80);
    }
}

/* ---- The register of the marks ----------------------------------------- */

/* By the convention for x86-64 the marks are the low 16 bits of a register, and
 * the bits above them are not said. So each entry is called as a function of 64
 * bits there, with others above. C itself does not say what such a call does:
 * hence the volatile pointers, by which the compiler does not know whose call
 * it makes. */
typedef uint64_t wide_place(uint8_t *, size_t, uint64_t, const uint8_t *,
                            size_t);
typedef uint64_t wide_collect(const uint8_t *, size_t, uint64_t, uint8_t *,
                              size_t);

static wide_place *volatile call_place;
static wide_collect *volatile call_collect;
static uint64_t above;

static uint64_t place_wide(const uint8_t *given, size_t length, uint8_t *into,
                           size_t block_length)
{
    return call_place(into, block_length, above | marks, given, length);
}

static uint64_t collect_wide(const uint8_t *from, size_t from_length,
                             uint8_t *to, size_t to_length)
{
    return call_collect(from, from_length, above | keep, to, to_length);
}

static void check_wide_marks(void)
{
    size_t i;

    lay_ranks(mixed, 672);
    for (i = 0; i < PAGES; i++) {
        marks = mark(mixed[i]);
        check_placed_by(place_wide, "bits above", above, 84, mixed[i]);
        check_refused_by(place_wide, "bits above", above, 116, BLOCK, 18);
    }
    marks = 0;
    check_refused_by(place_wide, "bits above", above, 0, BLOCK, 18);
}

static void check_wide(void)
{
    static const uint64_t bits[] = {
        UINT64_C(0x10000), UINT64_C(0xffff0000), UINT64_C(0x100000000),
        UINT64_C(0x8000000000000000), UINT64_C(0xffffffffffff0000),
    };
    size_t i;

    call_place = (wide_place *)(void (*)(void))wom_place_record;
    call_collect = (wide_collect *)(void (*)(void))wom_collect_block;
    for (i = 0; i < COUNT(bits); i++) {
        above = bits[i];
        check_wide_marks();
        check_choices_by(collect_wide);
    }
}

/* ------------------------------------------------------------------------ */

int main(int argc, char **argv)
{
    take_arguments("block [plant KIND]", argc, argv);
    make_rooms();
    make_pages();
    make_record();
    check_literals();
    check_orders();
    check_unmarked();
    check_marks();
    check_ties();
    make_bad();
    check_each_bad();
    check_states();
    check_words();
    check_capacities();
    check_too_long();
    check_random();
    check_block_lengths();
    check_sources();
    check_each_keep();
    check_blank();
    check_placed_and_kept();
    check_not_blank();
    check_collected_lengths();
    check_wide();
    return finish("block");
}

/*
 * The life of one log page between two erases, as a lift's logger calls the
 * library: the page is written, fetched by the service van, filled in a quiet
 * hour, written again over the same cells at a busy one, and read back from the
 * flash part alone. Then a block of 16 such pages: the library chooses the page
 * for a short record, and the pages still wanted are collected, so that the
 * block can be erased.
 *
 *     logger          prints each step, and the page's bytes and cells
 *     logger PATH     also writes pages to the file PATH, for the listing
 *                     program: blank, first round, filled, second round, a
 *                     damaged copy of the latter three, and a piece of 100
 *                     bytes
 *     logger plant    clears a set cell of the second page before the part is
 *                     programmed with it, which the part cannot do
 *
 * Exit status 0 when every step succeeds, 1 when one fails, 2 for other
 * arguments.
 *
 * Build it at the repository's root, after make archive:
 *
 *     gcc -std=c99 -Wall -Wextra -Werror -pedantic -O2 -I include \
 *         -o logger examples/logger.c target/staticlib/libwom.a
 */
#include <inttypes.h>
#include <stdint.h>
#include <stdio.h>
#include <string.h>

#include "wom.h"

#define PIECE_BYTES 100
#define STATE_PULSES 1 /* of the fill, for the state: 0x01 becomes 0x03 */

/* ---- The counters ------------------------------------------------------ */

#define LIFTS 11
#define COUNTERS 4 /* of a lift; 44 values together */

static const char *const counter_names[COUNTERS] = {
    "door cycles", "starts", "hall calls", "travel, mm"};

/* Lift 4's travel has reached the counter's end; lifts 5 and 9 are new. */
static const uint32_t counters[LIFTS][COUNTERS] = {
    {1203447, 861920, 644318, 2413376000u},
    {1187002, 850411, 639775, 2381150800u},
    {94310, 61288, 50127, 171606400},
    {2890655, 2104733, 1560018, 4294967295u},
    {17, 12, 9, 33600},
    {402118, 377405, 291864, 1056734000},
    {756839, 540127, 388242, 1512355600},
    {1644980, 1207311, 901556, 3380470800u},
    {0, 0, 0, 0},
    {233641, 190776, 121393, 534172800},
    {1519066, 1388402, 1042097, 3887525600u},
};

static uint32_t counter(int word)
{
    return counters[word / COUNTERS][word % COUNTERS];
}

#define YEAR 12 /* the months in which the counters came to this */

static uint32_t counter_at(int word, int month)
{
    uint64_t value = (uint64_t)counter(word) * (unsigned)month / YEAR;

    return value < UINT32_MAX ? (uint32_t)value : UINT32_MAX;
}

/* The first record: each counter as four bytes, the highest first. */
static void put_counters(uint8_t record[WOM_FIRST_BYTES], int month)
{
    int i;

    for (i = 0; i < WOM_FIRST_BYTES; i++)
        record[i] = (uint8_t)(counter_at(i / 4, month) >> (24 - 8 * (i % 4)));
}

/* The second record, 82 bytes: the length that fits every first-round page.
 * The byte after it is the string's end, and is not written. */
static const uint8_t week[WOM_SECOND_BYTES_SURE + 1] =
    "Week 46: hall calls G 412, 1 188, 2 173, 3 201, 4 96; doors 1644; "
    "starts 1207; ok.";

/* ---- Cells ------------------------------------------------------------- */

static unsigned set_bits(unsigned byte)
{
    unsigned count = 0;

    for (; byte != 0; byte &= byte - 1)
        count++;
    return count;
}

/* The number of cells that are set in one page and not in the other. */
static unsigned set_beyond(const uint8_t *page, const uint8_t *other)
{
    unsigned count = 0;
    int i;

    for (i = 0; i < WOM_PAGE_BYTES; i++)
        count += set_bits(page[i] & ~(unsigned)other[i]);
    return count;
}

/* A cell's number in the page, counted from the highest bit of byte 0. */
static int place(int word, int cell)
{
    return 8 * WOM_HEADER_BYTES + WOM_WORD_CELLS * word + cell;
}

static int is_set(const uint8_t *page, int word, int cell)
{
    int at = place(word, cell);

    return page[at / 8] >> (7 - at % 8) & 1;
}

static void set(uint8_t *page, int word, int cell)
{
    int at = place(word, cell);

    page[at / 8] |= (uint8_t)(1u << (7 - at % 8));
}

/* ---- The flash part ---------------------------------------------------- */

/* A model of the part: one erased page, and two erased blocks. Each page can be
 * programmed and read. */
static struct {
    uint8_t cells[WOM_PAGE_BYTES];
    uint8_t blocks[2][WOM_BLOCK_BYTES];
    unsigned programs; /* program operations so far */
    unsigned pulses;   /* of the last one: one for each cell that it set */
} part;

/* Sets the cells of a page of the part that are set in the page given. Fails,
 * and sets none, when a cell that is set in the part would have to be
 * cleared. */
static int program(uint8_t *cells, const uint8_t *page)
{
    unsigned to_clear = set_beyond(cells, page);
    int i;

    if (to_clear != 0) {
        fprintf(stderr, "logger: the part cannot clear a cell: %u to clear\n",
                to_clear);
        return 0;
    }
    part.pulses = set_beyond(page, cells);
    for (i = 0; i < WOM_PAGE_BYTES; i++)
        cells[i] |= page[i];
    part.programs++;
    return 1;
}

/* ---- Checks ------------------------------------------------------------ */

/* True when the call was not refused; a refusal is printed. */
static int accepted(const char *call, uint64_t answer)
{
    if (wom_refusal(answer) == 0)
        return 1;
    fprintf(stderr, "logger: %s: refused %u (%s), index %" PRIu64 "\n", call,
            wom_refusal(answer), wom_refusal_name(wom_refusal(answer)),
            wom_index(answer));
    return 0;
}

/* True when the bytes are the same; a difference is printed. */
static int same(const char *what, const uint8_t *came, const uint8_t *expected,
                size_t length)
{
    if (memcmp(came, expected, length) == 0)
        return 1;
    fprintf(stderr, "logger: %s: not the bytes expected\n", what);
    return 0;
}

/* ---- The page's life --------------------------------------------------- */

/* The page before the first writing, and as the part was given it by each of
 * the three. */
static const uint8_t blank_page[WOM_PAGE_BYTES] = {0};
static uint8_t first_page[WOM_PAGE_BYTES];
static uint8_t filled_page[WOM_PAGE_BYTES];
static uint8_t second_page[WOM_PAGE_BYTES];

/* Programs a blank page of the part with a first record. The page that it was
 * given goes to 'page'. */
static int program_first(uint8_t *cells, int month, uint8_t *page)
{
    uint8_t record[WOM_FIRST_BYTES];

    put_counters(record, month);
    memcpy(page, cells, WOM_PAGE_BYTES);
    return accepted("wom_write_first",
                    wom_write_first(page, WOM_PAGE_BYTES, record,
                                    sizeof record)) &&
           program(cells, page);
}

static int write_first_record(void)
{
    if (!program_first(part.cells, YEAR, first_page))
        return 0;
    printf("1  The first record, %d counters of %d lifts, %d bytes, is written "
           "on the blank page.\n"
           "   wom_write_first accepts; one program operation sets %u cells.\n",
           WOM_WORDS, LIFTS, WOM_FIRST_BYTES, part.pulses);
    return 1;
}

static int fetch_first_record(void)
{
    uint8_t record[WOM_FIRST_BYTES];
    uint8_t fetched[WOM_FIRST_BYTES];

    put_counters(record, YEAR);
    if (!accepted("wom_read_first",
                  wom_read_first(part.cells, sizeof part.cells, fetched,
                                 sizeof fetched)) ||
        !same("the first record", fetched, record, sizeof record))
        return 0;
    printf("2  The service van fetches it.\n"
           "   wom_read_first gives the same %d bytes from the part's cells.\n",
           WOM_FIRST_BYTES);
    return 1;
}

static int measure(uint64_t *capacity)
{
    uint64_t answer = wom_page_capacity(part.cells, sizeof part.cells);

    if (!accepted("wom_page_capacity", answer))
        return 0;
    *capacity = wom_result(answer);
    printf("3  How much goes over the same cells?\n"
           "   wom_page_capacity: %" PRIu64 " bits, a record of up to %" PRIu64
           " bytes.\n",
           *capacity, *capacity / 8);
    return 1;
}

/* Fills the part's page. The pulses answered are all that the part then takes
 * but one, for the state's cell. */
static int program_fill(uint64_t *pulses)
{
    uint64_t answer;

    memcpy(filled_page, part.cells, sizeof filled_page);
    answer = wom_fill_page(filled_page, sizeof filled_page);
    if (!accepted("wom_fill_page", answer) || !program(part.cells, filled_page))
        return 0;
    *pulses = wom_result(answer);
    if (*pulses + STATE_PULSES != part.pulses) {
        fprintf(stderr, "logger: wom_fill_page: %" PRIu64 " pulses and %d for "
                        "the state, where the part set %u cells\n",
                *pulses, STATE_PULSES, part.pulses);
        return 0;
    }
    return 1;
}

static int fill_ahead(uint64_t capacity, uint64_t *pulses)
{
    uint64_t answer;

    if (!program_fill(pulses))
        return 0;
    answer = wom_page_capacity(part.cells, sizeof part.cells);
    if (!accepted("wom_page_capacity", answer))
        return 0;
    if (wom_result(answer) != capacity) {
        fprintf(stderr, "logger: the fill changed the capacity\n");
        return 0;
    }
    printf("4  In a quiet hour the page is filled, ahead of time.\n"
           "   wom_fill_page accepts; one program operation sets %u further "
           "cells.\n"
           "   Its answer: %" PRIu64 " pulses, one for each cell newly set in "
           "the words; %d more is for the state.\n"
           "   wom_page_capacity: %" PRIu64 " bits, as before.\n",
           part.pulses, *pulses, STATE_PULSES, wom_result(answer));
    return 1;
}

/* A record one byte too long is refused, and leaves the page filled. */
static int try_too_long(uint64_t capacity)
{
    static const uint8_t record[WOM_SECOND_BYTES_MAX + 1] = {0};
    size_t length = (size_t)(capacity / 8) + 1;
    uint64_t answer;

    memcpy(second_page, part.cells, sizeof second_page);
    answer = wom_write_second(second_page, sizeof second_page, record, length);
    if (wom_refusal(answer) != WOM_REFUSED_RECORD_LENGTH ||
        wom_index(answer) != capacity) {
        fprintf(stderr, "logger: wom_write_second: number %u, index %" PRIu64
                        ", expected number 8, index %" PRIu64 "\n",
                wom_refusal(answer), wom_index(answer), capacity);
        return 0;
    }
    if (!same("the page after a refusal", second_page, filled_page,
              sizeof second_page))
        return 0;
    printf("5  A record of %zu bytes is tried.\n"
           "   wom_write_second refuses: number %u, index %" PRIu64
           ", the capacity. The page remains filled.\n",
           length, wom_refusal(answer), wom_index(answer));
    return 1;
}

/* Clears one cell that is set in the part. */
static void clear_a_set_cell(uint8_t *page)
{
    int i = WOM_HEADER_BYTES;

    while (part.cells[i] == 0)
        i++;
    page[i] &= (uint8_t)~(part.cells[i] & -part.cells[i]);
}

static int write_second_record(uint64_t fill_pulses, int planted)
{
    unsigned at_once; /* the pulses, had the page not been filled ahead */

    memcpy(second_page, part.cells, sizeof second_page);
    if (!accepted("wom_write_second",
                  wom_write_second(second_page, sizeof second_page, week,
                                   WOM_SECOND_BYTES_SURE)))
        return 0;
    if (planted)
        clear_a_set_cell(second_page);
    if (!program(part.cells, second_page))
        return 0;
    at_once = set_beyond(second_page, first_page);
    printf("6  At the busy hour the second record, %d bytes, goes over the "
           "same cells, without an erase.\n"
           "   wom_write_second accepts; one program operation sets %u further "
           "cells.\n"
           "   One pulse sets one cell: %u pulses now; with the fill still to "
           "do, it would be %u.\n"
           "   Filling ahead saves %u of them: the %" PRIu64 " that "
           "wom_fill_page answered, and %d for the state.\n",
           WOM_SECOND_BYTES_SURE, part.pulses, part.pulses, at_once,
           at_once - part.pulses, fill_pulses, STATE_PULSES);
    return 1;
}

/* True when that record is read from a page of the part. */
static int reads_back(const uint8_t *cells, const uint8_t *record,
                      size_t length)
{
    uint8_t out[WOM_SECOND_BYTES_MAX];
    uint64_t answer = wom_read_second(cells, WOM_PAGE_BYTES, out, sizeof out);

    if (!accepted("wom_read_second", answer))
        return 0;
    if (wom_result(answer) != length) {
        fprintf(stderr, "logger: the second record: not the length expected\n");
        return 0;
    }
    return same("the second record", out, record, length);
}

static int read_second_record(void)
{
    if (!reads_back(part.cells, week, WOM_SECOND_BYTES_SURE))
        return 0;
    printf("7  It is read back from the part's cells alone.\n"
           "   wom_read_second gives the same %d bytes:\n"
           "   %s\n",
           WOM_SECOND_BYTES_SURE, (const char *)week);
    return 1;
}

/* ---- Showing the page -------------------------------------------------- */

/* 8 bytes in hexadecimal, by twos. */
static void print_bytes(const uint8_t *bytes)
{
    int i;

    for (i = 0; i < 8; i += 2)
        printf(" %02x%02x", bytes[i], bytes[i + 1]);
}

static void print_pages(void)
{
    int at;

    printf("\nbyte   %-22s %-22s %s\n", "first round", "filled",
           "second round");
    for (at = 0; at < WOM_PAGE_BYTES; at += 8) {
        printf("%4d  ", at);
        print_bytes(first_page + at);
        printf("   ");
        print_bytes(filled_page + at);
        printf("   ");
        print_bytes(second_page + at);
        printf("\n");
    }
}

static char mark(int word, int cell)
{
    if (is_set(first_page, word, cell))
        return '#';
    if (is_set(filled_page, word, cell))
        return '+';
    return is_set(second_page, word, cell) ? 'o' : '.';
}

static void print_word(int word)
{
    char map[WOM_WORD_CELLS + 1] = {0};
    int c;

    for (c = 0; c < WOM_WORD_CELLS; c++)
        map[c] = mark(word, c);
    printf("%4d  lift %2d %-11s %11" PRIu32 "  %s\n", word,
           word / COUNTERS + 1, counter_names[word % COUNTERS], counter(word),
           map);
}

static void print_words(void)
{
    int word;

    printf("\nCells, newly set by:  # the first writing   + the fill   "
           "o the second record   . never set\n\n"
           "word  counter             first value  "
           "0    5    10   15   20   25   30   35   40   45\n");
    for (word = 0; word < WOM_WORDS; word++)
        print_word(word);
}

static void print_counts(void)
{
    unsigned first_bits = 8 * WOM_FIRST_BYTES;
    unsigned second_bits = 8 * WOM_SECOND_BYTES_SURE;

    printf("\nOf all %d cells of the page, with its header:\n",
           8 * WOM_PAGE_BYTES);
    printf("%6u  set by the first writing\n",
           set_beyond(first_page, blank_page));
    printf("%6u  newly set by the fill\n",
           set_beyond(filled_page, first_page));
    printf("%6u  newly set by the second record\n",
           set_beyond(second_page, filled_page));
    printf("%6u  cleared by the fill\n", set_beyond(first_page, filled_page));
    printf("%6u  cleared by the second record\n",
           set_beyond(filled_page, second_page));
    printf("%6u  program operations, one for each of the three\n",
           part.programs);
    printf("%6u  bits stored between two erases, %u and %u, in %d cells\n",
           first_bits + second_bits, first_bits, second_bits,
           8 * WOM_PAGE_BYTES);
}

/* ---- A block of pages -------------------------------------------------- */

/* Page i of the first block gets the counters of month i + 1. The van has
 * fetched the first nine. */
#define FETCHED 9

/* 116 bytes; the byte after them is the string's end. */
static const uint8_t fault[] =
    "Fault 17, lift 4, 08:10: door edge blocked 3 times in 18 min., car held "
    "at floor 2, reset by hand; next service due.";

#define FAULT_BYTES (sizeof fault - 1)

static uint64_t room[WOM_BLOCK_PAGES]; /* in bits; 0: a blank page */

static uint8_t *page_of(uint8_t *block, int page)
{
    return block + WOM_PAGE_BYTES * page;
}

static uint16_t marks_of(int from, int to)
{
    uint16_t marks = 0;

    for (; from < to; from++)
        marks |= WOM_MARK(from);
    return marks;
}

static int is_marked(uint16_t marks, int page)
{
    return (marks & WOM_MARK(page)) != 0;
}

static void print_block(uint16_t marks)
{
    int i;

    printf("   page    ");
    for (i = 0; i < WOM_BLOCK_PAGES; i++)
        printf(" %4d", i);
    printf("\n   capacity");
    for (i = 0; i < WOM_BLOCK_PAGES; i++)
        printf(" %4" PRIu64, room[i]);
    printf("\n   fetched ");
    for (i = 0; i < WOM_BLOCK_PAGES; i++)
        printf(" %4s", is_marked(marks, i) ? "yes" : "-");
    printf("\n");
}

static int write_months(void)
{
    uint8_t page[WOM_PAGE_BYTES];
    int i;

    for (i = 0; i < YEAR; i++) {
        uint8_t *cells = page_of(part.blocks[0], i);
        uint64_t answer;

        if (!program_first(cells, i + 1, page))
            return 0;
        answer = wom_page_capacity(cells, WOM_PAGE_BYTES);
        if (!accepted("wom_page_capacity", answer))
            return 0;
        room[i] = wom_result(answer);
    }
    printf("\nA block of %d pages, and a second one, erased.\n\n"
           "8  %d pages hold the counters of a month each, the others are "
           "blank; the van has fetched %d.\n",
           WOM_BLOCK_PAGES, YEAR, FETCHED);
    print_block(marks_of(0, FETCHED));
    return 1;
}

/* Of the marked pages none that has room for the record comes before the chosen
 * one. */
static int is_best(int chosen, uint16_t marks)
{
    int i;

    for (i = 0; i < WOM_BLOCK_PAGES; i++)
        if (is_marked(marks, i) && room[i] >= 8 * FAULT_BYTES &&
            (room[i] < room[chosen] || (room[i] == room[chosen] && i < chosen)))
            return 0;
    return is_marked(marks, chosen) && room[chosen] >= 8 * FAULT_BYTES;
}

/* The library works on a copy of the block; the part is programmed with the one
 * page that it changes. */
static int place_fault(int *chosen)
{
    static uint8_t block[WOM_BLOCK_BYTES];
    uint16_t marks = marks_of(0, FETCHED);
    uint64_t answer;

    memcpy(block, part.blocks[0], sizeof block);
    answer = wom_place_record(block, sizeof block, marks, fault, FAULT_BYTES);
    if (!accepted("wom_place_record", answer))
        return 0;
    *chosen = (int)wom_result(answer);
    if (!is_best(*chosen, marks)) {
        fprintf(stderr, "logger: page %d is not the best one\n", *chosen);
        return 0;
    }
    if (!program(page_of(part.blocks[0], *chosen), page_of(block, *chosen)) ||
        !same("the other pages", part.blocks[0], block, sizeof block))
        return 0;
    printf("9  At a busy hour a record of %zu bytes comes, %zu bits. It may go "
           "over a page that was fetched.\n"
           "   wom_place_record answers page %d, of %" PRIu64 " bits: of the "
           "%d pages marked none with room for it\n"
           "   is smaller, or as small at a lower index.\n"
           "   One program operation sets %u further cells, the fill's among "
           "them; no other page has changed.\n",
           FAULT_BYTES, 8 * FAULT_BYTES, *chosen, room[*chosen], FETCHED,
           part.pulses);
    return 1;
}

static int read_fault(int chosen)
{
    if (!reads_back(page_of(part.blocks[0], chosen), fault, FAULT_BYTES))
        return 0;
    printf("10 It is read back from the part's cells alone.\n"
           "   wom_read_second gives the same %zu bytes from page %d:\n"
           "   %s\n",
           FAULT_BYTES, chosen, (const char *)fault);
    return 1;
}

/* Wanted are the record and the months that the van has not fetched. */
static int collect_wanted(int chosen, int *kept)
{
    static uint8_t block[WOM_BLOCK_BYTES];
    uint16_t keep = marks_of(FETCHED, YEAR) | WOM_MARK(chosen);
    uint64_t answer;
    int i;

    memcpy(block, part.blocks[1], sizeof block);
    answer = wom_collect_block(part.blocks[0], sizeof part.blocks[0], keep,
                               block, sizeof block);
    if (!accepted("wom_collect_block", answer))
        return 0;
    *kept = (int)wom_result(answer);
    for (i = 0; i < *kept; i++)
        if (!program(page_of(part.blocks[1], i), page_of(block, i)))
            return 0;
    if (!same("the second block", part.blocks[1], block, sizeof block) ||
        !reads_back(part.blocks[1], fault, FAULT_BYTES))
        return 0;
    printf("11 Page %d and the months not fetched are still wanted, the others "
           "are not.\n"
           "   wom_collect_block copies the %d to the front of the second "
           "block, in their order.\n"
           "   %d program operations; the record is read from page 0 there. "
           "The first block can be erased.\n",
           chosen, *kept, *kept);
    return 1;
}

static int write_next_month(int kept)
{
    uint8_t page[WOM_PAGE_BYTES];

    if (!program_first(page_of(part.blocks[1], kept), YEAR + 1, page))
        return 0;
    printf("12 The next page there is blank, and takes the next month's "
           "counters.\n"
           "   wom_write_first accepts page %d; one program operation sets %u "
           "cells.\n",
           kept, part.pulses);
    return 1;
}

static int keep_block(void)
{
    int chosen;
    int kept;

    return write_months() && place_fault(&chosen) && read_fault(chosen) &&
           collect_wanted(chosen, &kept) && write_next_month(kept);
}

/* ---- Pages for the listing program ------------------------------------- */

/* The first-round page with two neighbouring cells set: refusal 7. */
static void damage_first(uint8_t *page)
{
    memcpy(page, first_page, WOM_PAGE_BYTES);
    set(page, 20, 10);
    set(page, 20, 11);
}

/* Sets a data cell of a word that was filled: its first set cell is a
 * separator, and the next cell a data cell. */
static void set_data_cell(uint8_t *page, int word)
{
    int cell = 0;

    while (!is_set(page, word, cell))
        cell++;
    set(page, word, cell + 1);
}

/* The filled page with a data cell set: refusal 7. */
static void damage_filled(uint8_t *page)
{
    memcpy(page, filled_page, WOM_PAGE_BYTES);
    set_data_cell(page, 20);
}

/* The second-round page with a spare data cell set: refusal 9. The record ends
 * before the last word. */
static void damage_second(uint8_t *page)
{
    memcpy(page, second_page, WOM_PAGE_BYTES);
    set_data_cell(page, WOM_WORDS - 1);
}

static int put_pages(FILE *file)
{
    uint8_t bad[3][WOM_PAGE_BYTES];
    const uint8_t *const pages[] = {blank_page,  first_page, filled_page,
                                    second_page, bad[0],     bad[1],
                                    bad[2]};
    size_t i;

    damage_first(bad[0]);
    damage_filled(bad[1]);
    damage_second(bad[2]);
    for (i = 0; i < sizeof pages / sizeof pages[0]; i++)
        if (fwrite(pages[i], WOM_PAGE_BYTES, 1, file) != 1)
            return 0;
    return fwrite(first_page, PIECE_BYTES, 1, file) == 1;
}

static int write_pages(const char *path)
{
    FILE *file = fopen(path, "wb");
    int put = file != NULL && put_pages(file);

    if (file != NULL && fclose(file) != 0)
        put = 0;
    if (!put)
        fprintf(stderr, "logger: cannot write %s\n", path);
    return put;
}

/* ------------------------------------------------------------------------ */

static int live(int planted)
{
    uint64_t capacity;
    uint64_t fill_pulses;

    printf("One page of flash between two erases: %d bytes, %d cells, %u set.\n"
           "\n",
           WOM_PAGE_BYTES, 8 * WOM_PAGE_BYTES,
           set_beyond(part.cells, blank_page));
    if (!write_first_record() || !fetch_first_record() || !measure(&capacity) ||
        !fill_ahead(capacity, &fill_pulses) || !try_too_long(capacity) ||
        !write_second_record(fill_pulses, planted) ||
        !read_second_record())
        return 0;
    print_pages();
    print_words();
    print_counts();
    return 1;
}

int main(int argc, char **argv)
{
    int planted = argc == 2 && strcmp(argv[1], "plant") == 0;

    if (argc > 2) {
        fprintf(stderr, "usage: logger [PATH | plant]\n");
        return 2;
    }
    if (!live(planted) || !keep_block())
        return 1;
    if (argc == 2 && !planted && !write_pages(argv[1]))
        return 1;
    return 0;
}

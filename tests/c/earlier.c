/*
 * Pages that versions before 4.0.0 left (tests/earlier/pages, which
 * tests/earlier/make.c says how to read), filled and twice written: each is
 * taken as it was then, with the same capacity and the same record. The fill
 * of now leaves out cells 45 of them, and nothing else.
 *
 * Started from the repository's root.
 */
#include <ctype.h>
#include <stdint.h>
#include <stdio.h>
#include <stdlib.h>
#include <string.h>

#include "testing.h"
#include "wom.h"

#define PAGES "tests/earlier/pages"
#define CELLS (WOM_WORDS * WOM_WORD_CELLS)

struct earlier {
    uint8_t first[WOM_FIRST_BYTES];
    uint64_t capacity;
    uint8_t filled[WOM_PAGE_BYTES];
    uint8_t record[WOM_SECOND_BYTES_MAX];
    size_t length;
    uint8_t second[WOM_PAGE_BYTES];
};

static void fail(const char *what)
{
    fprintf(stderr, "earlier: %s: %s\n", PAGES, what);
    exit(2);
}

/* The bytes of one field, and their number. */
static size_t take_bytes(FILE *file, uint8_t *bytes, size_t most)
{
    char digits[2 * WOM_PAGE_BYTES + 1];
    unsigned value;
    size_t i, length;

    if (fscanf(file, "%512s", digits) != 1)
        fail("a field is missing");
    length = strcmp(digits, "-") == 0 ? 0 : strlen(digits) / 2;
    if (length > most)
        fail("a field is too long");
    for (i = 0; i < length; i++) {
        if (sscanf(digits + 2 * i, "%2x", &value) != 1)
            fail("a field is not hexadecimal");
        bytes[i] = (uint8_t)value;
    }
    return length;
}

static void take_exactly(FILE *file, uint8_t *bytes, size_t length)
{
    if (take_bytes(file, bytes, length) != length)
        fail("a field is too short");
}

/* False at the end of the file. */
static int take_line(FILE *file, struct earlier *page)
{
    unsigned capacity;
    int next = fgetc(file);

    while (isspace(next))
        next = fgetc(file);
    if (next == EOF)
        return 0;
    ungetc(next, file);
    take_exactly(file, page->first, sizeof page->first);
    if (fscanf(file, "%u", &capacity) != 1)
        fail("a capacity is missing");
    page->capacity = capacity;
    take_exactly(file, page->filled, sizeof page->filled);
    page->length = take_bytes(file, page->record, sizeof page->record);
    take_exactly(file, page->second, sizeof page->second);
    return 1;
}

static void check_page(const char *kind, const uint8_t *came,
                       const uint8_t *earlier)
{
    uint8_t expected[WOM_PAGE_BYTES];

    memcpy(expected, earlier, sizeof expected);
    check_bytes(kind, came, expected, sizeof expected);
}

/* What the earlier fill left is measured and written as it was then, and a
 * record that is one byte too long refused. */
static void check_filled(const struct earlier *earlier)
{
    uint8_t page[WOM_PAGE_BYTES];
    uint8_t record[WOM_SECOND_BYTES_MAX + 1] = {0};
    size_t too_long = earlier->capacity / 8 + 1;

    memcpy(page, earlier->filled, sizeof page);
    check_number("capacity", wom_page_capacity(page, sizeof page),
                 earlier->capacity);
    check_number("refusal",
                 wom_write_second(page, sizeof page, record, too_long),
                 (uint64_t)8 << 56 | earlier->capacity);
    check_page("kept", page, earlier->filled);
    check_number("written",
                 wom_write_second(page, sizeof page, earlier->record,
                                  earlier->length),
                 0);
    check_page("page", page, earlier->second);
}

static void check_second(const struct earlier *earlier)
{
    uint8_t out[WOM_SECOND_BYTES_MAX], expected[WOM_SECOND_BYTES_MAX];

    memset(out, 0x55, sizeof out);
    memset(expected, 0x55, sizeof expected);
    memcpy(expected, earlier->record, earlier->length);
    check_number("length",
                 wom_read_second(earlier->second, sizeof earlier->second, out,
                                 sizeof out),
                 earlier->length);
    check_bytes("record", out, expected, sizeof out);
}

static int cell(const uint8_t *page, int i)
{
    return page[WOM_HEADER_BYTES + i / 8] >> (7 - i % 8) & 1;
}

/* The page filled now, cell by cell beside the earlier one; returns the number
 * of cells that are set in that alone. */
static unsigned check_cells(const struct earlier *earlier)
{
    uint8_t page[WOM_PAGE_BYTES] = {0}, first[WOM_PAGE_BYTES];
    unsigned spared = 0;
    uint64_t pulses;
    int i;

    check_number("first",
                 wom_write_first(page, sizeof page, earlier->first,
                                 sizeof earlier->first),
                 0);
    memcpy(first, page, sizeof first);
    check_number("room", wom_page_capacity(page, sizeof page),
                 earlier->capacity);
    pulses = wom_fill_page(page, sizeof page);
    for (i = 0; i < CELLS; i++) {
        int last = i % WOM_WORD_CELLS == WOM_WORD_CELLS - 1;
        int now = cell(page, i);

        check_number("cell", (uint64_t)now,
                     (uint64_t)(last ? cell(first, i)
                                     : cell(earlier->filled, i)));
        pulses -= (uint64_t)(now - cell(first, i));
        spared += (unsigned)(cell(earlier->filled, i) - now);
    }
    check_number("pulses", pulses, 0);
    return spared;
}

int main(int argc, char **argv)
{
    struct earlier page;
    unsigned count = 0, spared = 0;
    FILE *file;

    take_arguments("earlier [plant KIND]", argc, argv);
    file = fopen(PAGES, "r");
    if (file == NULL)
        fail("cannot be opened");
    while (take_line(file, &page)) {
        in_case("earlier page", count++);
        check_filled(&page);
        check_second(&page);
        spared += check_cells(&page);
    }
    fclose(file);
    in_case("earlier pages, cells 45", spared);
    check_number("spared", spared > 0, 1);
    printf("earlier: %u pages, with %u cells 45 that the fill now leaves out\n",
           count, spared);
    return finish("earlier");
}

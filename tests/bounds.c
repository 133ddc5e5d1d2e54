/*
 * The annex's bounds, as the library answers them: the capacity of the page of
 * 44 times the value 3889371024 and of the page of 176 zero bytes, the length
 * of the longest record that each accepts once it is filled, and the pulses of
 * its fill; then the same of pages of 512 bytes, of 88 times that value and of
 * 352 zero bytes. By the Inspect code, over the page of 176 zero bytes: how
 * many bits go in of a record of ones and of one of zeros that are too long,
 * and the length of the longest of each that is accepted; then the same over
 * that of 352. Prints these twenty numbers in four lines:
 *
 *     least greatest sure longest fewest most
 *     least greatest sure longest fewest most
 *     least greatest sure longest
 *     least greatest sure longest
 *
 * Exit status 1 when a first writing, a fill or a measurement is refused, a
 * filled page has another capacity than the page had before, or the record that
 * is too long is not refused by 8.
 */
#include <inttypes.h>
#include <stdint.h>
#include <stdio.h>
#include <stdlib.h>
#include <string.h>

#include "wom.h"

#define TOO_LONG 600 /* bytes; more than any page takes */

typedef uint64_t writer(uint8_t *page, size_t page_length,
                        const uint8_t *record, size_t record_length);

static uint64_t accepted(uint64_t answer)
{
    if (wom_refusal(answer) == 0)
        return wom_result(answer);
    fprintf(stderr, "bounds: refused by %u\n", wom_refusal(answer));
    exit(1);
}

/* The first-round page of that size all of whose words have the value. */
static void make_page(uint8_t *page, size_t size, uint32_t value)
{
    uint8_t data[WOM_FIRST_BYTES_OF(WOM_LARGE_PAGE_BYTES)];
    size_t i;

    for (i = 0; i < sizeof data; i++)
        data[i] = (uint8_t)(value >> (24 - 8 * (i % 4)));
    memset(page, 0, size);
    accepted(wom_write_first(page, size, data,
                             (size_t)WOM_FIRST_BYTES_OF(size)));
}

/* Fills the page, and gives the pulses and its capacity, which is that of
 * before. */
static uint64_t fill(uint8_t *page, size_t size, uint64_t *pulses)
{
    uint64_t before = accepted(wom_page_capacity(page, size));
    uint64_t capacity;

    *pulses = accepted(wom_fill_page(page, size));
    capacity = accepted(wom_page_capacity(page, size));
    if (capacity != before) {
        fprintf(stderr, "bounds: the fill changed the capacity\n");
        exit(1);
    }
    return capacity;
}

/* The answer to a record of equal bytes, over a copy of the page. */
static uint64_t answer(writer *write, const uint8_t *page, size_t size,
                       uint8_t byte, size_t length)
{
    uint8_t copy[WOM_LARGE_PAGE_BYTES];
    uint8_t record[TOO_LONG];

    memcpy(copy, page, size);
    memset(record, byte, sizeof record);
    return write(copy, size, record, length);
}

static size_t longest(writer *write, const uint8_t *page, size_t size,
                      uint8_t byte)
{
    size_t length = TOO_LONG;

    while (length > 0 &&
           wom_refusal(answer(write, page, size, byte, length)) != 0)
        length--;
    return length;
}

/* How many bits of a record of equal bytes go in by the Inspect code. */
static uint64_t go_in(const uint8_t *page, size_t size, uint8_t byte)
{
    uint64_t refused = answer(wom_write_inspect, page, size, byte, TOO_LONG);

    if (wom_refusal(refused) == WOM_REFUSED_RECORD_LENGTH)
        return wom_index(refused);
    fprintf(stderr, "bounds: %d bytes were not refused by 8\n", TOO_LONG);
    exit(1);
}

static void print_fill_code(size_t size)
{
    uint8_t least[WOM_LARGE_PAGE_BYTES];
    uint8_t greatest[WOM_LARGE_PAGE_BYTES];
    uint64_t least_bits, greatest_bits;
    uint64_t fewest, most; /* pulses */

    make_page(least, size, 3889371024u);
    make_page(greatest, size, 0);
    least_bits = fill(least, size, &fewest);
    greatest_bits = fill(greatest, size, &most);
    printf("%" PRIu64 " %" PRIu64 " %zu %zu %" PRIu64 " %" PRIu64 "\n",
           least_bits, greatest_bits,
           longest(wom_write_second, least, size, 0),
           longest(wom_write_second, greatest, size, 0), fewest, most);
}

static void print_inspect_code(size_t size)
{
    uint8_t page[WOM_LARGE_PAGE_BYTES];

    make_page(page, size, 0);
    printf("%" PRIu64 " %" PRIu64 " %zu %zu\n", go_in(page, size, 0xff),
           go_in(page, size, 0), longest(wom_write_inspect, page, size, 0xff),
           longest(wom_write_inspect, page, size, 0));
}

int main(void)
{
    print_fill_code(WOM_PAGE_BYTES);
    print_fill_code(WOM_LARGE_PAGE_BYTES);
    print_inspect_code(WOM_PAGE_BYTES);
    print_inspect_code(WOM_LARGE_PAGE_BYTES);
    return 0;
}

/*
 * Makes tests/earlier/pages: pages as the library left them before version
 * 4.0.0, when the fill also set cell 45. Compiled with the archive and the
 * header of version 3.0.0 (commit a644799; the SHA-256 digest of its archive is
 * bef3bcbc2c845357e451ebf86d39cdb0dedaaabe2ec09f6cbc6d2f8958f11c57), it prints
 * that file. Each line has, in hexadecimal but for the capacity:
 *
 *     the first record   the capacity in bits   the filled page
 *     the second record, `-` where it has no byte   the second-round page
 *
 * Exit status 1 when a call is refused.
 */
#include <inttypes.h>
#include <stdint.h>
#include <stdio.h>
#include <stdlib.h>
#include <string.h>

#include "wom.h"

#define SEEDED 24 /* pages of seeded values, after those of one value */

static uint64_t accepted(uint64_t answer)
{
    if (wom_refusal(answer) == 0)
        return wom_result(answer);
    fprintf(stderr, "make: refused by %u\n", wom_refusal(answer));
    exit(1);
}

static void print_bytes(const uint8_t *bytes, size_t length, char after)
{
    size_t i;

    if (length == 0)
        putchar('-');
    for (i = 0; i < length; i++)
        printf("%02x", bytes[i]);
    putchar(after);
}

/* The next number of a xorshift generator of 64 bits. */
static uint64_t next(void)
{
    static uint64_t state = UINT64_C(0x9e3779b97f4a7c15);

    state ^= state << 13;
    state ^= state >> 7;
    state ^= state << 17;
    return state;
}

/* A record of that many bytes, or of the longest that fits. */
static void print_page(const uint8_t data[WOM_FIRST_BYTES], size_t length)
{
    uint8_t page[WOM_PAGE_BYTES] = {0};
    uint8_t record[WOM_SECOND_BYTES_MAX];
    uint64_t capacity;
    size_t i;

    accepted(wom_write_first(page, sizeof page, data, WOM_FIRST_BYTES));
    capacity = accepted(wom_page_capacity(page, sizeof page));
    accepted(wom_fill_page(page, sizeof page));
    print_bytes(data, WOM_FIRST_BYTES, ' ');
    printf("%" PRIu64 " ", capacity);
    print_bytes(page, sizeof page, ' ');

    length = length > capacity / 8 ? capacity / 8 : length;
    for (i = 0; i < length; i++)
        record[i] = (uint8_t)next();
    accepted(wom_write_second(page, sizeof page, record, length));
    print_bytes(record, length, ' ');
    print_bytes(page, sizeof page, '\n');
}

static void put_value(uint8_t data[WOM_FIRST_BYTES], int word, uint32_t value)
{
    int i;

    for (i = 0; i < 4; i++)
        data[4 * word + i] = (uint8_t)(value >> (24 - 8 * i));
}

int main(void)
{
    static const uint32_t values[] = {0, 1, 2, 3, 77, 243, 3889371024u,
                                      4294967295u};
    static const size_t lengths[] = {0, 1, 40, 82, WOM_SECOND_BYTES_MAX};
    uint8_t data[WOM_FIRST_BYTES];
    size_t i;
    int word;

    for (i = 0; i < sizeof values / sizeof values[0]; i++) {
        for (word = 0; word < WOM_WORDS; word++)
            put_value(data, word, values[i]);
        print_page(data, WOM_SECOND_BYTES_MAX);
    }
    for (i = 0; i < SEEDED; i++) {
        for (word = 0; word < WOM_WORDS; word++)
            put_value(data, word, (uint32_t)(next() >> next() % 32));
        print_page(data, lengths[i % (sizeof lengths / sizeof lengths[0])]);
    }
    return 0;
}

/*
 * One text for two chips: the life of a page between two erases on a part with
 * pages of 256 bytes, and on one with pages of 512, where a record of the
 * Inspect code is longer than one byte can tell. What goes by the page's size
 * comes from wom.h, and every call finds the size from the length that it is
 * given. Then what is refused where the two are mixed up.
 *
 *     two_chips          prints each step
 *     two_chips plant    changes a byte of the second record before it is
 *                        compared with what was read
 *
 * Exit status 0 when every step succeeds, 1 when one fails, 2 for other
 * arguments.
 *
 * Build it at the repository's root, after make archive:
 *
 *     gcc -std=c99 -Wall -Wextra -Werror -pedantic -O2 -I include \
 *         -o two_chips examples/two_chips.c target/staticlib/libwom.a
 */
#include <inttypes.h>
#include <stdint.h>
#include <stdio.h>
#include <string.h>

#include "wom.h"

/* Room for a page of either chip, and for its longest record. */
#define PAGE_ROOM   WOM_LARGE_PAGE_BYTES
#define RECORD_ROOM WOM_INSPECT_BYTES_MAX_OF(WOM_LARGE_PAGE_BYTES)

/* A model of a part: one page, which can only be set. */
struct part {
    size_t size;
    uint8_t cells[PAGE_ROOM];
};

static int planted; /* whether a byte is to be changed */

/* Sets the cells that are set in the page given. Fails, and sets none, when a
 * cell that is set in the part would have to be cleared. */
static int program(struct part *part, const uint8_t *page)
{
    size_t i;

    for (i = 0; i < part->size; i++)
        if ((part->cells[i] & ~(unsigned)page[i]) != 0) {
            fprintf(stderr, "two_chips: byte %zu has a cell to clear\n", i);
            return 0;
        }
    memcpy(part->cells, page, part->size);
    return 1;
}

/* True when the call was not refused; a refusal is printed. */
static int accepted(const char *call, uint64_t answer)
{
    unsigned number = wom_refusal(answer);

    if (number != 0)
        fprintf(stderr, "two_chips: %s is refused by %u (%s), %" PRIu64 "\n",
                call, number, wom_refusal_name(number), wom_index(answer));
    return number == 0;
}

/* True when the call was refused by that number and index, which are printed. */
static int refused(const char *call, uint64_t answer, unsigned number,
                   uint64_t index)
{
    printf("  %-46s refused by %u (%s), %" PRIu64 "\n", call,
           wom_refusal(answer), wom_refusal_name(wom_refusal(answer)),
           wom_index(answer));
    return wom_refusal(answer) == number && wom_index(answer) == index;
}

/* The chip's counters, each as four bytes, the highest first: of each word one
 * that has gone on a good while. */
static void put_counters(uint8_t *record, size_t length)
{
    size_t i;

    for (i = 0; i < length; i++) {
        uint32_t counter = 97612893u * (uint32_t)(i / 4 + 1);

        record[i] = (uint8_t)(counter >> (24 - 8 * (i % 4)));
    }
}

static void put_text(uint8_t *record, size_t length)
{
    static const char text[] = "week 47: doors 1644, starts 1207, calls 970; ";
    size_t i;

    for (i = 0; i < length; i++)
        record[i] = (uint8_t)text[i % (sizeof text - 1)];
}

/* Hall calls, which are few: of every 13 bits one is 1. */
static void put_calls(uint8_t *record, size_t length)
{
    size_t i;

    memset(record, 0, length);
    for (i = 0; i < 8 * length; i += 13)
        record[i / 8] |= (uint8_t)(0x80 >> i % 8);
}

/* The first record, written and read back. */
static int first_round(struct part *part)
{
    size_t length = WOM_FIRST_BYTES_OF(part->size);
    uint8_t page[PAGE_ROOM], record[RECORD_ROOM], out[RECORD_ROOM];

    put_counters(record, length);
    memcpy(page, part->cells, part->size);
    if (!accepted("write first",
                  wom_write_first(page, part->size, record, length)) ||
        !program(part, page))
        return 0;
    if (!accepted("read first", wom_read_first(part->cells, part->size, out,
                                               sizeof out)))
        return 0;
    printf("  first record       %3zu bytes in %d words\n", length,
           WOM_WORDS_OF(part->size));
    return memcmp(out, record, length) == 0;
}

/* The fill, ahead of time. */
static int fill(struct part *part)
{
    uint8_t page[PAGE_ROOM];
    uint64_t capacity = wom_page_capacity(part->cells, part->size);
    uint64_t pulses;

    memcpy(page, part->cells, part->size);
    pulses = wom_fill_page(page, part->size);
    if (!accepted("page capacity", capacity) ||
        !accepted("fill page", pulses) || !program(part, page))
        return 0;
    printf("  capacity          %4" PRIu64 " bits; filled with %" PRIu64
           " pulses\n",
           wom_result(capacity), wom_result(pulses));
    return wom_page_capacity(part->cells, part->size) == capacity;
}

/* A second record of the length that is sure to fit, written and read back from
 * the part alone. */
static int second_round(struct part *part)
{
    size_t length = WOM_SECOND_BYTES_SURE_OF(part->size);
    uint8_t page[PAGE_ROOM], record[RECORD_ROOM], out[RECORD_ROOM];

    put_text(record, length);
    memcpy(page, part->cells, part->size);
    if (!accepted("write second",
                  wom_write_second(page, part->size, record, length)) ||
        !program(part, page))
        return 0;
    if (!accepted("read second", wom_read_second(part->cells, part->size, out,
                                                 sizeof out)))
        return 0;
    record[0] ^= (uint8_t)planted;
    if (memcmp(out, record, length) != 0) {
        fprintf(stderr, "two_chips: another second record is read back\n");
        return 0;
    }
    printf("  second record      %3zu bytes, read back: \"%.28s..\"\n", length,
           (const char *)out);
    return 1;
}

/* Over a page in its first round, by the Inspect code: of the longest record
 * that any page takes as many bytes as this one takes, which the refusal of the
 * whole tells. */
static int inspect_round(struct part *part)
{
    size_t length = WOM_INSPECT_BYTES_MAX_OF(part->size);
    uint8_t page[PAGE_ROOM], record[RECORD_ROOM], out[RECORD_ROOM];
    uint64_t answer;

    put_calls(record, length);
    memcpy(page, part->cells, part->size);
    answer = wom_write_inspect(page, part->size, record, length);
    if (wom_refusal(answer) == WOM_REFUSED_RECORD_LENGTH) {
        length = (size_t)wom_index(answer) / 8;
        answer = wom_write_inspect(page, part->size, record, length);
    }
    if (!accepted("write inspect", answer) || !program(part, page))
        return 0;
    answer = wom_read_inspect(part->cells, part->size, out, sizeof out);
    if (!accepted("read inspect", answer))
        return 0;
    printf("  or by Inspect      %3zu bytes, read back; bytes 1 and 2 are %u, "
           "%u\n",
           length, part->cells[1], part->cells[2]);
    return wom_result(answer) == length && memcmp(out, record, length) == 0;
}

static int live(struct part *part)
{
    struct part other; /* with the same first record */

    printf("A page of %zu bytes\n", part->size);
    if (!first_round(part))
        return 0;
    other = *part;
    return fill(part) && second_round(part) && inspect_round(&other);
}

/* Pages taken for pages of the other chip. Bytes after the small page are those
 * of the buffer, 0. */
static int mix_up(const struct part *small, const struct part *large)
{
    uint8_t out[RECORD_ROOM];

    printf("Taken for a page of the other chip\n");
    return refused("the small page with 256 zero bytes after it",
                   wom_read_second(small->cells, large->size, out, sizeof out),
                   WOM_REFUSED_WORD, 44) &&
           refused("the first half of the large page",
                   wom_read_second(large->cells, small->size, out, sizeof out),
                   WOM_REFUSED_HEADER, 0) &&
           refused("the large page, all but its last byte",
                   wom_read_second(large->cells, large->size - 1, out,
                                   sizeof out),
                   WOM_REFUSED_PAGE_LENGTH, 0);
}

int main(int argc, char **argv)
{
    static struct part small = {WOM_PAGE_BYTES, {0}};
    static struct part large = {WOM_LARGE_PAGE_BYTES, {0}};

    planted = argc == 2 && strcmp(argv[1], "plant") == 0;
    if (argc != 1 && !planted) {
        fprintf(stderr, "usage: two_chips [plant]\n");
        return 2;
    }
    if (!live(&small) || !live(&large) || !mix_up(&small, &large)) {
        fprintf(stderr, "two_chips: a step failed\n");
        return 1;
    }
    return 0;
}

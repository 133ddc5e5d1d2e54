/*
 * The file that the service van carries to the office: the pages of one lift,
 * as they were fetched, in one transfer file.
 *
 *     carry DEVICE PAGES FILE
 *
 * Takes the whole pages of the file PAGES, at most 64, writes their transfer
 * file with this device number to FILE, and shows its fields. A piece after the
 * last whole page is left out, once the library has refused it.
 *
 * Exit status 0 when every step succeeds, 1 when one fails, 2 for other
 * arguments.
 *
 * Build it at the repository's root, after make archive:
 *
 *     gcc -std=c99 -Wall -Wextra -Werror -pedantic -O2 -I include \
 *         -o carry examples/carry.c target/staticlib/libwom.a
 */
#include <errno.h>
#include <inttypes.h>
#include <stdint.h>
#include <stdio.h>
#include <stdlib.h>

#include "wom.h"

#define SHOWN 8 /* the first bytes of a field's contents */

/* One page more than a file takes, so that too many are refused. */
static uint8_t pages[(WOM_FILE_PAGES_MAX + 1) * WOM_PAGE_BYTES];
static uint8_t file[WOM_FILE_BYTES(WOM_FILE_PAGES_MAX)];

/* ---- Files of the system ----------------------------------------------- */

static int fail(const char *path)
{
    perror(path);
    return 0;
}

static int load(const char *path, size_t *length)
{
    FILE *from = fopen(path, "rb");
    int failed;

    if (from == NULL)
        return fail(path);
    *length = fread(pages, 1, sizeof pages, from);
    failed = ferror(from);
    fclose(from);
    return failed ? fail(path) : 1;
}

static int store(const char *path, size_t length)
{
    FILE *to = fopen(path, "wb");
    int put;

    if (to == NULL)
        return fail(path);
    put = fwrite(file, 1, length, to) == length;
    return (fclose(to) == 0 && put) ? 1 : fail(path);
}

/* ---- The transfer file ------------------------------------------------- */

/* The answer for the first bytes of the pages; a refusal is printed. */
static uint64_t write_file(uint32_t device, size_t length)
{
    uint64_t answer = wom_write_file(device, pages, length, file, sizeof file);
    unsigned number = wom_refusal(answer);

    if (number != 0)
        printf("   %zu bytes of pages: wom_write_file refuses by %u (%s).\n",
               length, number, wom_refusal_name(number));
    return answer;
}

/* Writes the file of the whole pages. Its size; 0 when it was refused. */
static size_t write_whole(uint32_t device, size_t length)
{
    size_t piece = length % WOM_PAGE_BYTES;
    uint64_t answer = write_file(device, length);

    if (wom_refusal(answer) != 0 && piece != 0) {
        printf("   The piece at the end, %zu of %d bytes, is left out.\n",
               piece, WOM_PAGE_BYTES);
        answer = write_file(device, length - piece);
    }
    return wom_refusal(answer) == 0 ? (size_t)wom_result(answer) : 0;
}

/* ---- Showing it -------------------------------------------------------- */

/* In hexadecimal. */
static void print_bytes(const uint8_t *bytes, size_t length)
{
    size_t i;

    for (i = 0; i < SHOWN; i++)
        if (i < length)
            printf(" %02x", bytes[i]);
        else
            printf("   ");
    printf(length > SHOWN ? " .." : "   ");
}

static void print_meaning(const uint8_t *field, unsigned page)
{
    const uint8_t *d = field + 3;

    switch (field[0]) {
    case 0x02:
        printf("  device number %" PRIu32 "\n",
               (uint32_t)d[0] << 24 | (uint32_t)d[1] << 16 |
                   (uint32_t)d[2] << 8 | d[3]);
        break;
    case 0x01:
        printf("  page %u\n", page);
        break;
    default:
        printf("  end\n");
    }
}

/* Goes from field to field by their lengths. */
static void print_fields(size_t size)
{
    size_t at = 2;
    unsigned page = 0;

    printf("\n  byte  tag length contents\n     0  %02x %02x%40s\n", file[0],
           file[1], "start");
    while (at < size) {
        size_t length = (size_t)file[at + 1] << 8 | file[at + 2];

        printf("%6zu  %02x   %02x %02x ", at, file[at], file[at + 1],
               file[at + 2]);
        print_bytes(file + at + 3, length);
        print_meaning(file + at, page);
        page += file[at] == 0x01;
        at += 3 + length;
    }
}

/* ------------------------------------------------------------------------ */

static int carry(uint32_t device, const char *from, const char *to)
{
    size_t length;
    size_t size;

    if (!load(from, &length))
        return 0;
    printf("The file for the service van, %s:\n", to);
    size = write_whole(device, length);
    if (size == 0 || !store(to, size))
        return 0;
    printf("   %zu bytes are written: %zu, and %zu for each of %zu pages.\n",
           size, WOM_FILE_BYTES(0), WOM_FILE_BYTES(1) - WOM_FILE_BYTES(0),
           length / WOM_PAGE_BYTES);
    print_fields(size);
    return 1;
}

int main(int argc, char **argv)
{
    unsigned long long device;
    char *end;

    errno = 0;
    device = argc == 4 ? strtoull(argv[1], &end, 0) : 0;
    if (argc != 4 || *argv[1] == 0 || *end != 0 || errno != 0 ||
        device > UINT32_MAX) {
        fprintf(stderr, "usage: carry DEVICE PAGES FILE\n");
        return 2;
    }
    return carry((uint32_t)device, argv[2], argv[3]) ? 0 : 1;
}

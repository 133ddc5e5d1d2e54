/*
 * The transfer file at the office: what the service van has carried there, read
 * back and judged before anything of it is used.
 *
 *     office FILE PAGES
 *
 * Reads the transfer file FILE, of at most 1 MiB, shows the device number and
 * the number of pages, and writes the pages to PAGES, one after another. A file
 * that the library refuses is told by the refusal's number and name, and PAGES
 * is not written.
 *
 * Exit status 0 when every step succeeds, 1 when one fails, 2 for other
 * arguments.
 *
 * Build it at the repository's root, after make archive:
 *
 *     gcc -std=c99 -Wall -Wextra -Werror -pedantic -O2 -I include \
 *         -o office examples/office.c target/staticlib/libwom.a
 */
#include <inttypes.h>
#include <stdint.h>
#include <stdio.h>

#include "wom.h"

/* One byte more than is taken, so that a longer file is noticed. Fields that
 * are passed over can make a file longer than the library's own. */
#define MOST 1048576

static uint8_t file[MOST + 1];
static uint8_t pages[WOM_FILE_PAGES_MAX * WOM_PAGE_BYTES];

/* ---- Files of the system ----------------------------------------------- */

static int fail(const char *path)
{
    perror(path);
    return 0;
}

static int load(const char *path, size_t *length)
{
    FILE *from = fopen(path, "rb");
    int failed;

    if (from == NULL)
        return fail(path);
    *length = fread(file, 1, sizeof file, from);
    failed = ferror(from);
    fclose(from);
    if (failed)
        return fail(path);
    if (*length > MOST)
        fprintf(stderr, "%s: more than %d bytes\n", path, MOST);
    return *length <= MOST;
}

static int store(const char *path, size_t length)
{
    FILE *to = fopen(path, "wb");
    int put;

    if (to == NULL)
        return fail(path);
    put = fwrite(pages, 1, length, to) == length;
    return (fclose(to) == 0 && put) ? 1 : fail(path);
}

/* ------------------------------------------------------------------------ */

static int receive(const char *from, const char *to)
{
    size_t length;
    uint64_t answer;
    unsigned number, count;

    if (!load(from, &length))
        return 0;
    printf("The file from the service van, %s:\n", from);
    answer = wom_read_file(file, length, pages, sizeof pages);
    number = wom_refusal(answer);
    if (number != 0) {
        printf("   %zu bytes: wom_read_file refuses by %u (%s).\n", length,
               number, wom_refusal_name(number));
        return 0;
    }
    count = wom_file_pages(answer);
    if (!store(to, (size_t)count * WOM_PAGE_BYTES))
        return 0;
    printf("   %zu bytes are read: device number %" PRIu32 ", %u pages.\n",
           length, wom_file_device(answer), count);
    printf("   The pages are written to %s, %u bytes.\n", to,
           count * WOM_PAGE_BYTES);
    return 1;
}

int main(int argc, char **argv)
{
    if (argc != 3) {
        fprintf(stderr, "usage: office FILE PAGES\n");
        return 2;
    }
    return receive(argv[1], argv[2]) ? 0 : 1;
}

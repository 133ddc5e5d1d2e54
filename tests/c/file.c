/*
 * Test of wom_write_file: literal files, a file of each number of pages, and
 * calls that it refuses, with lengths from 0 to the greatest there is. How each
 * call is made: rooms.h.
 *
 *     file               all checks; exit status 0 when none is wrong, else 1
 *     file plant KIND    the same with one wrong expectation of that kind, so
 *                        that the test is seen to fail: exit status 1
 *
 * Kinds: those of rooms.h
 */
#include "rooms.h"
#include "testing.h"
#include "wom.h"

/* ---- Contents ---------------------------------------------------------- */

#define UP_4(b) b, b + 1, b + 2, b + 3
#define UP_16(b) UP_4(b), UP_4(b + 4), UP_4(b + 8), UP_4(b + 12)
#define UP_64(b) UP_16(b), UP_16(b + 16), UP_16(b + 32), UP_16(b + 48)
#define DOWN_4(b) b, b - 1, b - 2, b - 3
#define DOWN_16(b) DOWN_4(b), DOWN_4(b - 4), DOWN_4(b - 8), DOWN_4(b - 12)
#define DOWN_64(b) DOWN_16(b), DOWN_16(b - 16), DOWN_16(b - 32), DOWN_16(b - 48)

/* The first two pages, 0 to 255 and 255 to 0 */
#define UP UP_64(0), UP_64(64), UP_64(128), UP_64(192)
#define DOWN DOWN_64(255), DOWN_64(191), DOWN_64(127), DOWN_64(63)

/* The pages, random from page 2 on, and bytes after the 64th. */
static uint8_t contents[20000] = {UP, DOWN};

static void make_contents(void)
{
    uint64_t state = 1;

    fill_at_random(contents + 512, sizeof contents - 512, &state);
}

/* ---- A call ------------------------------------------------------------ */

static uint32_t device;

static uint64_t write_file(const uint8_t *pages, size_t pages_length,
                           uint8_t *out, size_t out_length)
{
    return wom_write_file(device, pages, pages_length, out, out_length);
}

static void check_file(size_t pages_length, const uint8_t *file, size_t length)
{
    struct trial trial = {.name = "device",
                          .number = device,
                          .input = contents,
                          .input_bytes = pages_length,
                          .input_length = pages_length,
                          .answer = length,
                          .output = file,
                          .written = length};

    check_outputs(write_file, &trial);
}

/* Pages that are longer than the contents are given with no byte. */
static void check_refusal(size_t pages_length, size_t out_length,
                          unsigned number)
{
    size_t bytes = pages_length < sizeof contents ? pages_length : 0;
    struct trial trial = {.name = "device",
                          .number = device,
                          .input = contents,
                          .input_bytes = bytes,
                          .input_length = pages_length,
                          .out_length = out_length,
                          .answer = (uint64_t)number << 56};

    check_trial(write_file, &trial);
}

/* ---- Files ------------------------------------------------------------- */

#define START 0xf1, 0xb0, 0x02, 0x00, 0x04 /* up to the device number */
#define PAGE 0x01, 0x01, 0x00              /* before each page */
#define END 0x7f, 0x00, 0x00

static const struct literal {
    uint32_t device;
    size_t pages_length;
    size_t length;
    uint8_t file[530];
} literals[] = {
    {0x01020304, 0, 12, {START, 0x01, 0x02, 0x03, 0x04, END}},
    {0x00000000, 0, 12, {START, 0x00, 0x00, 0x00, 0x00, END}},
    {0xffffffff, 0, 12, {START, 0xff, 0xff, 0xff, 0xff, END}},
    {0x01020304, 256, 271, {START, 0x01, 0x02, 0x03, 0x04, PAGE, UP, END}},
    {0x00000000, 256, 271, {START, 0x00, 0x00, 0x00, 0x00, PAGE, UP, END}},
    {0xffffffff, 256, 271, {START, 0xff, 0xff, 0xff, 0xff, PAGE, UP, END}},
    {0x01020304, 512, 530,
     {START, 0x01, 0x02, 0x03, 0x04, PAGE, UP, PAGE, DOWN, END}},
    {0x00000000, 512, 530,
     {START, 0x00, 0x00, 0x00, 0x00, PAGE, UP, PAGE, DOWN, END}},
    {0xffffffff, 512, 530,
     {START, 0xff, 0xff, 0xff, 0xff, PAGE, UP, PAGE, DOWN, END}},
};

static void check_literals(void)
{
    size_t i;

    for (i = 0; i < COUNT(literals); i++) {
        const struct literal *row = &literals[i];

        device = row->device;
        check_file(row->pages_length, row->file, row->length);
    }
}

/* The larger files are put together byte by byte. */
static uint8_t built[WOM_FILE_BYTES(WOM_FILE_PAGES_MAX)];
static size_t built_length;

static void put(const uint8_t *bytes, size_t length)
{
    size_t i;

    for (i = 0; i < length; i++)
        built[built_length++] = bytes[i];
}

static void build_file(size_t pages)
{
    static const uint8_t start[] = {START, 0x80, 0xa1, 0x6b, 0x07};
    static const uint8_t page[] = {PAGE};
    static const uint8_t end[] = {END};
    size_t i;

    built_length = 0;
    put(start, sizeof start);
    for (i = 0; i < pages; i++) {
        put(page, sizeof page);
        put(contents + 256 * i, 256);
    }
    put(end, sizeof end);
}

static void check_each_number(void)
{
    size_t pages;

    device = 0x80a16b07;
    for (pages = 0; pages <= 64; pages++) {
        build_file(pages);
        check_file(256 * pages, built, built_length);
    }
}

/* ---- Pages lengths that are refused ------------------------------------ */

/* More than 64 pages; right before a guard, no byte of the far lengths can be
 * touched. */
static const size_t too_many[] = {
    16385, 16639, 16640, 16641, 16896, 128 * 256, 255 * 256, 256 * 256,
    257 * 256, POWER(24), POWER(32), POWER(32) + 1, POWER(32) + 256, POWER(40),
    POWER(56), POWER(56) + 256, POWER(63) - 256, POWER(63), POWER(63) + 256,
    SIZE_MAX - 256, SIZE_MAX - 255, SIZE_MAX,
};

/* Refused whatever the output's length. */
static void check_pages_length(size_t pages_length)
{
    static const size_t out_lengths[] = {0, 11, 12, 16588, SIZE_MAX};
    size_t i;

    for (i = 0; i < COUNT(out_lengths); i++)
        check_refusal(pages_length, out_lengths[i], 13);
}

static void check_pages_lengths(void)
{
    size_t i;

    device = 0x01020304;
    for (i = 1; i <= 255; i++) {
        check_pages_length(i);
        check_pages_length(256 * (1 + i % 63) + i); /* after 1 to 63 pages */
    }
    for (i = 0; i < COUNT(too_many); i++)
        check_pages_length(too_many[i]);
}

/* ------------------------------------------------------------------------ */

int main(int argc, char **argv)
{
    take_arguments("file [plant KIND]", argc, argv);
    make_rooms();
    make_contents();
    check_literals();
    check_each_number();
    check_pages_lengths();
    return finish("file");
}

/*
 * Test of wom_read_file: files of each number of pages, put together field by
 * field, with fields to be passed over or without; and files that it refuses:
 * cut at each byte, changed in each byte, with other tags, lengths and orders
 * of their fields. How each call is made: rooms.h.
 *
 *     reading               all checks; exit status 0 when none is wrong, else
 *                           1
 *     reading plant KIND    the same with one wrong expectation of that kind,
 *                           so that the test is seen to fail: exit status 1
 *
 * Kinds: those of rooms.h
 */
#include <string.h>

#include "rooms.h"
#include "testing.h"
#include "wom.h"

#define PAGE 256
#define MOST_PAGES 64
#define ENOUGH (MOST_PAGES * PAGE) /* an output for every file */
#define LONGEST 65535              /* the contents of a field */

#define DEVICE 0x01020304

#define START 0xf1, 0xb0
#define NUMBER 0x02, 0x00, 0x04, 0x01, 0x02, 0x03, 0x04 /* DEVICE, a field */
#define END 0x7f, 0x00, 0x00

static int is_passed_over(unsigned tag)
{
    return tag >= 0x40 && tag <= 0x6f;
}

/* ---- A file, put together ---------------------------------------------- */

static uint8_t contents[LONGEST]; /* of pages and of other fields, random */

/* The bytes, and what they hold: the device number and the pages. */
static struct {
    uint8_t bytes[270000];
    size_t length;
    uint32_t device;
    size_t count;
    uint8_t pages[ENOUGH];
} file;

static void make_contents(void)
{
    uint64_t state = 1;

    fill_at_random(contents, sizeof contents, &state);
}

static void put(const uint8_t *bytes, size_t length)
{
    memcpy(file.bytes + file.length, bytes, length);
    file.length += length;
}

static void put_byte(uint8_t byte)
{
    file.bytes[file.length++] = byte;
}

static void put_field(uint8_t tag, const uint8_t *bytes, size_t length)
{
    const uint8_t head[] = {tag, (uint8_t)(length / 256), (uint8_t)length};

    put(head, sizeof head);
    put(bytes, length);
}

static void put_start(void)
{
    static const uint8_t start[] = {START};

    file.length = 0;
    file.device = 0;
    file.count = 0;
    put(start, sizeof start);
}

static void put_device(uint32_t device)
{
    const uint8_t number[] = {
        (uint8_t)(device >> 24), (uint8_t)(device >> 16),
        (uint8_t)(device >> 8), (uint8_t)device,
    };

    put_field(0x02, number, sizeof number);
    file.device = device;
}

static void put_page(void)
{
    const uint8_t *page = contents + PAGE * file.count;

    put_field(0x01, page, PAGE);
    memcpy(file.pages + PAGE * file.count, page, PAGE);
    file.count++;
}

static void put_pages(size_t count)
{
    for (; count > 0; count--)
        put_page();
}

static void put_end(void)
{
    put_field(0x7f, contents, 0);
}

static void build(uint32_t device, size_t count)
{
    put_start();
    put_device(device);
    put_pages(count);
    put_end();
}

/* ---- What is expected of it -------------------------------------------- */

/* It is read, to an output of just its pages. */
static struct trial reading(const char *name, uint64_t number)
{
    struct trial trial = {.name = name,
                          .number = number,
                          .input = file.bytes,
                          .input_bytes = file.length,
                          .input_length = file.length,
                          .out_length = PAGE * file.count,
                          .answer = (uint64_t)file.count << 32 | file.device,
                          .output = file.pages,
                          .written = PAGE * file.count};

    return trial;
}

static void check_read(const char *name, uint64_t number)
{
    struct trial trial = reading(name, number);

    check_trial(wom_read_file, &trial);
}

static void check_read_to_each(const char *name, uint64_t number)
{
    struct trial trial = reading(name, number);

    check_outputs(wom_read_file, &trial);
}

/* It is refused. */
static void check_refused_to(const char *name, uint64_t number,
                             size_t out_length, unsigned refusal)
{
    struct trial trial = reading(name, number);

    trial.out_length = out_length;
    trial.answer = (uint64_t)refusal << 56;
    trial.written = 0;
    check_trial(wom_read_file, &trial);
}

/* Refused whether the output is long enough or too short. */
static void check_refused(const char *name, uint64_t number, unsigned refusal)
{
    check_refused_to(name, number, ENOUGH, refusal);
    check_refused_to(name, number, 0, refusal);
}

/* ---- Files of each number of pages ------------------------------------- */

static void check_devices(void)
{
    static const uint32_t devices[] = {
        0, 1, 0x01020304, 0x80000000, 0xffffffff,
    };
    static const size_t counts[] = {0, 1, 2, 3, 64};
    size_t i, j;

    for (i = 0; i < COUNT(devices); i++)
        for (j = 0; j < COUNT(counts); j++) {
            build(devices[i], counts[j]);
            check_read_to_each("device", devices[i]);
        }
}

static void check_each_number(void)
{
    size_t count;

    for (count = 0; count <= MOST_PAGES; count++) {
        build(0x80a16b07, count);
        check_read_to_each("pages", count);
    }
}

/* What the library writes comes back. */
static void check_written(void)
{
    size_t count;

    for (count = 0; count <= MOST_PAGES; count++) {
        file.device = (uint32_t)(0x90abcdef + count);
        file.count = count;
        memcpy(file.pages, contents + count, PAGE * count);
        memset(file.bytes, 0, sizeof file.bytes);
        file.length = (size_t)wom_result(
            wom_write_file(file.device, file.pages, PAGE * count, file.bytes,
                           sizeof file.bytes));
        check_read("pages written by wom_write_file", count);
    }
}

/* ---- Short files, written out ------------------------------------------ */

#define BYTES(...) sizeof((uint8_t[]){__VA_ARGS__}), {__VA_ARGS__}

static const struct {
    uint32_t device;
    size_t length;
    uint8_t bytes[24];
} read_files[] = {
    {DEVICE, BYTES(START, NUMBER, END)},
    {0x00000000, BYTES(START, 0x02, 0, 4, 0, 0, 0, 0, END)},
    {0xffffffff, BYTES(START, 0x02, 0, 4, 255, 255, 255, 255, END)},
    {DEVICE, BYTES(START, 0x40, 0, 0, NUMBER, END)},
    {DEVICE, BYTES(START, NUMBER, 0x6f, 0, 2, START, END)},
    {DEVICE, BYTES(START, 0x6f, 0, 3, END, NUMBER, 0x40, 0, 1, 0, END)},
};

static const struct {
    unsigned refusal;
    size_t length;
    uint8_t bytes[24];
} refused_files[] = {
    /* another start */
    {14, 0, {0}},
    {14, BYTES(0x00)},
    {14, BYTES(0xf1)},
    {14, BYTES(0xb0)},
    {14, BYTES(0xb0, 0xf1)},
    {14, BYTES(0xf1, 0xb1)},
    {14, BYTES(START)},
    {14, BYTES(NUMBER, END)},
    {14, BYTES(0xb0, 0xf1, NUMBER, END)},
    {14, BYTES(0xf1, 0xb1, NUMBER, END)},
    {14, BYTES(0xf0, 0xb0, NUMBER, END)},
    {14, BYTES(0xf1, START, NUMBER, END)},
    /* no end */
    {14, BYTES(START, NUMBER)},
    {14, BYTES(START, NUMBER, 0x7f)},
    {14, BYTES(START, NUMBER, 0x7f, 0)},
    {14, BYTES(START, NUMBER, 0x7f, 1)},
    {14, BYTES(START, NUMBER, 0x40, 0, 0)},
    {14, BYTES(START, NUMBER, 0x40, 0, 4, END)}, /* in its contents */
    /* the device number: before it, twice, of another length */
    {15, BYTES(START, END)},
    {15, BYTES(START, 0x01)},
    {15, BYTES(START, 0x01, 1, 0)},
    {15, BYTES(START, 0x40, 0, 7, NUMBER, END)},
    {15, BYTES(START, NUMBER, NUMBER, END)},
    {15, BYTES(START, NUMBER, 0x40, 0, 0, NUMBER, END)},
    {15, BYTES(START, 0x02, 0, 0, END)},
    {15, BYTES(START, 0x02, 0, 3, 1, 2, 3, END)},
    {15, BYTES(START, 0x02, 0, 5, 1, 2, 3, 4, 5, END)},
    {15, BYTES(START, 0x02, 0, 5)},
    {15, BYTES(START, 0x02, 4, 0)},
    {15, BYTES(START, 0x02, 1, 4)},
    /* a page and the end of another length */
    {15, BYTES(START, NUMBER, 0x01, 0, 0, END)},
    {15, BYTES(START, NUMBER, 0x01, 0, 1)},
    {15, BYTES(START, NUMBER, 0x01, 0, 255)},
    {15, BYTES(START, NUMBER, 0x01, 1, 1)},
    {15, BYTES(START, NUMBER, 0x01, 2, 0)},
    {15, BYTES(START, NUMBER, 0x7f, 0, 1)},
    {15, BYTES(START, NUMBER, 0x7f, 0, 1, 0)},
    {15, BYTES(START, NUMBER, 0x7f, 1, 0)},
    /* bytes after the end */
    {16, BYTES(START, NUMBER, END, END)},
    {16, BYTES(START, NUMBER, END, 0x40, 0, 0)},
    {16, BYTES(START, NUMBER, END, START, NUMBER, END)},
    /* the first fault of several */
    {14, BYTES(0xf1, 0xb1, 0x03, 0, 0, NUMBER, END)},   /* before a 15 */
    {14, BYTES(0xf1, 0xb1, NUMBER, END, 0)},            /* before a 16 */
    {14, BYTES(START, 0x40, 0, 9, 0x03, 0, 0)},         /* no tag 03 */
    {15, BYTES(START, 0x03, 0, 9)},                     /* before a 14 */
    {15, BYTES(START, NUMBER, NUMBER)},                 /* before a 14 */
    {15, BYTES(START, NUMBER, 0x01, 0, 9, 0x40, 0, 9)}, /* before a 14 */
    {15, BYTES(START, 0x03, 0, 0, NUMBER, END, 0)},     /* before a 16 */
    {16, BYTES(START, NUMBER, END, 0x40, 0, 9)},        /* before a 14 */
    {16, BYTES(START, NUMBER, END, 0x03, 0, 0)},        /* before a 15 */
};

/* These bytes, which hold no page. */
static void take(const uint8_t *bytes, size_t length, uint32_t device)
{
    file.length = 0;
    file.device = device;
    file.count = 0;
    put(bytes, length);
}

static void check_short(void)
{
    size_t i;

    for (i = 0; i < COUNT(read_files); i++) {
        take(read_files[i].bytes, read_files[i].length, read_files[i].device);
        check_read_to_each("short file", i);
    }
    for (i = 0; i < COUNT(refused_files); i++) {
        take(refused_files[i].bytes, refused_files[i].length, 0);
        check_refused("refused short file", i, refused_files[i].refusal);
    }
}

/* ---- Far lengths ------------------------------------------------------- */

/* Longer than the bytes that are there: what follows the first fault, or the
 * field that has it, is not touched. */
static const struct {
    unsigned refusal;
    size_t bytes;
    uint8_t start[13];
} far_files[] = {
    {14, BYTES(0x00, 0x00)},
    {14, BYTES(0x00, 0xb0)},
    {14, BYTES(0xf1, 0x00)},
    {14, BYTES(0xf1, 0xb1)},
    {14, BYTES(0xb0, 0xf1)},
    {15, BYTES(START, 0x03, 0, 0)},
    {15, BYTES(START, 0x01, 1, 0)},
    {15, BYTES(START, END)},
    {15, BYTES(START, 0x02, 0, 5)},
    {15, BYTES(START, NUMBER, 0x01, 0, 1)},
    {16, BYTES(START, NUMBER, END)},
};

static void check_far(void)
{
    static const size_t lengths[] = {
        POWER(16), POWER(31), POWER(32), POWER(32) + 2, POWER(40),
        POWER(63) - 1, POWER(63), SIZE_MAX - 1, SIZE_MAX,
    };
    size_t i, j;

    for (i = 0; i < COUNT(far_files); i++) {
        struct trial trial = {.name = "far file",
                              .number = i,
                              .input = far_files[i].start,
                              .input_bytes = far_files[i].bytes,
                              .out_length = ENOUGH,
                              .answer = (uint64_t)far_files[i].refusal << 56};

        for (j = 0; j < COUNT(lengths); j++) {
            trial.input_length = lengths[j];
            check_trial(wom_read_file, &trial);
        }
    }
}

/* ---- Fields at each place ---------------------------------------------- */

struct fields {
    size_t count;
    uint8_t tag;
    size_t length;
};

/* The places in a file of two pages: before the device number, before each page
 * and before the end. */
#define BEFORE_DEVICE 1
#define BEFORE_PAGE(i) (2 << (i))
#define BEFORE_END 8
#define EVERYWHERE 15

static const unsigned places[] = {
    BEFORE_DEVICE, BEFORE_PAGE(0), BEFORE_PAGE(1), BEFORE_END, EVERYWHERE,
};

static size_t fields_end; /* after the last of them */

static void put_fields(const struct fields *fields)
{
    size_t i;

    for (i = 0; i < fields->count; i++)
        put_field(fields->tag, contents, fields->length);
    fields_end = file.length;
}

static void build_with(const struct fields *fields, unsigned at)
{
    unsigned page;

    put_start();
    if (at & BEFORE_DEVICE)
        put_fields(fields);
    put_device(DEVICE);
    for (page = 0; page < 2; page++) {
        if (at & BEFORE_PAGE(page))
            put_fields(fields);
        put_page();
    }
    if (at & BEFORE_END)
        put_fields(fields);
    put_end();
}

static void check_fields_at(struct fields fields, unsigned at)
{
    static const uint8_t unknown[] = {0x00, 0x03, 0x3f, 0x70, 0x7e, 0x80, 0xff};
    size_t i;

    build_with(&fields, at);
    check_read("passed over", at);
    if (fields.length > 0) {
        file.length = fields_end - 1;
        check_refused("one byte short", at, 14);
        file.length = fields_end - fields.length;
        check_refused("without its contents", at, 14);
    }
    for (i = 0; i < COUNT(unknown); i++) {
        fields.tag = unknown[i];
        build_with(&fields, at);
        check_refused_to("unknown", fields.tag, ENOUGH, 15);
    }
}

static void check_fields(void)
{
    static const struct fields fields[] = {
        {1, 0x40, 0},     {1, 0x6f, 0},       {1, 0x40, 1},   {1, 0x6f, 1},
        {2, 0x50, 4},     {1, 0x41, 255},     {2, 0x6e, 256}, {3, 0x5f, 257},
        {1, 0x40, 32768}, {1, 0x40, LONGEST}, {1, 0x6f, LONGEST},
        {10000, 0x40, 0},
    };
    size_t i, j;

    for (i = 0; i < COUNT(fields); i++)
        for (j = 0; j < COUNT(places); j++)
            check_fields_at(fields[i], places[j]);
}

/* Length FF FF, of each tag, before the device number and after it. */
static void check_longest(unsigned tag, int after)
{
    int passed = is_passed_over(tag);
    size_t head;

    put_start();
    if (after)
        put_device(DEVICE);
    head = file.length + 3;
    put_field((uint8_t)tag, contents, LONGEST);
    if (!after)
        put_device(DEVICE);
    put_end();
    if (passed)
        check_read("65535 bytes, tag", tag);
    else
        check_refused_to("65535 bytes, tag", tag, ENOUGH, 15);
    file.length = head;
    check_refused("65535 bytes that are missing, tag", tag, passed ? 14 : 15);
}

static void check_each_longest(void)
{
    unsigned tag;

    for (tag = 0; tag < 256; tag++) {
        check_longest(tag, 0);
        check_longest(tag, 1);
    }
}

/* ---- Beginnings -------------------------------------------------------- */

/* Each beginning of the file that is built. */
static void check_beginnings(const char *name)
{
    size_t whole = file.length;

    for (file.length = 0; file.length < whole; file.length++)
        check_refused(name, file.length, 14);
    check_read(name, whole);
}

static void check_cut(void)
{
    static const struct fields fields = {2, 0x47, 11};

    build(DEVICE, 3);
    check_beginnings("beginning");
    build_with(&fields, EVERYWHERE);
    check_beginnings("beginning, with fields passed over");
}

#define NO_DEVICE (-1) /* in place of a number of pages: before all of them */

static void build_up_to(int pages)
{
    put_start();
    if (pages == NO_DEVICE)
        return;
    put_device(DEVICE);
    put_pages((size_t)pages);
}

static int may_follow(int pages, unsigned tag)
{
    if (is_passed_over(tag))
        return 1;
    if (pages == NO_DEVICE)
        return tag == 0x02;
    return tag == 0x7f || (tag == 0x01 && pages < MOST_PAGES);
}

/* The file ends with a tag, or with a tag and half a length. */
static void check_last_tag(int pages, unsigned tag)
{
    unsigned refusal = may_follow(pages, tag) ? 14 : 15;

    build_up_to(pages);
    put_byte((uint8_t)tag);
    check_refused("last tag", tag, refusal);
    put_byte(0x00);
    check_refused("last tag, a length from 00", tag, refusal);
    file.bytes[file.length - 1] = 0xff;
    check_refused("last tag, a length from FF", tag, refusal);
}

static void check_last_tags(void)
{
    static const int pages[] = {NO_DEVICE, 0, 1, 2, 63, 64};
    unsigned tag;
    size_t i;

    for (i = 0; i < COUNT(pages); i++)
        for (tag = 0; tag < 256; tag++)
            check_last_tag(pages[i], tag);
}

/* ---- A 65th page ------------------------------------------------------- */

/* What follows 64 pages, with the contents of a page after it or without, and
 * with the end after these or without. */
static const struct {
    size_t length;
    uint8_t bytes[6];
} tails[] = {
    {BYTES(0x01)},
    {BYTES(0x01, 0x01)},
    {BYTES(0x01, 0x01, 0x00)},
    {BYTES(0x01, 0x00, 0x00)},
    {BYTES(0x01, 0xff, 0xff)},
    {BYTES(0x40, 0x00, 0x00, 0x01)},
    {BYTES(0x40, 0x00, 0x00, 0x01, 0x01, 0x00)},
};

static void check_65(void)
{
    static const struct fields fields = {2, 0x47, 11};
    size_t i;

    for (i = 0; i < COUNT(tails); i++) {
        build_up_to(64);
        put(tails[i].bytes, tails[i].length);
        check_refused("65th page", i, 15);
        put(contents, PAGE);
        check_refused("65th page, with contents", i, 15);
        put_end();
        check_refused("65th page, with contents and end", i, 15);
    }
    build_up_to(64);
    put_fields(&fields);
    put_end();
    check_read("64 pages, fields passed over", 64);
}

/* ---- After the end, and outputs that are too short --------------------- */

static void check_after_end(void)
{
    static const size_t counts[] = {0, 1, 3, 64};
    unsigned value;
    size_t i;

    for (i = 0; i < COUNT(counts); i++)
        for (value = 0; value < 256; value++) {
            build(DEVICE, counts[i]);
            put_byte((uint8_t)value);
            check_refused("byte after the end", value, 16);
        }
}

/* A file that is refused by 14, 15 or 16 is so whatever the output's length. */
static void check_order(void)
{
    static const size_t lengths[] = {0, 1, 255, 256, 767, 768, 769, SIZE_MAX};
    size_t i;

    for (i = 0; i < COUNT(lengths); i++) {
        build(DEVICE, 3);
        file.length--;
        check_refused_to("cut", 14, lengths[i], 14);
        file.bytes[file.length - 2] = 0x03;
        check_refused_to("field", 15, lengths[i], 15);
        build(DEVICE, 3);
        put_byte(0x00);
        check_refused_to("tail", 16, lengths[i], 16);
    }
}

/* ---- Changes of one byte ----------------------------------------------- */

/* Page i of a file of three, with its tag, starts at byte 9 + 259 i. */
#define FIRST_PAGE 9
#define PAGE_FIELD 259
#define LAST_FIELD (FIRST_PAGE + 3 * PAGE_FIELD)

static void take_page_out(size_t page)
{
    file.count--;
    memmove(file.pages + PAGE * page, file.pages + PAGE * (page + 1),
            PAGE * (file.count - page));
}

/* Of a byte of a page's field: as below. */
static unsigned change_page(size_t page, size_t at, uint8_t value)
{
    if (at == 0 && is_passed_over(value)) {
        take_page_out(page);
        return 0;
    }
    if (at < 3)
        return 15; /* another tag or another length */
    file.pages[PAGE * page + at - 3] = value;
    return 0;
}

/* Changes a byte of a file of three pages, and what it holds. 0, or the number
 * of the refusal. */
static unsigned change(size_t at, uint8_t value)
{
    uint8_t was = file.bytes[at];

    file.bytes[at] = value;
    if (at < 2)
        return 14;
    if (at < 5)
        return 15; /* no device number, or one of another length */
    if (at < FIRST_PAGE) {
        file.device ^= (uint32_t)(was ^ value) << 8 * (8 - at);
        return 0;
    }
    if (at < LAST_FIELD)
        return change_page((at - FIRST_PAGE) / PAGE_FIELD,
                           (at - FIRST_PAGE) % PAGE_FIELD, value);
    if (at == LAST_FIELD && is_passed_over(value))
        return 14; /* there is no end */
    return 15;
}

static void check_change(size_t at, uint8_t value)
{
    const char *name = "256 times the byte, and its value";
    unsigned refusal;

    build(DEVICE, 3);
    if (file.bytes[at] == value)
        return;
    refusal = change(at, value);
    if (refusal == 0)
        check_read(name, 256 * at + value);
    else
        check_refused_to(name, 256 * at + value, 3 * PAGE, refusal);
}

static void check_changes(void)
{
    size_t at;
    unsigned value;

    for (at = 0; at < LAST_FIELD + 3; at++)
        for (value = 0; value < 256; value++)
            check_change(at, (uint8_t)value);
}

/* ------------------------------------------------------------------------ */

int main(int argc, char **argv)
{
    take_arguments("reading [plant KIND]", argc, argv);
    make_rooms();
    make_contents();
    check_devices();
    check_each_number();
    check_written();
    check_short();
    check_far();
    check_fields();
    check_each_longest();
    check_cut();
    check_last_tags();
    check_65();
    check_after_end();
    check_order();
    check_changes();
    return finish("reading");
}

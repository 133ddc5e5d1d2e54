/*
 * How much the readers notice of damage to one cell, counted: on 100 pages of
 * seeded random records, and on 100 further ones for the Inspect code, every
 * single cell is changed, a set one lost or a clear one gained, and all three
 * readers are asked. Either all refuse the page, or one reads the same record,
 * or one reads another.
 *
 * A filled page holds no record: a reader that accepts it reads another one.
 * Where all refuse, a record of 82 bytes is written over the page. Either this
 * is refused as well, or the record is read back from what it leaves.
 *
 *     damage          prints the rows of the annex's table, then how many of
 *                     the other records a check value would have let pass
 *     damage SEED     the same for other records; 1 is the annex's
 *
 * The last four bytes of each record of four bytes or more are the CRC-32 of
 * those before them; the readers know nothing of it.
 *
 * Exit status 0; 1 when the library refuses what it must accept, 2 for other
 * arguments.
 */
#include <inttypes.h>
#include <stdint.h>
#include <stdio.h>
#include <stdlib.h>
#include <string.h>

#include "wom.h"

#define PAGES 100
#define HEADER_BITS 24 /* of bytes 0 to 2; the cells follow */
#define PAGE_BITS (8 * WOM_PAGE_BYTES)
#define CHECK_BYTES 4

/* ---- Records ----------------------------------------------------------- */

struct record {
    uint8_t bytes[WOM_INSPECT_BYTES_MAX]; /* the longest of all */
    size_t length;
};

static uint64_t random_state;

/* SplitMix64, the highest byte of each number. */
static uint8_t random_byte(void)
{
    uint64_t z = random_state += UINT64_C(0x9e3779b97f4a7c15);

    z = (z ^ (z >> 30)) * UINT64_C(0xbf58476d1ce4e5b9);
    z = (z ^ (z >> 27)) * UINT64_C(0x94d049bb133111eb);
    return (uint8_t)((z ^ (z >> 31)) >> 56);
}

static uint32_t crc_of_byte(uint32_t crc)
{
    int i;

    for (i = 0; i < 8; i++)
        crc = crc >> 1 ^ (crc & 1 ? UINT32_C(0xedb88320) : 0);
    return crc;
}

static uint32_t crc32(const uint8_t *bytes, size_t length)
{
    uint32_t crc = UINT32_C(0xffffffff);
    size_t i;

    for (i = 0; i < length; i++)
        crc = crc >> 8 ^ crc_of_byte((crc ^ bytes[i]) & 0xff);
    return ~crc;
}

static uint8_t check_byte(const struct record *record, size_t i)
{
    return (uint8_t)(crc32(record->bytes, record->length - CHECK_BYTES) >>
                     8 * i);
}

/* Cuts the record to that length, and puts its check value to its end. */
static void cut_record(struct record *record, size_t length)
{
    size_t i;

    record->length = length;
    for (i = 0; length >= CHECK_BYTES && i < CHECK_BYTES; i++)
        record->bytes[length - CHECK_BYTES + i] = check_byte(record, i);
}

static void make_record(struct record *record, size_t length)
{
    size_t i;

    for (i = 0; i < length; i++)
        record->bytes[i] = random_byte();
    cut_record(record, length);
}

static int check_value_right(const struct record *record)
{
    size_t right = 0;

    if (record->length < CHECK_BYTES)
        return 0;
    while (right < CHECK_BYTES &&
           record->bytes[record->length - CHECK_BYTES + right] ==
               check_byte(record, right))
        right++;
    return right == CHECK_BYTES;
}

static int same_record(const struct record *a, const struct record *b)
{
    return a->length == b->length &&
           memcmp(a->bytes, b->bytes, a->length) == 0;
}

/* ---- Pages ------------------------------------------------------------- */

static void must_be_accepted(uint64_t answer)
{
    if (wom_refusal(answer) == 0)
        return;
    fprintf(stderr, "damage: refused by %u\n", wom_refusal(answer));
    exit(1);
}

#define READERS 3

static const struct {
    uint64_t (*read)(const uint8_t *page, size_t page_length, uint8_t *out,
                     size_t out_length);
    size_t length; /* of the record, where the answer is 0 instead */
} readers[READERS] = {
    {wom_read_first, WOM_FIRST_BYTES},
    {wom_read_second, 0},
    {wom_read_inspect, 0},
};

/* True when one of the readers accepts the page; its record is then given. */
static int read_page(const uint8_t *page, struct record *out)
{
    int i;

    for (i = 0; i < READERS; i++) {
        uint64_t answer = readers[i].read(page, WOM_PAGE_BYTES, out->bytes,
                                          sizeof out->bytes);

        out->length = readers[i].length + (size_t)wom_result(answer);
        if (wom_refusal(answer) == 0)
            return 1;
    }
    return 0;
}

/* The same of a filled page, which is written where all readers refuse it. */
static int write_and_read_page(const uint8_t *filled_page,
                               const struct record *record, struct record *out)
{
    uint8_t page[WOM_PAGE_BYTES];
    uint64_t answer;

    if (read_page(filled_page, out))
        return 1;
    memcpy(page, filled_page, sizeof page);
    answer = wom_write_second(page, sizeof page, record->bytes, record->length);
    if (wom_refusal(answer) != 0)
        return 0;
    answer = wom_read_second(page, sizeof page, out->bytes, sizeof out->bytes);
    must_be_accepted(answer);
    out->length = (size_t)wom_result(answer);
    return 1;
}

/* ---- Counts ------------------------------------------------------------ */

enum change { LOST, GAINED, CHANGES };

struct counts {
    unsigned long tried;
    unsigned long refused;
    unsigned long same;
    unsigned long another;
};

typedef uint64_t writer(uint8_t *page, size_t page_length,
                        const uint8_t *record, size_t record_length);

struct row {
    const char *page;
    int filled;    /* true: the pages are filled, and are written */
    writer *write; /* of the second record, before the damage */
    struct counts counts[CHANGES];
};

enum {
    FIRST,
    FILLED,
    SECOND_0,
    SECOND_40,
    SECOND_82,
    SECOND_LONGEST,
    FIRST_HEADER,
    FILLED_HEADER,
    SECOND_HEADER,
    INSPECT_0,
    INSPECT_40,
    INSPECT_126,
    INSPECT_LONGEST,
    INSPECT_HEADER,
    ROWS
};

#define SECOND .write = wom_write_second
#define INSPECT .write = wom_write_inspect

static struct row rows[ROWS] = {
    [FIRST] = {.page = "first round"},
    [FILLED] = {.page = "filled, then 82 bytes", .filled = 1},
    [SECOND_0] = {.page = "second round, no byte", SECOND},
    [SECOND_40] = {.page = "second round, 40 bytes", SECOND},
    [SECOND_82] = {.page = "second round, 82 bytes", SECOND},
    [SECOND_LONGEST] = {.page = "second round, longest that fits", SECOND},
    [FIRST_HEADER] = {.page = "first round, header"},
    [FILLED_HEADER] = {.page = "filled, header", .filled = 1},
    [SECOND_HEADER] = {.page = "second round, 82 bytes, header", SECOND},
    [INSPECT_0] = {.page = "Inspect code, no byte", INSPECT},
    [INSPECT_40] = {.page = "Inspect code, 40 bytes", INSPECT},
    [INSPECT_126] = {.page = "Inspect code, 126 bytes", INSPECT},
    [INSPECT_LONGEST] = {.page = "Inspect code, longest that fits", INSPECT},
    [INSPECT_HEADER] = {.page = "Inspect code, 126 bytes, header", INSPECT},
};

static unsigned long others_passed; /* other records, check value right */

static void count(struct row *row, enum change change, const uint8_t *page,
                  const struct record *record)
{
    struct counts *counts = &row->counts[change];
    struct record read;
    int accepted = row->filled ? write_and_read_page(page, record, &read)
                               : read_page(page, &read);

    counts->tried++;
    if (!accepted) {
        counts->refused++;
    } else if (same_record(&read, record)) {
        counts->same++;
    } else {
        counts->another++;
        others_passed += (unsigned)check_value_right(&read);
    }
}

/* Changes each bit of the page from one to the one before another, alone. */
static void damage(struct row *row, uint8_t *page, const struct record *record,
                   int from, int to)
{
    int at;

    for (at = from; at < to; at++) {
        uint8_t bit = (uint8_t)(0x80u >> at % 8);
        enum change change = page[at / 8] & bit ? LOST : GAINED;

        page[at / 8] ^= bit;
        count(row, change, page, record);
        page[at / 8] ^= bit;
    }
}

/* The same of a copy of the page with the record written over it. */
static void damage_second(struct row *row, const uint8_t *first_page,
                          const struct record *record, int from, int to)
{
    uint8_t page[WOM_PAGE_BYTES];

    memcpy(page, first_page, sizeof page);
    must_be_accepted(
        row->write(page, sizeof page, record->bytes, record->length));
    damage(row, page, record, from, to);
}

/* Writes the first record on the page, which is blank. */
static void make_page(uint8_t *page, struct record *record)
{
    make_record(record, WOM_FIRST_BYTES);
    must_be_accepted(
        wom_write_first(page, WOM_PAGE_BYTES, record->bytes, record->length));
}

/* The page with its first record. The number of bits that it takes. */
static uint64_t damage_first(uint8_t *page)
{
    struct record record;
    uint64_t capacity;

    make_page(page, &record);
    capacity = wom_page_capacity(page, WOM_PAGE_BYTES);
    must_be_accepted(capacity);
    damage(&rows[FIRST], page, &record, HEADER_BITS, PAGE_BITS);
    damage(&rows[FIRST_HEADER], page, &record, 0, HEADER_BITS);
    return wom_result(capacity);
}

static void damage_one_page(void)
{
    uint8_t page[WOM_PAGE_BYTES] = {0};
    uint64_t capacity = damage_first(page);
    struct record record;

    must_be_accepted(wom_fill_page(page, sizeof page));
    make_record(&record, 0);
    damage_second(&rows[SECOND_0], page, &record, HEADER_BITS, PAGE_BITS);
    make_record(&record, 40);
    damage_second(&rows[SECOND_40], page, &record, HEADER_BITS, PAGE_BITS);
    make_record(&record, 82);
    damage(&rows[FILLED], page, &record, HEADER_BITS, PAGE_BITS);
    damage(&rows[FILLED_HEADER], page, &record, 0, HEADER_BITS);
    damage_second(&rows[SECOND_82], page, &record, HEADER_BITS, PAGE_BITS);
    damage_second(&rows[SECOND_HEADER], page, &record, 0, HEADER_BITS);
    make_record(&record, (size_t)capacity / 8);
    damage_second(&rows[SECOND_LONGEST], page, &record, HEADER_BITS, PAGE_BITS);
}

static int fits_inspect(const uint8_t *first_page, const struct record *record)
{
    uint8_t page[WOM_PAGE_BYTES];

    memcpy(page, first_page, sizeof page);
    return wom_refusal(wom_write_inspect(page, sizeof page, record->bytes,
                                         record->length)) == 0;
}

static void make_longest(struct record *record, const uint8_t *first_page)
{
    make_record(record, WOM_INSPECT_BYTES_MAX);
    while (!fits_inspect(first_page, record))
        cut_record(record, record->length - 1);
}

static void damage_inspect_page(void)
{
    uint8_t page[WOM_PAGE_BYTES] = {0};
    struct record record;

    make_page(page, &record);
    make_record(&record, 0);
    damage_second(&rows[INSPECT_0], page, &record, HEADER_BITS, PAGE_BITS);
    make_record(&record, 40);
    damage_second(&rows[INSPECT_40], page, &record, HEADER_BITS, PAGE_BITS);
    make_record(&record, 126);
    damage_second(&rows[INSPECT_126], page, &record, HEADER_BITS, PAGE_BITS);
    damage_second(&rows[INSPECT_HEADER], page, &record, 0, HEADER_BITS);
    make_longest(&record, page);
    damage_second(&rows[INSPECT_LONGEST], page, &record, HEADER_BITS,
                  PAGE_BITS);
}

/* ---- The table --------------------------------------------------------- */

static void print_number(unsigned long n)
{
    if (n >= 1000000)
        printf("%lu,%03lu,%03lu", n / 1000000, n / 1000 % 1000, n % 1000);
    else if (n >= 1000)
        printf("%lu,%03lu", n / 1000, n % 1000);
    else
        printf("%lu", n);
}

/* A count and its share, rounded, but never to 0 or to all. */
static void print_share(unsigned long n, unsigned long of)
{
    unsigned long percent = (200 * n + of) / (2 * of);

    printf(" ");
    print_number(n);
    if (n > 0 && percent == 0)
        printf(" (under 1 %%) |");
    else if (n < of && percent == 100)
        printf(" (over 99 %%) |");
    else
        printf(" (%lu %%) |", percent);
}

static void print_counts(const char *page, const char *change,
                         const struct counts *counts)
{
    printf("| %s | %s | ", page, change);
    print_number(counts->tried);
    printf(" |");
    print_share(counts->refused, counts->tried);
    print_share(counts->same, counts->tried);
    print_share(counts->another, counts->tried);
    printf("\n");
}

static struct counts either(const struct row *row)
{
    const struct counts *lost = &row->counts[LOST];
    const struct counts *gained = &row->counts[GAINED];
    struct counts sum = {lost->tried + gained->tried,
                         lost->refused + gained->refused,
                         lost->same + gained->same,
                         lost->another + gained->another};

    return sum;
}

/* Lost and gained for each row, and their sum where it is the annex's figure.
 * Gives the number of other records read in all. */
static unsigned long print_rows(void)
{
    unsigned long another = 0;
    int i;

    for (i = 0; i < ROWS; i++) {
        struct counts sum = either(&rows[i]);

        print_counts(rows[i].page, "lost", &rows[i].counts[LOST]);
        print_counts(rows[i].page, "gained", &rows[i].counts[GAINED]);
        if (i == SECOND_82 || i == INSPECT_126)
            print_counts(rows[i].page, "either", &sum);
        another += sum.another;
    }
    return another;
}

int main(int argc, char **argv)
{
    unsigned long another;
    int i;

    if (argc > 2) {
        fprintf(stderr, "usage: damage [SEED]\n");
        return 2;
    }
    random_state = argc == 2 ? strtoull(argv[1], NULL, 10) : 1;
    for (i = 0; i < PAGES; i++)
        damage_one_page();
    for (i = 0; i < PAGES; i++)
        damage_inspect_page();
    another = print_rows();
    printf("other records read: ");
    print_number(another);
    printf(", of these with a right check value: ");
    print_number(others_passed);
    printf("\n");
    return 0;
}

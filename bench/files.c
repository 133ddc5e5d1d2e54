/*
 * The writing of a transfer file and the reading of one, of each number of
 * pages from 0 to 64 and with pseudo-random contents, and of the largest that
 * is written; and the reading of two files with many fields that are passed
 * over, which takes more instructions for each byte. How it is started:
 * passes.h.
 *
 * Kinds: answer    an answer
 *        out       the output afterwards
 *        input     the pages or the file afterwards, which are only read
 *        refusal   an answer of a call that is refused
 */
#include "../tests/c/testing.h"
#include "passes.h"
#include "plain.h"
#include "wom.h"

#define COUNT (WOM_FILE_PAGES_MAX + 1) /* file i has i pages */
#define WORST WOM_FILE_PAGES_MAX /* each page is copied, whatever it holds */

/* Two more files are read: the file of no page and that of one, with fields
 * that are passed over before the page and the end. The second takes most for
 * its length: its fields are gone through once more, to find the page. */
#define PASSED(pages) (COUNT + (pages))
#define FIELDS 10000

#define REFUSED_WRITES 12
#define REFUSED_READS 16

/* A call. The refused ones come after the others and are compared only. */
struct call {
    uint32_t device;      /* of a file that is written */
    const uint8_t *input; /* the pages, or the file */
    size_t input_length;
    size_t out_length;
    unsigned number; /* 0: it is not refused */
};

static struct call writes[COUNT + REFUSED_WRITES];
static struct call reads[COUNT + 2 + REFUSED_READS];

/* What they work on, with room for calls that are refused and bytes after each
 * output and each file. */
static uint8_t pages[(WOM_FILE_PAGES_MAX + 1) * WOM_PAGE_BYTES];
static uint8_t files[COUNT][WOM_FILE_BYTES(WOM_FILE_PAGES_MAX + 1)];
static uint8_t passed[2][WOM_FILE_BYTES(1) + 3 * FIELDS];
static uint8_t faulty[REFUSED_READS][WOM_FILE_BYTES(3)];
static uint8_t out[WOM_FILE_BYTES(WOM_FILE_PAGES_MAX + 1)];

#define WITH_WRITE(f)                                                \
    static uint64_t call_##f(int i)                                  \
    {                                                                \
        return f(writes[i].device, writes[i].input,                  \
                 writes[i].input_length, out, writes[i].out_length); \
    }
#define WITH_READ(f)                                                 \
    static uint64_t call_##f(int i)                                  \
    {                                                                \
        return f(reads[i].input, reads[i].input_length, out,         \
                 reads[i].out_length);                               \
    }

static uint64_t call_nothing(int i)
{
    return writes[i].device;
}
WITH_WRITE(wom_write_file)
WITH_WRITE(plain_write_file)
WITH_READ(wom_read_file)
WITH_READ(plain_read_file)

static const struct operation operations[] = {
    {"nothing", call_nothing, WORST},
    {"wom_write_file", call_wom_write_file, WORST},
    {"plain_write_file", call_plain_write_file, WORST},
    {"wom_read_file", call_wom_read_file, WORST},
    {"plain_read_file", call_plain_read_file, WORST},
    {"wom_read_passed", call_wom_read_file, PASSED(0)},
    {"plain_read_passed", call_plain_read_file, PASSED(0)},
    {"wom_read_worst", call_wom_read_file, PASSED(1)},
    {"plain_read_worst", call_plain_read_file, PASSED(1)},
};

#define OPERATIONS ((int)(sizeof operations / sizeof operations[0]))

#define WRITE_FILE 1 /* the library's */
#define READ_FILE 3

/* ---- The files --------------------------------------------------------- */

/* Each file to be read is what plain C writes. */
static void make_file(size_t i, uint32_t device)
{
    struct call write = {device, pages, WOM_PAGE_BYTES * i, sizeof out, 0};
    struct call read = {0, files[i], 0, sizeof out, 0};

    read.input_length = (size_t)plain_write_file(
        device, pages, WOM_PAGE_BYTES * i, files[i], sizeof files[i]);
    writes[i] = write;
    reads[i] = read;
}

/* The fields are of length 0 and of each tag that is passed over. */
static void make_passed(size_t count)
{
    struct call read = {0, passed[count], 0, sizeof out, 0};
    size_t start = WOM_FILE_BYTES(0) - 3; /* with the device number */
    uint8_t *fields = passed[count] + start;
    size_t i;

    memcpy(passed[count], files[count], start);
    for (i = 0; i < FIELDS; i++)
        fields[3 * i] = (uint8_t)(0x40 + i % 0x30);
    memcpy(fields + 3 * FIELDS, files[count] + start,
           WOM_FILE_BYTES(count) - start);
    read.input_length = WOM_FILE_BYTES(count) + 3 * FIELDS;
    reads[PASSED(count)] = read;
}

static void make_files(void)
{
    uint64_t state = 1;
    size_t i;

    fill_at_random(pages, sizeof pages, &state);
    for (i = 0; i < COUNT; i++) {
        state = next_state(state);
        make_file(i, (uint32_t)(state >> 32));
    }
    make_passed(0);
    make_passed(1);
}

/* ---- Calls that are refused -------------------------------------------- */

static const struct {
    size_t pages_length;
    size_t out_length;
    unsigned number;
} refused_writes[REFUSED_WRITES] = {
    {1, sizeof out, 13},
    {255, sizeof out, 13},
    {257, sizeof out, 13},
    {16383, sizeof out, 13},
    {16385, sizeof out, 13},
    {16640, sizeof out, 13}, /* 65 pages */
    {257, 0, 13},
    {16640, 0, 13},
    {0, 0, 3},
    {0, 11, 3},
    {256, 270, 3},
    {16384, 16587, 3},
};

/* The file of two pages, 530 bytes, with a byte that is put to this value, and
 * so many bytes of it. */
static const struct {
    size_t byte;
    uint8_t value;
    size_t length;
    size_t out_length;
    unsigned number;
} refused_reads[REFUSED_READS] = {
    {0, 0xf1, 0, sizeof out, 14},
    {0, 0xf1, 1, sizeof out, 14},
    {0, 0xb0, 530, sizeof out, 14},
    {1, 0xf1, 530, sizeof out, 14},
    {0, 0xf1, 527, sizeof out, 14}, /* no end */
    {0, 0xf1, 529, 0, 14},
    {527, 0x40, 530, sizeof out, 14}, /* no end */
    {2, 0x01, 530, sizeof out, 15},   /* a page before the device number */
    {4, 0x05, 530, sizeof out, 15},
    {9, 0x02, 530, sizeof out, 15}, /* a second device number */
    {268, 0x70, 530, 0, 15},
    {268, 0x03, 269, sizeof out, 15},
    {529, 0x01, 530, sizeof out, 15},
    {0, 0xf1, 531, sizeof out, 16},
    {0, 0xf1, 531, 0, 16},
    {0, 0xf1, 530, 511, 3},
};

static void make_refused(void)
{
    size_t i;

    for (i = 0; i < REFUSED_WRITES; i++) {
        struct call write = {0, pages, refused_writes[i].pages_length,
                             refused_writes[i].out_length,
                             refused_writes[i].number};

        writes[COUNT + i] = write;
    }
    for (i = 0; i < REFUSED_READS; i++) {
        struct call read = {0, faulty[i], refused_reads[i].length,
                            refused_reads[i].out_length,
                            refused_reads[i].number};

        memcpy(faulty[i], files[2], WOM_FILE_BYTES(2));
        faulty[i][refused_reads[i].byte] = refused_reads[i].value;
        reads[COUNT + 2 + i] = read;
    }
}

/* ---- The comparison ---------------------------------------------------- */

/* What a call leaves. */
struct left {
    uint64_t answer;
    uint8_t out[sizeof out];
};

static void make_call(struct left *left, int k, int i)
{
    memset(out, i, sizeof out);
    left->answer = operations[k].call(i);
    memcpy(left->out, out, sizeof out);
}

/* Call i of operation k, of the library: the answer and every byte are those of
 * plain C, and the answer has the refusal's number that it must. */
static void compare_call(int k, int i, const struct call *call)
{
    static uint8_t before[sizeof passed[0]];
    static struct left library, plain;

    memcpy(before, call->input, call->input_length);
    make_call(&library, k, i);
    in_case(operations[k].name, (uint64_t)i);
    if (call->input_length > 0)
        check_bytes("input", call->input, before, call->input_length);
    make_call(&plain, k + 1, i);
    check_answers(library.answer, plain.answer, call->number);
    check_bytes("out", library.out, plain.out, sizeof plain.out);
}

static int compare(void)
{
    int i;

    for (i = 0; i < COUNT + REFUSED_WRITES; i++)
        compare_call(WRITE_FILE, i, &writes[i]);
    for (i = 0; i < COUNT + 2 + REFUSED_READS; i++)
        compare_call(READ_FILE, i, &reads[i]);
    return finish("bench: files beside plain C");
}

int main(int argc, char **argv)
{
    make_files();
    if (asks_for_passes(argc, argv))
        return make_passes(operations, OPERATIONS, COUNT, argv);
    take_arguments(USAGE("files"), argc, argv);
    make_refused();
    return compare();
}

/*
 * The placing of a record in a block and the collecting of one: 20 blocks of 16
 * pseudo-random first-round pages, all of them marked or kept, and a record of
 * 80 bytes; and each on the block that takes it most instructions. How it is
 * started: passes.h. Before each call the block, or the target, is copied
 * afresh, for `nothing` as well.
 *
 * Kinds: answer    an answer
 *        block     the block or the target afterwards
 *        input     the record or the source afterwards, which are only read
 *        refusal   an answer of a call that is refused
 */
#include "../tests/c/testing.h"
#include "passes.h"
#include "plain.h"
#include "wom.h"

#define COUNT 20
#define RECORD_BYTES 80
#define EVERY 0xffff /* page is marked */

/* The worst comes after the random ones: in all pages 176 zero bytes, with 126
 * bytes to go over them. */
#define WORST COUNT

/* A call. Those after the worst are compared only. */
struct call {
    const uint8_t *block; /* it is made on a copy: the block, or the target */
    size_t block_length;
    uint16_t marks;
    const uint8_t *input; /* the record, or the source */
    size_t input_length;
    unsigned number; /* 0: it is not refused */
};

#define COMPARED_PLACES 23
#define COMPARED_COLLECTS 16

static struct call places[COUNT + 1 + COMPARED_PLACES];
static struct call collects[COUNT + 1 + COMPARED_COLLECTS];

/* All blocks are a multiple of 4096 bytes apart, so that each is copied by as
 * many instructions. WORK is what a call works on; AFTER are the bytes after
 * it, for lengths that are refused. */
enum { BLANK = COUNT + 1, FIRST_SET, LAST_SET, EACH_KIND, WORK, AFTER, BLOCKS };

static uint8_t blocks[BLOCKS][WOM_BLOCK_BYTES];
static uint8_t *const work = blocks[WORK];
static uint8_t record[WOM_SECOND_BYTES_MAX + 1];

#define WITH_CALLS(f, calls, ...)                                    \
    static uint64_t call_##f(int i)                                  \
    {                                                                \
        const struct call *call = &calls[i];                         \
                                                                     \
        memcpy(work, call->block, WOM_BLOCK_BYTES);                  \
        return f(__VA_ARGS__);                                       \
    }
#define WITH_PLACE(f)                                                \
    WITH_CALLS(f, places, work, call->block_length, call->marks,     \
               call->input, call->input_length)
#define WITH_COLLECT(f)                                              \
    WITH_CALLS(f, collects, call->input, call->input_length,         \
               call->marks, work, call->block_length)

static uint64_t call_nothing(int i)
{
    memcpy(work, places[i].block, WOM_BLOCK_BYTES);
    return work[0];
}
WITH_PLACE(wom_place_record)
WITH_PLACE(plain_place_record)
WITH_COLLECT(wom_collect_block)
WITH_COLLECT(plain_collect_block)

static const struct operation operations[] = {
    {"nothing", call_nothing, WORST},
    {"wom_place_record", call_wom_place_record, WORST},
    {"plain_place_record", call_plain_place_record, WORST},
    {"wom_collect_block", call_wom_collect_block, WORST},
    {"plain_collect_block", call_plain_collect_block, WORST},
};

#define OPERATIONS ((int)(sizeof operations / sizeof operations[0]))

#define PLACE_RECORD 1 /* the library's */
#define COLLECT_BLOCK 3

/* ---- The blocks -------------------------------------------------------- */

static uint8_t *page_of(int block, int page)
{
    return blocks[block] + WOM_PAGE_BYTES * page;
}

/* Pages of random first records. */
static void make_random(int block, uint64_t *state)
{
    uint8_t data[WOM_FIRST_BYTES];
    int i;

    for (i = 0; i < WOM_BLOCK_PAGES; i++) {
        fill_at_random(data, sizeof data, state);
        plain_write_first(page_of(block, i), WOM_PAGE_BYTES, data,
                          sizeof data);
    }
}

static void make_worst(void)
{
    static const uint8_t zeros[WOM_FIRST_BYTES];
    int i;

    for (i = 0; i < WOM_BLOCK_PAGES; i++)
        plain_write_first(page_of(WORST, i), WOM_PAGE_BYTES, zeros,
                          sizeof zeros);
}

static void make_call_pair(int i, size_t record_length)
{
    struct call place = {blocks[i], WOM_BLOCK_BYTES, EVERY, record,
                         record_length, 0};
    struct call collect = {blocks[BLANK], WOM_BLOCK_BYTES, EVERY, blocks[i],
                           WOM_BLOCK_BYTES, 0};

    places[i] = place;
    collects[i] = collect;
}

static void make_blocks(void)
{
    uint64_t state = 1;
    int i;

    fill_at_random(record, sizeof record, &state);
    for (i = 0; i < COUNT; i++) {
        make_random(i, &state);
        make_call_pair(i, RECORD_BYTES);
    }
    make_worst();
    make_call_pair(WORST, WOM_SECOND_BYTES_MAX);
}

/* ---- Calls that are compared only -------------------------------------- */

/* A block with a page of each kind that is passed over in its front. */
#define PASSED_OVER 0x007f

static void make_each_kind(void)
{
    memcpy(blocks[EACH_KIND], blocks[0], WOM_BLOCK_BYTES);
    memset(page_of(EACH_KIND, 0), 0, WOM_PAGE_BYTES);
    plain_fill_page(page_of(EACH_KIND, 1), WOM_PAGE_BYTES);
    plain_fill_page(page_of(EACH_KIND, 2), WOM_PAGE_BYTES);
    plain_write_second(page_of(EACH_KIND, 2), WOM_PAGE_BYTES, record,
                       RECORD_BYTES);
    plain_write_inspect(page_of(EACH_KIND, 3), WOM_PAGE_BYTES, record,
                        RECORD_BYTES);
    page_of(EACH_KIND, 4)[0] = 0x81;
    page_of(EACH_KIND, 5)[1] = 0x01;
    page_of(EACH_KIND, 6)[WOM_PAGE_BYTES - 1] = 0xff;
}

static const struct {
    int block;
    size_t length;
    uint16_t marks;
    size_t record_length;
    unsigned number;
} compared_places[COMPARED_PLACES] = {
    {0, 4096, 0x0001, 82, 0},
    {0, 4096, 0x8000, 80, 0},
    {1, 4096, 0xaaaa, 105, 0},
    {2, 4096, 0x0ff0, 100, 0},
    {3, 4096, EVERY, 0, 0},
    {4, 4096, EVERY, 108, 0},
    {WORST, 4096, 0x8000, 126, 0},
    {WORST, 4096, 0x7ffe, 1, 0},
    {EACH_KIND, 4096, EVERY, 80, 0},
    {EACH_KIND, 4096, EVERY, 0, 0},
    {0, 0, EVERY, 80, 17},
    {0, 1, EVERY, 80, 17},
    {0, 4095, EVERY, 80, 17},
    {0, 4097, EVERY, 80, 17},
    {0, 4352, 0, 127, 17},
    {0, 4096, 0, 0, 18},
    {0, 4096, 0, 80, 18},
    {0, 4096, EVERY, 127, 18},
    {WORST, 4096, EVERY, 127, 18},
    {BLANK, 4096, EVERY, 0, 18},
    {EACH_KIND, 4096, 0x0001, 0, 18},
    {EACH_KIND, 4096, 0x0002, 80, 18},
    {EACH_KIND, 4096, PASSED_OVER, 0, 18},
};

static const struct {
    int target;
    size_t length;
    uint16_t keep;
    int source;
    size_t source_length;
    unsigned number;
} compared_collects[COMPARED_COLLECTS] = {
    {BLANK, 4096, 0x0000, 0, 4096, 0},
    {BLANK, 4096, 0x0001, 1, 4096, 0},
    {BLANK, 4096, 0x8001, 2, 4096, 0},
    {BLANK, 4096, 0x5555, 3, 4096, 0},
    {BLANK, 4096, 0xff7f, EACH_KIND, 4096, 0},
    {BLANK, 4096, EVERY, BLANK, 4096, 0},
    {BLANK, 4095, EVERY, 0, 4096, 17},
    {BLANK, 4097, EVERY, 0, 4096, 17},
    {BLANK, 4096, EVERY, 0, 4095, 17},
    {BLANK, 4096, EVERY, 0, 4097, 17},
    {BLANK, 0, 0, 0, 0, 17},
    {FIRST_SET, 4096, EVERY, 0, 256, 17},
    {LAST_SET, 4097, EVERY, 0, 4096, 17},
    {FIRST_SET, 4096, EVERY, 0, 4096, 19},
    {LAST_SET, 4096, EVERY, 0, 4096, 19},
    {LAST_SET, 4096, 0, 0, 4096, 19},
};

static void make_compared(void)
{
    int i;

    make_each_kind();
    blocks[FIRST_SET][0] = 0x01;
    blocks[LAST_SET][WOM_BLOCK_BYTES - 1] = 0x80;
    for (i = 0; i < COMPARED_PLACES; i++) {
        struct call place = {blocks[compared_places[i].block],
                             compared_places[i].length,
                             compared_places[i].marks, record,
                             compared_places[i].record_length,
                             compared_places[i].number};

        places[COUNT + 1 + i] = place;
    }
    for (i = 0; i < COMPARED_COLLECTS; i++) {
        struct call collect = {blocks[compared_collects[i].target],
                               compared_collects[i].length,
                               compared_collects[i].keep,
                               blocks[compared_collects[i].source],
                               compared_collects[i].source_length,
                               compared_collects[i].number};

        collects[COUNT + 1 + i] = collect;
    }
}

/* ---- The comparison ---------------------------------------------------- */

/* What a call leaves: the block or the target, with the bytes after it. */
struct left {
    uint64_t answer;
    uint8_t block[2 * WOM_BLOCK_BYTES];
};

static void make_call(struct left *left, int k, int i)
{
    memset(blocks[AFTER], i, WOM_BLOCK_BYTES);
    left->answer = operations[k].call(i);
    memcpy(left->block, blocks[WORK], WOM_BLOCK_BYTES);
    memcpy(left->block + WOM_BLOCK_BYTES, blocks[AFTER], WOM_BLOCK_BYTES);
}

/* Call i of operation k, of the library: the answer and every byte are those of
 * plain C, and the answer has the refusal's number that it must. */
static void compare_call(int k, int i, const struct call *call)
{
    static uint8_t before[2 * WOM_BLOCK_BYTES];
    static struct left library, plain;

    memcpy(before, call->input, call->input_length);
    make_call(&library, k, i);
    in_case(operations[k].name, (uint64_t)i);
    if (call->input_length > 0)
        check_bytes("input", call->input, before, call->input_length);
    make_call(&plain, k + 1, i);
    check_answers(library.answer, plain.answer, call->number);
    check_bytes("block", library.block, plain.block, sizeof plain.block);
}

static int compare(void)
{
    int i;

    for (i = 0; i < COUNT + 1 + COMPARED_PLACES; i++)
        compare_call(PLACE_RECORD, i, &places[i]);
    for (i = 0; i < COUNT + 1 + COMPARED_COLLECTS; i++)
        compare_call(COLLECT_BLOCK, i, &collects[i]);
    return finish("bench: blocks beside plain C");
}

int main(int argc, char **argv)
{
    make_blocks();
    if (asks_for_passes(argc, argv))
        return make_passes(operations, OPERATIONS, COUNT, argv);
    take_arguments(USAGE("blocks"), argc, argv);
    make_compared();
    return compare();
}

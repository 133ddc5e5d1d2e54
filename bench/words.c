/*
 * The word operations on 1,000 pseudo-random values, or their words, and on the
 * value whose word has most set cells. How it is started: passes.h.
 *
 * Kinds: answer    an answer on a value or its word
 *        refusal   an answer on a word that is refused
 */
#include "../tests/c/testing.h"
#include "passes.h"
#include "plain.h"
#include "wom.h"

#define COUNT 1000

/* The worst value comes after the random ones: every odd cell of its word is
 * set, 23 cells. Every operation has a turn for each set cell, but for cell 0
 * where the word is decoded. */
#define WORST COUNT
#define WORST_VALUE 2971215072u

/* Words that are refused, each with its number. They are compared only. */
#define REFUSED 3

static const struct {
    uint64_t word;
    unsigned number;
} refused[REFUSED] = {
    {UINT64_C(0x400000000000), 10}, /* the lowest bit above cell 0 */
    {UINT64_C(0x000000000003), 11}, /* cells 44 and 45 */
    {UINT64_C(0x2aaaaaaaaaaa), 12}, /* every even cell */
};

static uint32_t values[WORST + 1];
static uint64_t encoded[WORST + 1 + REFUSED];

#define OF_VALUE(f)                    \
    static uint64_t call_##f(int i)    \
    {                                  \
        return f(values[i]);           \
    }
#define OF_WORD(f)                     \
    static uint64_t call_##f(int i)    \
    {                                  \
        return f(encoded[i]);          \
    }

static uint64_t call_nothing(int i)
{
    return encoded[i];
}
OF_VALUE(wom_encode_word)
OF_VALUE(plain_encode_word)
OF_WORD(wom_decode_word)
OF_WORD(plain_decode_word)
OF_WORD(wom_fill_word)
OF_WORD(plain_fill_word)
OF_WORD(wom_word_capacity)
OF_WORD(plain_word_capacity)

static const struct operation operations[] = {
    {"nothing", call_nothing, WORST},
    {"wom_encode_word", call_wom_encode_word, WORST},
    {"plain_encode_word", call_plain_encode_word, WORST},
    {"wom_decode_word", call_wom_decode_word, WORST},
    {"plain_decode_word", call_plain_decode_word, WORST},
    {"wom_fill_word", call_wom_fill_word, WORST},
    {"plain_fill_word", call_plain_fill_word, WORST},
    {"wom_word_capacity", call_wom_word_capacity, WORST},
    {"plain_word_capacity", call_plain_word_capacity, WORST},
};

#define OPERATIONS ((int)(sizeof operations / sizeof operations[0]))

#define ENCODE 1 /* never refuses */

static void make_values(void)
{
    uint64_t state = 1;
    int i;

    for (i = 0; i < COUNT; i++) {
        state = next_state(state);
        values[i] = (uint32_t)(state >> 32);
    }
    values[WORST] = WORST_VALUE;
    for (i = 0; i <= WORST; i++)
        encoded[i] = plain_encode_word(values[i]);
}

static void make_refused(void)
{
    int i;

    for (i = 0; i < REFUSED; i++)
        encoded[WORST + 1 + i] = refused[i].word;
}

/* Operation k of the library, on value or word i: the answer is that of plain
 * C, with this refusal's number. */
static void compare_call(int k, int i, unsigned number)
{
    uint64_t answer = operations[k].call(i);

    in_case(operations[k].name, (uint64_t)i);
    check_answers(answer, operations[k + 1].call(i), number);
}

static void compare_values(int k)
{
    int i;

    for (i = 0; i <= WORST; i++)
        compare_call(k, i, 0);
}

static void compare_refused(int k)
{
    int i;

    for (i = 0; i < REFUSED; i++)
        compare_call(k, WORST + 1 + i, refused[i].number);
}

static int compare(void)
{
    int k;

    for (k = 1; k < OPERATIONS; k += 2) {
        compare_values(k);
        if (k != ENCODE)
            compare_refused(k);
    }
    return finish("bench: words beside plain C");
}

int main(int argc, char **argv)
{
    make_values();
    if (asks_for_passes(argc, argv))
        return make_passes(operations, OPERATIONS, COUNT, argv);
    take_arguments(USAGE("words"), argc, argv);
    make_refused();
    return compare();
}

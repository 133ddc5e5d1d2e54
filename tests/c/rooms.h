/*
 * rooms.h - calls from an input to an output, with every byte watched
 *
 * A trial is a call, and what is expected of it. It is made with both buffers
 * right before memory that cannot be touched, right after such memory, and at
 * odd addresses between other bytes; and each time once more with a read-only
 * input, and with a read-only output where nothing is written. After each call
 * every byte is compared.
 *
 * Kinds: guard     whether untouchable and read-only memory faults
 *        answer    the answer of a call that is not refused; all ones: a fault
 *        output    what it writes
 *        rest      the bytes around that, those of the output among them
 *        refusal   the answer of a refused call; all ones: a fault
 *        kept      its output, and the bytes around it
 *        input     the input after a call, and the bytes around it
 */
#ifndef ROOMS_H
#define ROOMS_H

#include <stddef.h>
#include <stdint.h>

#define COUNT(table) (sizeof(table) / sizeof(table)[0])
#define POWER(n) ((size_t)1 << (n))

typedef uint64_t operation(const uint8_t *input, size_t input_length,
                           uint8_t *out, size_t out_length);

/* The two lengths are those that the call is given. Of an input that is longer
 * than its bytes, no other byte can be touched right before a guard. */
struct trial {
    const char *name; /* with the number, for reports */
    uint64_t number;
    const uint8_t *input;
    size_t input_bytes;
    size_t input_length;
    size_t out_length;
    const uint8_t *before; /* what the output holds then; null: other bytes */
    uint64_t answer;       /* or the refusal */
    const uint8_t *output; /* what is written, so many bytes */
    size_t written;
};

/* Comes before the first trial. Checks the guards. */
void make_rooms(void);

void check_trial(operation *made, const struct trial *trial);

/* The trial with outputs of many lengths: too short, which is refused by 3;
 * just long enough; longer; and far longer, of which only what is written can
 * be touched right before a guard. */
void check_outputs(operation *made, const struct trial *trial);

void fill_at_random(uint8_t *bytes, size_t length, uint64_t *state);

#endif /* ROOMS_H */

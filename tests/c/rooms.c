#define _GNU_SOURCE /* for memfd_create */

#include "rooms.h"

#include <setjmp.h>
#include <signal.h>
#include <stdio.h>
#include <stdlib.h>
#include <string.h>
#include <sys/mman.h>
#include <unistd.h>

#include "testing.h"
#include "wom.h"

/* ---- Memory that faults ------------------------------------------------ */

#define FAULT UINT64_MAX /* in place of an answer; no answer is this one */

static sigjmp_buf before_fault;

static void take_fault(int number)
{
    (void)number;
    siglongjmp(before_fault, 1);
}

static uint64_t read_byte(const volatile uint8_t *at)
{
    if (sigsetjmp(before_fault, 1) != 0)
        return FAULT;
    return *at;
}

static uint64_t write_byte(volatile uint8_t *at, uint8_t value)
{
    if (sigsetjmp(before_fault, 1) != 0)
        return FAULT;
    *at = value;
    return 0;
}

/* ---- Rooms ------------------------------------------------------------- */

/* A room has bytes that can be touched, a multiple of 4096, between guards that
 * cannot. It is there twice: what is written to the one is seen in the other,
 * which is read-only. */
#define GUARD 1048576

enum view { WRITABLE, READ_ONLY, VIEWS };

struct room {
    size_t size;
    uint8_t *bytes[VIEWS];
    uint8_t *left; /* what they must be after a call */
};

/* A buffer is put into the first room that is longer. */
static struct room inputs[] = {
    {.size = 4096}, {.size = 20480}, {.size = 69632}, {.size = 270336},
};
static struct room outputs[] = {{.size = 4096}, {.size = 20480}};

#define LARGEST 270336

static uint8_t others[LARGEST]; /* what it holds before that */

static void give_up(const char *why)
{
    perror(why);
    exit(2);
}

static uint8_t *make_view(int memory, size_t size, int protection)
{
    uint8_t *guard = mmap(NULL, GUARD + size + GUARD, PROT_NONE,
                          MAP_PRIVATE | MAP_ANONYMOUS, -1, 0);

    if (guard == MAP_FAILED ||
        mmap(guard + GUARD, size, protection, MAP_SHARED | MAP_FIXED, memory,
             0) == MAP_FAILED)
        give_up("mmap");
    return guard + GUARD;
}

static void make_room(struct room *room)
{
    int memory = memfd_create("room", 0);

    if (memory < 0 || ftruncate(memory, (off_t)room->size) != 0)
        give_up("memfd_create");
    room->bytes[WRITABLE] = make_view(memory, room->size,
                                      PROT_READ | PROT_WRITE);
    room->bytes[READ_ONLY] = make_view(memory, room->size, PROT_READ);
    room->left = malloc(room->size);
    if (room->left == NULL)
        give_up("malloc");
    close(memory);
}

static void check_guards(const struct room *room)
{
    int view;

    in_case("the guards and the bytes of a room", room->size);
    check_number("guard", write_byte(room->bytes[WRITABLE], 77), 0);
    check_number("guard", write_byte(room->bytes[READ_ONLY], 78), FAULT);
    for (view = 0; view < VIEWS; view++) {
        const uint8_t *bytes = room->bytes[view];

        check_number("guard", read_byte(bytes - GUARD), FAULT);
        check_number("guard", read_byte(bytes - 1), FAULT);
        check_number("guard", read_byte(bytes), 77);
        check_number("guard", read_byte(bytes + room->size), FAULT);
        check_number("guard", read_byte(bytes + room->size + GUARD - 1),
                     FAULT);
    }
}

static void make_each(struct room *rooms, size_t count)
{
    size_t i;

    for (i = 0; i < count; i++) {
        make_room(&rooms[i]);
        check_guards(&rooms[i]);
    }
}

void fill_at_random(uint8_t *bytes, size_t length, uint64_t *state)
{
    size_t i;

    for (i = 0; i < length; i++) {
        *state = *state * UINT64_C(6364136223846793005) + 1;
        bytes[i] = (uint8_t)(*state >> 56);
    }
}

void make_rooms(void)
{
    uint64_t state = 2;

    signal(SIGSEGV, take_fault);
    make_each(inputs, COUNT(inputs));
    make_each(outputs, COUNT(outputs));
    fill_at_random(others, sizeof others, &state);
}

/* ---- A call ------------------------------------------------------------ */

enum place { BEFORE, AFTER, BETWEEN, PLACES };

static const char *const place_names[] = {
    "right before a guard", "right after a guard", "between other bytes",
};

/* A buffer in a room, from this byte of it on. */
struct buffer {
    struct room *room;
    size_t at;
};

static struct buffer lay(struct room *rooms, size_t count, enum place place,
                         const uint8_t *contents, size_t bytes)
{
    struct buffer buffer = {rooms, 0};

    while (buffer.room->size <= bytes)
        if (++buffer.room == rooms + count)
            give_up("a buffer is longer than each room");
    if (place == BEFORE)
        buffer.at = buffer.room->size - bytes;
    else if (place == BETWEEN)
        buffer.at = 1;
    memcpy(buffer.room->left, others, buffer.room->size);
    if (contents != NULL)
        memcpy(buffer.room->left + buffer.at, contents, bytes);
    memcpy(buffer.room->bytes[WRITABLE], buffer.room->left,
           buffer.room->size);
    return buffer;
}

/* A buffer of length 0 is given as null where it would be right after a
 * guard. */
static uint8_t *given(const struct buffer *buffer, enum view view,
                      enum place place, size_t length)
{
    if (place == AFTER && length == 0)
        return NULL;
    return buffer->room->bytes[view] + buffer->at;
}

static uint64_t make_call(operation *made, const struct trial *trial,
                          const uint8_t *input, uint8_t *out)
{
    if (sigsetjmp(before_fault, 1) != 0)
        return FAULT;
    return made(input, trial->input_length, out, trial->out_length);
}

static void check_room(const char *kind, const struct room *room)
{
    check_bytes(kind, room->bytes[READ_ONLY], room->left, room->size);
}

static void check_written(const struct trial *trial, uint64_t answer,
                          const struct buffer *out)
{
    const uint8_t *came = out->room->bytes[READ_ONLY] + out->at;
    uint8_t *expected = out->room->left + out->at;

    check_number("answer", answer, trial->answer);
    if (trial->written > 0) {
        memcpy(expected, trial->output, trial->written);
        check_bytes("output", came, expected, trial->written);
        memcpy(expected, came, trial->written);
    }
    check_room("rest", out->room);
}

static void check_refused(const struct trial *trial, uint64_t answer,
                          const struct buffer *out)
{
    check_number("refusal", answer, trial->answer);
    check_room("kept", out->room);
}

static void name_case(const struct trial *trial, enum place place,
                      enum view view)
{
    static char name[200];

    snprintf(name, sizeof name, "input of %zu, output of %zu, %s%s; %s",
             trial->input_length, trial->out_length, place_names[place],
             view == READ_ONLY ? ", read-only" : "", trial->name);
    in_case(name, trial->number);
}

/* An output that is longer than its rooms has in them what is written alone. */
static size_t in_room(const struct trial *trial)
{
    return trial->out_length < outputs[COUNT(outputs) - 1].size
               ? trial->out_length
               : trial->written;
}

static void check_at(operation *made, const struct trial *trial,
                     enum place place, enum view view)
{
    struct buffer input = lay(inputs, COUNT(inputs), place, trial->input,
                              trial->input_bytes);
    struct buffer out = lay(outputs, COUNT(outputs), place, trial->before,
                            in_room(trial));
    enum view out_view = trial->written == 0 ? view : WRITABLE;
    uint64_t answer;

    name_case(trial, place, view);
    answer = make_call(made, trial,
                       given(&input, view, place, trial->input_length),
                       given(&out, out_view, place, trial->out_length));
    if (wom_refusal(trial->answer) == 0)
        check_written(trial, answer, &out);
    else
        check_refused(trial, answer, &out);
    check_room("input", input.room);
}

void check_trial(operation *made, const struct trial *trial)
{
    int place;

    for (place = 0; place < PLACES; place++) {
        check_at(made, trial, (enum place)place, WRITABLE);
        check_at(made, trial, (enum place)place, READ_ONLY);
    }
}

/* ---- Output lengths ---------------------------------------------------- */

static void check_too_short(operation *made, struct trial trial)
{
    const size_t lengths[] = {0, 1, 11, trial.written - 1};
    size_t needed = trial.written;
    size_t i;

    trial.answer = (uint64_t)WOM_REFUSED_OUTPUT_LENGTH << 56;
    trial.written = 0;
    for (i = 0; i < COUNT(lengths); i++) {
        trial.out_length = lengths[i];
        if (lengths[i] < needed)
            check_trial(made, &trial);
    }
}

static void check_long_enough(operation *made, struct trial trial)
{
    const size_t lengths[] = {
        trial.written, trial.written + 1, trial.written + 2, trial.written + 7,
        trial.written + 1000, POWER(16), POWER(32), POWER(32) + 11, POWER(40),
        POWER(63) - 1, POWER(63), SIZE_MAX,
    };
    size_t i;

    for (i = 0; i < COUNT(lengths); i++) {
        trial.out_length = lengths[i];
        check_trial(made, &trial);
    }
}

void check_outputs(operation *made, const struct trial *trial)
{
    check_too_short(made, *trial);
    check_long_enough(made, *trial);
}

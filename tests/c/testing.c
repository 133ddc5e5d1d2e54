#include "testing.h"

#include <inttypes.h>
#include <stdio.h>
#include <stdlib.h>
#include <string.h>

#define REPORTED_MOST 10

static const char *planted; /* the kind, until a check has taken it */
static const char *case_name;
static uint64_t case_number;
static unsigned long checks;
static unsigned long wrong;

void take_arguments(const char *usage, int argc, char **argv)
{
    if (argc == 1)
        return;
    if (argc != 3 || strcmp(argv[1], "plant") != 0) {
        fprintf(stderr, "usage: %s\n", usage);
        exit(2);
    }
    planted = argv[2];
}

void in_case(const char *name, uint64_t number)
{
    case_name = name;
    case_number = number;
}

/* 1 the first time that the planted kind is asked for, else 0. */
static unsigned plant_here(const char *kind)
{
    if (planted == NULL || strcmp(planted, kind) != 0)
        return 0;
    planted = NULL;
    return 1;
}

/* Counts a check; true when it is wrong and to be reported. */
static int report(const char *kind, int right)
{
    checks++;
    if (right)
        return 0;
    wrong++;
    if (wrong > REPORTED_MOST)
        return 0;
    fprintf(stderr, "%s, %" PRIu64 ": %s", case_name, case_number, kind);
    return 1;
}

void check_number(const char *kind, uint64_t came, uint64_t expected)
{
    expected ^= plant_here(kind);
    if (report(kind, came == expected))
        fprintf(stderr, ": came 0x%" PRIx64 ", expected 0x%" PRIx64 "\n", came,
                expected);
}

static size_t equal_bytes(const uint8_t *came, const uint8_t *expected,
                          size_t length)
{
    size_t i = 0;

    if (memcmp(came, expected, length) == 0)
        return length;
    while (came[i] == expected[i])
        i++;
    return i;
}

void check_bytes(const char *kind, const uint8_t *came, uint8_t *expected,
                 size_t length)
{
    size_t i;

    expected[length - 1] ^= (uint8_t)plant_here(kind);
    i = equal_bytes(came, expected, length);
    if (report(kind, i == length))
        fprintf(stderr, ": byte %zu came 0x%02x, expected 0x%02x\n", i, came[i],
                expected[i]);
}

int finish(const char *program)
{
    printf("%s: %lu checks, %lu wrong\n", program, checks, wrong);
    if (planted != NULL) {
        fprintf(stderr, "%s: no check of the kind '%s'\n", program, planted);
        return 2;
    }
    return wrong == 0 ? 0 : 1;
}

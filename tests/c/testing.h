/*
 * testing.h - checks, counted and reported
 *
 * Each check is of a kind. A program is started without arguments, or with
 * `plant KIND`: then the first check of that kind has a wrong expectation, so
 * that the check is seen to fail.
 */
#ifndef TESTING_H
#define TESTING_H

#include <stddef.h>
#include <stdint.h>

/* Other arguments end the program with 2 and the usage. */
void take_arguments(const char *usage, int argc, char **argv);

/* What the following checks are of, for their reports. */
void in_case(const char *name, uint64_t number);

void check_number(const char *kind, uint64_t came, uint64_t expected);

/* Of at least one byte; a plant changes the last one that is expected. */
void check_bytes(const char *kind, const uint8_t *came, uint8_t *expected,
                 size_t length);

/* Prints the counts. The exit status: 0 when no check was wrong, 1 when one
 * was, 2 when there was no check of the planted kind. */
int finish(const char *program);

#endif /* TESTING_H */

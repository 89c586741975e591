/* The seven calls with arguments that they all answer, and what a call must return. A test changes some arguments. */
#ifndef EXPECT_H
#define EXPECT_H

#include <stddef.h>
#include <stdint.h>

#include "stitchwold.h"

struct slice {
    uint8_t *bytes;
    size_t length;
};

/* The arguments of all calls; each call takes those that it needs. */
struct arguments {
    uint64_t n, delimiter;
    struct slice moduli, offsets, starts, ends, counts, times, rates;
    struct slice text, message, buffer;
    uint64_t count;
    int64_t time;
};

typedef int64_t calling(const struct arguments *);
calling read_text, read_stamp, read_message, print_count, print_stamp, time_of, count_at;

/* In order of the tables that they take: a layout, partitions too, segments too. */
enum { CALLS = 7, WITH_PARTITIONS = 2, WITH_SEGMENTS = 5 };
extern calling *const calls[CALLS];

/* Table A, a stamp, a message and a buffer. */
struct arguments good(void);

/* Numbers as a list has them, from the bytes' front on. */
struct slice list_of(uint8_t *bytes, const uint64_t *numbers, size_t count);

/* What is tested now, and how many calls were made. */
extern const char *now;
extern unsigned long made;

/* Makes the call; ends the program with 1 if it does not return what is wanted. */
void expect(calling *make, const struct arguments *a, int64_t wanted);

/* What a call wrote; ends the program with 1 if it is not this. */
void expect_bytes(const uint8_t *written, const char *wanted, size_t length);

/* All calls, with tables that say the same as good ones. */
void expect_answers(const struct arguments *a);

/* All calls from the first that takes the table on. */
void expect_all(int first, const struct arguments *a, int64_t wanted);

#endif

#define _GNU_SOURCE
#include "expect.h"

#include <errno.h>
#include <inttypes.h>
#include <stdio.h>
#include <stdlib.h>
#include <string.h>

const char *now = "at the start";
unsigned long made;

struct slice list_of(uint8_t *bytes, const uint64_t *numbers, size_t count)
{
    struct slice s = {bytes, 8 * count};
    for (size_t i = 0; i < s.length; i++)
        bytes[i] = (uint8_t)(numbers[i / 8] >> (8 * (i % 8)));
    return s;
}

static struct slice pair(uint8_t bytes[16], uint64_t first, uint64_t second)
{
    const uint64_t numbers[] = {first, second};
    return list_of(bytes, numbers, 2);
}

struct arguments good(void)
{
    static uint8_t lists[7][16], buffer[SCLK_LONGEST_STAMP];
    static uint8_t text[] = {'5', '.', '3'}, message[] = {'5', '.', '3', 0, 3};
    struct arguments a;
    a.n = 2;
    a.delimiter = 1;
    a.moduli = pair(lists[0], 100, 10);
    a.offsets = pair(lists[1], 0, 0);
    a.starts = pair(lists[2], 0, 200);
    a.ends = pair(lists[3], 500, 900);
    a.counts = pair(lists[4], 0, 600);
    a.times = pair(lists[5], (uint64_t)-1000, 1000);
    a.rates = pair(lists[6], 25000, 30000);
    a.text.bytes = text;
    a.text.length = sizeof text;
    a.message.bytes = message;
    a.message.length = sizeof message;
    a.buffer.bytes = buffer;
    a.buffer.length = sizeof buffer;
    a.count = 1;
    a.time = -997;
    return a;
}

#define SLICE(s) a->s.bytes, a->s.length
#define LAYOUT a->n, a->delimiter, SLICE(moduli), SLICE(offsets)
#define PARTITIONS SLICE(starts), SLICE(ends)
#define SEGMENTS SLICE(counts), SLICE(times), SLICE(rates)

int64_t read_text(const struct arguments *a)
{
    return sclk_read_text(LAYOUT, SLICE(text));
}

int64_t read_stamp(const struct arguments *a)
{
    return sclk_read_stamp(LAYOUT, PARTITIONS, SLICE(text));
}

int64_t read_message(const struct arguments *a)
{
    return sclk_read_message(LAYOUT, PARTITIONS, SLICE(message));
}

int64_t print_count(const struct arguments *a)
{
    return sclk_print_count(LAYOUT, a->count, SLICE(buffer));
}

int64_t print_stamp(const struct arguments *a)
{
    return sclk_print_stamp(LAYOUT, PARTITIONS, a->count, SLICE(buffer));
}

int64_t time_of(const struct arguments *a)
{
    return sclk_time_of(LAYOUT, PARTITIONS, SEGMENTS, a->count, SLICE(buffer));
}

int64_t count_at(const struct arguments *a)
{
    return sclk_count_at(LAYOUT, PARTITIONS, SEGMENTS, a->time);
}

calling *const calls[CALLS] = {read_text, print_count, read_stamp, read_message, print_stamp, time_of, count_at};

void expect(calling *make, const struct arguments *a, int64_t wanted)
{
    int64_t result = make(a);
    made++;
    if (result != wanted) {
        fprintf(stderr, "%s: %s: it returned %" PRId64 ", not %" PRId64 "\n", program_invocation_short_name, now,
                result, wanted);
        exit(1);
    }
}

void expect_bytes(const uint8_t *written, const char *wanted, size_t length)
{
    if (memcmp(written, wanted, length) != 0) {
        fprintf(stderr, "%s: %s: it wrote other bytes\n", program_invocation_short_name, now);
        exit(1);
    }
}

void expect_answers(const struct arguments *a)
{
    static const int64_t answers[CALLS] = {53, 4, 53, 53, 6, 0, 1};
    for (int i = 0; i < CALLS; i++)
        expect(calls[i], a, answers[i]);
}

void expect_all(int first, const struct arguments *a, int64_t wanted)
{
    for (int i = first; i < CALLS; i++)
        expect(calls[i], a, wanted);
}

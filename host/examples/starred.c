/* The seven calls from C99 or C++: document 01's starred examples, its message and the print of a count.
 * It prints starred.txt. From the repository's root:
 *
 *   ./c-library
 *   gcc -std=c99 -I target/c host/examples/starred.c target/c/libsclk_c.a -o starred
 */
#include <inttypes.h>
#include <stdio.h>
#include <stdlib.h>
#include <string.h>

#include "stitchwold.h"

/* A list as the calls take it: eight-byte numbers, low byte first. Three numbers are enough here. */
struct list {
    uint8_t bytes[3 * 8];
    size_t length;
};

/* A host fills its clock's tables once, from its own settings, and keeps the bytes for every call. */
struct clock {
    uint64_t n, delimiter;
    struct list moduli, offsets;
    struct list starts, ends;
    struct list counts, times, rates;
};

static void append(struct list *list, uint64_t number)
{
    int i;
    if (list->length > sizeof list->bytes - 8) {
        fprintf(stderr, "a list is full\n");
        exit(1);
    }
    for (i = 0; i < 8; i++)
        list->bytes[list->length++] = (uint8_t)(number >> (8 * i));
}

static void append_time(struct list *list, int64_t time)
{
    append(list, (uint64_t)time); /* two's complement */
}

static void append_field(struct clock *clock, uint64_t modulus, uint64_t offset)
{
    clock->n++;
    append(&clock->moduli, modulus);
    append(&clock->offsets, offset);
}

static void append_partition(struct clock *clock, uint64_t start, uint64_t end)
{
    append(&clock->starts, start);
    append(&clock->ends, end);
}

static void append_segment(struct clock *clock, uint64_t count, int64_t time, uint64_t rate)
{
    append(&clock->counts, count);
    append_time(&clock->times, time);
    append(&clock->rates, rate);
}

/* The arguments that stand for a table: a pointer and a length in bytes for each list. */
#define LIST(list) (list).bytes, (list).length
#define LAYOUT(c) (c)->n, (c)->delimiter, LIST((c)->moduli), LIST((c)->offsets)
#define PARTITIONS(c) LIST((c)->starts), LIST((c)->ends)
#define SEGMENTS(c) LIST((c)->counts), LIST((c)->times), LIST((c)->rates)

/* A negative result is a refusal: its number's negative. */
static void say(int64_t result)
{
    if (result < 0)
        printf("refused %" PRId64 "\n", -result);
    else
        printf("%" PRId64 "\n", result);
}

static void read_text(const struct clock *c, const char *text)
{
    printf("read_text %s: ", text);
    say(sclk_read_text(LAYOUT(c), (const uint8_t *)text, strlen(text)));
}

static void read_stamp(const struct clock *c, const char *text)
{
    printf("read_stamp %s: ", text);
    say(sclk_read_stamp(LAYOUT(c), PARTITIONS(c), (const uint8_t *)text, strlen(text)));
}

/* The message has the payload 07 d0, the stamp 1/5.3 and a trailer that says how long the stamp is. */
static void read_message(const struct clock *c, uint8_t trailer)
{
    uint8_t message[] = {0x07, 0xd0, '1', '/', '5', '.', '3', 0x00, 0x00};
    message[8] = trailer;
    printf("read_message 07 d0, 1/5.3, 00 %02x: ", (unsigned)trailer);
    say(sclk_read_message(LAYOUT(c), PARTITIONS(c), message, sizeof message));
}

/* A print has no 0 byte at its end: its length is the answer. */
static void say_print(const uint8_t *print, int64_t result)
{
    if (result < 0)
        say(result);
    else
        printf("%.*s\n", (int)result, (const char *)print);
}

static void print_count(const struct clock *c, uint64_t count)
{
    uint8_t print[SCLK_LONGEST_PRINT];
    printf("print_count %" PRIu64 ": ", count);
    say_print(print, sclk_print_count(LAYOUT(c), count, print, sizeof print));
}

static void print_stamp(const struct clock *c, uint64_t count)
{
    uint8_t print[SCLK_LONGEST_STAMP];
    printf("print_stamp %" PRIu64 ": ", count);
    say_print(print, sclk_print_stamp(LAYOUT(c), PARTITIONS(c), count, print, sizeof print));
}

static void time_of(const struct clock *c, uint64_t count)
{
    uint8_t bytes[SCLK_TIME_LENGTH];
    uint64_t number = 0;
    int64_t time;
    int i;
    int64_t result = sclk_time_of(LAYOUT(c), PARTITIONS(c), SEGMENTS(c), count, bytes, sizeof bytes);
    printf("time_of %" PRIu64 ": ", count);
    if (result < 0) {
        say(result);
        return;
    }
    for (i = 7; i >= 0; i--)
        number = number << 8 | bytes[i];
    memcpy(&time, &number, sizeof time);
    printf("%" PRId64 "\n", time);
}

static void count_at(const struct clock *c, int64_t time)
{
    printf("count_at %" PRId64 ": ", time);
    say(sclk_count_at(LAYOUT(c), PARTITIONS(c), SEGMENTS(c), time));
}

int main(void)
{
    static struct clock a, b; /* all zeros: no fields, empty lists */

    /* Table A: two fields, two partitions, two segments. */
    a.delimiter = 1;
    append_field(&a, 100, 0);
    append_field(&a, 10, 0);
    append_partition(&a, 0, 500);
    append_partition(&a, 200, 900);
    append_segment(&a, 0, -1000, 25000);
    append_segment(&a, 600, 1000, 30000);

    /* A layout alone is enough for text without partition. */
    b.delimiter = 2;
    append_field(&b, 65536, 0);
    append_field(&b, 60, 0);
    append_field(&b, 800, 1);

    read_text(&a, "12.3");
    read_text(&a, "5.13");
    read_text(&a, ".5");
    read_text(&a, "12..");
    read_stamp(&a, "1/50.0");
    read_stamp(&a, "1/50.1");
    read_stamp(&a, "50.1");
    print_stamp(&a, 500);
    print_stamp(&a, 1200);
    time_of(&a, 1);
    count_at(&a, -997);
    count_at(&a, 700);
    count_at(&a, 2803);
    read_text(&b, "20538:39:768");
    read_message(&a, 5);
    read_message(&a, 8);
    print_count(&a, 123);
    return 0;
}

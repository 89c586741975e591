/* The header's constants by their names: a call that gives each refusal, and for each limit a call at it that answers
 * and one beyond it that refuses. Ends with 1 at the first call that returns something else.
 */
#include <stdio.h>
#include <string.h>

#include "expect.h"

#define E15 UINT64_C(1000000000000000)

static void set_text(struct arguments *a, const char *text)
{
    static uint8_t bytes[200];
    a->text.bytes = bytes;
    a->text.length = strlen(text);
    memcpy(bytes, text, a->text.length);
}

/* Of good arguments one number of a list is changed. */
static void set_number(struct slice list, size_t i, uint64_t number)
{
    list_of(list.bytes + 8 * i, &number, 1);
}

/* A text or stamp under table A. */
static void expect_text(calling *make, const char *text, int64_t wanted)
{
    struct arguments a = good();
    set_text(&a, text);
    expect(make, &a, wanted);
}

static void expect_count(calling *make, uint64_t count, int64_t wanted)
{
    struct arguments a = good();
    a.count = count;
    expect(make, &a, wanted);
}

static void expect_time(int64_t time, int64_t wanted)
{
    struct arguments a = good();
    a.time = time;
    expect(count_at, &a, wanted);
}

static void expect_message(size_t length, uint8_t trailer, int64_t wanted)
{
    static uint8_t bytes[] = {'1', '/', '5', '.', '3', 0, 0};
    struct arguments a = good();
    bytes[6] = trailer;
    a.message.bytes = bytes;
    a.message.length = length;
    expect(read_message, &a, wanted);
}

static void tables(void)
{
    struct arguments a;
    now = "good tables";
    a = good();
    expect_answers(&a);

    now = "SCLK_LAYOUT";
    set_number(a.moduli, 1, 0);
    expect_all(0, &a, -SCLK_LAYOUT);

    now = "SCLK_PARTITIONS";
    a = good();
    set_number(a.ends, 1, 1000);
    expect_all(WITH_PARTITIONS, &a, -SCLK_PARTITIONS);

    now = "SCLK_SEGMENTS";
    a = good();
    set_number(a.rates, 1, 9999);
    expect_all(WITH_SEGMENTS, &a, -SCLK_SEGMENTS);
}

static void refusals(void)
{
    struct arguments a;
    char text[98] = "";

    now = "SCLK_TEXT_TOO_LONG";
    memset(text, '0', 97);
    expect_text(read_text, text, -SCLK_TEXT_TOO_LONG);
    expect_text(read_stamp, text, -SCLK_TEXT_TOO_LONG);

    now = "SCLK_BAD_BYTE";
    expect_text(read_text, "1/5.3", -SCLK_BAD_BYTE);
    expect_text(read_stamp, "5x3", -SCLK_BAD_BYTE);

    now = "SCLK_FIRST_FIELD_MISSING";
    expect_text(read_text, ".5", -SCLK_FIRST_FIELD_MISSING);
    expect_text(read_stamp, "1/", -SCLK_FIRST_FIELD_MISSING);

    now = "SCLK_TOO_MANY_FIELDS";
    expect_text(read_text, "1.2.3", -SCLK_TOO_MANY_FIELDS);
    expect_text(read_stamp, "12..", -SCLK_TOO_MANY_FIELDS);

    now = "SCLK_FIELD_BELOW_OFFSET";
    a = good();
    set_number(a.offsets, 1, 4);
    expect(read_text, &a, -SCLK_FIELD_BELOW_OFFSET);
    expect(read_message, &a, -SCLK_FIELD_BELOW_OFFSET);

    now = "SCLK_TOO_LARGE";
    expect_text(read_text, "1000000000001001", -SCLK_TOO_LARGE);
    expect_text(read_text, "100000000000000.1", -SCLK_TOO_LARGE);
    expect_count(print_count, 1000, -SCLK_TOO_LARGE);

    now = "SCLK_NO_SUCH_PARTITION";
    expect_text(read_stamp, "0/5.3", -SCLK_NO_SUCH_PARTITION);
    expect_text(read_stamp, "3/5.3", -SCLK_NO_SUCH_PARTITION);

    now = "SCLK_OUTSIDE_PARTITION";
    expect_text(read_stamp, "1/50.1", -SCLK_OUTSIDE_PARTITION);
    expect_text(read_stamp, "90.1", -SCLK_OUTSIDE_PARTITION);

    now = "SCLK_ABOVE_TOTAL";
    expect_count(print_stamp, 1201, -SCLK_ABOVE_TOTAL);
    expect_count(time_of, 1201, -SCLK_ABOVE_TOTAL);

    now = "SCLK_BEFORE_SEGMENTS";
    expect_time(-1001, -SCLK_BEFORE_SEGMENTS);
    a = good();
    set_number(a.counts, 0, 2);
    expect(time_of, &a, -SCLK_BEFORE_SEGMENTS);

    now = "SCLK_TIME_OUT_OF_RANGE";
    expect_time(INT64_C(-4000000000000000001), -SCLK_TIME_OUT_OF_RANGE);
    expect_time(INT64_C(4000000000000000001), -SCLK_TIME_OUT_OF_RANGE);
    expect_time(2803, -SCLK_TIME_OUT_OF_RANGE);

    now = "SCLK_BUFFER_TOO_SHORT";
    a = good();
    a.buffer.length = 3;
    expect(print_count, &a, -SCLK_BUFFER_TOO_SHORT);
    expect(print_stamp, &a, -SCLK_BUFFER_TOO_SHORT);
    expect(time_of, &a, -SCLK_BUFFER_TOO_SHORT);

    now = "SCLK_MESSAGE_TOO_SHORT";
    expect_message(1, 0, -SCLK_MESSAGE_TOO_SHORT);
    now = "SCLK_MESSAGE_WITHOUT_TEXT";
    expect_message(7, 0, -SCLK_MESSAGE_WITHOUT_TEXT);
    now = "SCLK_MESSAGE_TRAILER";
    expect_message(7, 6, -SCLK_MESSAGE_TRAILER);
    expect_message(7, 5, 53);
}

static void most_fields(void)
{
    static uint64_t twos[SCLK_MOST_FIELDS + 1], zeros[SCLK_MOST_FIELDS + 1];
    static uint8_t moduli[8 * (SCLK_MOST_FIELDS + 1)], offsets[8 * (SCLK_MOST_FIELDS + 1)];
    struct arguments a = good();
    now = "SCLK_MOST_FIELDS";
    for (int i = 0; i <= SCLK_MOST_FIELDS; i++)
        twos[i] = 2;
    a.moduli = list_of(moduli, twos, SCLK_MOST_FIELDS + 1);
    a.offsets = list_of(offsets, zeros, SCLK_MOST_FIELDS + 1);
    set_text(&a, "1");
    a.n = SCLK_MOST_FIELDS;
    expect(read_text, &a, 512);
    a.n = SCLK_MOST_FIELDS + 1;
    expect(read_text, &a, -SCLK_LAYOUT);
}

/* Every partition is from 0 to 1. */
static void most_partitions(void)
{
    static uint64_t zeros[SCLK_MOST_PARTITIONS + 1], ones[SCLK_MOST_PARTITIONS + 1];
    static uint8_t starts[8 * (SCLK_MOST_PARTITIONS + 1)], ends[8 * (SCLK_MOST_PARTITIONS + 1)];
    struct arguments a = good();
    now = "SCLK_MOST_PARTITIONS";
    for (int i = 0; i <= SCLK_MOST_PARTITIONS; i++)
        ones[i] = 1;
    set_text(&a, "9999/0.1");
    a.starts = list_of(starts, zeros, SCLK_MOST_PARTITIONS);
    a.ends = list_of(ends, ones, SCLK_MOST_PARTITIONS);
    expect(read_stamp, &a, 9999);
    a.starts = list_of(starts, zeros, SCLK_MOST_PARTITIONS + 1);
    a.ends = list_of(ends, ones, SCLK_MOST_PARTITIONS + 1);
    expect(read_stamp, &a, -SCLK_PARTITIONS);
}

/* A tick of 1 ns each: counts and times are the same. */
static void most_segments(void)
{
    static uint64_t numbers[SCLK_MOST_SEGMENTS + 1], fixed[SCLK_MOST_SEGMENTS + 1];
    static uint8_t counts[8 * (SCLK_MOST_SEGMENTS + 1)], rates[8 * (SCLK_MOST_SEGMENTS + 1)];
    struct arguments a = good();
    now = "SCLK_MOST_SEGMENTS";
    for (unsigned i = 0; i <= SCLK_MOST_SEGMENTS; i++) {
        numbers[i] = i;
        fixed[i] = 10000;
    }
    set_number(a.moduli, 0, 1000000);
    set_number(a.ends, 0, 1000000);
    a.time = 20000;
    a.counts = a.times = list_of(counts, numbers, SCLK_MOST_SEGMENTS);
    a.rates = list_of(rates, fixed, SCLK_MOST_SEGMENTS);
    expect(count_at, &a, 20000);
    a.counts = a.times = list_of(counts, numbers, SCLK_MOST_SEGMENTS + 1);
    a.rates = list_of(rates, fixed, SCLK_MOST_SEGMENTS + 1);
    expect(count_at, &a, -SCLK_SEGMENTS);
}

/* Zeros in front make a text as long as wanted. */
static void longest_text(void)
{
    static uint8_t bytes[SCLK_LONGEST_TEXT + 1];
    struct arguments a = good();
    now = "SCLK_LONGEST_TEXT";
    a.text.bytes = bytes;
    for (size_t more = 0; more <= 1; more++) {
        a.text.length = SCLK_LONGEST_TEXT + more;
        memset(bytes, '0', a.text.length);
        memcpy(bytes + a.text.length - 3, "5.3", 3);
        expect(read_text, &a, more ? -SCLK_TEXT_TOO_LONG : 53);
        memcpy(bytes, "1/", 2);
        expect(read_stamp, &a, more ? -SCLK_TEXT_TOO_LONG : 53);
    }
}

/* Each field is as wide as it can be: the first 16 digits, the others 4. */
static void longest_prints(void)
{
    static uint64_t numbers[1000];
    static uint8_t moduli[80], offsets[80], starts[8000], ends[8000];
    static uint8_t print[SCLK_LONGEST_PRINT], stamp[SCLK_LONGEST_STAMP];
    static const char wanted[] = "1000/1000000000000999.1000.1000.1000.1000.1000.1000.1000.1000.1000";
    struct arguments a = good();
    a.n = 10;
    for (int i = 0; i < 10; i++)
        numbers[i] = i == 0 ? E15 : 1;
    a.moduli = list_of(moduli, numbers, 10);
    for (int i = 0; i < 1000; i++)
        numbers[i] = 1000;
    a.offsets = list_of(offsets, numbers, 10);
    for (int i = 0; i < 1000; i++)
        numbers[i] = E15 - 2;
    a.starts = list_of(starts, numbers, 1000);
    for (int i = 0; i < 1000; i++)
        numbers[i] = E15 - 1;
    a.ends = list_of(ends, numbers, 1000);

    now = "SCLK_LONGEST_PRINT";
    a.count = E15 - 1;
    a.buffer.bytes = print;
    a.buffer.length = SCLK_LONGEST_PRINT;
    expect(print_count, &a, SCLK_LONGEST_PRINT);
    expect_bytes(print, wanted + 5, SCLK_LONGEST_PRINT);
    a.buffer.length = SCLK_LONGEST_PRINT - 1;
    expect(print_count, &a, -SCLK_BUFFER_TOO_SHORT);

    now = "SCLK_LONGEST_STAMP";
    a.count = 1000; /* the total */
    a.buffer.bytes = stamp;
    a.buffer.length = SCLK_LONGEST_STAMP;
    expect(print_stamp, &a, SCLK_LONGEST_STAMP);
    expect_bytes(stamp, wanted, SCLK_LONGEST_STAMP);
    a.buffer.length = SCLK_LONGEST_STAMP - 1;
    expect(print_stamp, &a, -SCLK_BUFFER_TOO_SHORT);
}

static void time_length(void)
{
    static uint8_t time[SCLK_TIME_LENGTH];
    struct arguments a = good();
    now = "SCLK_TIME_LENGTH";
    a.buffer.bytes = time;
    a.buffer.length = SCLK_TIME_LENGTH;
    expect(time_of, &a, 0);
    expect_bytes(time, "\x1b\xfc\xff\xff\xff\xff\xff\xff", 8); /* -997 */
    a.buffer.length = SCLK_TIME_LENGTH - 1;
    expect(time_of, &a, -SCLK_BUFFER_TOO_SHORT);
}

int main(void)
{
    tables();
    refusals();
    most_fields();
    most_partitions();
    most_segments();
    longest_text();
    longest_prints();
    time_length();
    printf("%lu calls for the constants\n", made);
    return 0;
}

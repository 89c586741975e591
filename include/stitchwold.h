/* stitchwold.h: spacecraft clock text (SPICE SCLK type 1) for host programs, C99 and C++. x86-64 Linux.
 * docs/RULES.md has the rules. A count is the number of ticks that a clock text shows, an encoded count one that runs
 * through all partitions. Times count from the epoch of the segments' times, whichever that is.
 *
 * A host keeps the bytes of its clock's tables and passes them with every call:
 *   layout      n, the number of fields; delimiter, a code: 1 '.', 2 ':', 3 '-', 4 ',', 5 blank; moduli; offsets
 *   partitions  starts; ends
 *   segments    counts, encoded; times, in nanoseconds; rates, in picoseconds per step of the first field (MSF ticks)
 *
 * Their limits (MSF is the product of all moduli but the first):
 *   layout      n 1 to 10; moduli at least 1, their product at most 10^15, MSF at most 10^12; offsets at most 1,000
 *   partitions  1 to 9,999, as many starts as ends; each start below its end, each end below the product of the moduli;
 *               the total, which is the sum of the lengths (end - start), at most 10^15
 *   segments    1 to 10,000, as many counts as times and rates; counts and times grow strictly; the last count at most
 *               the total; times within +-4*10^18, also those reached where segments end; rates 1,000*MSF to 10^15
 *
 * A list is a sequence of eight-byte numbers, low byte first; times are two's complement. It is passed as a pointer and
 * a length IN BYTES. Moduli and offsets have n numbers or more; those behind the n-th may be anything.
 *
 * Pointers may have any alignment, and may be NULL where the length is 0. Each must be good for its length: lists, text
 * and message to read, a buffer to read and write; during a call no other thread may write to them. Lists, text and
 * message may overlap each other; a buffer may overlap nothing else. Nothing is kept after the call. The calls have no
 * state: any number of threads may make them at once. Measured, not proved: a call takes at most 4 KiB of stack.
 *
 * An answer is 0 or more. A refusal is the negative of its number below, and changes no buffer:
 *
 *   int64_t result = sclk_read_text(...);
 *   if (result == -SCLK_LAYOUT) ...
 *
 * Compare with a constant, as here, or -result with a variable: a variable of the enum may be unsigned, and is not to be
 * negated.
 *
 * Where more than one refusal applies, the first of these is given:
 *   read_text      1, 4, 5, 7, 6, then 9 or 8 of the fields from left to right, 9 of the sum
 *   read_stamp     1, 2, 4, 5, 7, 6, then 9 or 8 of the fields from left to right, 9 of the sum, 10, 11
 *   read_message   21, 22, 23, then as read_stamp
 *   print_count    1, 9, 16
 *   print_stamp    1, 2, 12, 16
 *   time_of        1, 2, 3, 12, 13, 16
 *   count_at       1, 2, 3, 14 of the time given, 13, 14 of the answer
 * A list whose length is not a multiple of 8, and moduli or offsets of fewer than n numbers, are refused as the table
 * that they belong to.
 */
#ifndef STITCHWOLD_H
#define STITCHWOLD_H

#include <stddef.h>
#include <stdint.h>

#define SCLK_MOST_FIELDS 10
#define SCLK_MOST_PARTITIONS 9999
#define SCLK_MOST_SEGMENTS 10000
#define SCLK_LONGEST_TEXT 96        /* bytes that are read, a partition in front included */
#define SCLK_LONGEST_PRINT 61       /* bytes of the longest print of a count; no 0 byte is written behind a print */
#define SCLK_LONGEST_STAMP 66       /* bytes of the longest print of a stamp */
#define SCLK_TIME_LENGTH 8          /* bytes of a time that is written */

enum sclk_refusal {
    SCLK_LAYOUT = 1,                /* the layout breaks its rules */
    SCLK_PARTITIONS = 2,            /* the partitions break theirs */
    SCLK_SEGMENTS = 3,              /* the segments break theirs */
    SCLK_TEXT_TOO_LONG = 4,         /* over 96 bytes */
    SCLK_BAD_BYTE = 5,              /* a byte that cannot stand where it is */
    SCLK_FIRST_FIELD_MISSING = 6,
    SCLK_TOO_MANY_FIELDS = 7,       /* more than n */
    SCLK_FIELD_BELOW_OFFSET = 8,
    SCLK_TOO_LARGE = 9,             /* a field, the sum of the fields, or a count to print */
    SCLK_NO_SUCH_PARTITION = 10,    /* 0, or above the number there is */
    SCLK_OUTSIDE_PARTITION = 11,    /* the count is outside the named partition, or in none */
    SCLK_ABOVE_TOTAL = 12,          /* an encoded count above the sum of the partitions' lengths */
    SCLK_BEFORE_SEGMENTS = 13,      /* a count or a time before the first segment */
    SCLK_TIME_OUT_OF_RANGE = 14,    /* a time beyond +-4*10^18, or its count above the total */
    SCLK_BUFFER_TOO_SHORT = 16,     /* for the print, or for a time's 8 bytes */
    SCLK_MESSAGE_TOO_SHORT = 21,    /* under 2 bytes */
    SCLK_MESSAGE_WITHOUT_TEXT = 22, /* its trailer says 0 */
    SCLK_MESSAGE_TRAILER = 23       /* its trailer says more than 96, or than there are bytes before it */
};

#ifdef __cplusplus
extern "C" {
#endif

/* The count of a clock text without partition, such as "12.3". */
int64_t sclk_read_text(
    uint64_t n, uint64_t delimiter,
    const uint8_t *moduli, size_t moduli_length, const uint8_t *offsets, size_t offsets_length,
    const uint8_t *text, size_t text_length);

/* The encoded count of a stamp, with or without a partition in front, such as "1/12.3". */
int64_t sclk_read_stamp(
    uint64_t n, uint64_t delimiter,
    const uint8_t *moduli, size_t moduli_length, const uint8_t *offsets, size_t offsets_length,
    const uint8_t *starts, size_t starts_length, const uint8_t *ends, size_t ends_length,
    const uint8_t *text, size_t text_length);

/* The encoded count of the stamp in a message: payload, stamp, and the stamp's length in two bytes, high byte first. */
int64_t sclk_read_message(
    uint64_t n, uint64_t delimiter,
    const uint8_t *moduli, size_t moduli_length, const uint8_t *offsets, size_t offsets_length,
    const uint8_t *starts, size_t starts_length, const uint8_t *ends, size_t ends_length,
    const uint8_t *message, size_t message_length);

/* Writes a count as clock text to the front of the buffer. The answer is its length; the bytes behind it stay. */
int64_t sclk_print_count(
    uint64_t n, uint64_t delimiter,
    const uint8_t *moduli, size_t moduli_length, const uint8_t *offsets, size_t offsets_length,
    uint64_t count, uint8_t *buffer, size_t buffer_length);

/* Writes an encoded count as a stamp to the front of the buffer. The answer is its length; the bytes behind it stay. */
int64_t sclk_print_stamp(
    uint64_t n, uint64_t delimiter,
    const uint8_t *moduli, size_t moduli_length, const uint8_t *offsets, size_t offsets_length,
    const uint8_t *starts, size_t starts_length, const uint8_t *ends, size_t ends_length,
    uint64_t count, uint8_t *buffer, size_t buffer_length);

/* Writes the time of an encoded count to the first 8 bytes of time: nanoseconds, low byte first, two's complement.
   The answer is 0; the bytes behind the 8 stay. */
int64_t sclk_time_of(
    uint64_t n, uint64_t delimiter,
    const uint8_t *moduli, size_t moduli_length, const uint8_t *offsets, size_t offsets_length,
    const uint8_t *starts, size_t starts_length, const uint8_t *ends, size_t ends_length,
    const uint8_t *counts, size_t counts_length, const uint8_t *times, size_t times_length,
    const uint8_t *rates, size_t rates_length,
    uint64_t count, uint8_t *time, size_t time_length);

/* The encoded count at a time in nanoseconds. */
int64_t sclk_count_at(
    uint64_t n, uint64_t delimiter,
    const uint8_t *moduli, size_t moduli_length, const uint8_t *offsets, size_t offsets_length,
    const uint8_t *starts, size_t starts_length, const uint8_t *ends, size_t ends_length,
    const uint8_t *counts, size_t counts_length, const uint8_t *times, size_t times_length,
    const uint8_t *rates, size_t rates_length,
    int64_t time);

#ifdef __cplusplus
}
#endif

#endif
